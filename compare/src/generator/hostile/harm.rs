//! Damage to the desk of a random script, each number near what soundness asks of it, and its mending.

use super::play::Player;
use crate::desk::{Seat, LAST_TICKET, MOST_TIMETABLE_BYTES, SEATS};
use crate::generator::conditions::{any, fitting};
use crate::generator::damage::{damaged, noise};
use crate::hostile::MOST_PLACE;
use crate::lines::fields;
use crate::runs::{Run, MOST_OCCURRENCES};

/// The most that a seat's counts come to.
const MOST_COUNTED: usize = MOST_OCCURRENCES * (MOST_TIMETABLE_BYTES + 1);

impl Player<'_> {
    pub(super) fn damage(&mut self) {
        match self.random.below(12) {
            0 => self.damage_last_served(),
            1 => self.damage_length(),
            2 => self.damage_issued(),
            3 | 4 => self.damage_condition(),
            5 => self.damage_counts(),
            _ => self.damage_seat(),
        }
    }

    /// Sets a number of the desk or of a seat, and keeps the event that sets it back.
    fn set(&mut self, name: &str, number: usize, before: usize) {
        let number = self.digits(number);
        self.mending.push(format!("{name}\t{before}").into_bytes());
        self.tell(format!("{name}\t{number}"));
    }

    fn damage_last_served(&mut self) {
        let number = match self.random.below(3) {
            0 => self.random.below(SEATS),
            1 => self.beside(SEATS),
            _ => self.extreme(),
        };
        self.set("set\tlast_served", number, self.script.desk.last_served);
    }

    fn damage_length(&mut self) {
        let number = match self.random.below(4) {
            0 => self.beside(self.script.desk.length),
            1 => self.beside(MOST_TIMETABLE_BYTES),
            2 => self.random.below(self.script.file.len() + 1),
            _ => self.extreme(),
        };
        self.set("set\tlength", number, self.script.desk.length);
    }

    pub(super) fn damage_issued(&mut self) {
        let highest = self.script.desk.seats.iter().filter(|seat| seat.held).map(|seat| seat.ticket).max().unwrap_or(0);
        let number = match self.random.below(3) {
            0 => self.random.pick(&[LAST_TICKET, LAST_TICKET, LAST_TICKET - 1, LAST_TICKET - 2]) as usize,
            1 => self.beside(highest as usize).min(LAST_TICKET as usize),
            _ => self.random.below(LAST_TICKET as usize + 1),
        };
        self.set("set\tissued", number, self.script.desk.last_issued as usize);
    }

    /// A seat's number, mostly a held one's.
    fn seat(&mut self) -> usize {
        let held: Vec<usize> = (0..SEATS).filter(|&seat| self.script.desk.seats[seat].held).collect();
        if held.is_empty() || self.random.chance(15) {
            return self.random.below(SEATS);
        }
        self.random.pick(&held)
    }

    fn damage_seat(&mut self) {
        let seat = self.seat();
        let Seat { held, ticket, offset, hits, unreadable, place, condition_length, .. } = self.script.desk.seats[seat];
        let most = most_counted(offset, place);
        let (name, number, before) = match self.random.weighted(&[2, 3, 4, 2, 2, 2, 5]) {
            0 => ("held", usize::from(!held), usize::from(held)),
            1 => ("ticket", self.other_ticket(), ticket as usize),
            2 => ("offset", self.other_offset(), offset),
            3 => ("hits", self.other_count(most.wrapping_sub(unreadable)), hits),
            4 => ("unreadable", self.other_count(most.wrapping_sub(hits)), unreadable),
            5 => ("condition_length", self.other_condition_length(condition_length), condition_length),
            _ => ("place", self.other_place(offset), place as usize),
        };
        self.set(&format!("seat\t{seat}\t{name}"), number, before);
    }

    /// Both counts, so that they agree with the offset and the place or nearly, or would in 64 bits alone.
    fn damage_counts(&mut self) {
        let seat = self.seat();
        let Seat { offset, hits, unreadable, place, .. } = self.script.desk.seats[seat];
        let most = most_counted(offset, place);
        let first = if self.random.chance(50) { self.extreme() } else { self.random.below(most.min(MOST_COUNTED) + 1) };
        let second = self.beside(most.wrapping_sub(first));
        self.set(&format!("seat\t{seat}\thits"), first, hits);
        self.set(&format!("seat\t{seat}\tunreadable"), second, unreadable);
    }

    /// A place near the end of the line that the offset stands at, near the bound, or far beyond.
    fn other_place(&mut self, offset: usize) -> usize {
        let rest = self.script.timetable.get(offset..).unwrap_or(b"");
        let line = rest.split(|&byte| byte == b'\n').next().unwrap_or(rest);
        let count = match Run::of(&fields(line)) {
            Ok(Some(run)) => run.count,
            _ => 1,
        };
        let place = match self.random.below(10) {
            0..=3 => self.beside(count),
            4 => 0,
            5 => self.random.below(count + 1),
            6 | 7 => self.beside(MOST_OCCURRENCES),
            8 => self.random.below(MOST_OCCURRENCES),
            _ => self.extreme(),
        };
        place.min(MOST_PLACE)
    }

    fn other_ticket(&mut self) -> usize {
        let issued = self.script.desk.last_issued as usize;
        let number = match self.random.below(4) {
            0 => self.beside(issued),
            1 => 0,
            2 => self.script.desk.seats[self.random.below(SEATS)].ticket as usize,
            _ => self.random.below(issued + 1),
        };
        number.min(LAST_TICKET as usize)
    }

    fn other_offset(&mut self) -> usize {
        let length = self.script.desk.length;
        match self.random.below(8) {
            0 => self.beside(length),
            1 => self.extreme(),
            2 | 3 => {
                let starts = self.script.timetable.iter().enumerate().filter(|(_, &byte)| byte == b'\n').map(|(at, _)| at + 1);
                let starts: Vec<usize> = std::iter::once(0).chain(starts).collect();
                self.random.pick(&starts)
            }
            _ => self.random.below(length.min(MOST_TIMETABLE_BYTES) + 1),
        }
    }

    /// A count near the greatest that is sound.
    fn other_count(&mut self, greatest: usize) -> usize {
        match self.random.below(4) {
            0 => self.extreme(),
            1 => 0,
            _ => self.beside(greatest),
        }
    }

    fn other_condition_length(&mut self, own: usize) -> usize {
        match self.random.below(4) {
            0 => self.extreme(),
            1 => self.random.pick(&[0, 1, 239, 240, 241]),
            2 => own.wrapping_add(self.random.pick(&[1 << 8, 1 << 16, 1 << 32, 1 << 63])),
            _ => self.beside(own),
        }
    }

    /// Other bytes for a condition, mostly with their own length.
    fn damage_condition(&mut self) {
        let number = self.seat();
        let seat = self.script.desk.seats[number].clone();
        let mut text = match self.random.below(4) {
            0 => any(self.random, self.setting),
            1 => damaged(self.random, &seat.condition[..seat.condition_length.min(seat.condition.len())]),
            2 => [seat.condition[..seat.condition_length.min(200)].to_vec(), noise(self.random)].concat(),
            _ => fitting(self.random, self.setting, 0, 0).into_bytes(),
        };
        text.retain(|&byte| byte != b'\n');
        text.truncate(seat.condition.len());
        let bytes = |text: &[u8]| [format!("seat\t{number}\tcondition\t").as_bytes(), text].concat();
        self.mending.push(bytes(trimmed(&seat.condition)));
        self.tell(bytes(&text));
        if self.random.chance(65) {
            self.set(&format!("seat\t{number}\tcondition_length"), text.len(), seat.condition_length);
        }
    }

    /// Undoes all damage, or frees the seats, or begins again.
    pub(super) fn mend(&mut self) {
        while let Some(event) = self.mending.pop() {
            self.tell(event);
            if self.script.desk.is_sound() && self.random.chance(50) {
                return;
            }
        }
        if self.script.desk.is_sound() {
            return;
        }
        if self.random.chance(30) {
            return self.fresh();
        }
        for seat in 0..SEATS {
            if self.script.desk.seats[seat].held && self.random.chance(70) {
                self.tell(format!("seat\t{seat}\theld\t0"));
            }
        }
        if self.script.desk.last_served >= SEATS {
            self.tell("set\tlast_served\t15");
        }
        if self.script.desk.length > MOST_TIMETABLE_BYTES {
            self.tell(format!("set\tlength\t{}", self.script.timetable.len()));
        }
    }
}

/// The greatest sum of a seat's counts that is sound, in 64 bits.
fn most_counted(offset: usize, place: u32) -> usize {
    offset.wrapping_mul(MOST_OCCURRENCES).wrapping_add(place as usize)
}

/// The bytes without the zeros at their end.
fn trimmed(bytes: &[u8]) -> &[u8] {
    let end = bytes.iter().rposition(|&byte| byte != 0).map_or(0, |last| last + 1);
    &bytes[..end]
}

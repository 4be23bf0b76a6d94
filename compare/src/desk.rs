//! Document 01, "Timetable, seats and turns", with the runs of document 02, letter b.

use crate::conditions::tree::Expression;
use crate::conditions::{accept, evaluation::holds, MOST_BYTES};
use crate::lines::fields;
use crate::runs::{Run, MOST_OCCURRENCES};
use crate::{Refusal, ALL_SEATS_HELD, NOT_SOUND, NO_GRAMMAR, NO_SUCH_TICKET, NO_TICKET_LEFT, WRONG_LENGTH};

pub const SEATS: usize = 16;
pub const MOST_TIMETABLE_BYTES: usize = 65_536;
pub const LAST_TICKET: u32 = 4_294_967_295;

// The record's numbers have 64 bits.
const _: () = assert!(usize::BITS == 64);

/// A seat as it is stored, which may be anything: only `Desk::is_sound` says whether it can be served.
#[derive(Clone, PartialEq, Eq, Debug)]
pub struct Seat {
    pub held: bool,
    pub ticket: u32,
    pub offset: usize,
    pub hits: usize,
    pub unreadable: usize,
    /// Which occurrence of the line at the offset is the next one.
    pub place: u32,
    /// How many of the bytes below are the condition.
    pub condition_length: usize,
    pub condition: [u8; MOST_BYTES],
}

/// The record may hold anything. Every call on one that is not sound is refused with 12.
#[derive(Clone, PartialEq, Eq, Debug)]
pub struct Desk {
    pub seats: [Seat; SEATS],
    pub last_served: usize,
    pub last_issued: u32,
    pub length: usize,
}

#[derive(Clone, Copy, PartialEq, Eq, Debug)]
pub enum Turn {
    Hit { ticket: u32, offset: usize, place: u32 },
    Miss { ticket: u32, offset: usize, place: u32 },
    Unreadable { ticket: u32, offset: usize, number: Refusal },
    Done { ticket: u32, hits: usize, unreadable: usize },
    Idle,
}

impl Desk {
    pub fn fresh(length: usize) -> Result<Desk, Refusal> {
        if length > MOST_TIMETABLE_BYTES {
            return Err(WRONG_LENGTH);
        }
        Ok(Desk { seats: Default::default(), last_served: SEATS - 1, last_issued: 0, length })
    }

    /// What stands beside the answer where a fresh desk is refused; it is not sound.
    pub fn none() -> Desk {
        Desk { seats: Default::default(), last_served: SEATS, last_issued: 0, length: 0 }
    }

    pub fn is_sound(&self) -> bool {
        let held: Vec<&Seat> = self.seats.iter().filter(|seat| seat.held).collect();
        let mut tickets: Vec<u32> = held.iter().map(|seat| seat.ticket).collect();
        tickets.sort();
        self.last_served < SEATS
            && self.length <= MOST_TIMETABLE_BYTES
            && tickets.windows(2).all(|pair| pair[0] != pair[1])
            && held.iter().all(|seat| self.is_sound_seat(seat))
    }

    fn is_sound_seat(&self, seat: &Seat) -> bool {
        (1..=self.last_issued).contains(&seat.ticket)
            && seat.tree().is_ok()
            && seat.offset <= self.length
            && (seat.place as usize) < MOST_OCCURRENCES
            && seat.counts_fit()
    }

    /// Gives the ticket.
    pub fn open(&mut self, condition: &[u8]) -> Result<u32, Refusal> {
        if !self.is_sound() {
            return Err(NOT_SOUND);
        }
        accept(condition)?;
        let number = self.take_seat(condition)?;
        Ok(self.seats[number].ticket)
    }

    /// Opens a condition that is known to pass the checks, on a desk that is known to be sound. Gives the seat's number.
    pub(crate) fn take_seat(&mut self, condition: &[u8]) -> Result<usize, Refusal> {
        let free = self.seats.iter().position(|seat| !seat.held).ok_or(ALL_SEATS_HELD)?;
        if self.last_issued == LAST_TICKET {
            return Err(NO_TICKET_LEFT);
        }
        self.last_issued += 1;
        self.seats[free] = Seat::opened(self.last_issued, condition);
        Ok(free)
    }

    pub fn close(&mut self, ticket: u32) -> Result<(), Refusal> {
        if !self.is_sound() {
            return Err(NOT_SOUND);
        }
        let seat = self.seats.iter_mut().find(|seat| seat.held && seat.ticket == ticket).ok_or(NO_SUCH_TICKET)?;
        *seat = Seat::default();
        Ok(())
    }

    pub fn turn(&mut self, timetable: &[u8]) -> Result<Turn, Refusal> {
        if !self.is_sound() {
            return Err(NOT_SOUND);
        }
        if timetable.len() != self.length {
            return Err(WRONG_LENGTH);
        }
        Ok(self.serve(timetable))
    }

    /// A turn of a desk that is known to be sound and of this timetable's length.
    pub(crate) fn serve(&mut self, timetable: &[u8]) -> Turn {
        self.serve_by(timetable, |_, seat, fields| holds(&seat.tree()?, fields))
    }

    /// The same, where `judge` says whether the condition of a seat, given with its number, holds at a line's fields.
    pub(crate) fn serve_by(
        &mut self,
        timetable: &[u8],
        judge: impl FnOnce(usize, &Seat, &[&[u8]]) -> Result<bool, Refusal>,
    ) -> Turn {
        let mut round = (1..=SEATS).map(|step| (self.last_served + step) % SEATS);
        let Some(number) = round.find(|&number| self.seats[number].held) else {
            return Turn::Idle;
        };
        self.last_served = number;
        let seat = &mut self.seats[number];
        if seat.offset == timetable.len() {
            let done = Turn::Done { ticket: seat.ticket, hits: seat.hits, unreadable: seat.unreadable };
            *seat = Seat::default();
            return done;
        }
        seat.judge_next(timetable, |seat, fields| judge(number, seat, fields))
    }
}

impl Default for Seat {
    /// A free seat of a fresh desk.
    fn default() -> Seat {
        Seat {
            held: false,
            ticket: 0,
            offset: 0,
            hits: 0,
            unreadable: 0,
            place: 0,
            condition_length: 0,
            condition: [0; MOST_BYTES],
        }
    }
}

impl Seat {
    /// A seat just opened. The condition has at most 240 bytes; zeros stand after it.
    pub fn opened(ticket: u32, condition: &[u8]) -> Seat {
        let mut seat = Seat { held: true, ticket, condition_length: condition.len(), ..Seat::default() };
        seat.condition[..condition.len()].copy_from_slice(condition);
        seat
    }

    /// What the stored condition says, or the number that Open gives for it.
    fn tree(&self) -> Result<Expression, Refusal> {
        accept(self.condition.get(..self.condition_length).ok_or(NO_GRAMMAR)?)
    }

    /// Whether the two counts are at most what the lines before can stand for, and the places before in this one. The
    /// numbers may be any, so they are taken where there is room for all of them.
    fn counts_fit(&self) -> bool {
        let most = MOST_OCCURRENCES as u128 * self.offset as u128 + u128::from(self.place);
        self.hits as u128 + self.unreadable as u128 <= most
    }

    /// One turn at the line that the offset stands at; the timetable does not end there.
    fn judge_next(&mut self, timetable: &[u8], judge: impl FnOnce(&Seat, &[&[u8]]) -> Result<bool, Refusal>) -> Turn {
        let (ticket, offset, place) = (self.ticket, self.offset, self.place);
        let rest = &timetable[offset..];
        let line = rest.split(|&byte| byte == b'\n').next().unwrap_or(rest);
        let fields = fields(line);
        let run = Run::of(&fields);
        let judged = run.and_then(|run| self.judge_place(run, &fields, judge));
        if run.is_ok_and(|run| (place as usize) + 1 < places(run)) {
            self.place += 1;
        } else {
            let ended = line.len() < rest.len();
            self.offset += line.len() + usize::from(ended);
            self.place = 0;
        }
        match judged {
            Ok(true) => {
                self.hits += 1;
                Turn::Hit { ticket, offset, place }
            }
            Ok(false) => Turn::Miss { ticket, offset, place },
            Err(number) => {
                self.unreadable += 1;
                Turn::Unreadable { ticket, offset, number }
            }
        }
    }

    /// A good line at the seat's place. One that does not reach the place is missed, whatever the condition says.
    fn judge_place(
        &self,
        run: Option<Run>,
        fields: &[&[u8]],
        judge: impl FnOnce(&Seat, &[&[u8]]) -> Result<bool, Refusal>,
    ) -> Result<bool, Refusal> {
        let place = self.place as usize;
        if place >= places(run) {
            return Ok(false);
        }
        let Some(run) = run else {
            return judge(self, fields);
        };
        let text = run.text_at(place);
        let mut fields = fields.to_vec();
        fields[1] = text.as_bytes();
        judge(self, &fields)
    }
}

/// How many places a good line has: a plain one has place 0 alone, an empty run has none.
fn places(run: Option<Run>) -> usize {
    run.map_or(1, |run| run.count)
}

//! docs/LINES.md, "Hostile desks": events that drive the desk's calls over desks that they build, sound or not.

use crate::conditions::MOST_BYTES;
use crate::desk::{Desk, Seat, Turn, LAST_TICKET, SEATS};
use crate::lines::{fields, lines, number, parted};
use crate::programs::{refused, turn_line};
use crate::{Refusal, NO_GRAMMAR, NO_ROOM};

pub const MOST_EVENTS_BYTES: usize = 65_536;
pub const MOST_ROOM: usize = 4_096;
/// The greatest place that a seat's record holds.
pub const MOST_PLACE: usize = 4_294_967_295;
/// What stands in a lent room before anything is written.
pub const UNWRITTEN: u8 = b'.';

/// The test program: an answer for each event.
pub fn hostile_desks(file: &[u8], input: &[u8]) -> String {
    if input.len() > MOST_EVENTS_BYTES {
        return refused(NO_GRAMMAR);
    }
    let mut script = Script::new(file);
    lines(input).into_iter().map(|line| script.answer(line)).collect()
}

/// What the events work on.
#[derive(Clone)]
pub struct Script<'a> {
    pub file: &'a [u8],
    /// The part of the file that the turns are given.
    pub timetable: &'a [u8],
    pub desk: Desk,
}

impl<'a> Script<'a> {
    pub fn new(file: &'a [u8]) -> Script<'a> {
        let desk = Desk::fresh(file.len()).unwrap_or_else(|_| Desk::none());
        Script { file, timetable: file, desk }
    }

    pub fn answer(&mut self, line: &[u8]) -> String {
        self.event(line).unwrap_or_else(refused)
    }

    fn event(&mut self, line: &[u8]) -> Result<String, Refusal> {
        match parted(line) {
            (b"turn", None) => Ok(turn_line(self.desk.turn(self.timetable)?)),
            (b"sound", None) => Ok(if self.desk.is_sound() { "sound\n" } else { "unsound\n" }.to_string()),
            (b"show", None) => Ok(shown(&self.desk)),
            (b"fresh", Some(text)) => self.fresh(number(text, usize::MAX)?),
            (b"part", Some(text)) => self.part(number(text, self.file.len())?),
            (b"open", Some(text)) => Ok(format!("open\t{}\n", self.desk.open(text)?)),
            (b"close", Some(text)) => self.close(ticket(text)?),
            (b"turns", Some(text)) => Ok(self.turns(number(text, MOST_ROOM)?)),
            (b"set", Some(rest)) => self.set(rest),
            (b"seat", Some(rest)) => self.set_seat(rest),
            _ => Err(NO_GRAMMAR),
        }
    }

    /// The desk is a new one also where it is refused.
    fn fresh(&mut self, length: usize) -> Result<String, Refusal> {
        let (desk, answer) = match Desk::fresh(length) {
            Ok(desk) => (desk, Ok("made\n".to_string())),
            Err(number) => (Desk::none(), Err(number)),
        };
        self.desk = desk;
        answer
    }

    fn part(&mut self, length: usize) -> Result<String, Refusal> {
        self.timetable = &self.file[..length];
        Ok("part\n".to_string())
    }

    fn close(&mut self, ticket: u32) -> Result<String, Refusal> {
        self.desk.close(ticket)?;
        Ok("closed\n".to_string())
    }

    /// The answer and, refused or not, the room as it then is.
    fn turns(&mut self, size: usize) -> String {
        let mut room = vec![UNWRITTEN; size];
        let answer = match many_turns(&mut self.desk, self.timetable, &mut room) {
            Ok((count, true)) => format!("wrote\t{count}\tidle\n"),
            Ok((count, false)) => format!("wrote\t{count}\tmore\n"),
            Err(number) => refused(number),
        };
        format!("{answer}{}\n", String::from_utf8_lossy(&room))
    }

    fn set(&mut self, rest: &[u8]) -> Result<String, Refusal> {
        let [name, text] = fields(rest)[..] else {
            return Err(NO_GRAMMAR);
        };
        match name {
            b"last_served" => self.desk.last_served = number(text, usize::MAX)?,
            b"length" => self.desk.length = number(text, usize::MAX)?,
            b"issued" => self.desk.last_issued = ticket(text)?,
            _ => return Err(NO_GRAMMAR),
        }
        Ok("set\n".to_string())
    }

    fn set_seat(&mut self, rest: &[u8]) -> Result<String, Refusal> {
        let (seat, rest) = parted(rest);
        let (name, text) = parted(rest.ok_or(NO_GRAMMAR)?);
        let text = text.ok_or(NO_GRAMMAR)?;
        let seat = &mut self.desk.seats[number(seat, SEATS - 1)?];
        match name {
            b"held" => seat.held = number(text, 1)? == 1,
            b"ticket" => seat.ticket = ticket(text)?,
            b"offset" => seat.offset = number(text, usize::MAX)?,
            b"hits" => seat.hits = number(text, usize::MAX)?,
            b"unreadable" => seat.unreadable = number(text, usize::MAX)?,
            b"place" => seat.place = number(text, MOST_PLACE)? as u32,
            b"condition_length" => seat.condition_length = number(text, usize::MAX)?,
            b"condition" if text.len() <= MOST_BYTES => {
                seat.condition = [0; MOST_BYTES];
                seat.condition[..text.len()].copy_from_slice(text);
            }
            _ => return Err(NO_GRAMMAR),
        }
        Ok("set\n".to_string())
    }
}

/// Takes turns as long as the next one's line fits in what is left of the room, and none after Idle. Gives the bytes
/// written and whether the last turn was Idle.
pub fn many_turns(desk: &mut Desk, timetable: &[u8], room: &mut [u8]) -> Result<(usize, bool), Refusal> {
    let mut count = 0;
    loop {
        let mut next = desk.clone();
        let turn = next.turn(timetable)?;
        let line = turn_line(turn);
        if line.len() > room.len() - count {
            return if count == 0 { Err(NO_ROOM) } else { Ok((count, false)) };
        }
        room[count..count + line.len()].copy_from_slice(line.as_bytes());
        count += line.len();
        *desk = next;
        if turn == Turn::Idle {
            return Ok((count, true));
        }
    }
}

fn ticket(text: &[u8]) -> Result<u32, Refusal> {
    number(text, LAST_TICKET as usize).map(|read| read as u32)
}

fn shown(desk: &Desk) -> String {
    let mut output = format!("desk\t{}\t{}\t{}\n", desk.last_served, desk.length, desk.last_issued);
    for (at, seat) in desk.seats.iter().enumerate().filter(|(_, seat)| **seat != Seat::default()) {
        let Seat { held, ticket, offset, hits, unreadable, place, condition_length, condition } = seat;
        let held = u8::from(*held);
        output += &format!("seat\t{at}\t{held}\t{ticket}\t{offset}\t{hits}\t{unreadable}\t{place}\t{condition_length}\t");
        let end = condition.iter().rposition(|&byte| byte != 0).map_or(0, |last| last + 1);
        output.extend(condition[..end].iter().map(|byte| format!("{byte:02x}")));
        output.push('\n');
    }
    output
}

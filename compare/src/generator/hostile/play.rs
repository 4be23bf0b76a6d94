//! Long random scripts: queries opened, served and closed over a small timetable, the desk damaged now and then (`harm`) and
//! mended again, and lines that are no events among them. Each script is played while it is written, so that its events are about
//! the desk as it then is.

use super::Case;
use crate::desk::{LAST_TICKET, MOST_TIMETABLE_BYTES};
use crate::generator::conditions::{any, fitting, Setting};
use crate::generator::damage::{damaged, noise};
use crate::generator::desks::{great_timetable, timetable, Timetable};
use crate::generator::random::Random;
use crate::hostile::{Script, MOST_EVENTS_BYTES, MOST_ROOM};

pub fn case(seed: u64) -> Case {
    let random = &mut Random::new(seed);
    let setting = &Setting::any(random);
    let timetable = match random.below(100) {
        0 => Timetable::Missing,
        1 => Timetable::Folder,
        2..=5 => {
            let length = random.pick(&[65_535, 65_536, 65_536, 65_537]);
            Timetable::Bytes(great_timetable(random, setting, length))
        }
        _ => Timetable::Bytes(timetable(random, setting)),
    };
    let most = random.pick(&[10_000, 20_000, 20_000, 40_000, MOST_EVENTS_BYTES]);
    let events = Player::new(random, setting, timetable.bytes()).play(most);
    Case { name: seed.to_string(), timetable, events }
}

pub(super) struct Player<'a> {
    pub(super) random: &'a mut Random,
    pub(super) setting: &'a Setting,
    pub(super) script: Script<'a>,
    events: Vec<u8>,
    /// A few good conditions, opened again and again.
    usual: Vec<String>,
    /// Events that undo the damage done, the latest last.
    pub(super) mending: Vec<Vec<u8>>,
}

impl<'a> Player<'a> {
    fn new(random: &'a mut Random, setting: &'a Setting, file: &'a [u8]) -> Player<'a> {
        let usual = (0..4).map(|_| fitting(random, setting, 0, 0)).collect();
        Player { random, setting, script: Script::new(file), events: Vec::new(), usual, mending: Vec::new() }
    }

    /// A script of at most so many bytes.
    fn play(mut self, most: usize) -> Vec<u8> {
        loop {
            let before = self.events.len();
            self.step();
            if self.events.len() > most {
                self.events.truncate(before);
                return self.events;
            }
        }
    }

    pub(super) fn tell(&mut self, event: impl AsRef<[u8]>) {
        self.script.answer(event.as_ref());
        self.events.extend(event.as_ref());
        self.events.push(b'\n');
    }

    fn step(&mut self) {
        let (sound, issued) = (self.script.desk.is_sound(), self.script.desk.last_issued);
        if !sound && self.random.chance(30) || !self.mending.is_empty() && self.random.chance(4) {
            return self.mend();
        }
        if self.script.timetable.len() != self.script.desk.length && self.random.chance(35) {
            return self.fit();
        }
        if issued == LAST_TICKET && self.random.chance(10) {
            return self.damage_issued();
        }
        match self.random.weighted(&[18, 11, 26, 14, 3, 5, 2, 1, 10, 4, 2]) {
            0 => self.open(),
            1 => self.close(),
            2 => self.tell("turn"),
            3 => self.turns(),
            4 => self.tell("sound"),
            5 => self.tell("show"),
            6 => self.part(),
            7 => self.fresh(),
            8 => self.damage(),
            9 => self.no_event(),
            _ => self.fill(),
        }
    }

    fn open(&mut self) {
        let condition = match self.random.below(10) {
            0 | 1 => any(self.random, self.setting),
            2 => fitting(self.random, self.setting, 0, 0).into_bytes(),
            _ => self.usual[self.random.below(self.usual.len())].clone().into_bytes(),
        };
        self.tell([b"open\t".as_slice(), &condition].concat());
    }

    /// Opens until all seats are held, or a little longer.
    fn fill(&mut self) {
        for _ in 0..self.random.between(12, 18) {
            self.open();
        }
    }

    fn close(&mut self) {
        let held: Vec<u32> = self.script.desk.seats.iter().filter(|seat| seat.held).map(|seat| seat.ticket).collect();
        let issued = self.script.desk.last_issued;
        let ticket = match self.random.below(10) {
            0 => 0,
            1 => issued.wrapping_add(1),
            2 => self.random.below(issued as usize + 1) as u32,
            3 => self.random.pick(&[LAST_TICKET, LAST_TICKET - 1, issued, 1 << 31]),
            _ if held.is_empty() => issued,
            _ => self.random.pick(&held),
        };
        let number = self.digits(ticket as usize);
        self.tell(format!("close\t{number}"));
    }

    fn turns(&mut self) {
        let room = match self.random.below(8) {
            0 | 1 => self.random.pick(&[0, 1, 4, 5, 7, 8, 9, 10, 29, 30, 31, 32]),
            2 => self.random.pick(&[100, 256, 1_000, MOST_ROOM - 1, MOST_ROOM]),
            _ => self.random.below(80),
        };
        let number = self.digits(room);
        self.tell(format!("turns\t{number}"));
    }

    /// Makes the desk's length and the timetable's one again.
    fn fit(&mut self) {
        let (length, whole) = (self.script.desk.length, self.script.file.len());
        if length <= whole {
            return self.tell(format!("part\t{length}"));
        }
        if self.random.chance(50) {
            return self.tell(format!("set\tlength\t{}", self.script.timetable.len()));
        }
        self.fresh();
    }

    fn part(&mut self) {
        let whole = self.script.file.len();
        let length = match self.random.below(3) {
            0 => self.random.below(whole + 2),
            1 => self.beside(self.script.desk.length),
            _ => self.beside(whole),
        };
        let number = self.digits(length);
        self.tell(format!("part\t{number}"));
    }

    pub(super) fn fresh(&mut self) {
        let length = match self.random.below(6) {
            0 => self.beside(MOST_TIMETABLE_BYTES),
            1 => self.extreme(),
            2 => self.random.below(self.script.file.len() + 1),
            _ => self.script.file.len(),
        };
        let number = self.digits(length);
        self.tell(format!("fresh\t{number}"));
        self.mending.clear();
    }

    /// The number, one less or one more.
    pub(super) fn beside(&mut self, number: usize) -> usize {
        self.random.pick(&[number, number.wrapping_sub(1), number.wrapping_add(1)])
    }

    /// A number near a power of two, near zero from either side among them.
    pub(super) fn extreme(&mut self) -> usize {
        let great: usize = self.random.pick(&[1 << 16, 1 << 31, 1 << 32, 1 << 53, 1 << 63, 0]);
        let small = self.random.pick(&[0, 0, 1, 15, 16, 240, 1_439, 1_440, self.script.desk.length]);
        if self.random.chance(50) {
            return great.wrapping_add(small);
        }
        great.wrapping_sub(small).wrapping_sub(1)
    }

    /// The number's digits, seldom after zeros.
    pub(super) fn digits(&mut self, number: usize) -> String {
        if self.random.chance(3) {
            return format!("{number:020}");
        }
        number.to_string()
    }

    /// A line that is no event, mostly.
    fn no_event(&mut self) {
        let line = match self.random.below(4) {
            0 => self.random.pick(NO_EVENTS).as_bytes().to_vec(),
            1 => noise(self.random),
            _ => {
                let lines: Vec<&[u8]> = self.events.split(|&byte| byte == b'\n').collect();
                let line = lines[self.random.below(lines.len())].to_vec();
                damaged(self.random, &line)
            }
        };
        self.tell(line);
    }
}

/// Lines either side of what an event is.
const NO_EVENTS: &[&str] = &[
    "",
    " ",
    "\t",
    "open",
    "open\t",
    "open \t",
    "turn\t",
    "turn ",
    "turn\r",
    "Turn",
    "turns",
    "turns\t",
    "turns\t4097",
    "turns\t18446744073709551615",
    "turns\t00000000000000000005",
    "turns\t000000000000000000005",
    "turns\t5\t",
    "sound\t",
    "show\t",
    "show\t1",
    "close",
    "close\t",
    "close\t4294967296",
    "close\t18446744073709551616",
    "close\t99999999999999999999",
    "close\t-1",
    "close\t+1",
    "close\t1 ",
    "close\t0x1",
    "fresh",
    "fresh\t",
    "fresh\t18446744073709551616",
    "fresh\t99999999999999999999",
    "fresh\t5\t5",
    "part",
    "part\t",
    "part\t65538",
    "part\t18446744073709551615",
    "part\t1\t1",
    "set",
    "set\t",
    "set\tlength",
    "set\tlength\t",
    "set\tlength\t18446744073709551616",
    "set\tlength\t5\t5",
    "set\tissued\t4294967296",
    "set\tlast_served\t",
    "set\tlast served\t5",
    "set\theld\t1",
    "set\tLength\t5",
    "seat",
    "seat\t0",
    "seat\t0\theld",
    "seat\t0\theld\t",
    "seat\t0\theld\t2",
    "seat\t0\theld\t00000000000000000001",
    "seat\t16\theld\t1",
    "seat\t\theld\t1",
    "seat\t-1\theld\t1",
    "seat\t18446744073709551616\theld\t1",
    "seat\t0\tticket\t4294967296",
    "seat\t0\toffset\t18446744073709551616",
    "seat\t0\tplace",
    "seat\t0\tplace\t",
    "seat\t0\tplace\t4294967296",
    "seat\t0\tplace\t18446744073709551615",
    "seat\t0\tplace\t-1",
    "seat\t0\tplace\t1\t",
    "seat\t16\tplace\t1",
    "seat\t0\tPlace\t1",
    "set\tplace\t1",
    "seat\t0\thits\t1\t",
    "seat\t0\tlength\t5",
    "seat\t0\tcondition",
    "seat\t00000000000000000003\tcondition\t",
    "seat\t3\tcondition\t\t\t",
    "hit\t1\t0\t0",
    "idle",
];

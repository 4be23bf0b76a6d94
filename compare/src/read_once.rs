//! A desk that reads each condition's text once, when it is opened, and keeps what it read with the seat: the tree, and in
//! it the literals' values. It answers as `Desk` does, which reads the text anew at each turn, and shows by its time what
//! that reading costs.

use crate::conditions::accept_values;
use crate::conditions::evaluation::holds;
use crate::conditions::tree::Expression;
use crate::desk::{Desk, Turn, SEATS};
use crate::values::Value;
use crate::Refusal;

/// Nobody else has the desk, so it is always sound: no call reads the texts to find that out.
pub struct ReadOnce {
    desk: Desk,
    /// What was read of each held seat's condition; of a free seat's nobody asks.
    read: [Option<Expression<Value>>; SEATS],
}

impl ReadOnce {
    pub fn fresh(length: usize) -> Result<ReadOnce, Refusal> {
        Ok(ReadOnce { desk: Desk::fresh(length)?, read: Default::default() })
    }

    /// Gives the ticket.
    pub fn open(&mut self, condition: &[u8]) -> Result<u32, Refusal> {
        let tree = accept_values(condition)?;
        let number = self.desk.take_seat(condition)?;
        self.read[number] = Some(tree);
        Ok(self.desk.seats[number].ticket)
    }

    /// A turn over the timetable, which has the desk's length.
    pub fn serve(&mut self, timetable: &[u8]) -> Turn {
        let read = &self.read;
        self.desk.serve_by(timetable, |number, _, fields| {
            let tree = read[number].as_ref().expect("a held seat's condition was read when it was opened");
            holds(tree, fields)
        })
    }
}

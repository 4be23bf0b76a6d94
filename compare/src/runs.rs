//! Document 02, letter b: a line that stands for a run of departures.

use crate::values::operations::{add, subtract};
use crate::values::reading::read;
use crate::values::writing::write;
use crate::values::{Kind, Value};
use crate::{Refusal, STEP_NOT_ABOVE_ZERO, TOO_FEW_FIELDS, TOO_MANY_OCCURRENCES};

pub const WORD: &[u8] = b"every";
pub const MOST_OCCURRENCES: usize = 1_440;

/// What a good run line stands for: first, first + step and so on, so many.
#[derive(Clone, Copy, PartialEq, Eq, Debug)]
pub struct Run {
    first: Value,
    /// Ticks, above zero.
    step: i128,
    /// At most 1,440. A run may be empty.
    pub count: usize,
}

/// Whether a line is one that stands for a run, a good one or not.
pub fn is_run_line(fields: &[&[u8]]) -> bool {
    fields.get(1) == Some(&WORD)
}

impl Run {
    /// The run of a line, none if the line is a plain one, or the number with which the line is unreadable.
    pub fn of(fields: &[&[u8]]) -> Result<Option<Run>, Refusal> {
        if !is_run_line(fields) {
            return Ok(None);
        }
        let field = |number: usize, kind: Kind| read(kind, fields.get(number - 1).ok_or(TOO_FEW_FIELDS)?);
        let first = field(3, Kind::DateTime)?;
        let last = field(4, Kind::DateTime)?;
        let step = ticks(field(5, Kind::DayTime)?);
        if step <= 0 {
            return Err(STEP_NOT_ABOVE_ZERO);
        }
        // The whole calendar lies within the bounds of a duration, so this difference of two instants is never refused.
        let apart = ticks(subtract(&last, &first)?);
        let count = if apart < 0 { 0 } else { apart / step + 1 };
        if count > MOST_OCCURRENCES as i128 {
            return Err(TOO_MANY_OCCURRENCES);
        }
        let run = Run { first, step, count: count as usize };
        // The last occurrence has the greatest local year of all, and none has a smaller one than the first.
        if run.count > 0 {
            run.occurrence(run.count - 1)?;
        }
        Ok(Some(run))
    }

    fn occurrence(&self, place: usize) -> Result<Value, Refusal> {
        add(&self.first, &Value::DayTime(self.step * place as i128))
    }

    /// The second field at a place: the occurrence's written text. The place is below the count.
    pub fn text_at(&self, place: usize) -> String {
        write(&self.occurrence(place).expect("a good run's occurrences are within the bounds"))
    }
}

fn ticks(duration: Value) -> i128 {
    let Value::DayTime(ticks) = duration else {
        unreachable!("read as a dayTimeDuration, or a difference of two dateTimes");
    };
    ticks
}

//! How much of a proved turn is the reading of the condition's text, and what a byte more costs.

use crate::inputs::DELAY_LINE_BYTES;
use crate::measure::{Case, Costs};
use crate::plan::{Plan, Series, ALL_ASKED};

/// Nanoseconds of a turn of the sixteen conditions over departures.
pub struct Shares {
    pub whole: f64,
    /// For each byte of a condition's text.
    pub text_byte: f64,
    /// How many bytes a condition has on average.
    pub text_bytes: f64,
}

impl Shares {
    pub fn new(plan: &Plan) -> Shares {
        let asked = plan.case(ALL_ASKED);
        let read_over = plan.of(Series::TestsReadOver);
        Shares {
            whole: asked.costs().proved,
            text_byte: byte_costs(condition_bytes, read_over[0], plan.last(Series::TestsReadOver)).proved,
            text_bytes: asked.conditions.concat().len() as f64 / asked.conditions.len() as f64,
        }
    }

    pub fn text(&self) -> f64 {
        self.text_byte * self.text_bytes
    }
}

/// How many bytes a case has of what its series makes longer.
pub type Length = fn(&Case) -> usize;

/// The bytes of a case's first condition.
pub fn condition_bytes(case: &Case) -> usize {
    case.conditions[0].len()
}

/// The bytes that each line of a case has more than a delay alone; all its lines are the same.
pub fn bytes_beside_delay(case: &Case) -> usize {
    case.timetable_bytes / case.timetable_lines - DELAY_LINE_BYTES
}

/// Nanoseconds for each byte that the second case has more.
pub fn byte_costs(length: Length, shorter: &Case, longer: &Case) -> Costs {
    let bytes = (length(longer) - length(shorter)) as f64;
    let (less, more) = (shorter.costs(), longer.costs());
    Costs {
        proved: (more.proved - less.proved) / bytes,
        independent: (more.independent - less.independent) / bytes,
        read_once: (more.read_once - less.read_once) / bytes,
    }
}

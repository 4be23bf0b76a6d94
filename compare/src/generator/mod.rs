//! Seeded cases for the comparison: texts near every bound that document 01 names, at the calendar's 400-year cycle, with
//! blanks round them and with nanoseconds, calls made of them, conditions with lines to judge, desk cases, scripts over desks
//! built wrong, sessions of library calls, and damaged forms of all of these. The same seed gives the same cases on every
//! machine.

pub mod blanks;
pub mod calls;
pub mod conditions;
pub mod cycle;
pub mod damage;
pub mod desks;
pub mod histogram;
pub mod hostile;
pub mod inputs;
pub mod judgements;
pub mod library;
pub mod nine;
pub mod random;
pub mod runs;
pub mod six;
pub mod texts;

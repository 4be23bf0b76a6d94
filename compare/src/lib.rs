//! The timetable desk a second time, as an ordinary program written from document 01, letters a, b and e of document 02,
//! docs/DECISIONS.md and docs/LINES.md alone. It shares no code with the proved programs and exists to be compared with
//! them.

pub mod conditions;
pub mod desk;
pub mod files;
pub mod generator;
pub mod hostile;
pub mod library;
pub mod lines;
pub mod programs;
pub mod read_once;
pub mod runs;
pub mod values;
pub mod words;

/// A refusal number of document 01's table or of a later request.
pub type Refusal = u8;

pub const NO_SHAPE: Refusal = 1;
pub const READ_BEYOND_BOUNDS: Refusal = 2;
pub const LONG_FRACTION: Refusal = 3;
pub const RESULT_BEYOND_BOUNDS: Refusal = 4;
pub const BAD_ZONE: Refusal = 5;
pub const TOO_FEW_FIELDS: Refusal = 6;
pub const NO_GRAMMAR: Refusal = 7;
pub const TOO_DEEP: Refusal = 8;
pub const KINDS_DO_NOT_FIT: Refusal = 9;
pub const ALL_SEATS_HELD: Refusal = 10;
pub const WRONG_LENGTH: Refusal = 11;
pub const NOT_SOUND: Refusal = 12;
pub const NO_SUCH_TICKET: Refusal = 13;
pub const NO_TICKET_LEFT: Refusal = 14;
pub const NO_ROOM: Refusal = 15;
pub const ARGUMENT_BEYOND_BOUNDS: Refusal = 16;
pub const STEP_NOT_ABOVE_ZERO: Refusal = 17;
pub const TOO_MANY_OCCURRENCES: Refusal = 18;

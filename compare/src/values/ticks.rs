//! The smallest part of a second that values are counted in, a tick, and what follows from it. A fraction has at most nine
//! digits and a tick is a nanosecond (document 02, letter e); a program that is kept at six digits has microseconds, as
//! document 01 has them. This is the one setting of the programs, and nothing else tells the two apart.

use std::sync::atomic::{AtomicBool, Ordering};

static KEPT_AT_SIX: AtomicBool = AtomicBool::new(false);

/// From here on fractions have at most six digits. A program says so before anything else, or never.
pub fn keep_six_digits() {
    KEPT_AT_SIX.store(true, Ordering::Relaxed);
}

pub fn kept_at_six() -> bool {
    KEPT_AT_SIX.load(Ordering::Relaxed)
}

/// The most digits of a fraction; with one more it is refused with 3.
pub fn fraction_digits() -> usize {
    if kept_at_six() {
        6
    } else {
        9
    }
}

pub fn ticks_a_second() -> i128 {
    if kept_at_six() {
        1_000_000
    } else {
        1_000_000_000
    }
}

pub fn ticks_a_minute() -> i128 {
    60 * ticks_a_second()
}

pub fn ticks_an_hour() -> i128 {
    3_600 * ticks_a_second()
}

pub fn ticks_a_day() -> i128 {
    86_400 * ticks_a_second()
}

/// The magnitude of the greatest dayTimeDuration.
pub fn most_duration_ticks() -> i128 {
    super::MOST_DURATION_SECONDS * ticks_a_second()
}

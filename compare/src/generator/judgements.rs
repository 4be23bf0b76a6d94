//! Lines of `judgements`: a condition of any sort, and the line that it is judged at.

use super::conditions::{self, Setting};
use super::desks::row;
use super::random::Random;

/// How many lines speak about the same columns and texts.
const OF_A_SETTING: usize = 25;

/// So many lines without their newlines.
pub fn lines(seed: u64, count: usize) -> impl Iterator<Item = Vec<u8>> {
    let mut random = Random::new(seed);
    let mut setting = Setting::any(&mut random);
    (0..count).map(move |place| {
        if place % OF_A_SETTING == 0 {
            setting = Setting::any(&mut random);
        }
        line(&mut random, &setting)
    })
}

/// Most conditions are good; now and then no line follows.
fn line(random: &mut Random, setting: &Setting) -> Vec<u8> {
    let condition = match random.below(10) {
        0..=5 => conditions::fitting(random, setting, 0, 0).into_bytes(),
        _ => conditions::any(random, setting),
    };
    if random.chance(3) {
        return condition;
    }
    [condition, row(random, setting)].join(&b'\t')
}

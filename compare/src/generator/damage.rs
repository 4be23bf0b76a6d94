//! Small damage to a text: bytes lost, added, changed or moved, and texts of random bytes.

use super::random::Random;

const LIKELY: &[u8] = b"0123456789-+:.TZPDHMSY $()\"*azQ\r\x00\x0b\x0c\xa0\xff";

/// One to three changes. Tab and newline are never put in here.
pub fn damaged(random: &mut Random, text: &[u8]) -> Vec<u8> {
    if random.chance(4) {
        return noise(random);
    }
    let mut bytes = text.to_vec();
    for _ in 0..random.pick(&[1, 1, 1, 2, 3]) {
        change(random, &mut bytes);
    }
    bytes
}

fn change(random: &mut Random, bytes: &mut Vec<u8>) {
    let place = random.below(bytes.len() + 1);
    let byte = if random.chance(90) { random.pick(LIKELY) } else { any_byte(random) };
    if place == bytes.len() {
        bytes.push(byte);
        return;
    }
    match random.below(6) {
        0 => drop(bytes.remove(place)),
        1 => bytes.insert(place, byte),
        2 => bytes[place] = byte,
        3 => bytes.insert(place, bytes[place]),
        4 => bytes.swap(place, place.saturating_sub(1)),
        _ if random.chance(40) => bytes.truncate(place),
        _ => bytes[place] = if bytes[place].is_ascii_digit() { random.pick(b"0123456789") } else { byte },
    }
}

pub fn noise(random: &mut Random) -> Vec<u8> {
    let length = random.below(40);
    (0..length).map(|_| if random.chance(60) { random.pick(LIKELY) } else { any_byte(random) }).collect()
}

fn any_byte(random: &mut Random) -> u8 {
    match random.below(256) as u8 {
        b'\t' | b'\n' => b' ',
        byte => byte,
    }
}

//! Lines, fields and their numbers: the same rules hold for the timetable, for the conditions and for all calls and events.

use crate::{Refusal, NO_GRAMMAR};

const MOST_DIGITS: usize = 20;

/// The lines of a text. A final byte 10 adds no line, and an empty text has none.
pub fn lines(text: &[u8]) -> Vec<&[u8]> {
    if text.is_empty() {
        return Vec::new();
    }
    let ended = text.strip_suffix(b"\n").unwrap_or(text);
    ended.split(|&byte| byte == b'\n').collect()
}

/// The fields of a line; an empty line has one, which is empty.
pub fn fields(line: &[u8]) -> Vec<&[u8]> {
    line.split(|&byte| byte == b'\t').collect()
}

/// What stands before the first tab, and what follows it if there is one.
pub fn parted(text: &[u8]) -> (&[u8], Option<&[u8]>) {
    match text.iter().position(|&byte| byte == b'\t') {
        Some(place) => (&text[..place], Some(&text[place + 1..])),
        None => (text, None),
    }
}

/// One to twenty digits, leading zeros allowed, of a number that is at most so great.
pub fn number(text: &[u8], most: usize) -> Result<usize, Refusal> {
    if !(1..=MOST_DIGITS).contains(&text.len()) || !text.iter().all(u8::is_ascii_digit) {
        return Err(NO_GRAMMAR);
    }
    let read = text.iter().fold(0, |before, digit| before * 10 + u128::from(digit - b'0'));
    usize::try_from(read).ok().filter(|&read| read <= most).ok_or(NO_GRAMMAR)
}

#[cfg(test)]
mod tests {
    use super::*;

    #[test]
    fn a_final_newline_adds_no_line() {
        assert_eq!(lines(b""), Vec::<&[u8]>::new());
        assert_eq!(lines(b"\n"), [b""]);
        assert_eq!(lines(b"a"), [b"a"]);
        assert_eq!(lines(b"a\n"), [b"a"]);
        assert_eq!(lines(b"a\n\nb\r\n\n"), [b"a".as_slice(), b"", b"b\r", b""]);
    }

    #[test]
    fn an_empty_line_has_one_field() {
        assert_eq!(fields(b""), [b""]);
        assert_eq!(fields(b"\ta\t"), [b"".as_slice(), b"a", b""]);
    }
}

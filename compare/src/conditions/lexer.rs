//! The symbols of a condition, each with its place, since a factor's minus has to touch its digits.

use crate::{Refusal, NO_GRAMMAR};

const MOST_FIELD: usize = 16;

#[derive(Clone, Copy, PartialEq, Eq, Debug)]
pub enum Symbol<'a> {
    Word(&'a [u8]),
    Numeral(&'a [u8]),
    Text(&'a [u8]),
    Field(usize),
    Opening,
    Closing,
    Plus,
    Minus,
    Star,
}

#[derive(Clone, Copy, Debug)]
pub struct Placed<'a> {
    pub symbol: Symbol<'a>,
    pub start: usize,
    pub end: usize,
}

pub fn symbols(text: &[u8]) -> Result<Vec<Placed<'_>>, Refusal> {
    let mut found = Vec::new();
    let mut start = 0;
    while start < text.len() {
        if text[start] == b' ' {
            start += 1;
            continue;
        }
        let (symbol, length) = first_symbol(&text[start..])?;
        found.push(Placed { symbol, start, end: start + length });
        start += length;
    }
    Ok(found)
}

fn first_symbol(text: &[u8]) -> Result<(Symbol<'_>, usize), Refusal> {
    match text[0] {
        b'(' => Ok((Symbol::Opening, 1)),
        b')' => Ok((Symbol::Closing, 1)),
        b'+' => Ok((Symbol::Plus, 1)),
        b'-' => Ok((Symbol::Minus, 1)),
        b'*' => Ok((Symbol::Star, 1)),
        b'"' => {
            let length = text[1..].iter().position(|&byte| byte == b'"').ok_or(NO_GRAMMAR)?;
            Ok((Symbol::Text(&text[1..1 + length]), length + 2))
        }
        b'$' => {
            let digits = run(&text[1..], |byte| byte.is_ascii_digit());
            Ok((Symbol::Field(field_number(digits)?), 1 + digits.len()))
        }
        b'0'..=b'9' => {
            let digits = run(text, |byte| byte.is_ascii_digit());
            Ok((Symbol::Numeral(digits), digits.len()))
        }
        byte if is_word_byte(byte) => {
            let word = run(text, is_word_byte);
            Ok((Symbol::Word(word), word.len()))
        }
        _ => Err(NO_GRAMMAR),
    }
}

fn is_word_byte(byte: u8) -> bool {
    byte.is_ascii_alphabetic() || byte == b':'
}

fn run(text: &[u8], belongs: impl Fn(u8) -> bool) -> &[u8] {
    let length = text.iter().take_while(|&&byte| belongs(byte)).count();
    &text[..length]
}

fn field_number(digits: &[u8]) -> Result<usize, Refusal> {
    (1..=MOST_FIELD).find(|number| number.to_string().as_bytes() == digits).ok_or(NO_GRAMMAR)
}

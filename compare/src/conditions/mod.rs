//! Document 01, "Conditions": from a text to a tree whose kinds fit, and from a tree and a line's fields to an answer.

pub mod evaluation;
pub mod kinds;
pub mod lexer;
pub mod parser;
pub mod tree;

use crate::values::Value;
use crate::{Refusal, NO_GRAMMAR, TOO_DEEP};
use tree::Expression;

pub const MOST_BYTES: usize = 240;
pub const MOST_DEPTH: i64 = 16;

/// All of Open's checks on a condition's text, in their order.
pub fn accept(text: &[u8]) -> Result<Expression, Refusal> {
    let tree = accept_kinds(text)?;
    tree.check_literals()?;
    Ok(tree)
}

/// The same checks, where the literals' values are kept in place of their texts.
pub fn accept_values(text: &[u8]) -> Result<Expression<Value>, Refusal> {
    accept_kinds(text)?.read_literals()
}

/// The checks that come before the literals'.
fn accept_kinds(text: &[u8]) -> Result<Expression, Refusal> {
    if text.is_empty() || text.len() > MOST_BYTES {
        return Err(NO_GRAMMAR);
    }
    if greatest_depth(text) > MOST_DEPTH {
        return Err(TOO_DEEP);
    }
    let tree = parser::parse(&lexer::symbols(text)?)?;
    kinds::check_whole(&tree)?;
    Ok(tree)
}

/// The greatest excess of openings over closings outside quotes, at any point of the text.
fn greatest_depth(text: &[u8]) -> i64 {
    let mut depth = 0;
    let mut greatest = 0;
    let mut quoted = false;
    for byte in text {
        match byte {
            b'"' => quoted = !quoted,
            b'(' if !quoted => depth += 1,
            b')' if !quoted => depth -= 1,
            _ => {}
        }
        greatest = greatest.max(depth);
    }
    greatest
}

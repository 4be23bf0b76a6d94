//! What a condition says. Parentheses leave no trace: the tree's form says what they grouped.

use crate::values::{reading, Kind, Value};
use crate::Refusal;
use std::cmp::Ordering;

#[derive(Clone, Copy, PartialEq, Eq, Debug)]
pub enum Comparison {
    Eq,
    Ne,
    Lt,
    Le,
    Gt,
    Ge,
}

impl Comparison {
    pub fn named(word: &[u8]) -> Option<Comparison> {
        match word {
            b"eq" => Some(Comparison::Eq),
            b"ne" => Some(Comparison::Ne),
            b"lt" => Some(Comparison::Lt),
            b"le" => Some(Comparison::Le),
            b"gt" => Some(Comparison::Gt),
            b"ge" => Some(Comparison::Ge),
            _ => None,
        }
    }

    pub fn holds(self, order: Ordering) -> bool {
        match self {
            Comparison::Eq => order == Ordering::Equal,
            Comparison::Ne => order != Ordering::Equal,
            Comparison::Lt => order == Ordering::Less,
            Comparison::Le => order != Ordering::Greater,
            Comparison::Gt => order == Ordering::Greater,
            Comparison::Ge => order != Ordering::Less,
        }
    }
}

/// A literal is kept as its text, or as its value in a tree whose literals have been read.
#[derive(Clone, PartialEq, Eq, Debug)]
pub enum Expression<L = Vec<u8>> {
    Literal(Kind, L),
    Field(Kind, usize),
    Cast(Kind, Box<Expression<L>>),
    Product(Box<Expression<L>>, i128),
    Sum(Box<Expression<L>>, Box<Expression<L>>),
    Difference(Box<Expression<L>>, Box<Expression<L>>),
    Test(Box<Expression<L>>, Comparison, Box<Expression<L>>),
    And(Box<Expression<L>>, Box<Expression<L>>),
    Or(Box<Expression<L>>, Box<Expression<L>>),
}

impl Expression {
    /// The leftmost literal that does not read gives its number.
    pub fn check_literals(&self) -> Result<(), Refusal> {
        match self {
            Expression::Literal(kind, text) => reading::read(*kind, text).map(|_| ()),
            Expression::Field(..) => Ok(()),
            Expression::Cast(_, inner) | Expression::Product(inner, _) => inner.check_literals(),
            Expression::Sum(left, right)
            | Expression::Difference(left, right)
            | Expression::Test(left, _, right)
            | Expression::And(left, right)
            | Expression::Or(left, right) => {
                left.check_literals()?;
                right.check_literals()
            }
        }
    }

    /// The same tree with the literals' values; refused as `check_literals` refuses it.
    pub fn read_literals(self) -> Result<Expression<Value>, Refusal> {
        let read = |inner: Box<Expression>| inner.read_literals().map(Box::new);
        Ok(match self {
            Expression::Literal(kind, text) => Expression::Literal(kind, reading::read(kind, &text)?),
            Expression::Field(kind, number) => Expression::Field(kind, number),
            Expression::Cast(kind, inner) => Expression::Cast(kind, read(inner)?),
            Expression::Product(left, factor) => Expression::Product(read(left)?, factor),
            Expression::Sum(left, right) => Expression::Sum(read(left)?, read(right)?),
            Expression::Difference(left, right) => Expression::Difference(read(left)?, read(right)?),
            Expression::Test(left, comparison, right) => Expression::Test(read(left)?, comparison, read(right)?),
            Expression::And(left, right) => Expression::And(read(left)?, read(right)?),
            Expression::Or(left, right) => Expression::Or(read(left)?, read(right)?),
        })
    }
}

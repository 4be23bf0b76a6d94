//! Kinds are settled by the text alone.

use super::tree::Expression;
use crate::values::operations::casts;
use crate::values::Kind;
use crate::{Refusal, KINDS_DO_NOT_FIT};

#[derive(Clone, Copy, PartialEq, Eq, Debug)]
pub enum Sort {
    Truth,
    Value(Kind),
}

/// A whole condition has to be a truth value.
pub fn check_whole(tree: &Expression) -> Result<(), Refusal> {
    truth(tree)
}

fn truth(tree: &Expression) -> Result<(), Refusal> {
    match sort_of(tree)? {
        Sort::Truth => Ok(()),
        Sort::Value(_) => Err(KINDS_DO_NOT_FIT),
    }
}

fn kind_of(tree: &Expression) -> Result<Kind, Refusal> {
    match sort_of(tree)? {
        Sort::Truth => Err(KINDS_DO_NOT_FIT),
        Sort::Value(kind) => Ok(kind),
    }
}

pub fn sort_of(tree: &Expression) -> Result<Sort, Refusal> {
    match tree {
        Expression::Literal(kind, _) | Expression::Field(kind, _) => Ok(Sort::Value(*kind)),
        Expression::Cast(kind, inner) => {
            let from = kind_of(inner)?;
            fits(casts(from, *kind).then_some(*kind))
        }
        Expression::Product(left, _) => {
            let kind = kind_of(left)?;
            fits(kind.is_duration().then_some(kind))
        }
        Expression::Sum(left, right) => fits(sum_kind(kind_of(left)?, kind_of(right)?)),
        Expression::Difference(left, right) => fits(difference_kind(kind_of(left)?, kind_of(right)?)),
        Expression::Test(left, _, right) => {
            if kind_of(left)? != kind_of(right)? {
                return Err(KINDS_DO_NOT_FIT);
            }
            Ok(Sort::Truth)
        }
        Expression::And(left, right) | Expression::Or(left, right) => {
            truth(left)?;
            truth(right)?;
            Ok(Sort::Truth)
        }
    }
}

fn fits(kind: Option<Kind>) -> Result<Sort, Refusal> {
    kind.map(Sort::Value).ok_or(KINDS_DO_NOT_FIT)
}

pub fn sum_kind(left: Kind, right: Kind) -> Option<Kind> {
    match (left, right) {
        (Kind::DayTime, Kind::DayTime) => Some(Kind::DayTime),
        (Kind::YearMonth, Kind::YearMonth) => Some(Kind::YearMonth),
        (Kind::Date | Kind::Time | Kind::DateTime, _) => moved_kind(left, right),
        (_, Kind::Date | Kind::Time | Kind::DateTime) => moved_kind(right, left),
        _ => None,
    }
}

pub fn difference_kind(left: Kind, right: Kind) -> Option<Kind> {
    match (left, right) {
        (Kind::YearMonth, Kind::YearMonth) => Some(Kind::YearMonth),
        _ if left == right => Some(Kind::DayTime),
        _ => moved_kind(left, right),
    }
}

/// The kind of a date, time or dateTime moved by a duration.
fn moved_kind(moment: Kind, duration: Kind) -> Option<Kind> {
    match (moment, duration) {
        (Kind::Date | Kind::DateTime, Kind::DayTime | Kind::YearMonth) => Some(moment),
        (Kind::Time, Kind::DayTime) => Some(moment),
        _ => None,
    }
}

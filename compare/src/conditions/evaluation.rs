//! The answer of a condition at one line, from the left, up to the first refusal.

use super::tree::Expression;
use crate::values::operations::{add, cast, compare, multiply, subtract};
use crate::values::reading::read;
use crate::values::{Kind, Value};
use crate::{Refusal, KINDS_DO_NOT_FIT, TOO_FEW_FIELDS};

/// What a tree has of a literal: its text, which is read whenever the value is asked for, or the value itself.
pub trait Literal {
    fn value(&self, kind: Kind) -> Result<Value, Refusal>;
}

impl Literal for Vec<u8> {
    fn value(&self, kind: Kind) -> Result<Value, Refusal> {
        read(kind, self)
    }
}

impl Literal for Value {
    fn value(&self, _: Kind) -> Result<Value, Refusal> {
        Ok(*self)
    }
}

/// Whether a condition holds. Only for a tree whose kinds fit.
pub fn holds<L: Literal>(tree: &Expression<L>, fields: &[&[u8]]) -> Result<bool, Refusal> {
    match tree {
        Expression::Or(left, right) => Ok(holds(left, fields)? || holds(right, fields)?),
        Expression::And(left, right) => Ok(holds(left, fields)? && holds(right, fields)?),
        Expression::Test(left, comparison, right) => {
            let first = value(left, fields)?;
            let second = value(right, fields)?;
            Ok(comparison.holds(compare(&first, &second)?))
        }
        _ => Err(KINDS_DO_NOT_FIT),
    }
}

fn value<L: Literal>(tree: &Expression<L>, fields: &[&[u8]]) -> Result<Value, Refusal> {
    match tree {
        Expression::Literal(kind, literal) => literal.value(*kind),
        Expression::Field(kind, number) => read(*kind, fields.get(number - 1).ok_or(TOO_FEW_FIELDS)?),
        Expression::Cast(kind, inner) => cast(&value(inner, fields)?, *kind),
        Expression::Product(left, factor) => multiply(&value(left, fields)?, *factor),
        Expression::Sum(left, right) => {
            let first = value(left, fields)?;
            add(&first, &value(right, fields)?)
        }
        Expression::Difference(left, right) => {
            let first = value(left, fields)?;
            subtract(&first, &value(right, fields)?)
        }
        _ => Err(KINDS_DO_NOT_FIT),
    }
}

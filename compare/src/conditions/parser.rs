//! The grammar, one function a rule. Whatever does not follow it is refusal 7.

use super::lexer::{Placed, Symbol};
use super::tree::{Comparison, Expression};
use crate::values::reading::number;
use crate::values::Kind;
use crate::{Refusal, NO_GRAMMAR};

const MOST_FACTOR_DIGITS: usize = 6;

pub fn parse(symbols: &[Placed]) -> Result<Expression, Refusal> {
    let mut parser = Parser { rest: symbols };
    let tree = parser.condition()?;
    if !parser.rest.is_empty() {
        return Err(NO_GRAMMAR);
    }
    Ok(tree)
}

struct Parser<'a> {
    rest: &'a [Placed<'a>],
}

impl<'a> Parser<'a> {
    fn peek(&self) -> Option<Symbol<'a>> {
        self.rest.first().map(|placed| placed.symbol)
    }

    fn take(&mut self) -> Result<Placed<'a>, Refusal> {
        let (first, rest) = self.rest.split_first().ok_or(NO_GRAMMAR)?;
        self.rest = rest;
        Ok(*first)
    }

    fn accept(&mut self, wanted: Symbol) -> bool {
        let found = self.peek() == Some(wanted);
        if found {
            self.rest = &self.rest[1..];
        }
        found
    }

    fn expect(&mut self, wanted: Symbol) -> Result<(), Refusal> {
        if self.accept(wanted) {
            Ok(())
        } else {
            Err(NO_GRAMMAR)
        }
    }

    fn condition(&mut self) -> Result<Expression, Refusal> {
        let mut left = self.clause()?;
        while self.accept(Symbol::Word(b"or")) {
            left = Expression::Or(Box::new(left), Box::new(self.clause()?));
        }
        Ok(left)
    }

    fn clause(&mut self) -> Result<Expression, Refusal> {
        let mut left = self.test()?;
        while self.accept(Symbol::Word(b"and")) {
            left = Expression::And(Box::new(left), Box::new(self.test()?));
        }
        Ok(left)
    }

    fn test(&mut self) -> Result<Expression, Refusal> {
        let left = self.sum()?;
        let Some(Symbol::Word(word)) = self.peek() else {
            return Ok(left);
        };
        let Some(comparison) = Comparison::named(word) else {
            return Ok(left);
        };
        self.take()?;
        let right = self.sum()?;
        Ok(Expression::Test(Box::new(left), comparison, Box::new(right)))
    }

    fn sum(&mut self) -> Result<Expression, Refusal> {
        let mut left = self.term()?;
        loop {
            if self.accept(Symbol::Plus) {
                left = Expression::Sum(Box::new(left), Box::new(self.term()?));
            } else if self.accept(Symbol::Minus) {
                left = Expression::Difference(Box::new(left), Box::new(self.term()?));
            } else {
                return Ok(left);
            }
        }
    }

    fn term(&mut self) -> Result<Expression, Refusal> {
        let mut left = self.factor()?;
        while self.accept(Symbol::Star) {
            left = Expression::Product(Box::new(left), self.whole_number()?);
        }
        Ok(left)
    }

    fn whole_number(&mut self) -> Result<i128, Refusal> {
        let mut first = self.take()?;
        let negative = first.symbol == Symbol::Minus;
        if negative {
            let minus = first;
            first = self.take()?;
            if first.start != minus.end {
                return Err(NO_GRAMMAR);
            }
        }
        match first.symbol {
            Symbol::Numeral(digits) if digits.len() <= MOST_FACTOR_DIGITS => {
                Ok(if negative { -number(digits) } else { number(digits) })
            }
            _ => Err(NO_GRAMMAR),
        }
    }

    fn factor(&mut self) -> Result<Expression, Refusal> {
        match self.take()?.symbol {
            Symbol::Opening => {
                let inner = self.condition()?;
                self.expect(Symbol::Closing)?;
                Ok(inner)
            }
            Symbol::Word(word) => {
                let kind = Kind::named(word).ok_or(NO_GRAMMAR)?;
                self.expect(Symbol::Opening)?;
                let made = self.constructed(kind)?;
                self.expect(Symbol::Closing)?;
                Ok(made)
            }
            _ => Err(NO_GRAMMAR),
        }
    }

    fn constructed(&mut self, kind: Kind) -> Result<Expression, Refusal> {
        match self.peek() {
            Some(Symbol::Text(text)) => {
                self.take()?;
                Ok(Expression::Literal(kind, text.to_vec()))
            }
            Some(Symbol::Field(number)) => {
                self.take()?;
                Ok(Expression::Field(kind, number))
            }
            _ => Ok(Expression::Cast(kind, Box::new(self.sum()?))),
        }
    }
}

//! Numbers as a text session writes them: sums of numbers, names and `$`, and
//! the names' values.

use super::lexer::{Token, Word};
use crate::source::{Error, Place};
use std::collections::HashMap;
use std::rc::Rc;

/// Signs and parentheses of one number, and names that are defined by names:
/// enough for any table, and the stack stays small.
const SIGNS: usize = 32;
const DEPTH: usize = 32;

#[derive(Clone, PartialEq, Eq, Debug)]
enum Node {
    Number(i64),
    Name(String),
    Here,
    Unary(char, Box<Expression>),
    Binary(char, Box<Expression>, Box<Expression>),
}

/// A number as it is written, with its place.
#[derive(Clone, PartialEq, Eq, Debug)]
pub struct Expression {
    pub place: Place,
    node: Node,
}

/// The words of a line that are still to be read.
pub struct Words<'a> {
    words: &'a [Word],
    line: u32,
    /// The column behind the last word.
    end: u32,
    /// Signs and parentheses that the number being read may still have.
    signs: usize,
}

impl<'a> Words<'a> {
    pub fn new(words: &'a [Word], line: u32, end: u32) -> Words<'a> {
        Words { words, line, end, signs: SIGNS }
    }

    pub fn peek(&self) -> Option<&'a Token> {
        self.words.first().map(|word| &word.token)
    }

    pub fn second(&self) -> Option<&'a Token> {
        self.words.get(1).map(|word| &word.token)
    }

    pub fn skip(&mut self) {
        self.words = self.words.get(1..).unwrap_or(&[]);
    }

    /// Where the next word stands, or the line's end.
    pub fn place(&self) -> Place {
        let column = self.words.first().map_or(self.end, |word| word.column);
        Place::At { line: self.line, column }
    }

    /// What was expected in place of the next word.
    pub fn expected(&self, what: &str) -> Error {
        let found = match self.peek() {
            None => "the end of the line".to_string(),
            Some(Token::Number(number)) => format!("the number {number}"),
            Some(Token::Name(name)) => format!("'{name}'"),
            Some(Token::Text(text)) => format!("\"{text}\""),
            Some(Token::Here) => "'$'".to_string(),
            Some(Token::Sign(sign)) => format!("'{sign}'"),
        };
        Error::new(self.place(), format!("expected {what}, found {found}"))
    }

    /// The sign, taken if it comes next.
    pub fn take_sign(&mut self, sign: char) -> bool {
        let found = self.peek() == Some(&Token::Sign(sign));
        if found {
            self.skip();
        }
        found
    }

    pub fn sign(&mut self, sign: char) -> Result<(), Error> {
        if self.take_sign(sign) {
            Ok(())
        } else {
            Err(self.expected(&format!("'{sign}'")))
        }
    }

    pub fn finish(&self) -> Result<(), Error> {
        if self.words.is_empty() {
            Ok(())
        } else {
            Err(self.expected("the end of the line"))
        }
    }

    /// What is written as a number; `what` says in a message what it is.
    pub fn expression(&mut self, what: &str) -> Result<Expression, Error> {
        self.signs = SIGNS;
        self.level(0, what)
    }

    /// The binary signs, the weakest first.
    const LEVELS: [&'static [char]; 6] =
        [&['|'], &['^'], &['&'], &['<', '>'], &['+', '-'], &['*', '/']];

    /// Signs of this level and stronger ones.
    fn level(&mut self, level: usize, what: &str) -> Result<Expression, Error> {
        let signs = match Self::LEVELS.get(level) {
            Some(signs) => *signs,
            None => return self.operand(what),
        };
        let mut left = self.level(level + 1, what)?;
        while let Some(Token::Sign(sign)) = self.peek() {
            if !signs.contains(sign) {
                break;
            }
            self.operator()?;
            let right = self.level(level + 1, "a number or a name")?;
            let place = left.place;
            left = Expression { place, node: Node::Binary(*sign, Box::new(left), Box::new(right)) };
        }
        Ok(left)
    }

    /// Takes a sign or a parenthesis, if there are not too many.
    fn operator(&mut self) -> Result<(), Error> {
        self.signs = self.signs.checked_sub(1).ok_or_else(|| {
            self.expected(&format!("no more than {SIGNS} signs and parentheses in a number"))
        })?;
        self.skip();
        Ok(())
    }

    /// A number, a name, `$`, a character, or one of these behind a sign or in
    /// parentheses.
    fn operand(&mut self, what: &str) -> Result<Expression, Error> {
        let place = self.place();
        let node = match self.peek() {
            Some(Token::Number(number)) => Node::Number(*number),
            Some(Token::Name(name)) => Node::Name(name.clone()),
            Some(Token::Here) => Node::Here,
            Some(Token::Text(text)) if text.chars().count() == 1 => {
                Node::Number(text.chars().map(|c| i64::from(u32::from(c))).sum())
            }
            Some(Token::Sign(sign @ ('-' | '+' | '~'))) => {
                self.operator()?;
                let operand = self.operand("a number or a name")?;
                return Ok(Expression { place, node: Node::Unary(*sign, Box::new(operand)) });
            }
            Some(Token::Sign('(')) => {
                self.operator()?;
                let inner = self.level(0, "a number or a name")?;
                self.sign(')')?;
                return Ok(inner);
            }
            _ => return Err(self.expected(what)),
        };
        self.skip();
        Ok(Expression { place, node })
    }
}

/// What a name stands for.
#[derive(Clone, Debug)]
pub enum Meaning {
    /// `NAME equ EXPRESSION`; `$` in it is that place of that table.
    Equals(Expression, Position),
    /// A label.
    Label(Position),
}

/// A place in a table: how many bytes are before it, and where the table lies
/// in memory. The table of an `otir` lies nowhere, so that its places count
/// from 0.
#[derive(Clone, Debug, Default)]
pub struct Position {
    pub base: Option<Rc<Expression>>,
    pub offset: usize,
}

/// The names of a session.
#[derive(Default)]
pub struct Names {
    meanings: HashMap<String, (Place, Meaning)>,
    values: HashMap<String, i64>,
}

impl Names {
    pub fn define(&mut self, name: &str, place: Place, meaning: Meaning) -> Result<(), Error> {
        match self.meanings.insert(name.to_string(), (place, meaning)) {
            None => Ok(()),
            Some((Place::At { line, .. }, _)) => {
                let message = format!("expected a new name: '{name}' is defined in line {line}");
                Err(Error::new(place, message))
            }
            Some(_) => Err(Error::new(place, format!("expected a new name, found '{name}'"))),
        }
    }

    /// The value, with `$` at that position.
    pub fn value(&mut self, expression: &Expression, here: &Position) -> Result<i64, Error> {
        self.evaluate(expression, here, DEPTH)
    }

    /// The value between two bounds; `what` says in a message what it is.
    pub fn within(
        &mut self,
        expression: &Expression,
        here: &Position,
        (low, high): (i64, i64),
        what: &str,
    ) -> Result<i64, Error> {
        let value = self.value(expression, here)?;
        if (low..=high).contains(&value) {
            Ok(value)
        } else {
            let message = format!("expected {what} from {low} to {high}, found {value}");
            Err(Error::new(expression.place, message))
        }
    }

    fn position(&mut self, position: &Position, depth: usize) -> Result<i64, Error> {
        let base = match &position.base {
            Some(base) => self.evaluate(base, &Position::default(), depth)?,
            None => 0,
        };
        Ok(base.saturating_add(position.offset as i64))
    }

    fn evaluate(
        &mut self,
        expression: &Expression,
        here: &Position,
        depth: usize,
    ) -> Result<i64, Error> {
        let place = expression.place;
        let value = match &expression.node {
            Node::Number(number) => Some(*number),
            Node::Here => Some(self.position(here, depth)?),
            Node::Name(name) => Some(self.name(name, place, depth)?),
            Node::Unary(sign, operand) => {
                let operand = self.evaluate(operand, here, depth)?;
                match sign {
                    '-' => operand.checked_neg(),
                    '~' => Some(!operand),
                    _ => Some(operand),
                }
            }
            Node::Binary(sign, left, right) => {
                let left = self.evaluate(left, here, depth)?;
                let right = self.evaluate(right, here, depth)?;
                binary(*sign, left, right)
            }
        };
        value.ok_or_else(|| {
            Error::new(place, "expected a sum whose value is a number up to 64 bits")
        })
    }

    fn name(&mut self, name: &str, place: Place, depth: usize) -> Result<i64, Error> {
        if let Some(value) = self.values.get(name) {
            return Ok(*value);
        }
        let deeper = depth.checked_sub(1).ok_or_else(|| {
            let message =
                format!("expected a number: '{name}' is defined by itself, or by too many names");
            Error::new(place, message)
        })?;
        let value = match self.meanings.get(name).cloned() {
            Some((_, Meaning::Equals(expression, here))) => {
                self.evaluate(&expression, &here, deeper)?
            }
            Some((_, Meaning::Label(position))) => self.position(&position, deeper)?,
            None => {
                let message = format!("expected a number or a defined name, found '{name}'");
                return Err(Error::new(place, message));
            }
        };
        self.values.insert(name.to_string(), value);
        Ok(value)
    }
}

fn binary(sign: char, left: i64, right: i64) -> Option<i64> {
    match sign {
        '+' => left.checked_add(right),
        '-' => left.checked_sub(right),
        '*' => left.checked_mul(right),
        '/' => left.checked_div(right),
        '&' => Some(left & right),
        '|' => Some(left | right),
        '^' => Some(left ^ right),
        '<' => left.checked_mul(1_i64.checked_shl(u32::try_from(right).ok().filter(|n| *n < 63)?)?),
        _ => left.checked_shr(u32::try_from(right).ok()?),
    }
}

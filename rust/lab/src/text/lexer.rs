//! The words and numbers of a line of a text session.

use crate::source::{Error, Place};

#[derive(Clone, PartialEq, Eq, Debug)]
pub enum Token {
    Number(i64),
    /// A keyword, a name or a label.
    Name(String),
    /// Between quotes.
    Text(String),
    /// `$` that no hex digit follows: the place in the table.
    Here,
    /// One of `, : + - * / & | ^ ~ ( ) =`, `<` for `<<` and `>` for `>>`.
    Sign(char),
}

/// A token and the column where it begins, from 1.
#[derive(Clone, PartialEq, Eq, Debug)]
pub struct Word {
    pub token: Token,
    pub column: u32,
}

/// The largest number that is read: no clock count is larger.
const MOST: i64 = 0xFFFF_FFFF;

fn starts_name(c: char) -> bool {
    c.is_ascii_alphabetic() || c == '_' || c == '.'
}

fn in_name(c: char) -> bool {
    starts_name(c) || c.is_ascii_digit()
}

/// The words of a line up to its comment, and the column behind the last.
pub fn words(line: &str, number: u32) -> Result<(Vec<Word>, u32), Error> {
    let mut cursor = Cursor { characters: line.chars().collect(), at: 0, line: number };
    let mut words = Vec::new();
    let mut end = 1;
    loop {
        while cursor.peek().map_or(false, char::is_whitespace) {
            cursor.at += 1;
        }
        let column = cursor.column();
        match cursor.peek() {
            None | Some(';') => return Ok((words, end)),
            Some(first) => words.push(Word { token: cursor.token(first)?, column }),
        }
        end = cursor.column();
    }
}

struct Cursor {
    characters: Vec<char>,
    at: usize,
    line: u32,
}

impl Cursor {
    fn peek(&self) -> Option<char> {
        self.characters.get(self.at).copied()
    }

    fn column(&self) -> u32 {
        self.at as u32 + 1
    }

    fn error(&self, column: u32, message: impl std::fmt::Display) -> Error {
        Error::new(Place::At { line: self.line, column }, message)
    }

    /// The characters from here on that fit, taken.
    fn take(&mut self, fits: impl Fn(char) -> bool) -> String {
        let rest = &self.characters[self.at..];
        let taken: String = rest.iter().copied().take_while(|c| fits(*c)).collect();
        self.at += taken.chars().count();
        taken
    }

    fn token(&mut self, first: char) -> Result<Token, Error> {
        let second = self.characters.get(self.at + 1).copied();
        match first {
            '$' if second.map_or(false, |c| c.is_ascii_hexdigit()) => self.number(1, 16),
            '$' => {
                self.at += 1;
                Ok(Token::Here)
            }
            '%' => self.number(1, 2),
            '0' if matches!(second, Some('x' | 'X')) => self.number(2, 16),
            '0'..='9' => self.number(0, 10),
            '"' | '\'' => self.quoted(first),
            c if starts_name(c) => Ok(Token::Name(self.take(in_name))),
            '<' | '>' if second == Some(first) => {
                self.at += 2;
                Ok(Token::Sign(first))
            }
            c if ",:+-*/&|^~()=".contains(c) => {
                self.at += 1;
                Ok(Token::Sign(c))
            }
            c => {
                let expected = "expected a word, a number, a sign or a comment by ';'";
                Err(self.error(self.column(), format!("{expected}, found '{c}'")))
            }
        }
    }

    /// A number behind its prefix; `_` may part its digits.
    fn number(&mut self, prefix: usize, radix: u32) -> Result<Token, Error> {
        let column = self.column();
        self.at += prefix;
        let digits_column = self.column();
        let digits = self.take(|c| c.is_ascii_alphanumeric() || c == '_');
        let kind = match radix {
            2 => "binary",
            16 => "hex",
            _ => "decimal",
        };
        let mut value: i64 = 0;
        let mut any = false;
        for (digit_column, character) in (digits_column..).zip(digits.chars()) {
            if character == '_' {
                continue;
            }
            let digit = character.to_digit(radix).ok_or_else(|| {
                let hint = if radix == 10 { " (hex is written $1F or 0x1F)" } else { "" };
                let message = format!("expected a {kind} digit, found '{character}'{hint}");
                self.error(digit_column, message)
            })?;
            any = true;
            value = value * i64::from(radix) + i64::from(digit);
            if value > MOST {
                return Err(self.error(column, format!("expected a number up to {MOST}")));
            }
        }
        if any {
            Ok(Token::Number(value))
        } else {
            Err(self.error(digits_column, format!("expected {kind} digits")))
        }
    }

    fn quoted(&mut self, quote: char) -> Result<Token, Error> {
        let column = self.column();
        self.at += 1;
        let text = self.take(|c| c != quote);
        if self.peek().is_none() {
            return Err(self.error(column, format!("expected {quote} at the end of this text")));
        }
        self.at += 1;
        Ok(Token::Text(text))
    }
}

//! A file that was read, places in it, and messages that point to them.

use std::fmt;

/// Where something stands in a source.
#[derive(Clone, Copy, PartialEq, Eq, Debug)]
pub enum Place {
    /// In text or hex: line and column, both from 1, columns in characters.
    At { line: u32, column: u32 },
    /// In a binary session: the byte, from 0.
    Byte(u64),
}

/// A source's name and, of text or hex, its lines: for messages.
#[derive(Clone, Debug, Default)]
pub struct Source {
    name: String,
    lines: Vec<String>,
}

impl Source {
    /// Text or hex.
    pub fn of_text(name: &str, text: &str) -> Source {
        Source { name: name.to_string(), lines: text.lines().map(str::to_string).collect() }
    }

    /// A binary session, which has no lines to show.
    pub fn of_bytes(name: &str) -> Source {
        Source { name: name.to_string(), lines: Vec::new() }
    }

    /// What a message says of a place: file, line and column, then the
    /// message, then the line with a caret below it.
    pub fn message(&self, place: Place, message: &str) -> String {
        match place {
            Place::Byte(byte) => format!("{}: byte {byte}: {message}", self.name),
            Place::At { line, column } => {
                let shown =
                    self.lines.get((line as usize).saturating_sub(1)).map_or("", String::as_str);
                let margin = line.to_string().len();
                // Tabs are kept, so that the caret stands where the line's
                // own tabs put it.
                let before: String = shown
                    .chars()
                    .take((column as usize).saturating_sub(1))
                    .map(|c| if c == '\t' { '\t' } else { ' ' })
                    .collect();
                format!(
                    "{}:{line}:{column}: {message}\n {line} | {shown}\n {:margin$} | {before}^",
                    self.name, ""
                )
            }
        }
    }
}

/// Why a source can't be taken, and where.
#[derive(Clone, PartialEq, Eq, Debug)]
pub struct Error {
    pub place: Place,
    pub message: String,
}

impl Error {
    pub fn new(place: Place, message: impl fmt::Display) -> Error {
        Error { place, message: message.to_string() }
    }
}

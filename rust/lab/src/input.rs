//! Reads a session from a file or standard input, in any of its three forms.

use crate::record::Session;
use crate::source::Source;
use crate::{bytes, text};
use std::fs::{self, File};
use std::io::{self, Read};
use std::path::Path;

/// How a session is written.
#[derive(Clone, Copy, PartialEq, Eq, Debug)]
pub enum Form {
    Text,
    Hex,
    Binary,
}

/// The name of a file that stands for standard input.
pub const STANDARD_INPUT: &str = "-";

/// The form that a file most likely has. A text has no control characters
/// but tabs and line ends; hex begins with a digit or a comment by `#`, and a
/// text begins with neither.
pub fn form_of(name: &str, content: &[u8]) -> Form {
    if Path::new(name).extension().map_or(false, |extension| extension == "hex") {
        return Form::Hex;
    }
    let control = |byte: &u8| *byte < b' ' && !b"\t\n\r\x0C".contains(byte);
    let text = match std::str::from_utf8(content) {
        Ok(text) if !content.iter().any(control) => text,
        _ => return Form::Binary,
    };
    match text.trim_start().chars().next() {
        Some(first) if first.is_ascii_digit() || first == '#' => Form::Hex,
        Some(_) => Form::Text,
        // No bytes at all: a session without its version.
        None => Form::Hex,
    }
}

/// The session in a file, with what messages about it need; or a message.
pub fn read(name: &str, form: Option<Form>) -> Result<(Source, Session), String> {
    let mut content = Vec::new();
    let reading = if name == STANDARD_INPUT {
        io::stdin().lock().read_to_end(&mut content)
    } else {
        File::open(name).and_then(|mut file| file.read_to_end(&mut content))
    };
    reading.map_err(|error| format!("{name}: {error}"))?;
    let form = form.unwrap_or_else(|| form_of(name, &content));
    let folder = Path::new(name).parent().unwrap_or_else(|| Path::new(""));
    let files = |file: &str| {
        let path = folder.join(file);
        // No more than is of use: one byte more tells that it is too long.
        let mut content = Vec::new();
        File::open(&path)
            .and_then(|file| file.take(MOST_FILE).read_to_end(&mut content))
            .map_err(|error| format!("{}: {error}", path.display()))?;
        Ok(content)
    };
    session(name, form, &content, &files)
}

/// One more than the bytes of memory.
const MOST_FILE: u64 = 65_537;

/// The session in this content; or a message.
pub fn session(
    name: &str,
    form: Form,
    content: &[u8],
    files: text::Files,
) -> Result<(Source, Session), String> {
    if form == Form::Binary {
        return Ok((Source::of_bytes(name), bytes::binary_session(content)));
    }
    let text = std::str::from_utf8(content)
        .map_err(|error| format!("{name}: byte {}: expected text in UTF-8", error.valid_up_to()))?;
    let source = Source::of_text(name, text);
    let read = match form {
        Form::Hex => bytes::hex_session(text),
        _ => text::session(text, files),
    };
    match read {
        Ok(session) => Ok((source, session)),
        Err(error) => Err(source.message(error.place, &error.message)),
    }
}

/// Writes a file, or standard output for `-`.
pub fn write(name: &str, content: &[u8]) -> Result<(), String> {
    let written = if name == STANDARD_INPUT {
        io::Write::write_all(&mut io::stdout().lock(), content)
    } else {
        fs::write(name, content)
    };
    written.map_err(|error| format!("{name}: {error}"))
}

//! Text sessions: reads the language that Z80 programmers paste their tables
//! into, and answers the session's records and checks.
//!
//! A line is a statement, a comment by `;`, or both; a label may stand before
//! it. `otir PORT` and `mem ADDRESS:` begin a table, and the `db` and `dw`
//! lines below it belong to it, up to the next other statement. Names may be
//! used before they are defined.

mod expression;
mod lexer;

use crate::record::{Expect, Item, Record, Session, Step, MEMORY_RECORD};
use crate::source::{Error, Place};
use crate::words::WARNINGS;
use expression::{Expression, Meaning, Names, Position, Words};
use lexer::Token;
use std::rc::Rc;

/// The statements, for the help of every command. (The first line is not
/// indented: a backslash at a line's end takes the blanks behind it too.)
pub const LANGUAGE: &str = "\
The text language:
  out PORT, BYTE, ..       write bytes to a port
  otir PORT                write the bytes of the table that follows
  in PORT [, COUNT]        read a port, once or COUNT times
  mem ADDRESS: BYTE, ..    put bytes into memory; db and dw lines may follow
  mem ADDRESS: file \"NAME\" the bytes of a file, beside the session
  run CLOCKS               let clocks pass
  run until done           let the fewest clocks pass that end the block
  expect byte BYTE, ..     the last reads, as many as these, gave these bytes
  expect refused NUMBER    the last write, read or run was refused so; 0: accepted
  expect warning KIND      the last write's: operation, timing, mode or none
  expect memory ADDRESS: BYTE, ..
  expect counts BUS HELD CPU
  expect floor NUMBER      the CPU has one of any so many clocks in a row; 0: no claim
  [LABEL] db BYTE, ..      bytes of a table, also \"TEXT\"
  [LABEL] dw WORD, ..      words of a table, low byte first
  NAME equ NUMBER          gives a number a name; NAME = NUMBER too
Numbers: $1F or 0x1F hex, %101 binary, 31 decimal, 'A'; names and labels; + - * /
& | ^ ~ << >> and parentheses. $ alone is the place in the table: an address in a
table of mem, counted from 0 in one of otir. A comment goes from ; to the line's end.";

/// The most records that a text may come to.
const MOST_RECORDS: usize = 4_000_000;
/// The most reads of one `in`.
const MOST_READS: i64 = 65_536;
const BYTE: (i64, i64) = (-128, 255);
const WORD: (i64, i64) = (-32_768, 65_535);
const ADDRESS: (i64, i64) = (0, 65_535);
/// The floors that the library answers.
const FLOOR: (i64, i64) = (0, 65);
const MEMORY: usize = 65_536;

/// What a `mem` line's file holds, by its name, or why it can't be read.
pub type Files<'a> = &'a dyn Fn(&str) -> Result<Vec<u8>, String>;

/// The session that a text describes.
pub fn session(text: &str, files: Files) -> Result<Session, Error> {
    let mut reader = Reader { files, statements: Vec::new(), names: Names::default() };
    for (number, line) in (1..).zip(text.lines()) {
        let (words, end) = lexer::words(line, number)?;
        reader.line(Words::new(&words, number, end))?;
    }
    reader.end_table()?;
    let Reader { statements, names, .. } = reader;
    let mut writer = Writer { names, items: Vec::new(), calls: 0, reads: 0, writes: 0 };
    for (place, statement) in statements {
        writer.statement(place, statement)?;
    }
    Ok(Session { items: writer.items, fault: None })
}

// ---- Reading -------------------------------------------------------------

/// A part of a table, and how many bytes it has.
enum Part {
    Byte(Expression),
    Word(Expression),
    Text(Place, Vec<u8>),
}

impl Part {
    fn length(&self) -> usize {
        match self {
            Part::Byte(_) => 1,
            Part::Word(_) => 2,
            Part::Text(_, bytes) => bytes.len(),
        }
    }
}

/// Bytes as they are written: those of a table, or of a line.
#[derive(Default)]
struct Table {
    parts: Vec<Part>,
    length: usize,
}

impl Table {
    fn add(&mut self, part: Part) {
        self.length += part.length();
        self.parts.push(part);
    }
}

enum Statement {
    Out { port: Expression, table: Table },
    Otir { port: Expression, table: Table },
    In { port: Expression, count: Option<Expression> },
    Mem { address: Rc<Expression>, table: Table },
    Run { clocks: Expression },
    RunUntilDone,
    ExpectBytes(Table),
    ExpectRefused(Expression),
    ExpectWarning(u8),
    ExpectMemory { address: Expression, table: Table },
    ExpectCounts([Expression; 3]),
    ExpectFloor(Expression),
}

struct Reader<'a> {
    files: Files<'a>,
    statements: Vec<(Place, Statement)>,
    names: Names,
}

/// A word by which a statement begins, whatever its letters' case.
fn keyword(token: Option<&Token>) -> Option<&'static str> {
    const KEYWORDS: [(&str, &str); 13] = [
        ("db", "db"),
        ("defb", "db"),
        ("defm", "db"),
        ("dw", "dw"),
        ("defw", "dw"),
        ("equ", "equ"),
        ("out", "out"),
        ("otir", "otir"),
        ("in", "in"),
        ("mem", "mem"),
        ("run", "run"),
        ("expect", "expect"),
        ("file", "file"),
    ];
    match token {
        Some(Token::Name(name)) => {
            let found = KEYWORDS.iter().find(|(written, _)| name.eq_ignore_ascii_case(written));
            found.map(|(_, keyword)| *keyword)
        }
        Some(Token::Sign('=')) => Some("equ"),
        _ => None,
    }
}

/// The next word is this one, whatever its letters' case; it is taken.
fn take_word(words: &mut Words, word: &str) -> bool {
    let found = matches!(words.peek(), Some(Token::Name(name)) if name.eq_ignore_ascii_case(word));
    if found {
        words.skip();
    }
    found
}

impl Reader<'_> {
    fn line(&mut self, mut words: Words) -> Result<(), Error> {
        let place = words.place();
        let mut name = None;
        if let (Some(Token::Name(first)), None) = (words.peek(), keyword(words.peek())) {
            name = Some(first);
            words.skip();
            words.take_sign(':');
        }
        let word = keyword(words.peek());
        if let (Some(name), Some("equ")) = (name, word) {
            words.skip();
            let value = words.expression("a number")?;
            words.finish()?;
            let here = self.here().unwrap_or_default();
            return self.names.define(name, place, Meaning::Equals(value, here));
        }
        if let Some(name) = name {
            if !matches!(word, None | Some("db" | "dw")) {
                return Err(words.expected("db, dw, equ or nothing behind a name"));
            }
            let here = self.here().ok_or_else(|| {
                let expected =
                    "expected a statement, or 'otir PORT' or 'mem ADDRESS:' above a label";
                Error::new(place, format!("{expected}, found '{name}'"))
            })?;
            self.names.define(name, place, Meaning::Label(here))?;
        }
        match word {
            Some(word @ ("db" | "dw")) => {
                words.skip();
                self.table_line(place, &mut words, word)?;
            }
            Some(word) => {
                words.skip();
                let statement = self.statement(word, &mut words)?;
                self.end_table()?;
                self.statements.push((place, statement));
            }
            None if words.peek().is_none() => {}
            None if name.is_some() => return Err(words.expected("db, dw or equ behind a name")),
            None => return Err(words.expected("a statement, a label or a comment by ';'")),
        }
        words.finish()
    }

    /// The table that `db` lines go to.
    fn table(&mut self) -> Option<&mut Table> {
        match self.statements.last_mut() {
            Some((_, Statement::Otir { table, .. } | Statement::Mem { table, .. })) => Some(table),
            _ => None,
        }
    }

    /// The place in the table that a label has.
    fn here(&self) -> Option<Position> {
        match self.statements.last() {
            Some((_, Statement::Otir { table, .. })) => {
                Some(Position { base: None, offset: table.length })
            }
            Some((_, Statement::Mem { address, table })) => {
                Some(Position { base: Some(address.clone()), offset: table.length })
            }
            _ => None,
        }
    }

    /// The statement before the next has its table.
    fn end_table(&mut self) -> Result<(), Error> {
        match self.statements.last() {
            Some((place, Statement::Otir { table, .. } | Statement::Mem { table, .. }))
                if table.length == 0 =>
            {
                Err(Error::new(
                    *place,
                    "expected a table: db or dw lines, or bytes behind 'mem ADDRESS:'",
                ))
            }
            _ => Ok(()),
        }
    }

    fn table_line(&mut self, place: Place, words: &mut Words, word: &str) -> Result<(), Error> {
        let table = self.table().ok_or_else(|| {
            Error::new(place, format!("expected 'otir PORT' or 'mem ADDRESS:' above {word}"))
        })?;
        loop {
            table.add(part(words, word == "dw")?);
            if !words.take_sign(',') {
                return Ok(());
            }
        }
    }

    fn statement(&self, word: &str, words: &mut Words) -> Result<Statement, Error> {
        match word {
            "out" => {
                let port = words.expression("a port number")?;
                words.sign(',')?;
                Ok(Statement::Out { port, table: bytes(words)? })
            }
            "otir" => {
                let port = words.expression("a port number")?;
                Ok(Statement::Otir { port, table: Table::default() })
            }
            "in" => {
                let port = words.expression("a port number")?;
                let count = if words.take_sign(',') {
                    Some(words.expression("how many reads")?)
                } else {
                    None
                };
                Ok(Statement::In { port, count })
            }
            "mem" => {
                let address = Rc::new(words.expression("an address")?);
                words.sign(':')?;
                let table = match (words.peek(), keyword(words.peek())) {
                    (None, _) => Table::default(),
                    (_, Some("file")) => self.file(words)?,
                    _ => bytes(words)?,
                };
                Ok(Statement::Mem { address, table })
            }
            "run" if take_word(words, "until") => {
                if take_word(words, "done") {
                    Ok(Statement::RunUntilDone)
                } else {
                    Err(words.expected("'done'"))
                }
            }
            "run" => Ok(Statement::Run { clocks: words.expression("clocks or 'until done'")? }),
            "expect" => expect(words),
            _ => Err(words.expected(&format!("a statement before '{word}'"))),
        }
    }

    fn file(&self, words: &mut Words) -> Result<Table, Error> {
        words.skip();
        let place = words.place();
        let name = match words.peek() {
            Some(Token::Text(name)) => name,
            _ => return Err(words.expected("the name of a file in quotes")),
        };
        words.skip();
        let fault = |message: String| Error::new(place, message);
        let bytes = (self.files)(name).map_err(|why| fault(format!("expected a file: {why}")))?;
        if bytes.is_empty() || bytes.len() > MEMORY {
            let length = bytes.len();
            return Err(fault(format!("expected a file of 1 to {MEMORY} bytes, found {length}")));
        }
        let mut table = Table::default();
        table.add(Part::Text(place, bytes));
        Ok(table)
    }
}

/// A byte, a text or, if words are wanted, a word.
fn part(words: &mut Words, word: bool) -> Result<Part, Error> {
    let place = words.place();
    match (words.peek(), words.second()) {
        // A character may be a part of a sum; a text is none.
        (Some(Token::Text(text)), None | Some(Token::Sign(','))) if !word && !text.is_empty() => {
            words.skip();
            if !text.is_ascii() {
                return Err(Error::new(place, "expected ASCII characters in a text"));
            }
            Ok(Part::Text(place, text.clone().into_bytes()))
        }
        _ if word => Ok(Part::Word(words.expression("a word")?)),
        _ => Ok(Part::Byte(words.expression("a byte")?)),
    }
}

/// One byte at least, with commas between.
fn bytes(words: &mut Words) -> Result<Table, Error> {
    let mut table = Table::default();
    loop {
        table.add(part(words, false)?);
        if !words.take_sign(',') {
            return Ok(table);
        }
    }
}

fn expect(words: &mut Words) -> Result<Statement, Error> {
    if take_word(words, "byte") || take_word(words, "bytes") {
        return Ok(Statement::ExpectBytes(bytes(words)?));
    }
    if take_word(words, "refused") {
        return Ok(Statement::ExpectRefused(words.expression("a refusal number")?));
    }
    if take_word(words, "warning") {
        let named = WARNINGS.iter().find(|(name, _)| take_word(words, name));
        let (_, warning) =
            named.ok_or_else(|| words.expected("'operation', 'timing', 'mode' or 'none'"))?;
        return Ok(Statement::ExpectWarning(*warning));
    }
    if take_word(words, "memory") {
        let address = words.expression("an address")?;
        words.sign(':')?;
        return Ok(Statement::ExpectMemory { address, table: bytes(words)? });
    }
    if take_word(words, "counts") {
        let mut count = |what| {
            let count = words.expression(what);
            words.take_sign(',');
            count
        };
        let (bus, held) = (count("bus clocks")?, count("held clocks")?);
        let cpu = words.expression("CPU clocks")?;
        return Ok(Statement::ExpectCounts([bus, held, cpu]));
    }
    if take_word(words, "floor") {
        return Ok(Statement::ExpectFloor(words.expression("a floor")?));
    }
    Err(words.expected("'byte', 'refused', 'warning', 'memory', 'counts' or 'floor'"))
}

// ---- Making records ------------------------------------------------------

struct Writer {
    names: Names,
    items: Vec<Item>,
    /// Writes, reads and grants so far, and the reads and the writes among
    /// them: a check looks back on them.
    calls: usize,
    reads: usize,
    writes: usize,
}

impl Writer {
    fn statement(&mut self, place: Place, statement: Statement) -> Result<(), Error> {
        match statement {
            Statement::Out { port, table } | Statement::Otir { port, table } => {
                let port = self.number(&port, ADDRESS, "a port number")? as u16;
                for (place, byte) in self.bytes(&table, &None)? {
                    self.call(place, Step::Record(Record::Write { port, byte }))?;
                    self.writes += 1;
                }
            }
            Statement::In { port, count } => {
                let port = self.number(&port, ADDRESS, "a port number")? as u16;
                let count = match count {
                    Some(count) => self.number(&count, (1, MOST_READS), "a number of reads")?,
                    None => 1,
                };
                for _ in 0..count {
                    self.call(place, Step::Record(Record::Read { port }))?;
                    self.reads += 1;
                }
            }
            Statement::Mem { address, table } => {
                let first = self.number(&address, ADDRESS, "an address")? as u16;
                let bytes = self.bytes(&table, &Some(address))?;
                let mut next = first;
                for part in bytes.chunks(MEMORY_RECORD) {
                    let bytes = part.iter().map(|(_, byte)| *byte).collect();
                    self.item(place, Step::Record(Record::Memory { address: next, bytes }))?;
                    next = next.wrapping_add(part.len() as u16);
                }
            }
            Statement::Run { clocks } => {
                let most = i64::from(u32::MAX);
                let clocks = self.number(&clocks, (0, most), "a number of clocks")? as u32;
                self.call(place, Step::Record(Record::Grant { clocks }))?;
            }
            Statement::RunUntilDone => self.call(place, Step::UntilDone)?,
            Statement::ExpectBytes(table) => {
                let bytes = self.plain_bytes(&table)?;
                if bytes.len() > self.reads {
                    let (wanted, reads) = (bytes.len(), self.reads);
                    let message = format!("expected {wanted} reads above this line, found {reads}");
                    return Err(Error::new(place, message));
                }
                self.item(place, Step::Expect(Expect::Bytes(bytes)))?;
            }
            Statement::ExpectRefused(number) => {
                let number = self.number(&number, (0, 255), "a refusal number")? as u8;
                if self.calls == 0 {
                    let message = "expected an out, otir, in or run above this line";
                    return Err(Error::new(place, message));
                }
                self.item(place, Step::Expect(Expect::Refused(number)))?;
            }
            Statement::ExpectWarning(warning) => {
                if self.writes == 0 {
                    let message = "expected an out or otir above this line";
                    return Err(Error::new(place, message));
                }
                self.item(place, Step::Expect(Expect::Warning(warning)))?;
            }
            Statement::ExpectMemory { address, table } => {
                let address = self.number(&address, ADDRESS, "an address")? as u16;
                let bytes = self.plain_bytes(&table)?;
                self.item(place, Step::Expect(Expect::Memory { address, bytes }))?;
            }
            Statement::ExpectCounts(counts) => {
                let mut values = [0; 3];
                for (value, count) in values.iter_mut().zip(&counts) {
                    *value = self.number(count, (0, i64::MAX), "a number of clocks")? as u64;
                }
                self.item(place, Step::Expect(Expect::Counts(values)))?;
            }
            Statement::ExpectFloor(floor) => {
                let floor = self.number(&floor, FLOOR, "a floor")? as u32;
                self.item(place, Step::Expect(Expect::Floor(floor)))?;
            }
        }
        Ok(())
    }

    fn item(&mut self, place: Place, step: Step) -> Result<(), Error> {
        if self.items.len() >= MOST_RECORDS {
            let message = format!("expected no more than {MOST_RECORDS} records in a text");
            return Err(Error::new(place, message));
        }
        self.items.push(Item { place, step });
        Ok(())
    }

    fn call(&mut self, place: Place, step: Step) -> Result<(), Error> {
        self.calls += 1;
        self.item(place, step)
    }

    /// A number that has no place in a table.
    fn number(
        &mut self,
        number: &Expression,
        bounds: (i64, i64),
        what: &str,
    ) -> Result<i64, Error> {
        self.names.within(number, &Position::default(), bounds, what)
    }

    /// The bytes of a table that lies there in memory, or nowhere.
    fn bytes(
        &mut self,
        table: &Table,
        base: &Option<Rc<Expression>>,
    ) -> Result<Vec<(Place, u8)>, Error> {
        let mut bytes = Vec::with_capacity(table.length);
        for part in &table.parts {
            let here = Position { base: base.clone(), offset: bytes.len() };
            match part {
                Part::Byte(byte) => {
                    let value = self.names.within(byte, &here, BYTE, "a byte")?;
                    bytes.push((byte.place, value as u8));
                }
                Part::Word(word) => {
                    let value = self.names.within(word, &here, WORD, "a word")? as u16;
                    bytes.extend(value.to_le_bytes().map(|byte| (word.place, byte)));
                }
                Part::Text(place, text) => bytes.extend(text.iter().map(|byte| (*place, *byte))),
            }
        }
        Ok(bytes)
    }

    fn plain_bytes(&mut self, table: &Table) -> Result<Vec<u8>, Error> {
        Ok(self.bytes(table, &None)?.into_iter().map(|(_, byte)| byte).collect())
    }
}

#[cfg(test)]
mod tests {
    use super::*;

    /// Line and column of a text's error, and its message.
    fn error(content: &str) -> (u32, u32, String) {
        let files = |_: &str| Err("nowhere".to_string());
        match session(content, &files) {
            Err(Error { place: Place::At { line, column }, message }) => (line, column, message),
            other => panic!("{other:?}"),
        }
    }

    #[test]
    fn errors_name_their_place_and_what_was_expected() {
        let cases: [(&str, u32, u32, &str); 33] = [
            ("run", 1, 4, "expected clocks or 'until done', found the end of the line"),
            ("run until dawn", 1, 11, "expected 'done', found 'dawn'"),
            ("run 4294967296", 1, 5, "expected a number up to 4294967295"),
            ("run -1", 1, 5, "expected a number of clocks from 0 to 4294967295, found -1"),
            ("out $6B", 1, 8, "expected ',', found the end of the line"),
            ("out $6B,", 1, 9, "expected a byte, found the end of the line"),
            ("out $16B0B, 1", 1, 5, "expected a port number from 0 to 65535, found 92939"),
            ("out $6B, 12AB", 1, 12, "expected a decimal digit, found 'A' (hex is written $1F or 0x1F)"),
            ("out %12, 1", 1, 7, "expected a binary digit, found '2'"),
            ("out 0x, 1", 1, 7, "expected hex digits"),
            ("in $6B, 0", 1, 9, "expected a number of reads from 1 to 65536, found 0"),
            ("in $6B 2", 1, 8, "expected the end of the line, found the number 2"),
            ("otir $6B\n\nrun 1", 1, 1, "expected a table: db or dw lines, or bytes behind 'mem ADDRESS:'"),
            ("otir $6B", 1, 1, "expected a table: db or dw lines, or bytes behind 'mem ADDRESS:'"),
            ("; table\n  db 1", 2, 3, "expected 'otir PORT' or 'mem ADDRESS:' above db"),
            ("label", 1, 1, "expected a statement, or 'otir PORT' or 'mem ADDRESS:' above a label, found 'label'"),
            ("otir 1\nlabel 5", 2, 7, "expected db, dw or equ behind a name, found the number 5"),
            ("a equ b\nrun a", 1, 7, "expected a number or a defined name, found 'b'"),
            ("a equ 1\na equ 2", 2, 1, "expected a new name: 'a' is defined in line 1"),
            ("run 1 ?", 1, 7, "expected a word, a number, a sign or a comment by ';', found '?'"),
            ("mem 0: \"ab", 1, 8, "expected \" at the end of this text"),
            ("mem 0: file \"x\"", 1, 13, "expected a file: nowhere"),
            ("mem 0: file x", 1, 13, "expected the name of a file in quotes, found 'x'"),
            ("expect byte 1", 1, 1, "expected 1 reads above this line, found 0"),
            ("expect refused 3", 1, 1, "expected an out, otir, in or run above this line"),
            ("in $6B\nexpect warning none", 2, 1, "expected an out or otir above this line"),
            ("expect warning", 1, 15, "expected 'operation', 'timing', 'mode' or 'none', found the end of the line"),
            ("expect warning 2", 1, 16, "expected 'operation', 'timing', 'mode' or 'none', found the number 2"),
            ("expect floor", 1, 13, "expected a floor, found the end of the line"),
            ("expect floor 66", 1, 14, "expected a floor from 0 to 65, found 66"),
            ("expect floor none", 1, 14, "expected a number or a defined name, found 'none'"),
            ("expect nothing", 1, 8, "expected 'byte', 'refused', 'warning', 'memory', 'counts' or 'floor', found 'nothing'"),
            ("run 1/0", 1, 5, "expected a sum whose value is a number up to 64 bits"),
        ];
        for (content, line, column, message) in cases {
            assert_eq!(error(content), (line, column, message.to_string()), "{content}");
        }
    }

    #[test]
    fn names_that_go_round_and_sums_without_end_are_errors() {
        assert!(error("a equ b\nb equ a\nrun a").2.contains("is defined by itself"));
        let deep = format!("run {}1{}", "(".repeat(100_000), ")".repeat(100_000));
        assert!(error(&deep).2.contains("no more than 32 signs and parentheses"));
        let long = format!("run 1{}", "+1".repeat(100_000));
        assert!(error(&long).2.contains("no more than 32 signs and parentheses"));
        let chain: String =
            (0..1_000).map(|n| format!("a{n} equ a{}+a{}\n", n + 1, n + 1)).collect();
        assert!(error(&(chain + "run a0")).2.contains("by too many names"));
        assert!(error(&"in $6B, 65536\n".repeat(100)).2.contains("no more than 4000000 records"));
    }
}

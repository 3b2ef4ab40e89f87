//! `lab text`: a session as text, with what each line does as a comment.

use crate::record::{Expect, Record, Session, Step};
use crate::run::answer_in_words;
use crate::trace::{Answer, Trace};
use crate::words;
use std::io::{self, Write};

/// Bytes on a line of a table.
const ROW: usize = 16;
/// Where comments begin.
const COMMENT: usize = 40;

/// Writes the text of a session in which every `run until done` is resolved.
pub fn text(session: &Session, out: &mut dyn Write) -> io::Result<()> {
    let mut trace = Trace::brief();
    let mut written = Writes::default();
    for item in &session.items {
        match &item.step {
            Step::Record(record) => {
                let answer = trace.step(record, &mut |_| ());
                if let Record::Write { port, byte } = record {
                    written.add(out, *port, *byte, &answer)?;
                    continue;
                }
                written.finish(out)?;
                match record {
                    Record::Memory { address, bytes } => memory(out, *address, bytes)?,
                    Record::Read { port } => {
                        let read = format!("in {}", port_number(*port));
                        let byte =
                            answer.reply.byte.map_or(String::new(), |b| format!("{b:02X}, "));
                        line(out, &read, &(byte + &answer_in_words(record, &answer)))?;
                    }
                    Record::Grant { clocks } => grant(out, *clocks, &answer)?,
                    Record::Write { .. } => {}
                }
            }
            Step::Expect(expect) => {
                written.finish(out)?;
                check(out, expect)?;
            }
            Step::UntilDone => {}
        }
    }
    written.finish(out)?;
    if let Some(fault) = &session.fault {
        writeln!(out, "; here the session ends: {}", words::fault(fault.number))?;
    }
    Ok(())
}

fn line(out: &mut dyn Write, statement: &str, comment: &str) -> io::Result<()> {
    writeln!(out, "{statement:<COMMENT$}; {comment}")
}

/// With its high byte if this is not 0.
fn port_number(port: u16) -> String {
    if port > 0xFF {
        format!("${port:04X}")
    } else {
        format!("${port:02X}")
    }
}

fn bytes_listed(bytes: &[u8]) -> String {
    let listed: Vec<String> = bytes.iter().map(|byte| format!("${byte:02X}")).collect();
    listed.join(", ")
}

fn memory(out: &mut dyn Write, address: u16, bytes: &[u8]) -> io::Result<()> {
    if bytes.len() <= ROW {
        return writeln!(out, "mem ${address:04X}: {}", bytes_listed(bytes));
    }
    writeln!(out, "mem ${address:04X}:")?;
    for row in bytes.chunks(ROW) {
        writeln!(out, "    db {}", bytes_listed(row))?;
    }
    Ok(())
}

fn grant(out: &mut dyn Write, clocks: u32, answer: &Answer) -> io::Result<()> {
    let (was, is) = (&answer.before.clocks, &answer.after.clocks);
    let (bus, held, cpu) = (is.bus - was.bus, is.held - was.held, is.cpu - was.cpu);
    let running = if answer.after.core.enabled { "the DMA runs on" } else { "the DMA is disabled" };
    let comment = format!("{bus} bus, {held} held, {cpu} CPU; {running}");
    line(out, &format!("run {clocks}"), &comment)
}

fn check(out: &mut dyn Write, expect: &Expect) -> io::Result<()> {
    match expect {
        Expect::Bytes(bytes) => writeln!(out, "expect byte {}", bytes_listed(bytes)),
        Expect::Refused(number) => writeln!(out, "expect refused {number}"),
        Expect::Warning(warning) => {
            writeln!(out, "expect warning {}", words::warning_name(*warning))
        }
        Expect::Memory { address, bytes } => {
            writeln!(out, "expect memory ${address:04X}: {}", bytes_listed(bytes))
        }
        Expect::Counts([bus, held, cpu]) => writeln!(out, "expect counts {bus} {held} {cpu}"),
        Expect::Floor(floor) => writeln!(out, "expect floor {floor}"),
    }
}

/// An `out` line under way: a register's byte and its parameters.
#[derive(Default)]
struct Writes {
    port: u16,
    bytes: Vec<u8>,
    comments: Vec<String>,
    /// The next byte is a parameter of this line.
    open: bool,
}

impl Writes {
    fn add(&mut self, out: &mut dyn Write, port: u16, byte: u8, answer: &Answer) -> io::Result<()> {
        let accepted = answer.reply.number == 0;
        if !(self.open && accepted && port == self.port) {
            self.finish(out)?;
        }
        self.port = port;
        self.bytes.push(byte);
        if accepted {
            self.comments.extend(words::write(answer, byte).set);
        } else {
            self.comments.push(answer_in_words(&Record::Write { port, byte }, answer));
        }
        self.open = accepted && answer.after.core.pending != 0;
        Ok(())
    }

    fn finish(&mut self, out: &mut dyn Write) -> io::Result<()> {
        let Writes { port, bytes, comments, .. } = std::mem::take(self);
        if bytes.is_empty() {
            return Ok(());
        }
        let statement = format!("out {}, {}", port_number(port), bytes_listed(&bytes));
        line(out, &statement, &comments.join("; "))
    }
}

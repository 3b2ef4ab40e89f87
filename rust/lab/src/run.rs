//! `lab run`: the bench's lines and, beside them, what they mean; and at the
//! end what the session came to.

use crate::advice::{Advice, Advisor};
use crate::check;
use crate::record::{Item, Record, Session, Step};
use crate::source::Source;
use crate::trace::{
    fault_line, last_line, Answer, Event, Move, Reply, Trace, WithoutCpu, TOLD_ENDS,
};
use crate::words::{self, grouped, many};
use std::fmt;
use std::io::{self, Write};
use zxndma::warning;

/// Moves, block ends and lines of bytes that are shown, unless all are. A
/// brief trace tells as many singly.
const FIRST: u64 = TOLD_ENDS;
/// Bytes on a line.
const ROW: usize = 16;
/// Before what belongs to the record above.
const INDENT: &str = "                 ";
/// Columns of a paragraph, with what stands before it.
const WIDTH: usize = 100;

/// What is shown.
#[derive(Clone, Copy, PartialEq, Eq, Debug)]
pub enum Detail {
    /// The bench's lines only.
    Lines,
    /// The first moves of each grant, and the first lines of bytes.
    First,
    /// All moves and bytes.
    All,
}

/// What is told of a session.
#[derive(Clone, Copy, PartialEq, Eq, Debug)]
pub struct Telling {
    pub detail: Detail,
    /// Unless only lines are told.
    pub advice: bool,
}

/// What a session came to, apart from what was written.
#[derive(Clone, Copy, PartialEq, Eq, Debug, Default)]
pub struct Outcome {
    pub failed_checks: usize,
    pub fault: bool,
}

/// Runs a session, in which every `run until done` is resolved, and writes
/// what it does.
pub fn run(
    source: &Source,
    session: &Session,
    telling: Telling,
    out: &mut dyn Write,
) -> io::Result<Outcome> {
    let detail = telling.detail;
    let mut trace = if detail == Detail::All { Trace::default() } else { Trace::brief() };
    let mut replies: Vec<Reply> = Vec::new();
    let mut outcome = Outcome::default();
    let mut warned = Records::default();
    let mut advised = Advised::new(telling.advice);
    for (at, item) in session.items.iter().enumerate() {
        match &item.step {
            Step::Record(record) => {
                let number = replies.len() + 1;
                let answer = match detail {
                    Detail::Lines => {
                        let answer = trace.step(record, &mut |_| ());
                        writeln!(out, "{}", answer.reply.line())?;
                        answer
                    }
                    _ => {
                        let mut watch = |event: &Event| advised.event(event);
                        let answer =
                            record_in_words(&mut trace, record, number, detail, &mut watch, out)?;
                        advised.record(number, record, &answer, &session.items[at + 1..], out)?;
                        answer
                    }
                };
                if answer.reply.warning != warning::NONE {
                    warned.add(number);
                }
                replies.push(answer.reply);
            }
            Step::Expect(expect) => {
                if let Some(failure) = check::failure(expect, &trace, &replies) {
                    outcome.failed_checks += 1;
                    if detail != Detail::Lines {
                        let message = source.message(item.place, &failure);
                        writeln!(out, "FAILED {message}")?;
                    }
                }
            }
            Step::UntilDone => {}
        }
    }
    outcome.fault = session.fault.is_some();
    let line = match &session.fault {
        Some(fault) => fault_line(fault.number),
        None => last_line(&trace.device().clocks),
    };
    if detail == Detail::Lines {
        writeln!(out, "{line}")?;
        return Ok(outcome);
    }
    let told = match &session.fault {
        Some(fault) => words::fault(fault.number),
        None => "the end: bus, held and CPU clocks",
    };
    writeln!(out, "{:>5}  {line:<8}  {told}", "")?;
    if let Some(fault) = &session.fault {
        let message = source.message(fault.place, "the session ends here");
        message.lines().try_for_each(|line| writeln!(out, "{INDENT}{line}"))?;
    }
    summary(&trace, detail, out)?;
    if warned.count > 0 {
        writeln!(out, "Discouraged values, at {warned}.")?;
    }
    advised.end(&trace, out)?;
    let checks = session.items.iter().filter(|item| matches!(item.step, Step::Expect(_))).count();
    if checks > 0 {
        let failed = outcome.failed_checks;
        writeln!(out, "Checks: {} held, {failed} failed.", checks - failed)?;
    }
    Ok(outcome)
}

// ---- Records -------------------------------------------------------------

fn row(out: &mut dyn Write, number: usize, reply: &Reply, words: &str) -> io::Result<()> {
    writeln!(out, "{number:>5}  {:<8}  {words}", reply.line())
}

/// What a record did, in words; of a grant how many clocks.
pub fn answer_in_words(record: &Record, answer: &Answer) -> String {
    let Answer { reply, before, after } = answer;
    if reply.number != 0 {
        return refused(record, reply.number);
    }
    match record {
        Record::Write { byte, .. } => words::write(answer, *byte).to_string(),
        Record::Read { .. } => words::read(before, after, reply.byte.unwrap_or(0)),
        Record::Grant { clocks } => many(u64::from(*clocks), "clock"),
        Record::Memory { address, bytes } => {
            format!("{} at {address:04X}", many(bytes.len() as u64, "byte"))
        }
    }
}

fn refused(record: &Record, number: u8) -> String {
    let what = match record {
        Record::Write { port, byte } => format!("{byte:02X} to port {port:04X}"),
        Record::Read { port } => format!("read of port {port:04X}"),
        Record::Grant { clocks } => many(u64::from(*clocks), "clock"),
        Record::Memory { .. } => "memory".to_string(),
    };
    format!("{what} refused: {}", words::refusal(number))
}

/// Takes a record and writes its row. A grant's row comes before what its
/// clocks bring, which `watch` is told too.
fn record_in_words(
    trace: &mut Trace,
    record: &Record,
    number: usize,
    detail: Detail,
    watch: &mut dyn FnMut(&Event),
    out: &mut dyn Write,
) -> io::Result<Answer> {
    if !matches!(record, Record::Grant { .. }) {
        let answer = trace.step(record, &mut |_| ());
        row(out, number, &answer.reply, &answer_in_words(record, &answer))?;
        if let Some(floor) = words::floor(&answer) {
            writeln!(out, "{INDENT}{floor}")?;
        }
        return Ok(answer);
    }
    let before = *trace.device();
    let mut grant = Grant::new(out, detail);
    let answer = trace.step(record, &mut |event| {
        watch(&event);
        match event {
            Event::Record { reply, .. } => {
                let answer = Answer { reply, before, after: before };
                grant.write(|out| row(out, number, &reply, &answer_in_words(record, &answer)));
            }
            _ => grant.event(&event),
        }
    });
    let (was, is) = (before.clocks, answer.after.clocks);
    grant.finish([is.bus - was.bus, is.held - was.held, is.cpu - was.cpu])?;
    Ok(answer)
}

/// Tells what the clocks of a grant bring, as it comes.
struct Grant<'a> {
    out: &'a mut dyn Write,
    /// The first failure to write, which ends the telling.
    written: io::Result<()>,
    /// Moves and block ends that may still be shown.
    moves_left: u64,
    ends_left: u64,
    hidden_moves: u64,
    hidden_ends: u64,
    last_hidden: Option<Move>,
    without_cpu: WithoutCpu,
}

impl<'a> Grant<'a> {
    fn new(out: &'a mut dyn Write, detail: Detail) -> Grant<'a> {
        let left = if detail == Detail::All { u64::MAX } else { FIRST };
        Grant {
            out,
            written: Ok(()),
            moves_left: left,
            ends_left: left,
            hidden_moves: 0,
            hidden_ends: 0,
            last_hidden: None,
            without_cpu: WithoutCpu::default(),
        }
    }

    fn write(&mut self, write: impl FnOnce(&mut dyn Write) -> io::Result<()>) {
        if self.written.is_ok() {
            self.written = write(self.out);
        }
    }

    fn event(&mut self, event: &Event) {
        match event {
            Event::Span(span) => self.without_cpu.add(span),
            Event::Move(moved) if self.moves_left > 0 => {
                self.moves_left -= 1;
                let moved = move_in_words(moved);
                self.write(|out| writeln!(out, "{INDENT}{moved}"));
            }
            Event::Move(moved) => {
                self.hidden_moves += 1;
                self.last_hidden = Some(*moved);
            }
            Event::Repeated(repeated) => {
                self.hidden_moves += repeated.moves;
                self.last_hidden = Some(repeated.last);
                self.hidden_ends += repeated.blocks;
                self.without_cpu.add_repeated(repeated);
            }
            Event::Restart { clock } => self.end(*clock, "starts again"),
            Event::Disabled { clock } => self.end(*clock, "the DMA is disabled"),
            Event::BlockEnd { .. } | Event::Record { .. } => {}
        }
    }

    fn end(&mut self, clock: u64, then: &str) {
        if self.ends_left == 0 {
            self.hidden_ends += 1;
            return;
        }
        self.ends_left -= 1;
        self.tell_hidden_moves();
        self.write(|out| writeln!(out, "{INDENT}clock {clock}: the block ends; {then}"));
    }

    fn tell_hidden_moves(&mut self) {
        if let Some(last) = self.last_hidden.take() {
            let more = many(self.hidden_moves, "more move");
            self.hidden_moves = 0;
            self.write(|out| writeln!(out, "{INDENT}{more}, the last: {}", move_in_words(&last)));
        }
    }

    fn finish(mut self, [bus, held, cpu]: [u64; 3]) -> io::Result<()> {
        self.tell_hidden_moves();
        if self.hidden_ends > 0 {
            let more = many(self.hidden_ends, "more block end");
            self.write(|out| writeln!(out, "{INDENT}{more}"));
        }
        let counts = counts_in_words(bus, held, cpu, self.without_cpu.longest);
        self.write(|out| writeln!(out, "{INDENT}{counts}"));
        self.written
    }
}

fn counts_in_words(bus: u64, held: u64, cpu: u64, longest: u64) -> String {
    let (bus, held, cpu) = (grouped(bus), grouped(held), grouped(cpu));
    let longest = grouped(longest);
    format!("{bus} bus, {held} held, {cpu} CPU; longest stretch without a CPU clock: {longest}")
}

fn move_in_words(moved: &Move) -> String {
    let Move { clock, from, to, byte } = *moved;
    format!("clock {clock}: {} -> {}: {byte:02X}", words::end(from), words::end(to))
}

// ---- Advice --------------------------------------------------------------

/// Advice as it is told: below the record that it is about, and at the end.
struct Advised {
    /// None if no advice is wanted.
    advisor: Option<Advisor>,
    records: Records,
}

impl Advised {
    fn new(wanted: bool) -> Advised {
        let advisor = if wanted { Some(Advisor::default()) } else { None };
        Advised { advisor, records: Records::default() }
    }

    fn event(&mut self, event: &Event) {
        if let Some(advisor) = &mut self.advisor {
            advisor.event(event);
        }
    }

    fn record(
        &mut self,
        number: usize,
        record: &Record,
        answer: &Answer,
        following: &[Item],
        out: &mut dyn Write,
    ) -> io::Result<()> {
        let advisor = match &mut self.advisor {
            Some(advisor) => advisor,
            None => return Ok(()),
        };
        let advice = advisor.record(record, answer, following);
        if !advice.is_empty() {
            self.records.add(number);
        }
        advice.iter().try_for_each(|advice| paragraph(out, INDENT, advice))
    }

    /// The advice on the session's end, and where there was some before.
    fn end(&mut self, trace: &Trace, out: &mut dyn Write) -> io::Result<()> {
        let advice = self.advisor.as_mut().map_or_else(Vec::new, |advisor| advisor.end(trace));
        advice.iter().try_for_each(|advice| paragraph(out, "", advice))?;
        if self.records.count == 0 {
            return Ok(());
        }
        writeln!(out, "Advice above, at {}.", self.records)
    }
}

/// Records to name at the end: the first ones, and how many there are in all.
#[derive(Default)]
struct Records {
    first: Vec<String>,
    count: usize,
}

impl Records {
    fn add(&mut self, number: usize) {
        self.count += 1;
        if self.count as u64 <= FIRST {
            self.first.push(number.to_string());
        }
    }
}

impl fmt::Display for Records {
    fn fmt(&self, f: &mut fmt::Formatter) -> fmt::Result {
        let s = if self.count == 1 { "" } else { "s" };
        write!(f, "record{s} {}", self.first.join(", "))?;
        match self.count - self.first.len() {
            0 => Ok(()),
            more => write!(f, " and {more} more"),
        }
    }
}

/// Words in lines of `WIDTH` columns, each behind the margin.
fn paragraph(out: &mut dyn Write, margin: &str, advice: &Advice) -> io::Result<()> {
    let mut line = margin.to_string();
    for word in advice.to_string().split(' ') {
        if line.len() > margin.len() {
            if line.len() + 1 + word.len() > WIDTH {
                writeln!(out, "{line}")?;
                line.truncate(margin.len());
            } else {
                line.push(' ');
            }
        }
        line.push_str(word);
    }
    writeln!(out, "{line}")
}

// ---- The end -------------------------------------------------------------

fn summary(trace: &Trace, detail: Detail, out: &mut dyn Write) -> io::Result<()> {
    let (device, totals) = (trace.device(), trace.totals());
    let clocks = &device.clocks;
    let longest = totals.without_cpu.longest;
    writeln!(out)?;
    let counts = counts_in_words(clocks.bus, clocks.held, clocks.cpu, longest);
    writeln!(out, "Clocks: {counts}")?;
    let (moves, ends) = (many(totals.moves, "byte"), many(totals.block_ends, "block end"));
    let restarts = many(totals.restarts, "restart");
    writeln!(out, "Moved: {moves}; {ends}, {restarts}")?;
    memory_written(trace, detail, out)?;
    latches_written(trace, detail, out)?;
    let pending = words::pending_names(device.core.pending);
    if !pending.is_empty() {
        writeln!(out, "Pending: {}", pending.join(", "))?;
    }
    if device.core.enabled {
        writeln!(out, "The DMA still runs: {}", words::transfer(&device.core))
    } else {
        writeln!(out, "The DMA is disabled.")
    }
}

/// The stretches with their bytes.
fn memory_written(trace: &Trace, detail: Detail, out: &mut dyn Write) -> io::Result<()> {
    let stretches = trace.written();
    if stretches.is_empty() {
        return writeln!(out, "Memory: the DMA wrote nothing.");
    }
    writeln!(out, "Memory that the DMA wrote:")?;
    let mut rows = Rows::new(detail);
    for stretch in stretches {
        let bytes = &trace.memory()[stretch.start..stretch.end];
        let (length, changed) = (many(bytes.len() as u64, "byte"), grouped(stretch.changed as u64));
        let (first, last) = (stretch.start, stretch.end - 1);
        rows.title(out, &format!("  {first:04X} to {last:04X}: {length}, {changed} changed"))?;
        for (start, part) in (stretch.start..).step_by(ROW).zip(bytes.chunks(ROW)) {
            rows.row(out, &format!("    {start:04X}: {}", words::hex(part)))?;
        }
    }
    rows.finish(out)
}

/// The writes in their order, those to one latch that follow each other
/// together.
fn latches_written(trace: &Trace, detail: Detail, out: &mut dyn Write) -> io::Result<()> {
    let writes = trace.latch_writes();
    if writes.is_empty() {
        return writeln!(out, "Latches: the DMA wrote none.");
    }
    writeln!(out, "Latches that the DMA wrote, in order:")?;
    let mut rows = Rows::new(detail);
    let mut rest = writes;
    while let Some((address, _)) = rest.first() {
        let run = rest.iter().take_while(|(next, _)| next == address).count();
        let (these, behind) = rest.split_at(run);
        rows.title(out, &format!("  I/O {address:04X}: {}", many(run as u64, "byte")))?;
        for part in these.chunks(ROW) {
            let bytes: Vec<u8> = part.iter().map(|(_, byte)| *byte).collect();
            rows.row(out, &format!("    {}", words::hex(&bytes)))?;
        }
        rest = behind;
    }
    rows.finish(out)?;
    match trace.totals().latch_writes - writes.len() as u64 {
        0 => Ok(()),
        more => writeln!(out, "  and {} that are not kept", many(more, "write")),
    }
}

/// Lines of bytes: the first few, or all.
struct Rows {
    left: u64,
    hidden: u64,
}

impl Rows {
    fn new(detail: Detail) -> Rows {
        Rows { left: if detail == Detail::All { u64::MAX } else { 4 * FIRST }, hidden: 0 }
    }

    /// Comes before a stretch's rows, and only with one of them.
    fn title(&mut self, out: &mut dyn Write, text: &str) -> io::Result<()> {
        if self.left > 0 {
            writeln!(out, "{text}")?;
        }
        Ok(())
    }

    fn row(&mut self, out: &mut dyn Write, text: &str) -> io::Result<()> {
        if self.left == 0 {
            self.hidden += 1;
            return Ok(());
        }
        self.left -= 1;
        writeln!(out, "{text}")
    }

    fn finish(&self, out: &mut dyn Write) -> io::Result<()> {
        match self.hidden {
            0 => Ok(()),
            hidden => writeln!(out, "    and {}; --all shows them", many(hidden, "more line")),
        }
    }
}

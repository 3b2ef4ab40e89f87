//! A program: compares the bench program with the second, `reference.rs`.
//!
//! On random sessions and on stored ones: all bytes of its lines, nothing on
//! standard error, exit status 0. Built by `rustc --edition 2021 -O compare.rs`, from this folder or with
//! its path; `compare --help` says how it is run.

#![forbid(unsafe_code)]

#[path = "generate.rs"]
mod generate;
#[path = "numbers.rs"]
mod numbers;
#[path = "process.rs"]
mod process;
#[path = "program.rs"]
mod program;
#[path = "questions.rs"]
mod questions;
#[path = "reference.rs"]
mod reference;
#[path = "stops.rs"]
mod stops;
#[path = "stored.rs"]
mod stored;
#[path = "waits.rs"]
mod waits;
#[path = "warnings.rs"]
mod warnings;

use generate::Rng;
use numbers::Numbers;
use program::Failure;
use reference::model::Device;
use reference::session::{self, Call, Watch};
use std::process::{ExitCode, Output};
use std::time::{SystemTime, UNIX_EPOCH};
use waits::Waits;
use warnings::Warnings;

const HELP: &str = "\
usage: compare BENCH SEED COUNT [FILE ...]
Runs the program BENCH on sessions and compares what it writes with the lines
of the second program. Prints the seed, what writes in burst waits came to, which
warnings and which bytes close to one came, how many numbers of pending parameters,
and how many lines of each shape.

  BENCH  the bench program: a session on standard input, lines on the output
  SEED   a number, or `date` for the days since 1970-01-01
  COUNT  how many random sessions to make from the seed, 1 or more
  FILE   a stored session in hex; blanks are ignored, # starts a comment

Exit status: 0 all agree; 1 a difference, or the second program stops, which is
shown with the session shortened as far as it still does so, or, with a COUNT of
1000 or more, a shape of line, a case of a write in a wait or of a warning, or a
number of pending parameters that never came; 2 bad arguments, or BENCH or a FILE
can't be used.
";

/// From this many sessions on every shape of line must have come, every case of
/// a write in a wait and of a warning, and every number of pending parameters that
/// is valid.
const ENOUGH: u64 = 1_000;

// ---- Arguments -----------------------------------------------------------

struct Arguments {
    bench: String,
    seed: u64,
    count: u64,
    files: Vec<String>,
}

fn arguments(given: &[&str]) -> Result<Arguments, String> {
    let (bench, seed, count, files) = match *given {
        [bench, seed, count, ref files @ ..] => (bench, seed, count, files),
        _ => return Err(format!("three arguments or more are needed, {} given", given.len())),
    };
    let seed = if seed == "date" { days_since_epoch()? } else { number("SEED", seed)? };
    let count = number("COUNT", count)?;
    if count == 0 {
        return Err("COUNT is 0: nothing would be compared".to_string());
    }
    let files = files.iter().map(|file| file.to_string()).collect();
    Ok(Arguments { bench: bench.to_string(), seed, count, files })
}

fn number(name: &str, given: &str) -> Result<u64, String> {
    given.parse().map_err(|_| format!("{name} is not a number of 64 bits: {given:?}"))
}

fn days_since_epoch() -> Result<u64, String> {
    let since = SystemTime::now().duration_since(UNIX_EPOCH);
    let since = since.map_err(|_| "the system clock stands before 1970".to_string())?;
    Ok(since.as_secs() / (24 * 60 * 60))
}

// ---- One comparison ------------------------------------------------------

/// The program compared, and how a session is written to it.
struct Bench<'a> {
    program: &'a str,
    /// The seed for cutting the session into pieces; none writes it whole.
    pieces: Option<u64>,
}

impl Bench<'_> {
    /// The second program's lines on a session, and what is wrong with the
    /// program's answer to it, if anything is. A second program that stops is
    /// wrong, too.
    fn judge(&self, session: &[u8], watch: Watch) -> Result<(Vec<u8>, Option<String>), Failure> {
        match stops::caught(|| session::run_watched(session, watch)) {
            Ok(expected) => {
                let difference = self.difference(session, &expected)?;
                Ok((expected, difference))
            }
            Err(text) => Ok((Vec::new(), Some(format!("the second program stops: {text}\n")))),
        }
    }

    /// What is wrong with the program's answer to a session, if anything is.
    fn difference(&self, session: &[u8], expected: &[u8]) -> Result<Option<String>, Failure> {
        let pieces = match self.pieces {
            Some(seed) => cut_up(&mut Rng::new(seed), session),
            None => vec![session],
        };
        match process::run(self.program, &pieces) {
            Ok(given) => Ok(faults(expected, &given)),
            Err(error) => Err((2, format!("running {}: {error}", self.program))),
        }
    }
}

/// Pieces of random sizes; in some sessions all of them are of one byte.
fn cut_up<'a>(rng: &mut Rng, session: &'a [u8]) -> Vec<&'a [u8]> {
    // Long sessions are not cut so fine: that would take too long.
    let most = rng.pick(&[1, 2, 5, 50, 5_000]).max(session.len() as u32 / 2_000);
    let mut pieces = Vec::new();
    let mut rest = session;
    while !rest.is_empty() {
        let size = rng.between(1, most) as usize;
        let (piece, behind) = rest.split_at(size.min(rest.len()));
        pieces.push(piece);
        rest = behind;
    }
    pieces
}

fn faults(expected: &[u8], given: &Output) -> Option<String> {
    let mut faults = String::new();
    if expected != given.stdout {
        faults += &first_difference(expected, &given.stdout);
    }
    if !given.stderr.is_empty() {
        faults += &format!("standard error: {}\n", shown(Some(&given.stderr)));
    }
    if !given.status.success() {
        faults += &format!("{}\n", given.status);
    }
    Some(faults).filter(|faults| !faults.is_empty())
}

/// The first line in which the two differ; a line has its line feed with it.
fn first_difference(expected: &[u8], given: &[u8]) -> String {
    let mut wanted = expected.split_inclusive(|&byte| byte == b'\n');
    let mut found = given.split_inclusive(|&byte| byte == b'\n');
    let mut number = 1;
    loop {
        let (wanted, found) = (wanted.next(), found.next());
        if wanted != found {
            return format!("line {number}: expected {}, given {}\n", shown(wanted), shown(found));
        }
        number += 1;
    }
}

/// Bytes as a quoted text, not too much of it.
fn shown(bytes: Option<&[u8]>) -> String {
    match bytes {
        Some(bytes) => format!("{:?}", String::from_utf8_lossy(&bytes[..bytes.len().min(300)])),
        None => "nothing".to_string(),
    }
}

// ---- Shortening ----------------------------------------------------------

/// A session that differs, in parts: the version byte, then each record, the
/// last one perhaps cut short.
struct Differing<'a> {
    bench: Bench<'a>,
    parts: Vec<Vec<u8>>,
    difference: String,
    /// How often the program may still be run.
    tries: usize,
}

fn parts(session: &[u8]) -> Vec<Vec<u8>> {
    let (version, mut rest) = session.split_at(session.len().min(1));
    let mut parts = vec![version.to_vec()];
    while !rest.is_empty() {
        let length = match *rest {
            [high, low, ..] => 2 + usize::from(u16::from_be_bytes([high, low])),
            _ => rest.len(),
        };
        let (part, behind) = rest.split_at(length.min(rest.len()));
        parts.push(part.to_vec());
        rest = behind;
    }
    parts
}

impl Differing<'_> {
    /// Takes the parts instead of those kept, if they still differ.
    fn try_parts(&mut self, parts: Vec<Vec<u8>>) -> Result<bool, Failure> {
        self.tries -= 1;
        let (_, difference) = self.bench.judge(&parts.concat(), &mut |_, _, _, _| {})?;
        let differs = difference.is_some();
        if let Some(difference) = difference {
            self.parts = parts;
            self.difference = difference;
        }
        Ok(differs)
    }

    /// Leaves out parts, from the end on: many at once, then fewer, at last
    /// from every place, since a register goes with its parameters.
    fn drop_parts(&mut self) -> Result<(), Failure> {
        let halves = std::iter::successors(Some(self.parts.len()), |size| Some(size / 2));
        let halves = halves.take_while(|&size| size > 5);
        for size in halves.chain([5, 4, 3, 2, 1]) {
            let step = if size > 5 { size } else { 1 };
            let mut end = self.parts.len();
            while end > 0 && self.tries > 0 {
                let start = end.saturating_sub(size);
                let kept = [&self.parts[..start], &self.parts[end..]].concat();
                end = if self.try_parts(kept)? { start } else { end.saturating_sub(step) };
            }
        }
        Ok(())
    }

    /// Makes one part simpler; says if that could be done.
    fn simplify(&mut self, place: usize) -> Result<bool, Failure> {
        for part in simpler(&self.parts[place]).into_iter().take(self.tries) {
            let mut parts = self.parts.clone();
            parts[place] = part;
            if self.try_parts(parts)? {
                return Ok(true);
            }
        }
        Ok(false)
    }

    fn shorten(&mut self) -> Result<(), Failure> {
        loop {
            let before = self.parts.clone();
            self.drop_parts()?;
            for place in 0..self.parts.len() {
                while self.simplify(place)? {}
            }
            if self.parts == before {
                return Ok(());
            }
        }
    }
}

/// The simpler forms of a record that are worth a try, the simplest first.
fn simpler(part: &[u8]) -> Vec<Vec<u8>> {
    match *part {
        [0, 4, 1, 0, low, byte] => {
            let write = |byte: u32| generate::record(&[1, 0, low, byte as u8]);
            lower(u32::from(byte)).map(write).collect()
        }
        [0, 4, 1, _, low, byte] => vec![generate::record(&[1, 0, low, byte])],
        [0, 3, 2, high, low] if high != 0 => vec![generate::record(&[2, 0, low])],
        [0, 5, 3, b3, b2, b1, b0] => {
            let grant = |clocks: u32| generate::record(&[&[3][..], &clocks.to_be_bytes()].concat());
            lower(u32::from_be_bytes([b3, b2, b1, b0])).map(grant).collect()
        }
        [high, low, ref content @ ..] => {
            let whole = content.len() == usize::from(u16::from_be_bytes([high, low]));
            let shorter = |length: u32| match (&content[..length as usize], whole) {
                (kept, true) => generate::record(kept),
                (kept, false) => [&[high, low][..], kept].concat(),
            };
            lower(content.len() as u32).map(shorter).collect()
        }
        _ => Vec::new(),
    }
}

/// Numbers below one, from 0 up to one less, ever closer.
fn lower(number: u32) -> impl Iterator<Item = u32> {
    let halves = std::iter::successors(Some(number), |less| Some(less / 2));
    halves.take_while(|&less| less > 0).map(move |less| number - less)
}

/// A part in hex, in the form of the stored sessions: the length, the kind,
/// then a grant's clocks, or a port or an address and single bytes.
fn hex(part: &[u8]) -> String {
    let singles = if part.get(2) == Some(&3) { 7 } else { 5 };
    let mut text = String::new();
    for (place, byte) in part.iter().enumerate() {
        if place == 2 || place == 3 || place >= singles {
            text.push(' ');
        }
        text += &format!("{byte:02X}");
    }
    text
}

/// The parts in hex, a line each, up to what one may want to look at.
fn listing(parts: &[Vec<u8>]) -> String {
    const MOST: usize = 300;
    let mut lines: Vec<String> = parts.iter().take(MOST).map(|part| hex(part)).collect();
    if parts.concat().is_empty() {
        lines = vec!["# no byte at all".to_string()];
    } else if parts.len() > MOST {
        lines.push(format!("# and {} records more", parts.len() - MOST));
    }
    lines.join("\n")
}

/// Says what differs, and where; shortens the session first.
fn report(name: &str, session: &[u8], bench: Bench, difference: String) -> Result<String, Failure> {
    let whole = parts(session);
    let records = whole.len() - 1;
    let manner = if bench.pieces.is_some() { "in pieces" } else { "at once" };
    let before = format!("{name}, {records} records, written {manner}, differs:\n{difference}");
    let mut differing = Differing { bench, parts: whole, difference, tries: 2_000 };
    stops::silenced(|| differing.shorten())?;
    let Differing { parts, difference, .. } = differing;
    let (listing, difference) = (listing(&parts), difference.trim_end());
    Ok(format!("{before}shortened:\n\n{listing}\n\nit differs:\n{difference}"))
}

// ---- All comparisons -----------------------------------------------------

/// The shapes that lines can have here: the books never fill (6), and the
/// bench program lends buffers of the right size (4, 5) to a sound device (1).
/// A line has the first of them that it starts with.
const SHAPES: [&str; 13] =
    ["W 0 !", "W 0", "W 2", "W 3", "R 0", "R 2", "R 3", "G 0", "M 0", "B", "S 20", "S 21", "S 22"];

/// What was compared.
#[derive(Default)]
struct Tally {
    lines: usize,
    bytes: usize,
    shapes: [usize; SHAPES.len()],
}

impl Tally {
    fn add(&mut self, lines: &[u8]) {
        self.bytes += lines.len();
        for line in String::from_utf8_lossy(lines).lines() {
            self.lines += 1;
            let shape = SHAPES.iter().position(|shape| line.starts_with(shape));
            self.shapes[shape.expect("a line has one of the shapes")] += 1;
        }
    }

    fn shapes(&self) -> impl Iterator<Item = (&'static str, usize)> {
        SHAPES.into_iter().zip(self.shapes)
    }
}

/// Compares one session; gives the lines on which both agree.
fn compare(name: &str, session: &[u8], bench: Bench, watch: Watch) -> Result<Vec<u8>, Failure> {
    match bench.judge(session, watch)? {
        (_, Some(difference)) => Err((1, report(name, session, bench, difference)?)),
        (expected, None) => Ok(expected),
    }
}

/// What the devices of the sessions came to, in the second program.
struct Watched {
    waits: Waits,
    /// Of each write.
    warnings: Warnings,
    /// After each accepted call.
    numbers: Numbers,
}

impl Watched {
    fn new() -> Watched {
        let (waits, numbers) = (Waits::new(), Numbers::new());
        Watched { waits, warnings: Warnings::of_sessions(), numbers }
    }

    fn count(&mut self, before: &Device, call: Call, number: u8, after: &Device) {
        if let Call::Write { port, byte } = call {
            self.warnings.count(before, port, byte, number);
        }
        if number == 0 {
            self.waits.count(before, call, after);
            self.numbers.count(&after.pending);
        }
    }
}

/// The sessions of the seed. Numbered from 1, so that COUNT reaches a session
/// when it is its number.
fn compare_random(arguments: &Arguments, watched: &mut Watched) -> Result<Tally, Failure> {
    let mut tally = Tally::default();
    for number in 1..=arguments.count {
        let mut rng = Rng::numbered(arguments.seed, number);
        let session = generate::session(&mut rng);
        let pieces = if rng.chance(1, 4) { Some(rng.next()) } else { None };
        let bench = Bench { program: &arguments.bench, pieces };
        let name = format!("session {number} of seed {}", arguments.seed);
        let mut watch = |before: &Device, call, number, after: &Device| {
            watched.count(before, call, number, after);
        };
        tally.add(&compare(&name, &session, bench, &mut watch)?);
    }
    Ok(tally)
}

fn compare_all(arguments: &Arguments) -> Result<String, Failure> {
    for file in &arguments.files {
        let session = stored::session(file).map_err(|text| (2, text))?;
        let bench = Bench { program: &arguments.bench, pieces: None };
        compare(file, &session, bench, &mut |_, _, _, _| {})?;
    }
    // Without the stored ones: what is made has to come to everything alone.
    let mut watched = Watched::new();
    let tally = compare_random(arguments, &mut watched)?;
    let Watched { waits, warnings, numbers } = watched;
    println!("{}", waits.summary("waits"));
    println!("{}", warnings.summary("warnings"));
    println!("{}", numbers.summary("pending parameters"));
    if arguments.count >= ENOUGH {
        if let Some(missing) = waits.missing() {
            return Err((1, format!("no session came to this in a burst wait: {missing}")));
        }
        if let Some(missing) = warnings.missing() {
            return Err((1, format!("no session came to this of a warning: {missing}")));
        }
        if let Some(missing) = numbers.missing() {
            return Err((1, format!("no session came to these pending parameters: {missing}")));
        }
        if let Some((shape, _)) = tally.shapes().find(|&(_, times)| times == 0) {
            return Err((1, format!("no session gave a line of the shape {shape}")));
        }
    }
    let count = arguments.count;
    // Each session's last line is no record's.
    let records = tally.lines as u64 - count;
    let shapes: Vec<String> =
        tally.shapes().map(|(shape, times)| format!("{shape}: {times}")).collect();
    Ok(format!(
        "{} files and {count} sessions agree; the sessions' {records} records, {} bytes; lines {}",
        arguments.files.len(),
        tally.bytes,
        shapes.join(", ")
    ))
}

fn main() -> ExitCode {
    program::main("compare", HELP, |words| {
        let arguments = arguments(words).map_err(program::bad_usage)?;
        println!("seed {}", arguments.seed);
        println!("{}", compare_all(&arguments)?);
        Ok(())
    })
}

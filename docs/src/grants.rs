//! A module: what accepted grants came to, counted by question and answer.
//!
//! Comparing long grants is worth something only if they reach what can go
//! wrong in one. `states.rs` includes it.

#![forbid(unsafe_code)]

use crate::questions::{self, Answers};
use crate::reference::model::{self, Device, Port, SIZE};

// ---- One grant -----------------------------------------------------------

/// An accepted grant.
pub struct Grant {
    before: Device,
    after: Device,
    clocks: u64,
    /// Bytes moved.
    moved: u64,
    restarts: u64,
}

impl Grant {
    pub fn new(before: Device, after: Device, clocks: u32) -> Grant {
        let moved = moved(&before, &after);
        let restarts = restarts(&before, &after, moved);
        Grant { before, after, clocks: u64::from(clocks), moved, restarts }
    }

    /// It takes many slots.
    fn is_long(&self) -> bool {
        self.moved >= 100
    }

    fn ports(&self) -> [Port; 2] {
        [self.before.a, self.before.b]
    }

    fn source_and_destination(&self) -> [Port; 2] {
        let [a, b] = self.ports();
        if self.before.a_to_b {
            [a, b]
        } else {
            [b, a]
        }
    }

    /// The clocks of its slots, where the last one came to its end: the rest
    /// of the slot that was running, then whole ones.
    fn clocks_of_slots(&self) -> u64 {
        let running = self.before.slot;
        let whole = self.moved - u64::from(running.elapsed < running.bus);
        let length = u64::from(model::slot_length(&self.before));
        u64::from(running.length - running.elapsed) + whole * length
    }
}

/// A byte moves on the last clock of a bus time: that of the slot that was
/// running, then those by the registers.
fn moved(before: &Device, after: &Device) -> u64 {
    let clocks = after.clocks.bus - before.clocks.bus;
    let rest = u64::from(before.slot.bus.saturating_sub(before.slot.elapsed));
    match clocks.checked_sub(rest) {
        Some(further) => u64::from(rest > 0) + further / u64::from(model::bus_time(before)),
        None => 0,
    }
}

/// A restart takes a block from the counter; the first one takes all there is,
/// which is more where a write has shortened the block.
fn restarts(before: &Device, after: &Device, moved: u64) -> u64 {
    let block = u64::from(model::block_count(before));
    let counter = u64::from(before.counter);
    match counter + moved - u64::from(after.counter) {
        0 => 0,
        taken => 1 + (taken - counter.max(block)) / block,
    }
}

/// Down, not at all, up.
fn direction(port: &Port) -> i64 {
    match port.step {
        model::DECREMENT => -1,
        model::INCREMENT => 1,
        _ => 0,
    }
}

/// Where in a slot a device is: in the bus time, in a held wait or in a burst
/// wait, or between slots.
pub fn place(device: &Device) -> usize {
    let slot = device.slot;
    match slot.elapsed {
        0 => 3,
        elapsed if elapsed < slot.bus => 0,
        _ => 1 + usize::from(slot.burst),
    }
}

// ---- Questions -----------------------------------------------------------

type Question = questions::Question<Grant>;

const PLACES: &[&str] = &["bus time", "held wait", "burst wait", "between slots"];
const PRESCALERS: &[&str] =
    &["0", "1", "2", "55", "255", "1 in burst", "2 in burst", "55 in burst", "255 in burst"];
const DIRECTIONS: &[&str] = &["- -", "- 0", "- +", "0 -", "0 0", "0 +", "+ -", "+ 0", "+ +"];

/// Of every grant.
const OF_ALL: &[Question] = &[
    ("bytes", &["from 100", "from 1,000", "from 10,000"], bytes),
    ("restarts", &["1 with 100 bytes", "from 2", "from 100"], restarted),
    ("2 bytes, begins in", PLACES, begins),
    ("16 bytes, prescaler", PRESCALERS, prescaler),
    ("100 bytes, the slots after the first differ in", &["bus time", "length", "mode"], differs),
    ("100 bytes, ends in", PLACES, ends),
    ("100 bytes, clocks after the block", &["none", "1", "more"], clocks_after_block),
    ("100 bytes, from and to", &["memory", "memory, I/O", "I/O, memory", "I/O"], from_and_to),
    ("100 bytes, A and B go", DIRECTIONS, directions),
    ("100 bytes, a pointer passes", &["0000", "FFFF"], passes),
    ("100 bytes, the counter comes to", &["65,535", "65,536"], limit),
    ("256 bytes, destination", &["at the source", "1 ahead", "1 behind", "crosses it"], overlap),
];

/// Only of those to devices of any content.
const OF_DEVICES: &[Question] = &[
    ("100 bytes, step code above 3", &["A", "B"], step_code),
    ("clock counts full", &["100 bytes", "2 restarts", "disabled"], counts_full),
    ("100 bytes, a count passes 32 bits", &["bus", "held", "CPU"], passes_32_bits),
    ("1,000,000 clocks", &["enabled", "disabled"], million_clocks),
    ("100 bytes, speed code", &["0", "1", "2", "3"], speed),
];

fn bytes(grant: &Grant) -> Option<usize> {
    [100, 1_000, 10_000].iter().rposition(|&least| grant.moved >= least)
}

fn restarted(grant: &Grant) -> Option<usize> {
    match grant.restarts {
        0 => None,
        1 => grant.is_long().then_some(0),
        2..=99 => Some(1),
        _ => Some(2),
    }
}

fn begins(grant: &Grant) -> Option<usize> {
    (grant.moved > 1).then(|| place(&grant.before))
}

/// A write in a wait may have changed the registers, or a call the speed; the
/// running slot keeps its figures.
fn differs(grant: &Grant) -> Option<usize> {
    let (running, registers) = (grant.before.slot, &grant.before);
    if running.elapsed == 0 || !grant.is_long() {
        return None;
    }
    let different = [
        running.bus != model::bus_time(registers),
        running.length != model::slot_length(registers),
        running.burst != registers.burst,
    ];
    different.iter().position(|&different| different)
}

fn prescaler(grant: &Grant) -> Option<usize> {
    let prescaler = [0, 1, 2, 55, 255].iter().position(|&p| p == grant.before.prescaler)?;
    let burst = prescaler > 0 && grant.before.burst;
    (grant.moved >= 16).then_some(prescaler + if burst { 4 } else { 0 })
}

fn ends(grant: &Grant) -> Option<usize> {
    (grant.is_long() && grant.after.enabled).then(|| place(&grant.after))
}

fn clocks_after_block(grant: &Grant) -> Option<usize> {
    let after = || grant.clocks - grant.clocks_of_slots();
    (grant.is_long() && !grant.after.enabled).then(|| after().min(2) as usize)
}

fn from_and_to(grant: &Grant) -> Option<usize> {
    let [source, destination] = grant.source_and_destination();
    grant.is_long().then_some(2 * usize::from(source.io) + usize::from(destination.io))
}

fn directions(grant: &Grant) -> Option<usize> {
    let [a, b] = grant.ports();
    grant.is_long().then_some((3 * direction(&a) + direction(&b) + 4) as usize)
}

fn passes(grant: &Grant) -> Option<usize> {
    let end = |port: &Port| i64::from(port.pointer) + direction(port) * grant.moved as i64;
    let ends = grant.ports().map(|port| end(&port));
    let past = ends.iter().find(|end| !(0..SIZE as i64).contains(end))?;
    (grant.is_long() && grant.restarts == 0).then_some(usize::from(*past > 0))
}

fn limit(grant: &Grant) -> Option<usize> {
    let limit = [65_535, 65_536].iter().position(|&limit| limit == grant.after.counter)?;
    grant.is_long().then_some(limit)
}

/// Within memory or within latches, as seen by a source that moves.
fn overlap(grant: &Grant) -> Option<usize> {
    let [source, destination] = grant.source_and_destination();
    if grant.moved < 256 || source.io != destination.io {
        return None;
    }
    let up = destination.pointer.wrapping_sub(source.pointer) as i16;
    let ahead = i64::from(up) * direction(&source);
    match direction(&source) * direction(&destination) {
        1 => [0, 1, -1].iter().position(|&distance| distance == ahead),
        -1 => (1..grant.moved as i64).contains(&ahead).then_some(3),
        _ => None,
    }
}

fn step_code(grant: &Grant) -> Option<usize> {
    let port = grant.ports().iter().position(|port| port.step > 3)?;
    grant.is_long().then_some(port)
}

fn counts_full(grant: &Grant) -> Option<usize> {
    let full = model::books_sum(&grant.after) == u128::from(u64::MAX);
    let cases = [grant.is_long(), grant.restarts > 1, !grant.before.enabled && grant.clocks > 0];
    cases.iter().position(|&case| full && case)
}

fn passes_32_bits(grant: &Grant) -> Option<usize> {
    let [before, after] = [grant.before.clocks, grant.after.clocks];
    let counts = [(before.bus, after.bus), (before.held, after.held), (before.cpu, after.cpu)];
    let passed = counts.iter().position(|(before, after)| before >> 32 != after >> 32)?;
    grant.is_long().then_some(passed)
}

fn million_clocks(grant: &Grant) -> Option<usize> {
    (grant.clocks >= 1_000_000).then_some(usize::from(!grant.before.enabled))
}

fn speed(grant: &Grant) -> Option<usize> {
    grant.is_long().then_some(usize::from(grant.before.speed))
}

// ---- All grants ----------------------------------------------------------

/// How often each answer came.
pub struct Grants {
    answers: Answers<Grant>,
    most_bytes: u64,
    most_restarts: u64,
}

impl Grants {
    /// Of devices of any content.
    pub fn of_devices() -> Grants {
        Grants::asked(OF_ALL.iter().chain(OF_DEVICES))
    }

    pub fn of_sessions() -> Grants {
        Grants::asked(OF_ALL.iter())
    }

    fn asked(questions: impl Iterator<Item = &'static Question>) -> Grants {
        Grants { answers: Answers::to(questions), most_bytes: 0, most_restarts: 0 }
    }

    pub fn count(&mut self, grant: &Grant) {
        self.answers.count(grant);
        self.most_bytes = self.most_bytes.max(grant.moved);
        self.most_restarts = self.most_restarts.max(grant.restarts);
    }

    /// The counts as lines.
    pub fn summary(&self, of: &str) -> String {
        let words = format!("states: grants of {}", of);
        let (bytes, restarts) = (self.most_bytes, self.most_restarts);
        let most = format!("{}: at most {} bytes, {} restarts", words, bytes, restarts);
        self.answers.lines(&words) + &most
    }

    /// The first answer that never came, with its question.
    pub fn missing(&self) -> Option<String> {
        self.answers.missing()
    }
}

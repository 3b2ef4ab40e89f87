//! What a timeline says in words, in the terminal and in a picture.

use super::{BlockEnd, Entry, Piece, Run, Tally, Timeline};
use crate::trace::Kind;
use crate::words::{self, grouped, many};

/// Records from one number to another.
pub fn numbers(first: usize, last: usize) -> String {
    if first == last {
        first.to_string()
    } else {
        format!("{first} to {last}")
    }
}

/// Whose a wait is, and how long.
pub fn wait_in_words(piece: &Piece) -> String {
    let whose = if piece.waiting == Kind::Held { "held" } else { "CPU" };
    format!("{} {whose}", grouped(piece.wait))
}

pub fn end_in_words(end: BlockEnd) -> &'static str {
    match end {
        BlockEnd::Restart => "block restarts",
        BlockEnd::Disabled => "block ends, disabled",
    }
}

/// The pieces of a run that are left out.
pub fn slots_in_words(run: &Run) -> [String; 2] {
    let slots = run.folded();
    [many(slots, "such slot"), many(slots * run.piece.clocks(), "clock")]
}

/// What is left out at an `Again` or a `Left`.
pub fn folded_in_words(entry: &Entry) -> Vec<String> {
    match entry {
        Entry::Again { clock, start, period, times, tally, .. } => {
            let (from, to) = (grouped(*start), grouped(start + period));
            let (times, end) = (many(*times, "time"), grouped(clock + tally.clocks()));
            vec![format!("{from} to {to} again,"), format!("{times}, up to {end}")]
        }
        Entry::Left { clock, tally } => left_in_words(*clock, tally),
        Entry::Run(_) | Entry::Access(_) => Vec::new(),
    }
}

fn left_in_words(clock: u64, tally: &Tally) -> Vec<String> {
    let (from, to) = (grouped(clock), grouped(clock + tally.clocks()));
    let records = tally.records.map_or(String::new(), |(first, last)| {
        format!("; records {}, {} refused", numbers(first, last), grouped(tally.refused))
    });
    vec![
        format!("{from} to {to} left out:"),
        format!("{},", counts_in_words(tally.bus, tally.held, tally.cpu)),
        format!("{}{records}", many(tally.moves, "move")),
    ]
}

fn counts_in_words(bus: u64, held: u64, cpu: u64) -> String {
    format!("{} bus, {} held, {} CPU", grouped(bus), grouped(held), grouped(cpu))
}

/// What the whole session came to.
pub fn totals_in_words(timeline: &Timeline) -> [String; 2] {
    let Timeline { clocks, totals, refused, .. } = timeline;
    let (moves, ends) = (many(totals.moves, "byte"), many(totals.block_ends, "block end"));
    let (restarts, refused) = (many(totals.restarts, "restart"), grouped(*refused));
    [
        format!("Clocks: {}", counts_in_words(clocks.bus, clocks.held, clocks.cpu)),
        format!("Moved: {moves}; {ends}, {restarts}; {refused} refused"),
    ]
}

pub fn fault_in_words(fault: u8) -> String {
    format!("fault {fault}: {}", words::fault(fault))
}

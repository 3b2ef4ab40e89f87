//! A timeline in the terminal: one slot a row.

use super::words::{
    end_in_words, fault_in_words, folded_in_words, numbers, slots_in_words, totals_in_words,
    wait_in_words,
};
use super::{Access, Call, Calls, Entry, Piece, Run, Timeline, TO_SCALE};
use crate::trace::Kind;
use crate::words::grouped;
use std::io::{self, Write};

const LEGEND: &str = "\
Who had the bus, one slot a row, a sign a clock; in front the clocks passed.
# bus   * bus, and a byte moves   = held   . CPU
| records: port accesses and memory   ! refusals among them
";

/// Where clocks go on that are folded and belong to a slot of earlier rows.
const BEHIND_BUS: u64 = 8;

/// Writes it.
pub fn text(timeline: &Timeline, out: &mut dyn Write) -> io::Result<()> {
    writeln!(out, "{LEGEND}")?;
    let width = grouped(timeline.clock()).len().max(5);
    for entry in &timeline.entries {
        match entry {
            Entry::Run(run) => rows(run, width, out)?,
            Entry::Access(access) => {
                let sign = if access.refused > 0 { '!' } else { '|' };
                let clock = grouped(access.clock);
                for line in broken(&access_in_words(access)) {
                    writeln!(out, "{clock:>width$}  {sign} {line}")?;
                }
            }
            Entry::Again { .. } | Entry::Left { .. } => {
                let folded = folded_in_words(entry).join(" ");
                writeln!(out, "{:>width$}  ({folded})", "..")?;
            }
        }
    }
    if let Some(fault) = timeline.fault {
        let clock = grouped(timeline.clock());
        writeln!(out, "{clock:>width$}  {}", fault_in_words(fault))?;
    }
    writeln!(out)?;
    totals_in_words(timeline).iter().try_for_each(|line| writeln!(out, "{line}"))
}

fn rows(run: &Run, width: usize, out: &mut dyn Write) -> io::Result<()> {
    let row = cells(&run.piece);
    for shown in run.shown() {
        if shown.behind_fold {
            writeln!(out, "{:>width$}  ({})", "..", slots_in_words(run).join(", "))?;
        }
        let end = shown.end.map_or(String::new(), |end| format!("  {}", end_in_words(end)));
        writeln!(out, "{:>width$}  {row}{end}", grouped(shown.clock))?;
    }
    Ok(())
}

/// A sign for each clock, in the columns that their slot gives them.
fn cells(piece: &Piece) -> String {
    let signs = |sign: &str, clocks: u64| sign.repeat(clocks.min(TO_SCALE) as usize);
    let column = if piece.elapsed < TO_SCALE { piece.elapsed } else { BEHIND_BUS };
    let moves = u64::from(piece.moves);
    let bus = signs("#", piece.bus - moves) + &signs("*", moves);
    let wait = if piece.is_folded() {
        format!("[{}]", wait_in_words(piece))
    } else {
        signs(if piece.waiting == Kind::Held { "=" } else { "." }, piece.wait)
    };
    signs(" ", column) + &bus + &wait
}

fn access_in_words(access: &Access) -> Vec<String> {
    let told = |calls: &Calls| {
        let s = if calls.first == calls.last { "" } else { "s" };
        let what = match calls.call {
            Call::Write => format!("write{s}"),
            Call::Read => format!("read{s}"),
            Call::Memory => "memory".to_string(),
            Call::Refused(number) => format!("refused with {number}"),
        };
        format!("{} {what}", numbers(calls.first, calls.last))
    };
    let mut parts: Vec<String> = access.calls.iter().map(told).collect();
    if access.more > 0 {
        let refused = grouped(access.refused);
        let more = grouped(access.more);
        parts.push(format!("{more} more up to {}, {refused} refused of all", access.last));
    }
    parts
}

/// Parts of a list in lines.
fn broken(parts: &[String]) -> Vec<String> {
    let mut lines: Vec<String> = Vec::new();
    for part in parts {
        match lines.last_mut() {
            Some(line) if line.len() + part.len() < TO_SCALE as usize => {
                *line += ", ";
                *line += part;
            }
            _ => lines.push(part.clone()),
        }
    }
    lines
}

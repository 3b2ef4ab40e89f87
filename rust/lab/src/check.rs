//! The checks of a text session: what was found where something else was
//! expected.

use crate::record::Expect;
use crate::trace::{Reply, Trace};
use crate::words;

/// None if the check holds; else what was expected and what was found. The
/// replies are those to all records so far.
pub fn failure(expect: &Expect, trace: &Trace, replies: &[Reply]) -> Option<String> {
    match expect {
        Expect::Bytes(bytes) => reads_failure(replies, bytes),
        Expect::Refused(number) => {
            let last = replies.iter().rev().find(|reply| reply.letter != 'M')?;
            if last.number == *number {
                return None;
            }
            let (found, why) = (last.number, words::refusal(last.number));
            Some(format!("expected {number}, {}; found {found}, {why}", words::refusal(*number)))
        }
        Expect::Warning(warning) => {
            let last = replies.iter().rev().find(|reply| reply.letter == 'W')?;
            if last.warning == *warning {
                return None;
            }
            let name = words::warning_name;
            let refused = match last.number {
                0 => String::new(),
                number => format!(": the write was refused, {}", words::refusal(number)),
            };
            let (expected, found) = (name(*warning), name(last.warning));
            Some(format!("expected warning {expected}, found {found}{refused}"))
        }
        Expect::Memory { address, bytes } => memory_failure(trace.memory(), *address, bytes),
        Expect::Counts(expected) => {
            let clocks = trace.device().clocks;
            let found = [clocks.bus, clocks.held, clocks.cpu];
            if found == *expected {
                return None;
            }
            let counts = |[bus, held, cpu]: [u64; 3]| format!("{bus} {held} {cpu}");
            Some(format!("expected counts {}, found {}", counts(*expected), counts(found)))
        }
        Expect::Floor(expected) => {
            let found = trace.device().cpu_floor();
            if found == *expected {
                return None;
            }
            Some(format!("expected floor {expected}, found {found}"))
        }
    }
}

fn reads_failure(replies: &[Reply], bytes: &[u8]) -> Option<String> {
    let last = replies.iter().rev().filter(|reply| reply.letter == 'R').take(bytes.len());
    let mut found: Vec<&Reply> = last.collect();
    found.reverse();
    if found.iter().map(|reply| reply.byte).eq(bytes.iter().map(|byte| Some(*byte))) {
        return None;
    }
    let answers: Vec<String> = found
        .iter()
        .map(|reply| match reply.byte {
            Some(byte) => format!("{byte:02X}"),
            None => format!("refused with {}", reply.number),
        })
        .collect();
    Some(format!("expected the bytes {}, found {}", words::hex(bytes), answers.join(" ")))
}

fn memory_failure(memory: &[u8], address: u16, bytes: &[u8]) -> Option<String> {
    let at = |offset: usize| (usize::from(address) + offset) % memory.len();
    let found: Vec<u8> = (0..bytes.len()).map(|offset| memory[at(offset)]).collect();
    let first = (0..bytes.len()).find(|offset| found[*offset] != bytes[*offset])?;
    let (wanted, there) = (bytes[first], found[first]);
    let mut text = format!("expected {wanted:02X} at {:04X}, found {there:02X}", at(first));
    if bytes.len() > 1 {
        // About the first difference is enough of a long stretch.
        let shown = first.saturating_sub(7)..(first + 9).min(bytes.len());
        let from = at(shown.start);
        let (expected, found) = (words::hex(&bytes[shown.clone()]), words::hex(&found[shown]));
        text += &format!("; from {from:04X}: expected {expected}, found {found}");
    }
    Some(text)
}

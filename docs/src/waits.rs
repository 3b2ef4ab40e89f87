//! A module: what writes in burst waits did to the block, and what came of it,
//! counted by question and answer.
//!
//! No slot begins with the block finished. If anything could bring that about,
//! it would be a write in a wait: it can bring the block's end to the counter
//! and below it. So such writes must come, and the ends of their slots, and an
//! Enable behind them. `compare.rs` and `states.rs` include it.

#![forbid(unsafe_code)]

use crate::questions::{self, Answers};
use crate::reference::model::{self, Device};
use crate::reference::session::Call;

// ---- One call ------------------------------------------------------------

/// An accepted call, and what was before it on the same device.
struct Step {
    before: Device,
    call: Call,
    after: Device,
    /// In the wait that runs, a write has changed length, mode or counter.
    changed: bool,
    /// Such a wait ended with the block finished, or was dropped so, and the
    /// device has been disabled since then.
    ended: bool,
}

fn is_finished(device: &Device) -> bool {
    device.counter >= model::block_count(device)
}

fn in_burst_wait(device: &Device) -> bool {
    device.enabled && !model::holds_bus(device)
}

/// What the block's end goes by, and the counter.
fn block(device: &Device) -> (u16, bool, u32) {
    (device.length, device.zilog, device.counter)
}

impl Step {
    /// A write in a burst wait that changes length, mode or counter.
    fn changes_block(&self) -> bool {
        let write = matches!(self.call, Call::Write { .. });
        write && in_burst_wait(&self.before) && block(&self.before) != block(&self.after)
    }

    /// The byte of a write that is no parameter.
    fn command(&self) -> Option<u8> {
        match self.call {
            Call::Write { byte, .. } if self.before.pending.next() == 0 => Some(byte),
            _ => None,
        }
    }

    /// By a grant from a wait in which the block was changed: the clocks
    /// granted, and those that its slot had left.
    fn grant_from_changed(&self) -> Option<(u32, u32)> {
        let slot = self.before.slot;
        match self.call {
            Call::Grant { clocks } if self.changed => {
                Some((clocks, u32::from(slot.length - slot.elapsed)))
            }
            _ => None,
        }
    }

    fn ends_changed_slot(&self) -> bool {
        self.grant_from_changed().is_some_and(|(clocks, left)| clocks >= left)
    }

    /// Each slot spends its bus time first.
    fn slots_begun(&self) -> u64 {
        let Device { slot, clocks, .. } = self.before;
        let running = u64::from(slot.bus.saturating_sub(slot.elapsed));
        let further = (self.after.clocks.bus - clocks.bus).saturating_sub(running);
        further.div_ceil(u64::from(model::bus_time(&self.before)))
    }
}

// ---- Questions -----------------------------------------------------------

type Question = questions::Question<Step>;

const QUESTIONS: &[Question] = &[
    (
        "a write finishes the block",
        &[
            "length, counter at the count",
            "length, above",
            "length, count 0",
            "port, at the count",
            "port, count 0",
        ],
        finishes,
    ),
    (
        "a write leaves it finished",
        &["counter at the count", "above", "count 0", "count 0, counter 0"],
        stays_finished,
    ),
    ("a finished block has bytes again", &["length", "port", "Load", "Continue"], takes_back),
    ("counter to 0, block count", &["0", "1", "more"], counter_zeroed),
    ("block finished, clocks end", &["in the wait", "with the slot", "later"], clocks_end),
    (
        "slot ends, block finished",
        &[
            "disabled, counter at the count",
            "disabled, above",
            "disabled, count 0",
            "restarted, at the count",
            "restarted, above",
            "disabled, auto restart and count 0",
        ],
        ends_finished,
    ),
    ("slot ends, block unfinished", &["goes on", "goes on, auto restart"], ends_unfinished),
    (
        "Enable behind that",
        &["counter at the count", "above", "count 0", "unfinished: enabled"],
        enable_behind,
    ),
    ("Disable instead", &["block finished", "unfinished"], dropped),
];

/// How a finished block's counter and count stand.
fn standing(device: &Device) -> usize {
    match model::block_count(device) {
        0 => 2,
        count => usize::from(device.counter > count),
    }
}

fn finishes(step: &Step) -> Option<usize> {
    let turns = step.changes_block() && !is_finished(&step.before) && is_finished(&step.after);
    let standing = standing(&step.after);
    // A port takes one byte from the block: the counter is never above it.
    let by_port = [3, 3, 4][standing];
    let length_changes = step.before.length != step.after.length;
    turns.then_some(if length_changes { standing } else { by_port })
}

fn stays_finished(step: &Step) -> Option<usize> {
    let stays = step.changes_block() && is_finished(&step.before) && is_finished(&step.after);
    let at_0 = model::block_count(&step.after) == 0 && step.after.counter == 0;
    stays.then_some(if at_0 { 3 } else { standing(&step.after) })
}

fn takes_back(step: &Step) -> Option<usize> {
    let turns = step.changes_block() && is_finished(&step.before) && !is_finished(&step.after);
    let by = match step.command() {
        Some(0xCF) => 2,
        Some(0xD3) => 3,
        _ => usize::from(step.before.length == step.after.length),
    };
    turns.then_some(by)
}

fn counter_zeroed(step: &Step) -> Option<usize> {
    let zeroes = step.changes_block() && matches!(step.command(), Some(0xCF | 0xD3));
    zeroes.then(|| model::block_count(&step.after).min(2) as usize)
}

fn clocks_end(step: &Step) -> Option<usize> {
    let (clocks, left) = step.grant_from_changed()?;
    is_finished(&step.before).then_some(match clocks {
        _ if clocks < left => 0,
        _ if clocks == left => 1,
        _ => 2,
    })
}

fn ends_finished(step: &Step) -> Option<usize> {
    let came = match (step.after.enabled, step.before.auto_restart) {
        (false, false) => standing(&step.before),
        (true, _) => 3 + standing(&step.before),
        (false, true) => 5,
    };
    (step.ends_changed_slot() && is_finished(&step.before)).then_some(came)
}

fn ends_unfinished(step: &Step) -> Option<usize> {
    let unfinished = step.ends_changed_slot() && !is_finished(&step.before);
    unfinished.then_some(usize::from(step.before.auto_restart))
}

fn enable_behind(step: &Step) -> Option<usize> {
    let byte = step.command()?;
    let enable = byte == 0x87 || (model::register(byte) == 3 && byte & 0x40 != 0);
    let came = if step.after.enabled { 3 } else { standing(&step.after) };
    (step.ended && enable).then_some(came)
}

fn dropped(step: &Step) -> Option<usize> {
    let drops = step.changed && step.before.enabled && !step.after.enabled;
    let by_write = matches!(step.call, Call::Write { .. });
    (drops && by_write).then(|| usize::from(!is_finished(&step.before)))
}

// ---- All calls -----------------------------------------------------------

/// How often each answer came.
pub struct Waits {
    answers: Answers<Step>,
    slots_begun: u64,
    /// The device that the last call left. Another one has no past.
    last: Device,
    changed: bool,
    ended: bool,
}

impl Waits {
    pub fn new() -> Waits {
        let answers = Answers::to(QUESTIONS.iter());
        Waits { answers, slots_begun: 0, last: model::power_on(), changed: false, ended: false }
    }

    /// An accepted call.
    pub fn count(&mut self, before: &Device, call: Call, after: &Device) {
        let known = *before == self.last;
        let (changed, ended) = (known && self.changed, known && self.ended);
        let step = Step { before: *before, call, after: *after, changed, ended };
        // Elsewhere no question has an answer.
        if in_burst_wait(before) || ended {
            self.answers.count(&step);
        }
        if matches!(call, Call::Grant { .. }) {
            self.slots_begun += step.slots_begun();
        }
        let stopped = changed && !after.enabled && is_finished(before);
        self.ended = !after.enabled && (ended || stopped);
        let goes_on = changed && after.enabled && !step.ends_changed_slot();
        self.changed = goes_on || (step.changes_block() && after.enabled);
        self.last = *after;
    }

    /// The counts as lines, each after the same words.
    pub fn summary(&self, words: &str) -> String {
        let begun =
            format!("{}: {} slots begun, each with a byte to move", words, self.slots_begun);
        self.answers.lines(words) + &begun
    }

    /// The first answer that never came, with its question.
    pub fn missing(&self) -> Option<String> {
        self.answers.missing()
    }
}

//! A module: what calls in place came to, counted by question and answer.
//!
//! Each kind of call must come in place, accepted and refused with each of its
//! numbers, at every place of the host's table, and to devices that stay there
//! for long. `states.rs` includes it.

#![forbid(unsafe_code)]

use crate::grants;
use crate::questions::{self, Answers};
use crate::reference::model::{self, Device};
use crate::speeds::Call;
use crate::table;

// ---- One call ------------------------------------------------------------

/// A call in place, and what it answers.
pub struct Made {
    pub call: Call,
    pub number: u8,
    pub byte: u8,
    pub warning: u8,
    pub before: Device,
    pub after: Device,
    /// The device's place in the table, and its calls there up to this one.
    pub place: usize,
    pub calls: u64,
}

const WRITE: usize = 0;
const READ: usize = 1;
const GRANT: usize = 2;
const SET_SPEED: usize = 3;

impl Made {
    /// As `KINDS` names it.
    fn kind(&self) -> usize {
        match self.call {
            Call::Write { .. } => WRITE,
            Call::Read => READ,
            Call::Grant { .. } => GRANT,
            Call::SetSpeed { .. } => SET_SPEED,
        }
    }

    /// The place of its number among these, if the call is of this kind.
    fn answered(&self, kind: usize, numbers: &[u8]) -> Option<usize> {
        let number = numbers.iter().position(|&number| number == self.number);
        number.filter(|_| self.kind() == kind)
    }

    fn is_accepted(&self, kind: usize) -> bool {
        self.kind() == kind && self.number == 0
    }

    /// A byte moves on the last clock of a bus time: that of the running slot,
    /// or else of the first one that begins.
    fn moves_bytes(&self) -> bool {
        let (slot, spent) = (self.before.slot, self.after.clocks.bus - self.before.clocks.bus);
        let left = if slot.elapsed < slot.bus {
            slot.bus - slot.elapsed
        } else {
            model::bus_time(&self.before)
        };
        spent >= u64::from(left)
    }
}

// ---- Questions -----------------------------------------------------------

type Question = questions::Question<Made>;

const KINDS: &[&str] = &["write", "read", "grant", "set speed"];
const OF_A_PORT: &[&str] = &["accepted", "refused with 2", "refused with 3"];
const IN_SLOTS: &[&str] = &["bus time", "held wait", "burst wait", "between slots", "disabled"];
const IN_A_ROW: &[&str] = &["1st to 9th", "10th to 99th", "100th or later"];

/// Of every call.
const OF_ALL: &[Question] = &[
    ("write", OF_A_PORT, write),
    ("write, warning", &["AA", "timing", "mode"], warning),
    ("read", OF_A_PORT, read),
    ("read gives", &["0", "another byte"], given),
    ("grant", &["of 0 clocks", "that moves bytes", "another one"], grant),
    ("grant begins in", IN_SLOTS, grant_begins),
    ("accepted at", &table::PLACES, accepted_at),
    ("refused at", &table::PLACES, refused_at),
];

/// Only of those with speed calls.
const OF_SPEEDS: &[Question] = &[("set speed", &["accepted", "refused with 7"], set_speed)];

/// Only of those to devices of any content.
const OF_DEVICES: &[Question] = &[
    ("refused with 1", KINDS, refused_with_1),
    ("grant refused with", &["4", "5", "6"], grant_refused),
];

/// Only of those of lists, where the device stays at its place.
const OF_LISTS: &[Question] = &[("call at one place", IN_A_ROW, in_a_row)];

fn write(made: &Made) -> Option<usize> {
    made.answered(WRITE, &[0, 2, 3])
}

fn warning(made: &Made) -> Option<usize> {
    usize::from(made.warning).checked_sub(1)
}

fn read(made: &Made) -> Option<usize> {
    made.answered(READ, &[0, 2, 3])
}

fn given(made: &Made) -> Option<usize> {
    made.is_accepted(READ).then_some(usize::from(made.byte != 0))
}

fn grant(made: &Made) -> Option<usize> {
    made.is_accepted(GRANT).then(|| match made.call {
        Call::Grant { clocks: 0 } => 0,
        _ if made.moves_bytes() => 1,
        _ => 2,
    })
}

fn grant_begins(made: &Made) -> Option<usize> {
    let place = if made.before.enabled { grants::place(&made.before) } else { 4 };
    made.is_accepted(GRANT).then_some(place)
}

fn accepted_at(made: &Made) -> Option<usize> {
    (made.number == 0).then_some(made.place)
}

fn refused_at(made: &Made) -> Option<usize> {
    (made.number != 0).then_some(made.place)
}

fn set_speed(made: &Made) -> Option<usize> {
    made.answered(SET_SPEED, &[0, 7])
}

fn refused_with_1(made: &Made) -> Option<usize> {
    (made.number == 1).then(|| made.kind())
}

fn grant_refused(made: &Made) -> Option<usize> {
    made.answered(GRANT, &[4, 5, 6])
}

fn in_a_row(made: &Made) -> Option<usize> {
    Some(match made.calls {
        0..=9 => 0,
        10..=99 => 1,
        _ => 2,
    })
}

// ---- All calls -----------------------------------------------------------

/// How often each answer came.
pub struct Places {
    answers: Answers<Made>,
}

impl Places {
    /// Of devices of any content.
    pub fn of_devices() -> Places {
        Places { answers: Answers::to(OF_ALL.iter().chain(OF_SPEEDS).chain(OF_DEVICES)) }
    }

    /// Of lists of calls from power on.
    pub fn of_lists() -> Places {
        Places { answers: Answers::to(OF_ALL.iter().chain(OF_SPEEDS).chain(OF_LISTS)) }
    }

    /// Of lists without speed calls.
    pub fn of_sessions() -> Places {
        Places { answers: Answers::to(OF_ALL.iter().chain(OF_LISTS)) }
    }

    pub fn count(&mut self, made: &Made) {
        self.answers.count(made);
    }

    /// The counts as lines, each after the same words.
    pub fn summary(&self, words: &str) -> String {
        self.answers.lines(words).trim_end().to_string()
    }

    /// The first answer that never came, with its question.
    pub fn missing(&self) -> Option<String> {
        self.answers.missing()
    }
}

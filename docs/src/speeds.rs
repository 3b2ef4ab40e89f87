//! A module: what calls that set the speed came to, and what slots did then,
//! counted by question and answer.
//!
//! A new speed must come wherever in a slot a device can be, and slots must begin
//! at every speed, also where their bus time is as long as the prescaler's time
//! or longer. `states.rs` includes it.

#![forbid(unsafe_code)]

use crate::grants;
use crate::questions::{self, Answers};
use crate::reference::model::{self, Device};

// ---- One call ------------------------------------------------------------

#[derive(Clone, Copy)]
pub enum Call {
    SetSpeed { code: u8 },
    Write { byte: u8 },
    Read,
    Grant { clocks: u32 },
}

/// A call that sets the speed, or another one that is accepted, and what was
/// before it on the same device.
struct Step {
    before: Device,
    call: Call,
    number: u8,
    after: Device,
    /// A call has set the speed.
    set: bool,
    /// In the slot that runs, a call has changed it.
    changed: bool,
}

impl Step {
    /// The code of a call that is answered with this number.
    fn code(&self, number: u8) -> Option<u8> {
        match self.call {
            Call::SetSpeed { code } if self.number == number => Some(code),
            _ => None,
        }
    }

    /// A grant takes a new slot through its bus time at least. Gives the bus
    /// time and the length of such slots.
    fn slot_begins(&self) -> Option<(u16, u16)> {
        if !matches!(self.call, Call::Grant { .. }) {
            return None;
        }
        let (bus, length) = (model::bus_time(&self.before), model::slot_length(&self.before));
        let Device { slot, clocks, .. } = self.before;
        let running = u64::from(slot.bus.saturating_sub(slot.elapsed));
        let further = (self.after.clocks.bus - clocks.bus).saturating_sub(running);
        (further >= u64::from(bus)).then_some((bus, length))
    }

    /// The clocks of a grant, and those that the slot has left whose speed was
    /// changed before it.
    fn grant_in_changed(&self) -> Option<(u32, u32)> {
        let slot = self.before.slot;
        match self.call {
            Call::Grant { clocks } if self.changed => {
                Some((clocks, u32::from(slot.length - slot.elapsed)))
            }
            _ => None,
        }
    }
}

/// Where in a slot a device is, or that it is disabled.
fn place(device: &Device) -> usize {
    if device.enabled {
        grants::place(device)
    } else {
        4
    }
}

// ---- Questions -----------------------------------------------------------

type Question = questions::Question<Step>;

const PLACES: &[&str] = &["bus time", "held wait", "burst wait", "between slots", "disabled"];
const FROM_AND_TO: &[&str] = &[
    "0 to 0", "0 to 1", "0 to 2", "0 to 3", "1 to 0", "1 to 1", "1 to 2", "1 to 3", "2 to 0",
    "2 to 1", "2 to 2", "2 to 3", "3 to 0", "3 to 1", "3 to 2", "3 to 3",
];
const BEGUN: &[&str] =
    &["0", "1", "2", "3", "0, prescaler", "1, prescaler", "2, prescaler", "3, prescaler"];
const AGAINST: &[&str] = &["below", "32 and 32", "64 and 64", "64 and 32", "above otherwise"];
const CODES: &[&str] = &["0", "1", "2", "3"];

/// Of every call.
const OF_ALL: &[Question] = &[
    ("set in", PLACES, set_in),
    ("set from and to", FROM_AND_TO, set_from_and_to),
    ("refused with 7, code", &["4", "5", "6 to 254", "255"], refused_code),
    ("refused with 7 in", PLACES, refused_in),
    ("after a call a slot begins at", BEGUN, begun),
    ("a slot begins, bus time and prescaler's time", AGAINST, against),
    ("changed in a slot, clocks end", &["in it", "with it", "later"], clocks_end),
    ("the slot after that differs in", &["bus time", "bus time and length"], differs),
    ("Reset at", CODES, reset),
];

/// Only of those to devices of any content.
const OF_DEVICES: &[Question] = &[
    ("Reset in a burst wait at", CODES, reset_in_wait),
    ("refused with 1, code", &["0 to 3", "4", "5 to 255"], invalid_code),
    ("refused with 1, the device's own", &["0 to 3", "4", "5 to 255"], invalid_own),
];

fn set_in(step: &Step) -> Option<usize> {
    step.code(0).map(|_| place(&step.before))
}

fn set_from_and_to(step: &Step) -> Option<usize> {
    step.code(0).map(|code| 4 * usize::from(step.before.speed) + usize::from(code))
}

fn refused_code(step: &Step) -> Option<usize> {
    step.code(7).map(|code| match code {
        4 => 0,
        5 => 1,
        255 => 3,
        _ => 2,
    })
}

fn refused_in(step: &Step) -> Option<usize> {
    step.code(7).map(|_| place(&step.before))
}

fn begun(step: &Step) -> Option<usize> {
    let with_prescaler = if step.before.prescaler > 0 { 4 } else { 0 };
    step.slot_begins().filter(|_| step.set)?;
    Some(usize::from(step.before.speed) + with_prescaler)
}

fn against(step: &Step) -> Option<usize> {
    let (bus, _) = step.slot_begins()?;
    match (bus, 32 * u16::from(step.before.prescaler)) {
        (_, 0) => None,
        (32, 32) => Some(1),
        (64, 64) => Some(2),
        (64, 32) => Some(3),
        (bus, time) if bus < time => Some(0),
        _ => Some(4),
    }
}

fn clocks_end(step: &Step) -> Option<usize> {
    step.grant_in_changed().map(|(clocks, left)| match clocks {
        _ if clocks < left => 0,
        _ if clocks == left => 1,
        _ => 2,
    })
}

fn differs(step: &Step) -> Option<usize> {
    let (bus, length) = step.slot_begins().filter(|_| step.changed)?;
    let running = step.before.slot;
    (running.bus != bus).then_some(usize::from(running.length != length))
}

fn reset(step: &Step) -> Option<usize> {
    let is_reset = matches!(step.call, Call::Write { byte: 0xC3 });
    let is_command = step.before.pending.next() == 0;
    (is_reset && is_command).then_some(usize::from(step.before.speed))
}

fn reset_in_wait(step: &Step) -> Option<usize> {
    reset(step).filter(|_| step.before.enabled)
}

/// A code that there is, the next one, or another one.
fn kind(code: u8) -> usize {
    usize::from(code.clamp(3, 5) - 3)
}

fn invalid_code(step: &Step) -> Option<usize> {
    step.code(1).map(kind)
}

fn invalid_own(step: &Step) -> Option<usize> {
    step.code(1).map(|_| kind(step.before.speed))
}

// ---- All calls -----------------------------------------------------------

/// How often each answer came.
pub struct Speeds {
    answers: Answers<Step>,
    /// The device that the last call left. Another one has no past.
    last: Device,
    set: bool,
    changed: bool,
}

impl Speeds {
    /// Of devices of any content.
    pub fn of_devices() -> Speeds {
        Speeds::asked(OF_ALL.iter().chain(OF_DEVICES))
    }

    /// Of those that calls from power on lead to.
    pub fn of_lists() -> Speeds {
        Speeds::asked(OF_ALL.iter())
    }

    fn asked(questions: impl Iterator<Item = &'static Question>) -> Speeds {
        let answers = Answers::to(questions);
        Speeds { answers, last: model::power_on(), set: false, changed: false }
    }

    /// A call that sets the speed, or another one that is accepted.
    pub fn count(&mut self, before: &Device, call: Call, number: u8, after: &Device) {
        let known = *before == self.last;
        let (set, changed) = (known && self.set, known && self.changed);
        let step = Step { before: *before, call, number, after: *after, set, changed };
        self.answers.count(&step);
        if number != 0 {
            return;
        }
        let ended = step.grant_in_changed().is_some_and(|(clocks, left)| clocks >= left);
        let changes = after.slot.elapsed > 0 && before.speed != after.speed;
        self.set = set || step.code(0).is_some();
        self.changed = changes || (changed && !ended && after.slot.elapsed > 0);
        self.last = *after;
    }

    /// The counts as lines, each after the same words.
    pub fn summary(&self, words: &str) -> String {
        self.answers.lines(words).trim_end().to_string()
    }

    /// The first answer that never came, with its question.
    pub fn missing(&self) -> Option<String> {
        self.answers.missing()
    }
}

//! A module: stretches without a CPU clock, measured against the floors that
//! devices answer, and what came of it, counted by question and answer.
//!
//! No stretch may be as long as the floor of its device. That says something only
//! if devices with a floor come in every way, and stretches that are as long as
//! may be; and the conditions of a floor are needed only if devices that fail one
//! have longer stretches than any floor. `states.rs` includes it.

#![forbid(unsafe_code)]

use crate::grants;
use crate::questions::{self, Answers};
use crate::reference::model::{self, Device};
use crate::speeds::Call;

/// The least floor that there can be: 2 + 2 clocks on the bus, and one more.
pub const LEAST: u32 = 5;
/// The greatest: 8 x (4 + 4), and one more.
pub const GREATEST: u32 = 65;

// ---- One device ----------------------------------------------------------

/// A device that was asked for its floor.
struct Asked {
    floor: u32,
    /// The condition that it fails, if that is one alone.
    failed: Option<usize>,
}

const CONTINUOUS: usize = 0;
const NO_WAIT: usize = 1;
const RUNNING_CONTINUOUS: usize = 2;
const RUNNING_NO_WAIT: usize = 3;
const NOT_VALID: usize = 4;

/// The one condition that a device fails, if there is one and no other.
fn failed_alone(device: &Device) -> Option<usize> {
    // Without a speed the registers have no slot.
    if device.speed > 3 {
        return None;
    }
    let running = device.slot;
    let runs = running.elapsed > 0;
    let mut failed = [false; 5];
    failed[CONTINUOUS] = !device.burst;
    failed[NO_WAIT] = !registers_wait(device);
    failed[RUNNING_CONTINUOUS] = runs && !running.burst;
    failed[RUNNING_NO_WAIT] = runs && running.length <= running.bus;
    failed[NOT_VALID] = !model::valid(device);
    let first = failed.iter().position(|&failed| failed)?;
    (!failed[first + 1..].contains(&true)).then_some(first)
}

/// The slots that the registers start are longer than their bus time.
fn registers_wait(device: &Device) -> bool {
    model::slot_length(device) > model::bus_time(device)
}

/// Enabled for good, with slots to come that leave the processor no clock: from
/// their first one on there is no CPU clock any more.
pub fn takes_every_clock(device: &Device) -> bool {
    let waits = device.burst && registers_wait(device);
    // In a wait the block can be over, and be one without a byte.
    let goes_on = device.auto_restart && model::block_count(device) > 0;
    device.enabled && goes_on && !waits
}

// ---- One run -------------------------------------------------------------

/// Clocks of a device, which the second program takes singly.
pub struct Run {
    start: Device,
    floor: u32,
    device: Device,
    /// The clocks up to the last one without a CPU clock among them.
    stretch: u32,
    longest: u32,
    /// How often the end of the block disabled the device, and how often the
    /// block started again.
    ends: u32,
    restarts: u32,
}

impl Run {
    /// No clock yet, of a device that answers this floor.
    pub fn of(start: Device, floor: u32) -> Run {
        Run { start, floor, device: start, stretch: 0, longest: 0, ends: 0, restarts: 0 }
    }

    /// The device after the clocks so far.
    pub fn device(&self) -> &Device {
        &self.device
    }

    /// The most clocks in a row without a CPU clock.
    pub fn longest(&self) -> u32 {
        self.longest
    }

    /// The clock counts must have room for them.
    pub fn take(&mut self, memory: &mut [u8], latches: &mut [u8], clocks: u32) {
        for _ in 0..clocks {
            let Device { enabled, counter, clocks, .. } = self.device;
            model::take_clocks(&mut self.device, memory, latches, 1);
            let is_cpu_clock = self.device.clocks.cpu != clocks.cpu;
            self.stretch = if is_cpu_clock { 0 } else { self.stretch + 1 };
            self.longest = self.longest.max(self.stretch);
            self.ends += u32::from(enabled && !self.device.enabled);
            // With a floor a slot's byte has moved before its last clock, on
            // which the counter is put to 0.
            self.restarts += u32::from(self.device.counter < counter);
        }
    }

    /// Among as many clocks in a row as the floor says, if there is one, there
    /// was a CPU clock.
    pub fn keeps_floor(&self) -> Result<(), String> {
        if !self.has_floor() || self.longest < self.floor {
            return Ok(());
        }
        Err(format!(
            "floor {}, but {} clocks in a row without a CPU clock, from {:?}",
            self.floor, self.longest, self.start
        ))
    }

    fn has_floor(&self) -> bool {
        self.floor > 0
    }

    /// The last clock was no CPU clock, and the next one will be none.
    fn is_in_a_stretch(&self) -> bool {
        self.stretch > 0 && model::holds_bus(&self.device)
    }
}

// ---- One entry of a list -------------------------------------------------

/// What comes next on a device with a floor.
struct Entry {
    /// None for an outside change of memory.
    call: Option<Call>,
    number: u8,
    floor: u32,
    /// It comes within a stretch without a CPU clock.
    within: bool,
}

// ---- Questions -----------------------------------------------------------

type OfDevices = questions::Question<Asked>;
type OfRuns = questions::Question<Run>;
type OfEntries = questions::Question<Entry>;

/// Of every device.
const OF_ALL: &[OfDevices] = &[
    ("floor", &["none", "5", "above 5"], floor),
    (
        "none, only because the registers are",
        &["continuous", "without a wait"],
        failed_by_registers,
    ),
];

/// Only of those that have other speeds, too.
const OF_SPEEDS: &[OfDevices] = &[
    ("greatest floor", &["65"], greatest),
    ("none, only because the running slot is", &["without a wait"], failed_by_running),
];

/// Only of those of any content. While a continuous slot runs no byte is
/// written, so that calls don't lead to registers in burst then.
const OF_ANY_CONTENT: &[OfDevices] =
    &[("none, only because", &["the running slot is continuous", "not valid"], failed_by_content)];

/// Of the clocks of devices with a floor.
const OF_FLOORS: &[OfRuns] = &[
    ("clocks from", &["disabled", "between slots", "bus time", "burst wait"], begins),
    ("longest stretch 1 below floor", &["5", "6 to 64", "65"], closest),
    ("running slot's bus time", &["below the registers'", "equal", "above"], against_registers),
    (
        "block ends",
        &["disabled, 1 byte", "disabled, more", "starts again, 1 byte", "starts again, more"],
        block_ends,
    ),
];

/// Of the clocks of devices without one.
const OF_NO_FLOOR: &[OfRuns] = &[(
    "no floor and 66 clocks or more without a CPU clock, only because",
    &["continuous", "without a wait", "running slot continuous", "running slot without a wait"],
    long_without_floor,
)];

/// Of the entries of a list.
const OF_ENTRIES: &[OfEntries] = &[
    ("grants", &["0", "1", "more", "floor - 1", "floor", "above"], granted),
    (
        "within a stretch",
        &[
            "memory changed",
            "grant of 0",
            "another grant",
            "write refused with 2",
            "write with 3",
            "read with 2",
            "read with 3",
            "grant with 4",
            "grant with 5",
            "speed with 7",
        ],
        within,
    ),
];

/// Only of those of lists from devices of any content: else the clock counts
/// have room.
const OF_FULL_COUNTS: &[OfEntries] = &[("within a stretch", &["grant refused with 6"], no_room)];

fn floor(asked: &Asked) -> Option<usize> {
    Some(match asked.floor {
        0 => 0,
        LEAST => 1,
        _ => 2,
    })
}

fn greatest(asked: &Asked) -> Option<usize> {
    (asked.floor == GREATEST).then_some(0)
}

/// The number of the condition that a device fails, among these.
fn failed_among(asked: &Asked, conditions: &[usize]) -> Option<usize> {
    conditions.iter().position(|&condition| asked.failed == Some(condition))
}

fn failed_by_registers(asked: &Asked) -> Option<usize> {
    failed_among(asked, &[CONTINUOUS, NO_WAIT])
}

fn failed_by_running(asked: &Asked) -> Option<usize> {
    failed_among(asked, &[RUNNING_NO_WAIT])
}

fn failed_by_content(asked: &Asked) -> Option<usize> {
    failed_among(asked, &[RUNNING_CONTINUOUS, NOT_VALID])
}

fn begins(run: &Run) -> Option<usize> {
    let place = match grants::place(&run.start) {
        _ if !run.start.enabled => 0,
        3 => 1,
        0 => 2,
        _ => 3,
    };
    run.has_floor().then_some(place)
}

fn closest(run: &Run) -> Option<usize> {
    let place = match run.floor {
        LEAST => 0,
        GREATEST => 2,
        _ => 1,
    };
    (run.longest + 1 == run.floor).then_some(place)
}

fn against_registers(run: &Run) -> Option<usize> {
    let running = run.start.slot;
    let order = running.bus.cmp(&model::bus_time(&run.start));
    (run.has_floor() && running.elapsed > 0).then_some((order as i8 + 1) as usize)
}

fn block_ends(run: &Run) -> Option<usize> {
    let more = usize::from(model::block_count(&run.start) > 1);
    match (run.ends, run.restarts) {
        _ if !run.has_floor() => None,
        (0, 0) => None,
        (_, 0) => Some(more),
        _ => Some(2 + more),
    }
}

fn long_without_floor(run: &Run) -> Option<usize> {
    let is_long = !run.has_floor() && run.longest > GREATEST;
    failed_alone(&run.start).filter(|_| is_long)
}

fn granted(entry: &Entry) -> Option<usize> {
    match entry.call? {
        Call::Grant { clocks } if entry.number == 0 => Some(match clocks {
            0 => 0,
            1 => 1,
            _ if clocks == entry.floor - 1 => 3,
            _ if clocks == entry.floor => 4,
            _ if clocks > entry.floor => 5,
            _ => 2,
        }),
        _ => None,
    }
}

fn within(entry: &Entry) -> Option<usize> {
    let kind = match (entry.call, entry.number) {
        (None, _) => 0,
        (Some(Call::Grant { clocks: 0 }), 0) => 1,
        (Some(Call::Grant { .. }), 0) => 2,
        (Some(Call::Write { .. }), 2) => 3,
        (Some(Call::Write { .. }), _) => 4,
        (Some(Call::Read), 2) => 5,
        (Some(Call::Read), _) => 6,
        (Some(Call::Grant { .. }), 4) => 7,
        (Some(Call::Grant { .. }), 5) => 8,
        (Some(Call::SetSpeed { .. }), _) => 9,
        (Some(Call::Grant { .. }), _) => return None,
    };
    entry.within.then_some(kind)
}

fn no_room(entry: &Entry) -> Option<usize> {
    (entry.within && entry.number == 6).then_some(0)
}

// ---- All of them ---------------------------------------------------------

/// How often each answer came.
pub struct Floors {
    devices: Answers<Asked>,
    runs: Answers<Run>,
    entries: Answers<Entry>,
}

impl Floors {
    /// Of devices of any content, and of clocks of each.
    pub fn of_each() -> Floors {
        Floors {
            devices: Answers::to(OF_ALL.iter().chain(OF_SPEEDS).chain(OF_ANY_CONTENT)),
            runs: Answers::to(OF_FLOORS.iter().chain(OF_NO_FLOOR)),
            entries: Answers::to([].iter()),
        }
    }

    /// Of lists from devices of any content.
    pub fn of_made() -> Floors {
        Floors {
            devices: Answers::to([].iter()),
            runs: Answers::to(OF_FLOORS.iter()),
            entries: Answers::to(OF_ENTRIES.iter().chain(OF_FULL_COUNTS)),
        }
    }

    /// Of devices of any content alone.
    pub fn of_devices() -> Floors {
        Floors { runs: Answers::to([].iter()), ..Floors::of_each() }
    }

    /// Of those that calls from power on lead to, and of lists that branch off
    /// there.
    pub fn of_lists() -> Floors {
        Floors {
            devices: Answers::to(OF_ALL.iter().chain(OF_SPEEDS)),
            runs: Answers::to(OF_FLOORS.iter()),
            entries: Answers::to(OF_ENTRIES.iter()),
        }
    }

    pub fn of_sessions() -> Floors {
        Floors { devices: Answers::to(OF_ALL.iter()), ..Floors::of_devices() }
    }

    /// A device that answers this floor.
    pub fn count(&mut self, device: &Device, floor: u32) {
        self.devices.count(&Asked { floor, failed: failed_alone(device) });
    }

    pub fn count_run(&mut self, run: &Run) {
        self.runs.count(run);
    }

    /// A call that comes next in a run, and its number; or none for an outside
    /// change of memory.
    pub fn count_entry(&mut self, run: &Run, call: Option<Call>, number: u8) {
        let (floor, within) = (run.floor, run.is_in_a_stretch());
        self.entries.count(&Entry { call, number, floor, within });
    }

    /// The counts as lines, each after the same words.
    pub fn summary(&self, words: &str) -> String {
        let lines = [self.devices.lines(words), self.runs.lines(words), self.entries.lines(words)];
        lines.concat().trim_end().to_string()
    }

    /// The first answer that never came, with its question.
    pub fn missing(&self) -> Option<String> {
        let runs = || self.runs.missing();
        self.devices.missing().or_else(runs).or_else(|| self.entries.missing())
    }
}

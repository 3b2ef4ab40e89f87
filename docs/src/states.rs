//! A program: compares the linked library with the second program, call by call.
//!
//! On devices of any content, with any port, byte, clocks, buffers and speed
//! code, on sessions, and on lists of calls from power on that set the speed as
//! well. Each call of the library is made by value and in place, where the device
//! stands in a host's table between others, and in a list stays there from the
//! first call to the last. Every answer is compared whole: number, byte, warning,
//! each field of the device, and after a grant both buffers, in a session after
//! every record; and so is the floor under the processor's time, of each device
//! before a call. A call in place must leave the table's other devices alone. The
//! sessions of a seed are those that `compare.rs` makes of it. What the grants, the
//! writes in burst waits, the speed calls and the calls in place came to is counted,
//! and so are the floors, the warnings and the numbers of pending parameters that
//! came. It also tries all 65,536 of these, every byte with those that are valid,
//! reads by all masks from all positions, all codes of the speed, a slot's figures
//! about all that are valid, and the floors of all speeds and cycles with five
//! prescalers and with running slots of every bus time, and sees that the second
//! program stops where a slot would begin with its block finished. Floors are held
//! against clocks that the second program takes singly, also in lists of grants
//! with refused calls between them.
//!
//! Built by `rustc --edition 2021 -O -L native=target/staticlib states.rs`,
//! from this folder or with its path; `states --help` says how it is run.

#![deny(unsafe_code)]

#[path = "floors.rs"]
mod floors;
#[path = "generate.rs"]
mod generate;
#[path = "grants.rs"]
mod grants;
#[path = "numbers.rs"]
mod numbers;
#[path = "places.rs"]
mod places;
#[path = "program.rs"]
mod program;
#[path = "questions.rs"]
mod questions;
#[path = "reference.rs"]
mod reference;
#[path = "speeds.rs"]
mod speeds;
#[path = "stops.rs"]
mod stops;
#[path = "stored.rs"]
mod stored;
#[path = "table.rs"]
mod table;
#[path = "waits.rs"]
mod waits;
#[path = "warnings.rs"]
mod warnings;
#[path = "../../rust/zxndma/src/lib.rs"]
mod zxndma;

use floors::{Floors, Run};
use generate::Rng;
use grants::{Grant, Grants};
use numbers::Numbers;
use places::{Made, Places};
use reference::model::{self, Pending, SIZE};
use reference::session;
use speeds::Speeds;
use std::collections::BTreeSet;
use std::process::ExitCode;
use table::Table;
use waits::Waits;
use warnings::Warnings;
use zxndma::{Block, Clocks, Control, Core, Device, Port, Readback, Slot, Status};

/// For each seed, if nothing else is asked for.
const CALLS: u64 = 1_000_000;
const SESSIONS: u64 = 5_000;
const LISTS: u64 = 2_000;

const HELP: &str = "\
usage: states [--calls N] [--sessions N] [--lists N] [--seed N]... [FILE.hex]...
Compares the linked library with the second program, for each seed (1) by N calls
on made devices (1000000), N made sessions (5000) and N lists of calls from power
on that set the speed as well (2000), and on the stored sessions. Each write, read,
speed call and grant of the library is made by value and in place: there the device
is the first, the middle or the last one of a table, and stays there through a whole
session or list; its neighbours must not change. Before each call both answer the
device's floor under the processor's time. Prints how often each number was
answered, what the grants, the writes in burst waits, the speed calls and the calls
in place came to, which floors, which warnings and which bytes close to one came,
and how many numbers of pending parameters.

For each seed it tries, on devices that are valid otherwise:
- all 65536 numbers of pending parameters: a call must answer 1 exactly where the
  number stands for no sequence; each byte is written to a device with each other
  number, by both ports: as many writes as the rules allow must have each warning;
  and again where it must be refused with 1, 2 or 3 and have none;
- reads by each mask from each position, 0 to 255, with a status read waiting and
  without: the answer must be 1 where the mask is above 127 or the position above
  6, else 0;
- each speed code in a device with each: the answer must be 1 where the device's
  is above 3, else 7 where the call's is, else 0;
- bus times up to 70 with lengths up to 8300 in a running slot: as many as the
  rules allow must be valid;
- the floors of all speeds and cycles with prescalers 0 to 3 and 255, in burst and
  continuous, with running slots of each bus time, and enabled and disabled without
  one: of those without as many as the rules allow must have a floor. The second
  program takes clocks singly: with a floor, fewer than it in a row may pass without
  a CPU clock; where slots leave the processor no clock, more than any floor must;
- the same in 2000 lists of grants with refused calls and changes of memory between
  them, from devices that have a floor. Such lists also branch off from those from
  power on. The library gets the grants, and must come to the same devices.
Sees, too, that the calls refuse a device whose slot would begin with the block
finished, and that a clock of it stops the second program.

Exit status: 0 no difference; 1 a difference, or a call in place changes another
device, or clocks don't keep to a floor, or the second program stops in a call or
doesn't where it should, which is shown, or a number that a call can answer never
came, or some case of the floors that are tried, or, with as many calls, sessions or
lists as these, some case of a floor, of a long grant, of a write in a wait, of a
warning, of a speed call or of a call in place, or a number of pending parameters,
or a FILE can't be read; 2 bad arguments.
";

// ---- All sides -----------------------------------------------------------

/// The model's device with the content of the library's. The patterns name
/// every field: none can be forgotten.
fn model_of(device: Device) -> model::Device {
    let Device { core, clocks: Clocks { bus, held, cpu } } = device;
    let Core { a, b, block, control, status, readback, pending, enabled, slot } = core;
    let Block { length, counter, zilog } = block;
    let Control { forward, prescaler, burst, restart, speed } = control;
    let Status { e, t } = status;
    let Readback { mask, position, waiting } = readback;
    model::Device {
        a: model_port(a),
        b: model_port(b),
        slot: model_slot(slot),
        clocks: model::Clocks { bus, held, cpu },
        length,
        counter,
        a_to_b: forward,
        prescaler,
        burst,
        auto_restart: restart,
        speed,
        zilog,
        enabled,
        e,
        t,
        mask,
        place: position,
        status_waiting: waiting,
        pending: Pending::of_number(pending),
    }
}

fn model_port(port: Port) -> model::Port {
    let Port { address, pointer, io, step, cycle } = port;
    model::Port { address, pointer, io, step, cycle }
}

fn model_slot(slot: Slot) -> model::Slot {
    let Slot { elapsed, bus, length, burst } = slot;
    model::Slot { elapsed, bus, length, burst }
}

/// A call and its arguments.
#[derive(Clone, Copy, Debug)]
enum Call {
    PowerOn,
    Write {
        port: u16,
        byte: u8,
    },
    Read {
        port: u16,
    },
    /// With the lengths of the buffers lent.
    Grant {
        memory: usize,
        latches: usize,
        clocks: u32,
    },
    SetSpeed {
        code: u8,
    },
    /// Its number is 1 for valid.
    Valid,
}

impl Call {
    /// As a session has it.
    fn of_session(self) -> Option<session::Call> {
        match self {
            Call::Write { port, byte } => Some(session::Call::Write { port, byte }),
            Call::Read { .. } => Some(session::Call::Read),
            Call::Grant { clocks, .. } => Some(session::Call::Grant { clocks }),
            Call::PowerOn | Call::SetSpeed { .. } | Call::Valid => None,
        }
    }

    /// As what speed calls came to is counted by.
    fn about_speed(self) -> Option<speeds::Call> {
        match self {
            Call::Write { byte, .. } => Some(speeds::Call::Write { byte }),
            Call::Read { .. } => Some(speeds::Call::Read),
            Call::Grant { clocks, .. } => Some(speeds::Call::Grant { clocks }),
            Call::SetSpeed { code } => Some(speeds::Call::SetSpeed { code }),
            Call::PowerOn | Call::Valid => None,
        }
    }
}

#[derive(PartialEq, Debug)]
struct Answer {
    number: u8,
    byte: u8,
    warning: u8,
    device: model::Device,
    /// The device's number of pending parameters; in `device` it is a sequence.
    pending: u16,
}

/// What one side lends, with room for buffers that are too long. A call must
/// leave the rest alone.
#[derive(Clone, PartialEq)]
struct Buffers {
    memory: Vec<u8>,
    latches: Vec<u8>,
}

/// The longest buffer lent.
const LONGEST: usize = 2 * SIZE;

impl Buffers {
    fn zero() -> Buffers {
        Buffers { memory: vec![0; LONGEST], latches: vec![0; LONGEST] }
    }

    /// The same bytes on each side, for the same random numbers.
    fn fill(&mut self, rng: &mut Rng) {
        for bytes in self.memory.chunks_mut(8).chain(self.latches.chunks_mut(8)) {
            bytes.copy_from_slice(&rng.next().to_le_bytes());
        }
    }

    fn copy(&mut self, other: &Buffers) {
        self.memory.copy_from_slice(&other.memory);
        self.latches.copy_from_slice(&other.latches);
    }

    /// What a call is lent of them.
    fn parts(&mut self, memory: usize, latches: usize) -> (&mut [u8], &mut [u8]) {
        (&mut self.memory[..memory], &mut self.latches[..latches])
    }

    /// A session's memory record.
    fn store(&mut self, address: u16, bytes: &[u8]) {
        for (k, &byte) in bytes.iter().enumerate() {
            self.memory[(usize::from(address) + k) % SIZE] = byte;
        }
    }
}

/// The buffers of each side: the library's calls by value, its calls in place
/// and the second program. As long as they agree, all hold the same bytes.
#[derive(Clone)]
struct Lent {
    by_value: Buffers,
    in_place: Buffers,
    model: Buffers,
}

/// Buffers are compared in pieces that stay in the processor's cache, so that each
/// is fetched once for all sides.
const PIECE: usize = 4_096;

impl Lent {
    fn zero() -> Lent {
        Lent { by_value: Buffers::zero(), in_place: Buffers::zero(), model: Buffers::zero() }
    }

    fn fill(&mut self, rng: &mut Rng) {
        self.by_value.fill(rng);
        self.in_place.copy(&self.by_value);
        self.model.copy(&self.by_value);
    }

    fn store(&mut self, address: u16, bytes: &[u8]) {
        for side in [&mut self.by_value, &mut self.in_place, &mut self.model] {
            side.store(address, bytes);
        }
    }

    /// So many bytes of memory and latches, which are whole pieces, are the same on
    /// each side.
    fn agree(&self, length: usize) -> bool {
        (0..length).step_by(PIECE).all(|from| {
            let piece = from..from + PIECE;
            let [by_value, in_place, model] = [&self.by_value, &self.in_place, &self.model]
                .map(|side| (&side.memory[piece.clone()], &side.latches[piece.clone()]));
            by_value == model && in_place == model
        })
    }

    /// How many bytes differ, and the first of them, as lines.
    fn difference(&self) -> String {
        let Lent { by_value, in_place, model } = self;
        let memory = [&by_value.memory, &in_place.memory, &model.memory];
        let latches = [&by_value.latches, &in_place.latches, &model.latches];
        let mut lines = String::new();
        for (name, [by_value, in_place, model]) in [("memory", memory), ("latches", latches)] {
            let differ = |k: &usize| by_value[*k] != model[*k] || in_place[*k] != model[*k];
            let differ: Vec<usize> = (0..LONGEST).filter(differ).collect();
            lines.push_str(&format!("{}: {} bytes differ\n", name, differ.len()));
            for &k in differ.iter().take(8) {
                lines.push_str(&format!(
                    "  at {:04X}: by value {:02X}, in place {:02X}, model {:02X}\n",
                    k, by_value[k], in_place[k], model[k]
                ));
            }
        }
        lines
    }

    /// Each side has exactly these bytes.
    fn stay(&self, bytes: &Buffers) -> Result<(), String> {
        let sides = [&self.by_value, &self.in_place, &self.model];
        if sides.iter().all(|side| *side == bytes) {
            return Ok(());
        }
        Err(format!("memory or latches have changed\n{}", self.difference()))
    }
}

/// What a call answers beside the device: number, byte and warning.
type Said = (u8, u8, u8);

/// The library's call by value: the device that comes back takes the place of
/// the one that was handed over.
fn by_value(device: &mut Device, call: Call, lent: &mut Buffers) -> Said {
    match call {
        Call::PowerOn => {
            *device = Device::power_on();
            (0, 0, zxndma::warning::NONE)
        }
        Call::Write { port, byte } => {
            let written = device.write(port, byte);
            *device = written.device;
            (written.number, 0, written.warning)
        }
        Call::Read { port } => {
            let given = device.read(port);
            *device = given.device;
            (given.number, given.byte, zxndma::warning::NONE)
        }
        Call::Grant { memory, latches, clocks } => {
            let (memory, latches) = lent.parts(memory, latches);
            let granted = device.grant(memory, latches, clocks);
            *device = granted.device;
            (granted.number, 0, zxndma::warning::NONE)
        }
        Call::SetSpeed { code } => {
            let set = device.set_speed(code);
            *device = set.device;
            (set.number, 0, zxndma::warning::NONE)
        }
        Call::Valid => (u8::from(device.is_valid()), 0, zxndma::warning::NONE),
    }
}

/// The library's call in place.
fn in_place(device: &mut Device, call: Call, lent: &mut Buffers) -> Said {
    match call {
        Call::Write { port, byte } => {
            let written = device.write_in_place(port, byte);
            (written.number, 0, written.warning)
        }
        Call::Read { port } => {
            let given = device.read_in_place(port);
            (given.number, given.byte, zxndma::warning::NONE)
        }
        Call::Grant { memory, latches, clocks } => {
            let (memory, latches) = lent.parts(memory, latches);
            (device.grant_in_place(memory, latches, clocks), 0, zxndma::warning::NONE)
        }
        Call::SetSpeed { code } => (device.set_speed_in_place(code), 0, zxndma::warning::NONE),
        // They have no such form.
        Call::PowerOn | Call::Valid => by_value(device, call, lent),
    }
}

/// The whole answer of the library's call in one of its forms.
fn by_library(
    form: fn(&mut Device, Call, &mut Buffers) -> Said,
    device: &mut Device,
    call: Call,
    lent: &mut Buffers,
) -> Answer {
    let (number, byte, warning) = form(device, call, lent);
    let pending = device.core.pending;
    Answer { number, byte, warning, device: model_of(*device), pending }
}

fn by_model(device: Device, call: Call, lent: &mut Buffers) -> Answer {
    let mut device = model_of(device);
    let mut warning = model::NO_WARNING;
    let (number, byte) = match call {
        Call::PowerOn => {
            device = model::power_on();
            (0, 0)
        }
        Call::Write { port, byte } => {
            let (number, answered) = model::write(&mut device, port, byte);
            warning = answered;
            (number, 0)
        }
        Call::Read { port } => model::read(&mut device, port),
        Call::Grant { memory, latches, clocks } => {
            let (memory, latches) = lent.parts(memory, latches);
            (model::grant(&mut device, memory, latches, clocks), 0)
        }
        Call::SetSpeed { code } => (model::set_speed(&mut device, code), 0),
        Call::Valid => (u8::from(model::valid(&device)), 0),
    };
    let pending = device.pending.number();
    Answer { number, byte, warning, device, pending }
}

// ---- Comparing -----------------------------------------------------------

/// How often each number from 0 to 7 was answered.
type Answered = [u64; 8];

/// How often each number was answered, by the kind of call.
#[derive(Default)]
struct Counts {
    power_on: Answered,
    write: Answered,
    read: Answered,
    grant: Answered,
    set_speed: Answered,
    valid: Answered,
}

impl Counts {
    fn of(&mut self, call: Call) -> &mut Answered {
        match call {
            Call::PowerOn => &mut self.power_on,
            Call::Write { .. } => &mut self.write,
            Call::Read { .. } => &mut self.read,
            Call::Grant { .. } => &mut self.grant,
            Call::SetSpeed { .. } => &mut self.set_speed,
            Call::Valid => &mut self.valid,
        }
    }

    /// Each kind of call, with the numbers that it can answer.
    fn kinds(&self) -> [(&'static str, &Answered, &'static [usize]); 6] {
        [
            ("power on", &self.power_on, &[0]),
            ("write", &self.write, &[0, 1, 2, 3]),
            ("read", &self.read, &[0, 1, 2, 3]),
            ("grant", &self.grant, &[0, 1, 4, 5, 6]),
            ("set speed", &self.set_speed, &[0, 1, 7]),
            ("valid (1 for yes)", &self.valid, &[0, 1]),
        ]
    }

    /// The counts as lines, or the first number that never occurred.
    fn summary(&self) -> Result<String, String> {
        let mut lines = String::new();
        let mut calls = 0;
        for (kind, counts, numbers) in self.kinds() {
            lines.push_str(&format!("states: {}:", kind));
            for &number in numbers {
                if counts[number] == 0 {
                    return Err(format!("the number {} of {} never occurred", number, kind));
                }
                lines.push_str(&format!(" {} x {}", number, counts[number]));
                calls += counts[number];
            }
            lines.push('\n');
        }
        Ok(format!("{}states: {} calls, no difference", lines, calls))
    }
}

struct Bench {
    lent: Lent,
    /// Where the devices of calls in place stand.
    table: Table,
    /// For the table's other devices and its places.
    rng: Rng,
    counts: Counts,
    /// What the accepted grants came to.
    grants: Grants,
    /// What accepted writes in burst waits came to.
    waits: Waits,
    /// Of each write.
    warnings: Warnings,
    /// The numbers of pending parameters: before and after accepted calls those
    /// that stand for a sequence, before refused ones the others.
    numbers: Numbers,
    /// What the calls that set the speed came to.
    speeds: Speeds,
    /// Of each device before a call, and of clocks that were taken singly.
    floors: Floors,
    /// What the calls in place came to.
    places: Places,
}

impl Bench {
    fn new() -> Bench {
        let mut rng = Rng::new(0);
        Bench {
            lent: Lent::zero(),
            table: made_table(&mut rng),
            rng,
            counts: Counts::default(),
            grants: Grants::of_sessions(),
            waits: Waits::new(),
            warnings: Warnings::of_sessions(),
            numbers: Numbers::new(),
            speeds: Speeds::of_lists(),
            floors: Floors::of_sessions(),
            places: Places::of_sessions(),
        }
    }

    /// What the calls come to from here on.
    fn count_anew(&mut self, grants: Grants, warnings: Warnings, speeds: Speeds) {
        (self.grants, self.warnings, self.speeds) = (grants, warnings, speeds);
        (self.waits, self.numbers) = (Waits::new(), Numbers::new());
    }

    fn fill(&mut self, rng: &mut Rng) {
        self.lent.fill(rng);
        self.table = made_table(&mut self.rng);
    }

    /// Begins a list of calls, with zeroes in the buffers: power comes on. Gives
    /// the device, which stands in a table where it can stay.
    fn begin_list(&mut self) -> Result<Device, String> {
        self.lent = Lent::zero();
        self.table = made_table(&mut self.rng);
        Ok(self.call(Device::power_on(), Call::PowerOn)?.1)
    }

    /// Memory and latches of a session agree, whatever its last record was.
    fn same_buffers(&self) -> Result<(), String> {
        if self.lent.agree(SIZE) {
            return Ok(());
        }
        Err(format!("after a record memory or latches differ\n{}", self.lent.difference()))
    }

    /// Has all sides answer. Gives the number and the device afterwards, or
    /// the whole case if they differ or the second program stops.
    fn call(&mut self, device: Device, call: Call) -> Result<(u8, Device), String> {
        let (answer, after) = self.answer(device, call)?;
        if matches!(call, Call::Grant { .. }) && !self.lent.agree(LONGEST) {
            return Err(self.difference(device, call, [&answer; 3]));
        }
        Ok((answer.number, after))
    }

    /// As `call`, but for the buffers: these are not compared. Gives what all
    /// answer, and the library's device.
    fn answer(&mut self, device: Device, call: Call) -> Result<(Answer, Device), String> {
        self.floor(device)?;
        let (model, after) = self.compared(device, call)?;
        self.counts.of(call)[usize::from(model.number)] += 1;
        let before = model_of(device);
        if let Call::Write { port, byte } = call {
            self.warnings.count(&before, port, byte, model.number);
        }
        if let (Some(accepted), 0) = (call.of_session(), model.number) {
            self.waits.count(&before, accepted, &model.device);
            self.numbers.count(&before.pending);
            self.numbers.count(&model.device.pending);
            if let Call::Grant { clocks, .. } = call {
                self.grants.count(&Grant::new(before, model.device, clocks));
            }
        } else if matches!(before.pending, Pending::Stray(_)) {
            self.numbers.count(&before.pending);
        }
        if let Some(call) = call.about_speed() {
            if model.number == 0 || matches!(call, speeds::Call::SetSpeed { .. }) {
                self.speeds.count(&before, call, model.number, &model.device);
            }
            self.count_in_place(&before, call, &model);
        }
        Ok((model, after))
    }

    /// Counts a call that was made in place, too.
    fn count_in_place(&mut self, before: &model::Device, call: speeds::Call, answer: &Answer) {
        let Answer { number, byte, warning, device: after, .. } = *answer;
        let (before, place, calls) = (*before, self.table.place(), self.table.calls());
        self.places.count(&Made { call, number, byte, warning, before, after, place, calls });
    }

    /// As `answer`, but nothing is counted.
    fn compared(&mut self, device: Device, call: Call) -> Result<(Answer, Device), String> {
        let ([by_value, in_place], after) = self.forms(device, call)?;
        let model =
            stops::caught(|| by_model(device, call, &mut self.lent.model)).map_err(|text| {
                format!("{:?}\nbefore: {:?}\nthe second program stops: {}", call, device, text)
            })?;
        if by_value != model || in_place != model {
            return Err(self.difference(device, call, [&by_value, &in_place, &model]));
        }
        Ok((model, after))
    }

    /// The library's answers by value and in place, and the device that comes by
    /// value. The table's other devices must stay as they are.
    fn forms(&mut self, device: Device, call: Call) -> Result<([Answer; 2], Device), String> {
        let mut after = device;
        let by_value = by_library(by_value, &mut after, call, &mut self.lent.by_value);
        let standing = self.table.lend(device);
        let in_place = by_library(in_place, standing, call, &mut self.lent.in_place);
        self.table.others_stay().map_err(|text| format!("{:?} in place: {}", call, text))?;
        Ok(([by_value, in_place], after))
    }

    /// Has both sides answer a device's floor. Gives it, or the case if they
    /// differ or answer what can be no floor of this device.
    fn floor(&mut self, device: Device) -> Result<u32, String> {
        let before = model_of(device);
        let (library, model) = (device.cpu_floor(), before.cpu_floor());
        let can_be = (floors::LEAST..=floors::GREATEST).contains(&model) && device.is_valid();
        if library != model || (model != 0 && !can_be) {
            let floors = format!("library: {}\nmodel:   {}", library, model);
            return Err(format!("the floor of {:?}\n{}", device, floors));
        }
        self.floors.count(&before, model);
        Ok(model)
    }

    /// The library gets a grant, and the second program takes its clocks singly.
    /// Gives the device afterwards, or the case if they differ.
    fn grant_singly(
        &mut self,
        run: &mut Run,
        device: Device,
        clocks: u32,
    ) -> Result<Device, String> {
        let grant = Call::Grant { memory: SIZE, latches: SIZE, clocks };
        let ([by_value, in_place], after) = self.forms(device, grant)?;
        self.take(run, clocks)?;
        let accepted = by_value.number == 0 && by_value.device == *run.device();
        if !accepted || in_place != by_value {
            let case = format!("{:?}, its clocks taken singly\nbefore:   {:?}", grant, device);
            let forms = format!("by value: {:?}\nin place: {:?}", by_value, in_place);
            return Err(format!("{}\n{}\nmodel:    {:?}", case, forms, run.device()));
        }
        Ok(after)
    }

    /// The second program alone takes clocks singly.
    fn take(&mut self, run: &mut Run, clocks: u32) -> Result<(), String> {
        let Buffers { memory, latches } = &mut self.lent.model;
        stops::caught(|| run.take(memory, latches, clocks))
            .map_err(|text| format!("{:?}\nthe second program stops: {}", run.device(), text))
    }

    /// The case, with the answers by value, in place and of the second program.
    fn difference(&self, device: Device, call: Call, answers: [&Answer; 3]) -> String {
        let mut lines = format!("{:?}\nbefore:   {:?}\n", call, device);
        for (side, answer) in ["by value", "in place", "model"].iter().zip(answers) {
            lines.push_str(&format!("{:9} {:?}\n", format!("{}:", side), answer));
        }
        lines + &self.lent.difference()
    }
}

// ---- Made devices --------------------------------------------------------

/// Half of them from the edges.
fn byte(rng: &mut Rng) -> u8 {
    const EDGES: [u8; 18] = [0, 1, 2, 3, 4, 5, 6, 7, 8, 9, 10, 11, 126, 127, 128, 129, 254, 255];
    rng.pick_or(&EDGES, Rng::byte)
}

/// Half of them from the edges: of addresses, lengths and slots.
fn word(rng: &mut Rng) -> u16 {
    const EDGES: [u16; 26] = [
        0, 1, 2, 3, 4, 5, 7, 8, 9, 16, 31, 32, 33, 48, 63, 64, 65, 0x00FF, 0x0100, 8_128, 8_159,
        8_160, 8_161, 8_192, 0xFFFE, 0xFFFF,
    ];
    rng.pick_or(&EDGES, Rng::word)
}

/// For a block count: about it, about the largest, or anything.
fn any_counter(rng: &mut Rng, count: u32) -> u32 {
    match rng.below(4) {
        0 => count.saturating_sub(rng.below(4)),
        1 => count + rng.below(2),
        2 => rng.pick(&[0, 1, 0xFFFF, 0x1_0000, 0x1_0001, u32::MAX]),
        _ => rng.next() as u32,
    }
}

/// A code of the speed. Most of them are the four that there are, or next to
/// these.
fn any_code(rng: &mut Rng) -> u8 {
    let any = rng.byte();
    rng.pick(&[0, 1, 2, 3, 0, 1, 2, 3, 4, 5, 255, any])
}

fn any_count(rng: &mut Rng) -> u64 {
    let near = u64::from(rng.below(5));
    match rng.below(5) {
        0 => near,
        1 => u64::MAX - near,
        2 => (1 << 63) - 2 + near,
        3 => (1 << 32) - 2 + near,
        _ => rng.next(),
    }
}

fn block_count(block: &Block) -> u32 {
    u32::from(block.length) + u32::from(block.zilog)
}

const PORT_FIELDS: u32 = 5;
const OTHER_FIELDS: u32 = 22;
const FIELDS: u32 = OTHER_FIELDS + 2 * PORT_FIELDS;

fn set_port_field(rng: &mut Rng, port: &mut Port, field: u32) {
    match field {
        0 => port.address = word(rng),
        1 => port.pointer = word(rng),
        2 => port.io = rng.chance(1, 2),
        3 => port.step = byte(rng),
        _ => port.cycle = byte(rng),
    }
}

/// One field gets any value of its type.
fn set_field(rng: &mut Rng, device: &mut Device, field: u32) {
    let Device { core, clocks } = device;
    match field {
        0 => core.block.length = word(rng),
        1 => core.block.counter = any_counter(rng, block_count(&core.block)),
        2 => core.block.zilog = rng.chance(1, 2),
        3 => core.control.forward = rng.chance(1, 2),
        4 => core.control.prescaler = byte(rng),
        5 => core.control.burst = rng.chance(1, 2),
        6 => core.control.restart = rng.chance(1, 2),
        7 => core.status.e = rng.chance(1, 2),
        8 => core.status.t = rng.chance(1, 2),
        9 => core.readback.mask = byte(rng),
        10 => core.readback.position = byte(rng),
        11 => core.readback.waiting = rng.chance(1, 2),
        12 => core.pending = any_pending(rng),
        13 => core.enabled = rng.chance(1, 2),
        14 => core.slot.elapsed = word(rng),
        15 => core.slot.bus = word(rng),
        16 => core.slot.length = word(rng),
        17 => core.slot.burst = rng.chance(1, 2),
        18 => clocks.bus = any_count(rng),
        19 => clocks.held = any_count(rng),
        20 => clocks.cpu = any_count(rng),
        21 => core.control.speed = any_code(rng),
        _ => match field - OTHER_FIELDS {
            field if field < PORT_FIELDS => set_port_field(rng, &mut core.a, field),
            field => set_port_field(rng, &mut core.b, field - PORT_FIELDS),
        },
    }
}

fn any_device(rng: &mut Rng) -> Device {
    let mut device = Device::power_on();
    for field in 0..FIELDS {
        set_field(rng, &mut device, field);
    }
    device
}

/// A host's table of devices with any content.
fn made_table(rng: &mut Rng) -> Table {
    let place = rng.below(table::PLACES.len() as u32) as usize;
    Table::of([(); table::PLACES.len() + 2].map(|()| any_device(rng)), place)
}

fn valid_port(rng: &mut Rng) -> Port {
    Port {
        address: word(rng),
        pointer: word(rng),
        io: rng.chance(1, 3),
        step: if rng.chance(1, 8) { byte(rng) } else { rng.below(4) as u8 },
        cycle: rng.between(2, 4) as u8,
    }
}

/// The number of a sequence that registers ask for, or of a tail of it.
fn valid_pending(rng: &mut Rng) -> u16 {
    let codes: Vec<u8> = match rng.below(4) {
        0 => Vec::new(),
        1 => (1..=4).filter(|_| rng.chance(1, 2)).collect(),
        2 => (8..=9).filter(|_| rng.chance(1, 2)).collect(),
        _ => vec![rng.pick(&[5, 6, 7, 10])],
    };
    let mut sequence = [0; 4];
    sequence[..codes.len()].copy_from_slice(&codes);
    Pending::Sequence(sequence).number()
}

/// Any number. Most of them are near one that stands for a sequence: it, with a
/// bit more or less, with the bits of another, or with B timing before the
/// prescaler; or they have a bit that stands for no parameter.
fn any_pending(rng: &mut Rng) -> u16 {
    let (one, other) = (valid_pending(rng), valid_pending(rng));
    let both_of_b = Pending::Sequence([model::B_TIMING, model::PRESCALER, 0, 0]).number();
    match rng.below(8) {
        0 | 1 => one,
        2 | 3 => one ^ (1 << rng.below(16)),
        4 => one | other,
        5 => rng.pick(&[both_of_b, both_of_b | one, u16::MAX]),
        6 => (1 << rng.between(10, 15)) | rng.pick(&[0, one]),
        _ => rng.word(),
    }
}

const NO_SLOT: Slot = Slot { elapsed: 0, bus: 0, length: 0, burst: false };

/// A running slot, most often about the end of its bus time or its own. The bus
/// time is any that there can be, often at a limit or about the first multiple
/// of 32.
fn running_slot(rng: &mut Rng) -> Slot {
    let any = rng.between(4, 64) as u16;
    let bus = rng.pick(&[4, 4, 5, 6, 7, 8, 9, 31, 32, 33, 63, 64, any, any]);
    slot_of(rng, bus)
}

/// With this bus time, and a length that goes with it.
fn slot_of(rng: &mut Rng, bus: u16) -> Slot {
    let any = rng.between(1, 255) as u16;
    // The first multiple of 32 that is not below it.
    let least = if bus > 32 { 2 } else { 1 };
    let times = rng.pick(&[least, least, 2, 3, 55, 255, any]).max(least);
    let length = if rng.chance(1, 3) { bus } else { 32 * times };
    slot_about(rng, bus, length)
}

/// With these figures, and fewer clocks elapsed than its length.
fn slot_about(rng: &mut Rng, bus: u16, length: u16) -> Slot {
    let any = rng.between(1, u32::from(length) - 1) as u16;
    let elapsed =
        rng.pick(&[1, bus - 1, bus, bus + 1, length - 2, length - 1, any]).min(length - 1);
    Slot { elapsed, bus, length, burst: rng.chance(1, 2) }
}

/// A slot with figures about the limits of those that there can be, on both
/// sides of them.
fn slot_at_a_limit(rng: &mut Rng) -> Slot {
    let any = rng.between(2, 70) as u16;
    let bus = rng.pick(&[3, 4, 8, 9, 31, 32, 33, 40, 63, 64, 65, any]);
    let about = rng.pick(&[bus, bus, bus - 1, bus + 1]);
    let below = bus / 32 * 32;
    let multiple = rng.pick(&[below, below + 32, below + 64, 32, 64, 8_128, 8_160, 8_192]);
    let any = rng.between(2, 8_300) as u16;
    let length = rng.pick(&[about, about, multiple, multiple, 8_161, any]);
    let mut slot = slot_about(rng, bus, length.max(2));
    slot.length = length;
    if rng.chance(1, 8) {
        slot.elapsed = rng.pick(&[length, length + 1]);
    }
    slot
}

/// Clock counts whose sum fits: small, just below 64 bits, or anything.
fn valid_clocks(rng: &mut Rng) -> Clocks {
    let sum = match rng.below(6) {
        0 => 0,
        1 => u64::MAX - u64::from(rng.below(40)),
        2 => u64::MAX - u64::from(rng.below(20_000)),
        3 => u64::MAX - u64::from(u32::MAX) + 1 - u64::from(rng.below(3)),
        4 => u64::from(rng.below(1_000_000)),
        _ => rng.next(),
    };
    clocks_of(rng, sum)
}

fn clocks_of(rng: &mut Rng, sum: u64) -> Clocks {
    let bus = part(rng, sum);
    let held = part(rng, sum - bus);
    Clocks { bus, held, cpu: sum - bus - held }
}

/// None, all, or some of a number.
fn part(rng: &mut Rng, number: u64) -> u64 {
    let some = rng.next() % number.max(1);
    rng.pick(&[0, number, some])
}

fn valid_device(rng: &mut Rng) -> Device {
    let a = valid_port(rng);
    let mut b = valid_port(rng);
    if rng.chance(1, 3) {
        // Overlapping blocks.
        b.pointer = a.pointer.wrapping_add(rng.below(9) as u16).wrapping_sub(4);
        b.io = a.io;
    }
    let slot = if rng.chance(1, 2) { running_slot(rng) } else { NO_SLOT };
    let enabled = slot.elapsed > 0 || rng.chance(1, 2);
    let length = if rng.chance(1, 2) { rng.below(5) as u16 } else { word(rng) };
    let mut block = Block { length, counter: 0, zilog: rng.chance(1, 2) };
    block.counter = any_counter(rng, block_count(&block)).min(65_536);
    let mut core = Core {
        a,
        b,
        block,
        control: Control {
            forward: rng.chance(1, 2),
            prescaler: if rng.chance(1, 2) { 0 } else { byte(rng) },
            burst: rng.chance(1, 2),
            restart: rng.chance(1, 2),
            speed: rng.below(4) as u8,
        },
        status: Status { e: rng.chance(1, 2), t: rng.chance(1, 2) },
        readback: Readback {
            mask: if rng.chance(1, 8) { 0 } else { byte(rng) & 0x7F },
            position: rng.below(7) as u8,
            waiting: rng.chance(1, 4),
        },
        pending: valid_pending(rng),
        enabled,
        slot,
    };
    leave_bytes(&mut core);
    Device { core, clocks: valid_clocks(rng) }
}

/// A device that has a byte to move has not finished its block.
fn leave_bytes(core: &mut Core) {
    let Core { block, slot, enabled, .. } = core;
    if *enabled && (slot.elapsed == 0 || slot.elapsed < slot.bus) {
        block.length = block.length.max(1);
        block.counter = block.counter.min(block_count(block) - 1);
    }
}

/// An enabled device with many slots to come: of a long block, of a short one
/// that starts again, or of one that takes the counter to its limit.
fn busy_device(rng: &mut Rng) -> Device {
    let mut device = valid_device(rng);
    let core = &mut device.core;
    core.enabled = true;
    core.control.prescaler = rng.pick(&[0, 0, 0, 0, 1, 1, 2, 3, 55, 255]);
    core.control.speed = rng.pick(&[0, 1, 2, 3, 3, 3, 3]);
    core.block.length = match rng.below(8) {
        0..=2 => rng.between(100, 20_000) as u16,
        3 | 4 => rng.between(1, 4) as u16,
        5 | 6 => rng.pick(&[0xFFFE, 0xFFFF]),
        _ => rng.word().max(1),
    };
    let count = block_count(&core.block);
    let left = match rng.below(3) {
        0 => rng.between(1, count),
        1 => rng.between(1, count.min(3_000)),
        _ => count,
    };
    core.block.counter = count - left;
    if core.slot.elapsed > core.slot.bus && rng.chance(1, 4) {
        // In a wait after which the block is over.
        core.block.counter = (count + rng.below(3)).min(65_536);
    }
    core.control.restart = rng.chance(if count < 100 { 3 } else { 1 }, 4);
    place_ports(rng, core);
    device
}

/// Has pointers wrap and blocks overlap, also where a block starts again, with
/// any two steps.
fn place_ports(rng: &mut Rng, core: &mut Core) {
    let far = core.block.length - 1;
    (core.a.pointer, core.b.pointer) = generate::places(rng, far);
    (core.a.address, core.b.address) = generate::places(rng, far);
    for port in [&mut core.a, &mut core.b] {
        let any = byte(rng);
        port.step = rng.pick(&[0, 0, 0, 1, 1, 1, 2, 3, any]);
    }
    if rng.chance(1, 2) {
        core.b.io = core.a.io;
    }
}

/// A device that goes on for any number of clocks: disabled, or with a block
/// that starts again and again.
fn endless_device(rng: &mut Rng) -> Device {
    let mut device = busy_device(rng);
    device.core.control.restart = true;
    if rng.chance(1, 2) {
        device.core.enabled = false;
        device.core.slot = NO_SLOT;
    }
    device
}

/// A valid device, one with any number of pending parameters, with a slot at a
/// limit or with any speed, one with a few fields changed, one with any content,
/// or the one that the last accepted call left.
fn made_device(rng: &mut Rng, last: Device) -> Device {
    match rng.below(22) {
        0..=7 => last,
        8..=12 => valid_device(rng),
        13 => {
            let mut device = valid_device(rng);
            device.core.pending = any_pending(rng);
            device
        }
        14 => {
            let mut device = valid_device(rng);
            (device.core.enabled, device.core.slot) = (true, slot_at_a_limit(rng));
            leave_bytes(&mut device.core);
            device
        }
        15 => {
            let mut device = valid_device(rng);
            device.core.control.speed = any_code(rng);
            device
        }
        16..=19 => {
            let mut device = valid_device(rng);
            for _ in 0..rng.between(1, 3) {
                let field = rng.below(FIELDS);
                set_field(rng, &mut device, field);
            }
            device
        }
        _ => any_device(rng),
    }
}

// ---- Made calls ----------------------------------------------------------

fn made_port(rng: &mut Rng) -> u16 {
    if rng.chance(1, 8) {
        rng.word()
    } else {
        u16::from_be_bytes([rng.byte(), rng.pick(&[0x6B, 0x0B])])
    }
}

/// A bit away from one of the DMA's two ports. No bit makes one of them the
/// other.
fn not_a_port(rng: &mut Rng, port: u16) -> u16 {
    port ^ (1 << rng.below(8))
}

/// Half of them commands.
fn made_byte(rng: &mut Rng) -> u8 {
    const COMMANDS: [u8; 14] =
        [0x83, 0x87, 0x87, 0xC0, 0x80, 0xC3, 0xC7, 0xCB, 0xCF, 0xD3, 0x8B, 0xBF, 0xA7, 0xBB];
    rng.pick_or(&COMMANDS, Rng::byte)
}

fn made_length(rng: &mut Rng) -> usize {
    if rng.chance(9, 10) {
        return SIZE;
    }
    let any = rng.below(LONGEST as u32) as usize;
    rng.pick(&[0, 1, 255, 256, SIZE - 1, SIZE + 1, LONGEST, any])
}

/// The second program takes every clock: an accepted grant has few of them.
fn made_clocks(rng: &mut Rng, device: Device, room: u128) -> u32 {
    let slot = device.core.slot;
    if room < u128::from(u32::MAX) && rng.chance(1, 3) {
        // More than there is room for.
        let least = room as u32 + 1;
        return rng.pick(&[least, u32::MAX]);
    }
    if room < 20_000 && rng.chance(1, 2) {
        return room as u32;
    }
    match rng.below(1_000) {
        0..=99 => rng.below(3),
        100..=399 => rng.below(40),
        400..=499 => rng.below(140),
        // About the end of the slot, of its bus time, or of the next one.
        500..=599 => u32::from(slot.length.saturating_sub(slot.elapsed)) + rng.below(12),
        600..=699 => u32::from(slot.bus.saturating_sub(slot.elapsed)) + rng.below(3),
        700..=979 => rng.below(600),
        980..=998 => rng.below(10_000),
        _ => rng.below(100_000),
    }
}

/// The clocks that the clock counts of a valid device have room for.
fn room(device: &model::Device) -> u128 {
    u128::from(u64::MAX) - model::books_sum(device)
}

fn made_grant(rng: &mut Rng, device: Device) -> Call {
    let (memory, latches) = (made_length(rng), made_length(rng));
    let before = model_of(device);
    let clocks = if !model::valid(&before) || memory != SIZE || latches != SIZE {
        let any = rng.next() as u32;
        rng.pick(&[0, 1, 16, u32::MAX, any])
    } else {
        made_clocks(rng, device, room(&before))
    };
    Call::Grant { memory, latches, clocks }
}

fn made_call(rng: &mut Rng, device: Device) -> Call {
    match rng.below(11) {
        0..=2 => Call::Write { port: made_port(rng), byte: made_byte(rng) },
        3..=4 => Call::Read { port: made_port(rng) },
        5..=7 => made_grant(rng, device),
        8..=9 => Call::SetSpeed { code: any_code(rng) },
        _ => Call::Valid,
    }
}

/// The rest of the running slot, whole slots and a part of one more; for a
/// disabled device any clocks. The whole slots take `most` at most.
fn many_clocks(rng: &mut Rng, device: &model::Device, most: u32) -> u32 {
    if !device.enabled {
        return rng.below(most);
    }
    let (bus, slot) = (model::bus_time(device), model::slot_length(device));
    let (bus, slot, running) = (u32::from(bus), u32::from(slot), device.slot);
    let begun = device.counter + u32::from(running.elapsed < running.bus);
    let count = model::block_count(device);
    let slots = generate::many_slots(rng, count.saturating_sub(begun), count).min(most / slot);
    let rest = u32::from(running.length - running.elapsed);
    rest + slots * slot + generate::part_of_a_slot(rng, bus, slot)
}

/// A device and many clocks for it; a few times so many that the second
/// program needs long for them.
fn device_and_clocks(rng: &mut Rng, last: Device) -> (Device, u32) {
    if rng.chance(1, 1_500) {
        return (endless_device(rng), rng.between(4_000_000, 5_000_000));
    }
    let device = match rng.below(8) {
        0 => last,
        1 => valid_device(rng),
        _ => busy_device(rng),
    };
    let most = rng.pick(&[3_000, 10_000, 10_000, 30_000, 30_000, 100_000, 100_000, 400_000]);
    (device, many_clocks(rng, &model_of(device), most))
}

/// A grant of many clocks. Often the clock counts have just the room for them,
/// or one too little, or pass 32 bits.
fn long_grant(rng: &mut Rng, last: Device) -> (Device, Call) {
    let (mut device, clocks) = device_and_clocks(rng, last);
    let room = u64::MAX - u64::from(clocks);
    let below_32_bits = u64::from(u32::MAX - clocks / 2);
    let any = rng.next() % room;
    let sum = rng.pick(&[0, any, below_32_bits, room, room, room.saturating_add(1)]);
    device.clocks = clocks_of(rng, sum);
    (device, Call::Grant { memory: SIZE, latches: SIZE, clocks })
}

/// A call on a device; a few of them are long grants.
fn device_and_call(rng: &mut Rng, last: Device) -> (Device, Call) {
    if rng.chance(1, 30) {
        return long_grant(rng, last);
    }
    let device = made_device(rng, last);
    (device, made_call(rng, device))
}

// ---- Calls about a burst wait --------------------------------------------

/// A device in a burst wait, with a counter near the block's end, whose clock
/// counts have room for the calls to come.
fn waiting_device(rng: &mut Rng) -> Device {
    let mut device = valid_device(rng);
    let core = &mut device.core;
    core.enabled = true;
    core.slot = running_slot(rng);
    // Longer than its bus time.
    core.slot.length = 32 * rng.pick(&[1, 1, 1, 2, 3, 255]).max(core.slot.bus / 32 + 1);
    core.slot.elapsed = match rng.below(4) {
        0 => core.slot.bus,
        1 => core.slot.length - 1,
        _ => rng.between(u32::from(core.slot.bus), u32::from(core.slot.length) - 1) as u16,
    };
    core.slot.burst = true;
    // 0 is what Load and Continue leave.
    let any = rng.below(65_537);
    let few = rng.below(5);
    core.block.counter = rng.pick(&[few, few, few, 255, 256, 257, 65_535, 65_536, any]);
    let about = (core.block.counter + rng.below(4)).saturating_sub(2).min(65_535);
    core.block.length = about as u16;
    core.control.prescaler = rng.pick(&[0, 1, 1, 2]);
    if rng.chance(1, 2) {
        core.pending = 0;
    }
    let sum = rng.pick(&[0, 1 << 32, 1 << 63]);
    device.clocks = clocks_of(rng, sum);
    device
}

/// The length for a block that ends at the counter, just below it or just
/// above it, or has no byte.
fn length_about(rng: &mut Rng, block: &Block) -> u16 {
    let at = block.counter.saturating_sub(u32::from(block.zilog)).min(65_535) as u16;
    rng.pick(&[at, at, at, at.saturating_sub(1), at.saturating_add(1), 0])
}

/// A byte that moves the block's end or zeroes the counter, or gets ready for
/// it; on either port, since that moves the end as well.
fn write_about_a_wait(rng: &mut Rng, core: &Core) -> Call {
    let [high, low] = length_about(rng, &core.block).to_be_bytes();
    let direction = rng.pick(&[0, 0b100]);
    let wr0 = 1 | direction | rng.pick(&[0b0110_0000, 0b0110_0000, 0b0010_0000, 0b0100_0000]);
    let byte = match Pending::of_number(core.pending).next() {
        model::LENGTH_LOW => low,
        model::LENGTH_HIGH => high,
        0 => rng.pick(&[wr0, wr0, wr0, wr0, 0xCF, 0xD3, 0xB3, 0xB3, 0x82, 0xA2, 0x83]),
        _ => byte(rng),
    };
    let zilog = core.block.zilog != rng.chance(1, 4);
    Call::Write { port: if zilog { 0x0B } else { 0x6B }, byte }
}

/// The next call on such a device: writes where it takes them, Enable where it
/// is disabled, and clocks to the slot's end or its wait, or about there; a few
/// times another speed.
fn call_about_a_wait(rng: &mut Rng, core: &Core) -> Call {
    let slot = core.slot;
    let waits = slot.burst && slot.elapsed >= slot.bus;
    if rng.chance(1, 20) {
        return Call::SetSpeed { code: any_code(rng) };
    }
    if waits && rng.chance(2, 3) {
        return write_about_a_wait(rng, core);
    }
    if !core.enabled && rng.chance(2, 3) {
        let port = rng.pick(&[0x6B, 0x6B, 0x0B]);
        return Call::Write { port, byte: rng.pick(&[0x87, 0x87, 0xC0, 0xCF, 0xD3]) };
    }
    let left = u32::from(slot.length - slot.elapsed);
    let any = rng.below(left + 40);
    let clocks = rng.pick(&[left, left, left.saturating_sub(1), left + 1, left + 10, any]);
    Call::Grant { memory: SIZE, latches: SIZE, clocks }
}

// ---- All made calls ------------------------------------------------------

/// New buffers after so many calls: before long grants have spread the same
/// bytes over them.
const CALLS_OF_A_FILL: u64 = 512;

fn made_calls(bench: &mut Bench, seed: u64, calls: u64) -> Result<(), String> {
    let mut rng = Rng::new(seed);
    let (_, mut last) = bench.call(Device::power_on(), Call::PowerOn)?;
    // Calls to come about the wait that the last device is in or was in.
    let mut about_a_wait = 0;
    for number in 0..calls {
        if number % CALLS_OF_A_FILL == 0 {
            bench.fill(&mut rng);
        }
        let (device, call) = if about_a_wait > 0 {
            about_a_wait -= 1;
            (last, call_about_a_wait(&mut rng, &last.core))
        } else if rng.chance(1, 200) {
            about_a_wait = rng.between(2, 12);
            let device = waiting_device(&mut rng);
            (device, call_about_a_wait(&mut rng, &device.core))
        } else {
            device_and_call(&mut rng, last)
        };
        let place = |case| format!("seed {}, call {}: {}", seed, number, case);
        let (answered, after) = bench.call(device, call).map_err(place)?;
        if answered == 0 && !matches!(call, Call::Valid) {
            last = after;
        }
    }
    Ok(())
}

// ---- Sessions ------------------------------------------------------------

/// The content of a session's next record, kind first, and what is behind it.
fn next_record(rest: &[u8]) -> Option<(&[u8], &[u8])> {
    let length = u16::from_be_bytes([*rest.first()?, *rest.get(1)?]);
    let end = 2 + usize::from(length);
    Some((rest.get(2..end)?, &rest[end..]))
}

/// What a record has the device do, or puts into memory.
enum Record<'a> {
    Call(Call),
    Memory { address: u16, bytes: &'a [u8] },
}

/// By a record's content; none for a fault.
fn record(content: &[u8]) -> Option<Record<'_>> {
    let word = |high, low| u16::from_be_bytes([high, low]);
    Some(match *content {
        [1, high, low, byte] => Record::Call(Call::Write { port: word(high, low), byte }),
        [2, high, low] => Record::Call(Call::Read { port: word(high, low) }),
        [3, b3, b2, b1, b0] => {
            let clocks = u32::from_be_bytes([b3, b2, b1, b0]);
            Record::Call(Call::Grant { memory: SIZE, latches: SIZE, clocks })
        }
        [4, high, low, ref bytes @ ..] if (1..=255).contains(&bytes.len()) => {
            Record::Memory { address: word(high, low), bytes }
        }
        _ => return None,
    })
}

/// A session's records, up to its end or to the first fault.
fn records(session: &[u8]) -> impl Iterator<Item = Record<'_>> {
    let mut rest = session.strip_prefix(&[1]).unwrap_or(&[]);
    std::iter::from_fn(move || {
        let (content, behind) = next_record(rest)?;
        rest = behind;
        record(content)
    })
}

/// Runs a session's records.
fn run_session(bench: &mut Bench, session: &[u8]) -> Result<(), String> {
    let mut device = bench.begin_list()?;
    for record in records(session) {
        match record {
            Record::Call(call) => device = bench.call(device, call)?.1,
            Record::Memory { address, bytes } => bench.lent.store(address, bytes),
        }
        bench.same_buffers()?;
    }
    bench.table.device_stayed()
}

fn made_sessions(bench: &mut Bench, seed: u64, sessions: u64) -> Result<(), String> {
    for number in 1..=sessions {
        let session = generate::session(&mut Rng::numbered(seed, number));
        let place = |case| format!("seed {}, session {}: {}", seed, number, case);
        run_session(bench, &session).map_err(place)?;
    }
    Ok(())
}

fn stored_session(bench: &mut Bench, path: &str) -> Result<(), String> {
    let session = stored::session(path)?;
    run_session(bench, &session).map_err(|case| format!("{}: {}", path, case))
}

// ---- Lists of calls that set the speed -----------------------------------

/// The records of a list are those of a session: of a long one the start is
/// enough.
const RECORDS_OF_A_LIST: usize = 2_000;
/// The second program takes every clock.
const CLOCKS_OF_A_GRANT: u32 = 500_000;
/// A branch takes longer than a record: one for so many that leave a floor.
const RECORDS_OF_A_BRANCH: u32 = 8;

/// A session's grant is about the ends of slots at 28 MHz. At another speed the
/// slots without a prescaler take as many times longer; so does the grant, most
/// often.
fn slowed(rng: &mut Rng, device: Device, call: Call) -> Call {
    let device = model_of(device);
    match call {
        Call::Grant { memory, latches, clocks } if device.prescaler == 0 && rng.chance(3, 4) => {
            let longer = clocks.saturating_mul(u32::from(model::factor(&device)));
            let clocks = longer.min(CLOCKS_OF_A_GRANT.max(clocks));
            Call::Grant { memory, latches, clocks }
        }
        call => call,
    }
}

/// Runs a session's records, with speed calls strewn between them: from one for
/// each record to few in the whole list. Where the device has a floor, a list
/// that keeps it may branch off, by random numbers of its own.
fn run_list(
    bench: &mut Bench,
    rng: &mut Rng,
    branches: &mut Rng,
    session: &[u8],
) -> Result<(), String> {
    let mut device = bench.begin_list()?;
    let seldom = rng.pick(&[2, 5, 20, 100]);
    for record in records(session).take(RECORDS_OF_A_LIST) {
        while rng.chance(1, seldom) {
            device = bench.call(device, Call::SetSpeed { code: any_code(rng) })?.1;
        }
        match record {
            Record::Call(call) => device = bench.call(device, slowed(rng, device, call))?.1,
            Record::Memory { address, bytes } => bench.lent.store(address, bytes),
        }
        bench.same_buffers()?;
        if branches.chance(1, RECORDS_OF_A_BRANCH) && device.cpu_floor() > 0 {
            let before = (bench.lent.clone(), bench.table.clone());
            run_under_floor(bench, branches, device)?;
            (bench.lent, bench.table) = before;
        }
    }
    bench.table.device_stayed()
}

/// Other sessions than those of the seed.
fn made_lists(bench: &mut Bench, seed: u64, lists: u64) -> Result<(), String> {
    for number in 1..=lists {
        let mut rng = Rng::numbered(!seed, number);
        let mut branches = Rng::numbered(!seed, !number);
        let session = generate::session(&mut rng);
        let place = |case| format!("seed {}, list {}: {}", seed, number, case);
        run_list(bench, &mut rng, &mut branches, &session).map_err(place)?;
    }
    Ok(())
}

// ---- Lists that keep a floor ---------------------------------------------

/// A device that has a floor: disabled, about to begin a slot or in one. Often
/// the registers' bus time is the shortest or the longest that there can be.
fn device_with_floor(rng: &mut Rng) -> Device {
    loop {
        let make = rng.pick(&[valid_device, busy_device, endless_device, waiting_device]);
        let mut device = make(rng);
        let core = &mut device.core;
        core.control.burst = true;
        if rng.chance(1, 3) {
            let (speed, cycle) = rng.pick(&[(3, 2), (0, 4)]);
            (core.control.speed, core.a.cycle, core.b.cycle) = (speed, cycle, cycle);
        }
        if model_of(device).cpu_floor() > 0 {
            return device;
        }
    }
}

/// A call that this valid device refuses: by a port that is not the DMA's or
/// while the bus is held, with a speed code that there is not, or with buffers
/// that are too short or too long.
fn refused_call(rng: &mut Rng, device: &model::Device) -> Call {
    let own_port = rng.pick(&[0x6B, 0x0B]);
    let held = model::holds_bus(device) && rng.chance(1, 2);
    let port = if held { own_port } else { not_a_port(rng, own_port) };
    match rng.below(4) {
        0 => Call::Write { port, byte: made_byte(rng) },
        1 => Call::Read { port },
        2 => Call::SetSpeed { code: any_code(rng).max(4) },
        _ => {
            let length = rng.pick(&[0, 1, SIZE - 1, SIZE + 1, LONGEST]);
            let (memory, latches) = rng.pick(&[(length, SIZE), (SIZE, length), (length, length)]);
            Call::Grant { memory, latches, clocks: rng.next() as u32 }
        }
    }
}

/// Clocks for a grant under a floor: few, about the floor, or up to some slots.
fn clocks_under_floor(rng: &mut Rng, device: &model::Device, floor: u32) -> u32 {
    let few = rng.between(2, 8);
    let many = rng.below(3 * u32::from(model::slot_length(device)));
    rng.pick(&[0, 1, 1, few, few, few, floor - 1, floor, many])
}

/// A call that must be refused and change nothing.
fn refuse(bench: &mut Bench, run: &Run, device: Device, call: Call) -> Result<(), String> {
    let (answer, after) = bench.compared(device, call)?;
    if answer.number == 0 || after != device {
        return Err(format!("{:?} of {:?} gives {:?}", call, device, answer));
    }
    bench.floors.count_entry(run, call.about_speed(), answer.number);
    Ok(())
}

/// Grants to a device that has a floor, with refused calls and outside changes of
/// memory between them. In all their clocks together there must be no stretch as
/// long as the floor, and the device must keep a floor that is no greater.
fn run_under_floor(bench: &mut Bench, rng: &mut Rng, start: Device) -> Result<(), String> {
    let mut device = start;
    let floor = bench.floor(start)?;
    let mut run = Run::of(model_of(start), floor);
    for _ in 0..rng.between(10, 50) {
        let clocks = clocks_under_floor(rng, run.device(), floor);
        let grant = Call::Grant { memory: SIZE, latches: SIZE, clocks };
        match rng.below(10) {
            0 => {
                let (address, count) = (rng.word(), rng.between(1, 255));
                bench.floors.count_entry(&run, None, 0);
                bench.lent.store(address, &rng.bytes(count));
            }
            1..=3 => refuse(bench, &run, device, refused_call(rng, run.device()))?,
            _ if room(run.device()) < u128::from(clocks) => refuse(bench, &run, device, grant)?,
            _ => {
                bench.floors.count_entry(&run, grant.about_speed(), 0);
                device = bench.grant_singly(&mut run, device, clocks)?;
                run.keeps_floor()?;
                let later = bench.floor(device)?;
                if later == 0 || later > floor {
                    return Err(format!("floor {} of {:?}, then {}", floor, start, later));
                }
            }
        }
    }
    bench.floors.count_run(&run);
    bench.same_buffers()
}

const LISTS_UNDER_FLOOR: u32 = 2_000;

/// Such lists from devices of any valid content.
fn lists_under_floor(bench: &mut Bench, seed: u64) -> Result<(), String> {
    let mut rng = Rng::new(seed);
    bench.floors = Floors::of_made();
    for number in 0..LISTS_UNDER_FLOOR {
        if number % 100 == 0 {
            bench.fill(&mut rng);
        }
        let device = device_with_floor(&mut rng);
        let place = |case| format!("seed {}, list under a floor {}: {}", seed, number, case);
        run_under_floor(bench, &mut rng, device).map_err(place)?;
    }
    println!("states: seed {}: {} lists under a floor", seed, LISTS_UNDER_FLOOR);
    floors_counted(&format!("seed {} in lists", seed), bench, true)
}

// ---- Every number of pending parameters ----------------------------------

/// The sequences that a sound state can hold: 16 of WR0's parameters, three more
/// of WR4's, and one for each of the four others.
const SEQUENCES: usize = 23;

/// The numbers of the sequences that 01's rule takes, of all there are. No two
/// may share a number, and the wrapper must give each the same.
fn numbers_by_rule() -> Result<BTreeSet<u16>, String> {
    let mut numbers = BTreeSet::new();
    // Four codes, among them one more than there are parameters.
    for number in 0..12_u32.pow(4) {
        let code = |place: u32| (number / 12_u32.pow(place) % 12) as u8;
        let codes = [code(0), code(1), code(2), code(3)];
        let number = model::valid_sequence(&codes).then(|| Pending::Sequence(codes).number());
        if zxndma::pending::from_codes(codes) != number {
            return Err(format!("the wrapper does not make {:?} of {:?}", number, codes));
        }
        if number.is_some_and(|number| !numbers.insert(number)) {
            return Err(format!("another sequence has the number of {:?}", codes));
        }
    }
    Ok(numbers)
}

/// The numbers of the sequences that bytes written to the second program lead
/// to, from power on.
fn numbers_by_writes() -> BTreeSet<u16> {
    let mut numbers = BTreeSet::new();
    let mut open = vec![model::power_on()];
    while let Some(device) = open.pop() {
        if numbers.insert(device.pending.number()) {
            open.extend((0..=u8::MAX).map(|byte| {
                let mut written = device;
                model::write(&mut written, 0x6B, byte);
                // Only what is pending matters here.
                model::Device { pending: written.pending, ..model::power_on() }
            }));
        }
    }
    numbers
}

/// The numbers that stand for a sequence. The second program's way from number
/// to sequence, 01's rule on sequences and what writes lead to must all give
/// the same, and the way back must lead back.
fn numbers_of_sequences() -> Result<BTreeSet<u16>, String> {
    let back = |number: &u16| Pending::of_number(*number).number();
    if let Some(number) = (0..=u16::MAX).find(|number| back(number) != *number) {
        return Err(format!("the second program makes {} of the number {}", back(&number), number));
    }
    let numbers: BTreeSet<u16> = numbers::of_sequences().into_iter().collect();
    let others = [numbers_by_rule()?, numbers_by_writes()];
    if numbers.len() != SEQUENCES || others.iter().any(|other| *other != numbers) {
        return Err(format!("the second program's sequences: {:?}, {:?}", numbers, others));
    }
    Ok(numbers)
}

/// Tries each number once, in a device that is valid otherwise: where it stands
/// for no sequence the calls refuse it with 1 and change nothing, and elsewhere
/// they don't answer 1. To those every byte is written, in writes that are
/// accepted and in others that are refused.
fn every_number(bench: &mut Bench, seed: u64) -> Result<(), String> {
    let mut rng = Rng::new(seed);
    let of_sequences = numbers_of_sequences()?;
    let mut refused = 0;
    bench.fill(&mut rng);
    let filled = bench.lent.by_value.clone();
    for number in 0..=u16::MAX {
        let mut device = valid_device(&mut rng);
        device.core.pending = number;
        let stands = of_sequences.contains(&number);
        let place = |case| format!("seed {}, pending parameters {}: {}", seed, number, case);
        let (answer, _) = bench.answer(device, Call::Valid).map_err(place)?;
        if answer.number != u8::from(stands) {
            return Err(place(format!("{:?} is valid, or is not", device)));
        }
        let write = Call::Write { port: rng.pick(&[0x6B, 0x0B]), byte: made_byte(&mut rng) };
        let grant = Call::Grant { memory: SIZE, latches: SIZE, clocks: 0 };
        let set_speed = Call::SetSpeed { code: any_code(&mut rng) };
        for call in [write, Call::Read { port: 0x6B }, grant, set_speed] {
            let (answer, after) = bench.answer(device, call).map_err(place)?;
            if (answer.number == 1) == stands || (!stands && after != device) {
                return Err(place(format!("{:?} of {:?} gives {:?}", call, device, answer)));
            }
        }
        refused += u32::from(!stands);
    }
    let place = |case| format!("seed {}, pending parameters: {}", seed, case);
    bench.lent.stay(&filled).map_err(place)?;
    let place = |case| format!("seed {}, pending parameters and bytes: {}", seed, case);
    let writes = every_byte(bench, &mut rng, &of_sequences).map_err(place)?;
    println!(
        "states: seed {}: each number of pending parameters: {} valid, {} refused with 1; \
         {} writes, of each byte to each valid one by both ports, warnings {:?}; \
         {} refused with 1, 2 and 3, without one",
        seed,
        of_sequences.len(),
        refused,
        writes.accepted,
        writes.warnings,
        writes.refused
    );
    Ok(())
}

/// How many of the writes by both ports have no warning and each of the three.
/// With no parameter awaited, 32 x 2 bytes are WR0 with AA of 10 or 11 and 8 x 2
/// are WR4 with mode 00 or 11; 64 bytes have a timing of 11, A's and B's.
const WRITES_BY_WARNING: [u32; 4] = {
    let (aa, timing, mode) = (2 * (32 * 2), 2 * (64 * 2), 2 * (8 * 2));
    [2 * 256 * SEQUENCES as u32 - aa - timing - mode, aa, timing, mode]
};

/// What the writes of each byte came to.
#[derive(Default)]
struct Writes {
    accepted: u32,
    /// How many of these have each warning.
    warnings: [u32; 4],
    refused: u32,
}

/// Writes each byte by each port to a device with each of these numbers. All
/// must be accepted. Then so that each must be refused, without a warning.
fn every_byte(bench: &mut Bench, rng: &mut Rng, numbers: &BTreeSet<u16>) -> Result<Writes, String> {
    let mut writes = Writes::default();
    for &number in numbers {
        for port in [0x6B, 0x0B] {
            for byte in 0..=u8::MAX {
                let mut device = valid_device(rng);
                (device.core.enabled, device.core.slot) = (false, NO_SLOT);
                device.core.pending = number;
                let call = Call::Write { port, byte };
                let (answer, _) = bench.answer(device, call)?;
                if answer.number != 0 {
                    return Err(format!("{:?} of {:?} gives {:?}", call, device, answer));
                }
                writes.accepted += 1;
                writes.warnings[usize::from(answer.warning)] += 1;
                writes.refused += refused_writes(bench, rng, device, port, byte)?;
            }
        }
    }
    if writes.warnings != WRITES_BY_WARNING {
        return Err(format!("warnings {:?}, not {:?}", writes.warnings, WRITES_BY_WARNING));
    }
    Ok(writes)
}

/// Writes that a disabled device takes, and that are refused on a device that is
/// not valid, on another port and while the bus is held. Gives how many.
fn refused_writes(
    bench: &mut Bench,
    rng: &mut Rng,
    device: Device,
    port: u16,
    byte: u8,
) -> Result<u32, String> {
    let mut invalid = device;
    invalid.core.readback.position = 7;
    let mut holding = device;
    holding.core.enabled = true;
    leave_bytes(&mut holding.core);
    let cases = [(1, invalid, port), (2, device, not_a_port(rng, port)), (3, holding, port)];
    for (number, device, port) in cases {
        let call = Call::Write { port, byte };
        let (answer, after) = bench.answer(device, call)?;
        if (answer.number, answer.warning, after) != (number, model::NO_WARNING, device) {
            return Err(format!("{:?} of {:?} gives {:?}", call, device, answer));
        }
    }
    Ok(cases.len() as u32)
}

// ---- Every mask and position ---------------------------------------------

/// Reads by each mask from each position, in devices that are valid otherwise
/// and leave the bus free, with a status read waiting and without.
fn every_mask(bench: &mut Bench, seed: u64) -> Result<(), String> {
    let mut rng = Rng::new(seed);
    let (mut accepted, mut refused) = (0, 0);
    for mask in 0..=u8::MAX {
        for position in 0..=u8::MAX {
            for waiting in [false, true] {
                let mut device = valid_device(&mut rng);
                (device.core.enabled, device.core.slot) = (false, NO_SLOT);
                device.core.readback = Readback { mask, position, waiting };
                let call = Call::Read { port: 0x006B };
                let place = |case| format!("seed {}, {:?}: {}", seed, device.core.readback, case);
                let (answer, _) = bench.answer(device, call).map_err(place)?;
                match answer.number {
                    0 if mask <= 127 && position <= 6 => accepted += 1,
                    1 if mask > 127 || position > 6 => refused += 1,
                    number => return Err(place(format!("a read gives the number {}", number))),
                }
            }
        }
    }
    println!(
        "states: seed {}: reads by each mask from each position: {} accepted, {} refused with 1",
        seed, accepted, refused
    );
    Ok(())
}

// ---- Every speed code, and every slot ------------------------------------

/// Sets the speed by each code, in a device with each, valid otherwise.
fn every_code(bench: &mut Bench, seed: u64) -> Result<(), String> {
    let mut rng = Rng::new(seed);
    let mut counts = [0; 8];
    for own in 0..=u8::MAX {
        for code in 0..=u8::MAX {
            let mut device = valid_device(&mut rng);
            device.core.control.speed = own;
            let mut expected = (7, device);
            if own > 3 {
                expected.0 = 1;
            } else if code <= 3 {
                expected.0 = 0;
                expected.1.core.control.speed = code;
            }
            let place = |case| format!("seed {}, speed {} after {}: {}", seed, code, own, case);
            let (answer, after) = bench.answer(device, Call::SetSpeed { code }).map_err(place)?;
            if (answer.number, after) != expected {
                return Err(place(format!("{:?} gives {:?}", device, answer)));
            }
            counts[usize::from(answer.number)] += 1;
        }
    }
    println!(
        "states: seed {}: each speed code in a device with each: {} set, {} refused with 7, {} \
         refused with 1",
        seed, counts[0], counts[7], counts[1]
    );
    Ok(())
}

/// Bus times from 4 to 64, each with itself and with the multiples of 32 from 32
/// to 8,160 that are not below it. Those of up to 32 have 255 multiples, the
/// others 254; 32 and 64 are multiples themselves.
const SLOTS: u32 = 28 * (255 + 1) + 255 + 31 * (254 + 1) + 254;

/// Tries the figures of a slot of which one clock has elapsed, valid ones and
/// those about them, in devices that are valid otherwise.
fn every_slot(bench: &mut Bench, seed: u64) -> Result<(), String> {
    let mut rng = Rng::new(seed);
    let (mut tried, mut valid) = (0, 0);
    for bus in 0..=70 {
        let mut device = valid_device(&mut rng);
        for length in 0..=8_300 {
            let slot = Slot { elapsed: 1, bus, length, burst: length & 1 == 1 };
            (device.core.enabled, device.core.slot) = (true, slot);
            leave_bytes(&mut device.core);
            let place = |case| format!("seed {}, {:?}: {}", seed, slot, case);
            let (answer, _) = bench.answer(device, Call::Valid).map_err(place)?;
            tried += 1;
            valid += u32::from(answer.number);
        }
    }
    if valid != SLOTS {
        return Err(format!("seed {}: {} slots are valid, and not {}", seed, valid, SLOTS));
    }
    println!("states: seed {}: {} slots, {} of them valid", seed, tried, valid);
    Ok(())
}

// ---- Every floor ---------------------------------------------------------

/// What the slots to come go by.
#[derive(Clone, Copy, Debug)]
struct Registers {
    speed: u8,
    cycles: [u8; 2],
    prescaler: u8,
    burst: bool,
}

/// All speeds and cycles; off, the prescalers up to the first whose slots are
/// longer than any bus time, and the greatest; burst and continuous.
fn every_registers() -> Vec<Registers> {
    let mut every = Vec::new();
    for cycles in [2, 3, 4].into_iter().flat_map(|a| [[a, 2], [a, 3], [a, 4]]) {
        for speed in 0..=3 {
            for prescaler in [0, 1, 2, 3, 255] {
                let with = |burst| Registers { speed, cycles, prescaler, burst };
                every.extend([true, false].map(with));
            }
        }
    }
    every
}

/// How many of them have a floor, by the prescaler. At each speed the cycles make
/// 9 bus times, which have to be below 32, 64, 96 and 8,160: at 28 and 14 MHz all
/// are below 32; at 7 MHz one of them is 32; at 3.5 MHz all are from 32 to 64, and
/// one of them is 64.
const REGISTERS_WITH_FLOOR: u32 = (9 + 9 + 8) + (9 + 9 + 9 + 8) + 4 * 9 + 4 * 9;

/// The bytes of a block, and whether it starts again. Of an enabled device with a
/// floor all but the last one end within the clocks that are taken.
const BLOCKS: [(u32, bool); 5] = [(1, false), (1, true), (2, false), (2, true), (1_000, true)];

/// Valid, with these registers, this running slot or none, and this block,
/// begun not long ago. The clock counts have room.
fn device_with(
    rng: &mut Rng,
    registers: Registers,
    enabled: bool,
    slot: Slot,
    (count, restart): (u32, bool),
) -> Device {
    let mut device = valid_device(rng);
    let core = &mut device.core;
    let Registers { speed, cycles, prescaler, burst } = registers;
    core.control = Control { speed, prescaler, burst, restart, ..core.control };
    [core.a.cycle, core.b.cycle] = cycles;
    (core.enabled, core.slot) = (enabled, slot);
    let zilog = rng.chance(1, 2);
    let moved = slot.elapsed > 0 && slot.elapsed >= slot.bus;
    let counter = rng.below(count.min(3)) + u32::from(moved);
    core.block = Block { length: (count - u32::from(zilog)) as u16, counter, zilog };
    let sum = rng.pick(&[0, 1 << 32, 1 << 63]);
    device.clocks = clocks_of(rng, sum);
    device
}

/// A running slot of this bus time at each place that matters, burst and
/// continuous.
fn slots_of(rng: &mut Rng, bus: u16) -> Vec<Slot> {
    let mut slots = Vec::new();
    for place in 0..4 {
        for burst in [true, false] {
            let Slot { length, .. } = slot_of(rng, bus);
            let elapsed = [1, bus - 1, bus, length - 1][place].min(length - 1);
            slots.push(Slot { elapsed, bus, length, burst });
        }
    }
    slots
}

/// With one field changed, so that it is not valid any more.
fn spoiled(rng: &mut Rng, device: Device) -> Device {
    loop {
        let mut spoiled = device;
        let field = rng.below(FIELDS);
        set_field(rng, &mut spoiled, field);
        if !model::valid(&model_of(spoiled)) {
            return spoiled;
        }
    }
}

/// Has both sides answer the floor of a valid device, and the second program take
/// the clocks of the running slot and some more. Gives the floor.
fn try_floor(bench: &mut Bench, rng: &mut Rng, device: Device) -> Result<u32, String> {
    let floor = bench.floor(device)?;
    let start = model_of(device);
    if !model::valid(&start) {
        return Err(format!("not valid: {:?}", device));
    }
    let running = u32::from(start.slot.length - start.slot.elapsed);
    let mut run = Run::of(start, floor);
    if floor > 0 {
        bench.take(&mut run, running + 3 * u32::from(model::slot_length(&start)))?;
        run.keeps_floor()?;
        // That it is valid is needed as well.
        bench.floor(spoiled(rng, device))?;
    } else {
        bench.take(&mut run, running + floors::GREATEST + 1)?;
        if floors::takes_every_clock(&start) && run.longest() <= floors::GREATEST {
            let longest = run.longest();
            return Err(format!("at most {} clocks without a CPU clock: {:?}", longest, device));
        }
    }
    bench.floors.count_run(&run);
    Ok(floor)
}

/// Tries the floors of devices with all these registers: with each block,
/// disabled and enabled, and with running slots of each bus time.
fn every_floor(bench: &mut Bench, seed: u64) -> Result<(), String> {
    let mut rng = Rng::new(seed);
    let (mut tried, mut with_floor) = (0, 0);
    bench.floors = Floors::of_each();
    bench.fill(&mut rng);
    for registers in every_registers() {
        let place = |case| format!("seed {}, {:?}: {}", seed, registers, case);
        for block in BLOCKS {
            for enabled in [false, true] {
                let device = device_with(&mut rng, registers, enabled, NO_SLOT, block);
                let floor = try_floor(bench, &mut rng, device).map_err(place)?;
                tried += 1;
                with_floor += u32::from(floor > 0);
            }
        }
        for bus in 4..=64 {
            for slot in slots_of(&mut rng, bus) {
                let block = rng.pick(&BLOCKS);
                let device = device_with(&mut rng, registers, true, slot, block);
                try_floor(bench, &mut rng, device).map_err(place)?;
            }
        }
    }
    let expected = 2 * BLOCKS.len() as u32 * REGISTERS_WITH_FLOOR;
    if with_floor != expected {
        return Err(format!("seed {}: {} floors, and not {}", seed, with_floor, expected));
    }
    println!(
        "states: seed {}: {} devices without a running slot, {} of them with a floor",
        seed, tried, with_floor
    );
    floors_counted(&format!("seed {}", seed), bench, true)
}

// ---- A slot that would begin with its block finished ---------------------

/// Any valid content but for this: enabled, with no clock of a slot elapsed, and
/// with the block finished. That alone makes it not valid.
fn finished_device(rng: &mut Rng) -> Device {
    let mut device = valid_device(rng);
    let core = &mut device.core;
    (core.enabled, core.slot) = (true, NO_SLOT);
    core.block.counter = (block_count(&core.block) + rng.below(3)).min(65_536);
    device
}

/// What the second program says if a clock of such a device takes place.
fn said_by_clock(bench: &mut Bench, device: &model::Device) -> Result<(), String> {
    let (mut device, lent) = (*device, &mut bench.lent.model);
    let clock = || model::take_clocks(&mut device, &mut lent.memory, &mut lent.latches, 1);
    stops::silenced(|| stops::caught(clock))
}

const FINISHED_DEVICES: u32 = 200;

/// No call takes the second program to its failure. It must be able to fail
/// nevertheless, or it would guard nothing: it is tried past the refusal. The
/// calls refuse such a device and change nothing.
fn finished_devices(bench: &mut Bench, seed: u64) -> Result<(), String> {
    let mut rng = Rng::new(seed);
    let mut empty = Device::power_on();
    empty.core.enabled = true;
    bench.fill(&mut rng);
    let filled = bench.lent.by_value.clone();
    for number in 0..FINISHED_DEVICES {
        // First the plainest one: enabled at power on, with no byte to move.
        let device = if number == 0 { empty } else { finished_device(&mut rng) };
        let before = model_of(device);
        let place = |case| format!("seed {}, finished device {}: {}", seed, number, case);
        let (counter, count) = (before.counter, model::block_count(&before));
        let expected = format!(
            "a slot begins with the block finished: counter {}, block count {}; \
             no sound state comes here",
            counter, count
        );
        let said = said_by_clock(bench, &before);
        if said != Err(expected) {
            return Err(place(format!("a clock of {:?} gives {:?}", device, said)));
        }
        let clocks = rng.pick(&[0, 1, 100]);
        let grant = Call::Grant { memory: SIZE, latches: SIZE, clocks };
        let write = Call::Write { port: 0x6B, byte: made_byte(&mut rng) };
        let set_speed = Call::SetSpeed { code: any_code(&mut rng) };
        for call in [grant, write, Call::Read { port: 0x6B }, set_speed] {
            let (answered, after) = bench.call(device, call).map_err(place)?;
            if answered != 1 || model_of(after) != before {
                return Err(place(format!("{:?} is not refused with 1, or changes it", call)));
            }
        }
    }
    let place = |case| format!("seed {}, finished devices: {}", seed, case);
    bench.lent.stay(&filled).map_err(place)?;
    println!("states: seed {}: {} devices with a finished block", seed, FINISHED_DEVICES);
    Ok(())
}

// ---- The program ---------------------------------------------------------

struct Options {
    calls: u64,
    sessions: u64,
    lists: u64,
    seeds: Vec<u64>,
    paths: Vec<String>,
}

/// The options, or what is wrong with them.
fn options(words: &[&str]) -> Result<Options, String> {
    let mut options = Options {
        calls: CALLS,
        sessions: SESSIONS,
        lists: LISTS,
        seeds: Vec::new(),
        paths: Vec::new(),
    };
    let mut words = words.iter();
    while let Some(&word) = words.next() {
        let mut number = || {
            let value = words.next().ok_or(format!("{word} asks for a number"))?;
            value.parse().map_err(|_| format!("{word}: {value} is not a number"))
        };
        match word {
            "--calls" => options.calls = number()?,
            "--sessions" => options.sessions = number()?,
            "--lists" => options.lists = number()?,
            "--seed" => options.seeds.push(number()?),
            _ if word.starts_with('-') => return Err(format!("{word} is not an option")),
            _ => options.paths.push(word.to_string()),
        }
    }
    if options.seeds.is_empty() {
        options.seeds.push(1);
    }
    Ok(options)
}

/// Prints what the grants and the writes in waits came to, and which warnings and
/// which numbers of pending parameters came. Where there were enough of them, none
/// of it may be missing.
fn counted(of: &str, bench: &Bench, enough: bool) -> Result<(), String> {
    println!("{}", bench.grants.summary(of));
    println!("{}", bench.waits.summary(&format!("states: waits of {}", of)));
    println!("{}", bench.warnings.summary(&format!("states: warnings of {}", of)));
    println!("{}", bench.numbers.summary(&format!("states: pending parameters of {}", of)));
    none_missing("grant", of, bench.grants.missing(), enough)?;
    none_missing("wait", of, bench.waits.missing(), enough)?;
    none_missing("warning", of, bench.warnings.missing(), enough)?;
    none_missing("pending parameters", of, bench.numbers.missing(), enough)
}

/// The same of the calls that set the speed.
fn speeds_counted(of: &str, bench: &Bench, enough: bool) -> Result<(), String> {
    println!("{}", bench.speeds.summary(&format!("states: speeds of {}", of)));
    none_missing("speed", of, bench.speeds.missing(), enough)
}

/// The same of the floors.
fn floors_counted(of: &str, bench: &Bench, enough: bool) -> Result<(), String> {
    println!("{}", bench.floors.summary(&format!("states: floors of {}", of)));
    none_missing("floor", of, bench.floors.missing(), enough)
}

/// The same of the calls in place.
fn places_counted(of: &str, bench: &Bench, enough: bool) -> Result<(), String> {
    println!("{}", bench.places.summary(&format!("states: in place, {}", of)));
    none_missing("call in place", of, bench.places.missing(), enough)
}

fn none_missing(what: &str, of: &str, missing: Option<String>, enough: bool) -> Result<(), String> {
    match missing {
        Some(missing) if enough => Err(format!("no {} of {}: {}", what, of, missing)),
        _ => Ok(()),
    }
}

fn compare(options: &Options) -> Result<String, String> {
    let Options { calls, sessions, lists, seeds, paths } = options;
    let mut bench = Bench::new();
    for path in paths {
        stored_session(&mut bench, path)?;
    }
    println!("states: {} stored sessions", paths.len());
    for &seed in seeds {
        every_number(&mut bench, seed)?;
        every_mask(&mut bench, seed)?;
        every_code(&mut bench, seed)?;
        every_slot(&mut bench, seed)?;
        finished_devices(&mut bench, seed)?;
        every_floor(&mut bench, seed)?;
        lists_under_floor(&mut bench, seed)?;
    }
    bench.count_anew(Grants::of_devices(), Warnings::of_devices(), Speeds::of_devices());
    (bench.floors, bench.places) = (Floors::of_devices(), Places::of_devices());
    for &seed in seeds {
        println!("states: seed {}: {} calls", seed, calls);
        made_calls(&mut bench, seed, *calls)?;
    }
    counted("devices", &bench, *calls >= CALLS)?;
    speeds_counted("devices", &bench, *calls >= CALLS)?;
    floors_counted("devices", &bench, *calls >= CALLS)?;
    places_counted("devices", &bench, *calls >= CALLS)?;
    bench.count_anew(Grants::of_sessions(), Warnings::of_sessions(), Speeds::of_lists());
    (bench.floors, bench.places) = (Floors::of_lists(), Places::of_lists());
    for &seed in seeds {
        println!("states: seed {}: {} lists of calls that set the speed", seed, lists);
        made_lists(&mut bench, seed, *lists)?;
    }
    speeds_counted("lists", &bench, *lists >= LISTS)?;
    floors_counted("lists", &bench, *lists >= LISTS)?;
    places_counted("lists", &bench, *lists >= LISTS)?;
    // Without the stored ones: what is made has to come to everything alone.
    bench.count_anew(Grants::of_sessions(), Warnings::of_sessions(), Speeds::of_lists());
    (bench.floors, bench.places) = (Floors::of_sessions(), Places::of_sessions());
    for &seed in seeds {
        println!("states: seed {}: {} sessions", seed, sessions);
        made_sessions(&mut bench, seed, *sessions)?;
    }
    counted("sessions", &bench, *sessions >= SESSIONS)?;
    floors_counted("sessions", &bench, *sessions >= SESSIONS)?;
    places_counted("sessions", &bench, *sessions >= SESSIONS)?;
    bench.counts.summary()
}

fn main() -> ExitCode {
    program::main("states", HELP, |words| {
        let options = options(words).map_err(program::bad_usage)?;
        println!("{}", compare(&options).map_err(|fault| (1, format!("FAILED: {fault}")))?);
        Ok(())
    })
}

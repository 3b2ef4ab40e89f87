//! A program: measures the linked library against plain Rust, in one process.
//!
//! Blocks against `stepping.rs`, which takes every clock singly, and
//! `events.rs`, which takes them together; calls, by value and in place, against
//! the second program, `reference.rs`. All must leave the same device, memory and
//! latches.
//!
//! Built by `rustc --edition 2021 -O -L native=target/staticlib measure.rs`,
//! from this folder or with its path; `measure --help` says how it is run.
//! `run-measure` builds it and runs it.

#![deny(unsafe_code)]

#[path = "events.rs"]
mod events;
#[path = "generate.rs"]
mod generate;
#[path = "program.rs"]
mod program;
#[path = "reference.rs"]
mod reference;
#[path = "stepping.rs"]
mod stepping;
#[path = "../../rust/zxndma/src/lib.rs"]
mod zxndma;

use generate::Rng;
use program::{bad_usage, Failure};
use reference::model;
use std::process::ExitCode;
use std::time::{Duration, Instant};
use stepping::clock::{self, Bytes, State, MUSIC_CLOCKS, NO_SLOT};
use zxndma::Device;

const HELP: &str = "\
usage: measure [--rounds N]      measures all, in N rounds (5)
       measure --check           a short run: rough figures, the same requirements
       measure --calls KIND N    makes N calls of a kind, and measures nothing
Measures the linked library against plain Rust in one process. The contestants
take turns in each round, and the fastest time of each counts. Printed are times
in nanoseconds, their ratios, and the ratios aimed at. The contestants:

  by value   the library: a device goes in by value and comes back
  in place   the library: a device is lent and changed where it stands
  stepping   plain Rust that takes one clock at a time, in place
  events     plain Rust that takes waits, slots and blocks at once, in place
  reference  the second program: calls in place, one clock at a time

Blocks are moved by value, by events and by stepping, and music in place as well.
Calls are made by value, in place and by the reference; a floor has one form and
is asked for by value alone. For in place / by value the aim is at most 1.
Required are:
- the same device, memory and latches from by value, in place, events and
  stepping on made states, from the contestants of each block, and, with the same
  bytes read, from those of each kind of call;
- stepping / by value at least 4 on the block of music;
- a grant, by value and in place, of 4,000,000,000 clocks to a disabled device at
  most 10 times as long as a grant of 1 clock.

With --calls a tool can count the instructions: the difference of two runs,
divided by that of their calls, is one call with the loop around it. The kinds
are write, read, read-status, set-speed, cpu-floor, grant0, grant1,
grant1-continuous, grant20-burst, grant20-continuous, grant20-disabled,
grant4g-disabled and music: calls by value. With -in-place at its end a kind is
of calls in place, and with -reference of the second program's; cpu-floor has
neither, and for grant4g-disabled and music the second program needs too long. A
grant whose kind names no mode is to a disabled device. A call of music is the
whole block.

Exit status: 0 done; 1 a requirement is not met; 2 bad arguments.
";

// ---- What is lent and left -----------------------------------------------

#[derive(Clone, PartialEq)]
struct Buffers {
    memory: Box<Bytes>,
    latches: Box<Bytes>,
}

impl Buffers {
    fn zero() -> Buffers {
        Buffers { memory: Box::new([0; 65_536]), latches: Box::new([0; 65_536]) }
    }

    fn random(seed: u64) -> Buffers {
        let mut rng = Rng::new(seed);
        let mut made = Buffers::zero();
        made.memory.iter_mut().chain(made.latches.iter_mut()).for_each(|byte| *byte = rng.byte());
        made
    }

    fn copy(&mut self, other: &Buffers) {
        *self.memory = *other.memory;
        *self.latches = *other.latches;
    }
}

/// What a contestant leaves beside the buffers.
#[derive(Clone, Copy, PartialEq, Debug)]
struct Left {
    device: Device,
    /// The sum of the calls' numbers: not 0 if one was refused.
    numbers: u64,
    /// The sum of the bytes read, or of the floors.
    bytes: u64,
}

/// The library's device with this state, and the rest as at power on. The
/// patterns name every field: none can be forgotten.
fn device_of_state(state: &State) -> Device {
    let State { a, b, block, control, e, t, enabled, slot, clocks } = *state;
    let clock::Block { length, counter, zilog } = block;
    let clock::Control { forward, prescaler, burst, restart, speed } = control;
    let clock::Clocks { bus, held, cpu } = clocks;
    let mut device = Device { clocks: zxndma::Clocks { bus, held, cpu }, ..Device::power_on() };
    device.core.a = port_of_state(a);
    device.core.b = port_of_state(b);
    device.core.block = zxndma::Block { length, counter, zilog };
    device.core.control = zxndma::Control { forward, prescaler, burst, restart, speed };
    device.core.status = zxndma::Status { e, t };
    device.core.enabled = enabled;
    let clock::Slot { elapsed, bus, length, burst } = slot;
    device.core.slot = zxndma::Slot { elapsed, bus, length, burst };
    device
}

fn port_of_state(port: clock::Port) -> zxndma::Port {
    let clock::Port { address, pointer, io, step, cycle } = port;
    zxndma::Port { address, pointer, io, step, cycle }
}

/// The library's device with the content of the second program's.
fn device_of_model(device: &model::Device) -> Device {
    let model::Slot { elapsed, bus, length, burst } = device.slot;
    let slot = zxndma::Slot { elapsed, bus, length, burst };
    let model::Clocks { bus, held, cpu } = device.clocks;
    let clocks = zxndma::Clocks { bus, held, cpu };
    let (length, counter, zilog) = (device.length, device.counter, device.zilog);
    let core = zxndma::Core {
        a: port_of_model(device.a),
        b: port_of_model(device.b),
        block: zxndma::Block { length, counter, zilog },
        control: zxndma::Control {
            forward: device.a_to_b,
            prescaler: device.prescaler,
            burst: device.burst,
            restart: device.auto_restart,
            speed: device.speed,
        },
        status: zxndma::Status { e: device.e, t: device.t },
        readback: zxndma::Readback {
            mask: device.mask,
            position: device.place,
            waiting: device.status_waiting,
        },
        pending: device.pending.number(),
        enabled: device.enabled,
        slot,
    };
    Device { core, clocks }
}

fn port_of_model(port: model::Port) -> zxndma::Port {
    let model::Port { address, pointer, io, step, cycle } = port;
    zxndma::Port { address, pointer, io, step, cycle }
}

// ---- Grants --------------------------------------------------------------

// None is inlined, as the library's own can't be: what surrounds a call is no
// help to it.

/// A grant of clocks to a device with this state.
type Grant = fn(&State, &mut Buffers, u32) -> Left;

#[inline(never)]
fn by_value(state: &State, lent: &mut Buffers, clocks: u32) -> Left {
    granted_left(ByValue { device: device_of_state(state) }, lent, clocks)
}

#[inline(never)]
fn in_place(state: &State, lent: &mut Buffers, clocks: u32) -> Left {
    granted_left(InPlace { device: device_of_state(state) }, lent, clocks)
}

/// What is left by the library in one of its forms.
#[inline(always)]
fn granted_left(mut side: impl Side, lent: &mut Buffers, clocks: u32) -> Left {
    let number = side.grant(lent, clocks);
    Left { device: side.device(), numbers: u64::from(number), bytes: 0 }
}

#[inline(never)]
fn by_events(state: &State, lent: &mut Buffers, clocks: u32) -> Left {
    let mut state = *state;
    events::grant(&mut state, &mut lent.memory, &mut lent.latches, clocks);
    accepted_left(&state)
}

#[inline(never)]
fn step_clocks(state: &mut State, lent: &mut Buffers, clocks: u32) {
    state.grant(&mut lent.memory, &mut lent.latches, clocks);
}

/// What is left by a contestant that refuses nothing.
fn accepted_left(state: &State) -> Left {
    Left { device: device_of_state(state), numbers: 0, bytes: 0 }
}

// ---- Made states ---------------------------------------------------------

/// Half of them at the ends, so that pointers wrap.
fn made_address(rng: &mut Rng) -> u16 {
    rng.pick_or(&[0, 1, 2, 0xFFFD, 0xFFFE, 0xFFFF], Rng::word)
}

fn made_port(rng: &mut Rng) -> clock::Port {
    clock::Port {
        address: made_address(rng),
        pointer: made_address(rng),
        io: rng.chance(1, 3),
        step: rng.pick(&[0, 0, 1, 1, 1, 2, 3, 255]),
        cycle: rng.between(2, 4) as u8,
    }
}

/// Most of them short, so that they end, some of them nearly or quite done.
fn made_block(rng: &mut Rng) -> clock::Block {
    let length = match rng.below(8) {
        0..=3 => rng.below(5) as u16,
        4..=6 => rng.below(100) as u16,
        _ => rng.word(),
    };
    let counter = match rng.below(4) {
        0 | 1 => 0,
        2 => (u32::from(length) + 1).saturating_sub(rng.below(4)),
        _ => rng.below(65_537),
    };
    clock::Block { length, counter, zilog: rng.chance(1, 2) }
}

/// A running slot, most often about the end of its bus time or its own.
fn made_slot(rng: &mut Rng) -> clock::Slot {
    let any = rng.between(4, 64) as u16;
    let bus = rng.pick(&[4, 8, 32, 33, 64, any]);
    let any = 32 * rng.between(1, 255) as u16;
    // The bus time, or a multiple of 32 that is not below it.
    let least = if bus > 32 { 64 } else { 32 };
    let length = if rng.chance(1, 4) { bus } else { rng.pick(&[32, 64, any]).max(least) };
    let any = rng.between(1, u32::from(length) - 1) as u16;
    let elapsed = rng.pick(&[1, bus - 1, bus, bus + 1, length - 1, any]).min(length - 1);
    clock::Slot { elapsed, bus, length, burst: rng.chance(1, 2) }
}

/// A valid state.
fn made_state(rng: &mut Rng) -> State {
    let mut state = State {
        a: made_port(rng),
        b: made_port(rng),
        block: made_block(rng),
        control: clock::Control {
            forward: rng.chance(1, 2),
            prescaler: rng.pick(&[0, 0, 0, 1, 2, 55, 255]),
            burst: rng.chance(1, 2),
            restart: rng.chance(1, 2),
            speed: rng.below(4) as u8,
        },
        e: rng.chance(1, 2),
        t: rng.chance(1, 2),
        enabled: rng.chance(9, 10),
        slot: NO_SLOT,
        clocks: clock::Clocks { bus: rng.next() >> 8, held: rng.next() >> 8, cpu: rng.next() >> 8 },
    };
    if rng.chance(1, 3) {
        // Overlapping blocks.
        state.b.pointer = state.a.pointer.wrapping_add(rng.below(9) as u16).wrapping_sub(4);
        state.b.io = state.a.io;
    }
    if state.enabled && rng.chance(1, 2) {
        state.slot = made_slot(rng);
    }
    // A device that has a byte to move has not finished its block.
    if state.enabled && (state.slot.elapsed == 0 || state.slot.elapsed < state.slot.bus) {
        state.block.length = state.block.length.max(1);
        state.block.counter = state.block.counter.min(state.block_count() - 1);
    }
    state
}

/// Most often few: stepping takes them singly.
fn made_clocks(rng: &mut Rng) -> u32 {
    match rng.below(100) {
        0..=29 => rng.below(10),
        30..=59 => rng.below(100),
        60..=89 => rng.below(3_000),
        90..=98 => rng.below(20_000),
        _ => rng.below(1_000_000),
    }
}

const MADE_STATES: u32 = 10_000;

/// Compares the contestants, so that none is quick by doing less.
fn compare_grants() -> Result<(), String> {
    let mut rng = Rng::new(1);
    let mut stepped = Buffers::random(1);
    let grants: [(&str, Grant); 3] =
        [("by value", by_value), ("in place", in_place), ("events", by_events)];
    let mut others = grants.map(|(name, grant)| (name, grant, stepped.clone()));
    for number in 0..MADE_STATES {
        let (state, clocks) = (made_state(&mut rng), made_clocks(&mut rng));
        let mut after = state;
        step_clocks(&mut after, &mut stepped, clocks);
        let expected = accepted_left(&after);
        for (name, grant, lent) in &mut others {
            let left = grant(&state, lent, clocks);
            same(&expected, &stepped, &left, lent).map_err(|text| {
                format!("{name}, made state {number}: {text}\nafter {clocks} clocks of {state:?}")
            })?;
        }
    }
    println!("by value, in place, events and stepping: no difference on {MADE_STATES} made states");
    Ok(())
}

/// A contestant leaves what another has left, and was not refused.
fn same(expected: &Left, stored: &Buffers, left: &Left, lent: &Buffers) -> Result<(), String> {
    accepted(left)?;
    if left != expected {
        return Err(format!("devices or bytes read differ\none:   {expected:?}\nother: {left:?}"));
    }
    if lent != stored {
        return Err("memory or latches differ".to_string());
    }
    Ok(())
}

fn accepted(left: &Left) -> Result<(), String> {
    if left.numbers == 0 {
        Ok(())
    } else {
        Err("a call was refused".to_string())
    }
}

// ---- Rounds --------------------------------------------------------------

/// How much is measured.
struct Extent {
    rounds: u32,
    /// The most calls of a kind in a round.
    calls: u32,
}

const FULL: Extent = Extent { rounds: 5, calls: 10 * MILLION };
const SHORT: Extent = Extent { rounds: 2, calls: 50_000 };

/// A contestant's turn: its fastest time in nanoseconds, and what it leaves.
type Contestant<'a> = Box<dyn FnMut(&mut Buffers) -> (f64, Left) + 'a>;

/// Contestants at the same work, and the fastest time of each.
struct Contest<'a, const N: usize> {
    what: &'static str,
    aim: &'static str,
    contestants: [Contestant<'a>; N],
    best: [f64; N],
}

impl<'a, const N: usize> Contest<'a, N> {
    fn new(what: &'static str, aim: &'static str, contestants: [Contestant<'a>; N]) -> Self {
        Contest { what, aim, contestants, best: [f64::INFINITY; N] }
    }

    /// Each has its turn, with the same bytes in the same buffers.
    fn round(&mut self, start: &Buffers, lent: &mut Buffers) -> Result<(), String> {
        let mut first = None;
        for (contestant, best) in self.contestants.iter_mut().zip(&mut self.best) {
            lent.copy(start);
            let (time, left) = contestant(lent);
            *best = best.min(time);
            let (expected, stored) = first.get_or_insert_with(|| (left, lent.clone()));
            same(expected, stored, &left, lent).map_err(|text| format!("{}: {text}", self.what))?;
        }
        Ok(())
    }
}

/// The nanoseconds that something takes, and what it gives.
fn timed<T>(run: impl FnOnce() -> T) -> (f64, T) {
    let start = Instant::now();
    let given = run();
    (start.elapsed().as_secs_f64() * 1e9, given)
}

fn print_heading(title: &str, names: [&str; 2]) {
    println!("\n{title:44}{:>12}{:>12}     ratio  aim", names[0], names[1]);
}

/// The ratio is that of the first time to the second. It is given back.
fn print_row(what: &str, times: [f64; 2], aim: &str) -> f64 {
    let ratio = times[0] / times[1];
    println!("{what:44}{:12.3}{:12.3}{ratio:10.2}  {aim}", times[0], times[1]);
    ratio
}

// ---- Blocks --------------------------------------------------------------

/// What each block moves in its grant.
const BYTES: u32 = 65_536;

const DECREMENT: u8 = 0;
const INCREMENT: u8 = 1;
const FIXED: u8 = 2;

fn port(io: bool, step: u8, address: u16) -> clock::Port {
    clock::Port { address, pointer: address, io, step, cycle: 4 }
}

/// Without a prescaler: 8 clocks a byte.
fn continuous(a: clock::Port, b: clock::Port) -> State {
    let music = clock::music();
    let control = clock::Control { prescaler: 0, burst: false, ..music.control };
    State { a, b, control, ..music }
}

/// A block of one byte that begins again after each.
fn restarting(mut state: State) -> State {
    state.block = clock::Block { length: 1, counter: 0, zilog: false };
    state.control.restart = true;
    state
}

/// Music first. Each leaves the same bytes however often it is run, so that a
/// quick contestant can run it more often than a slow one.
fn blocks() -> [(&'static str, State); 7] {
    let io = port(true, FIXED, 0xFFDF);
    let memory = port(false, INCREMENT, 0);
    let next = port(false, INCREMENT, 1);
    let middle = port(false, INCREMENT, 0x8000);
    let (down, down_middle) = (port(false, DECREMENT, 0xFFFF), port(false, DECREMENT, 0x7FFF));
    [
        ("music: memory to I/O, burst, prescaler 55", clock::music()),
        ("memory to memory, increment", continuous(memory, middle)),
        ("memory to memory, decrement", continuous(down, down_middle)),
        ("memory to memory, overlap at distance 1", continuous(memory, next)),
        ("memory to memory, 1 byte with auto restart", restarting(continuous(memory, middle))),
        ("I/O to memory", continuous(io, memory)),
        ("memory to I/O", continuous(memory, io)),
    ]
}

const TURN: Duration = Duration::from_millis(20);

/// The fastest of as many runs as a turn has time for, one at least. Each is
/// timed by itself, so that a few undisturbed ones are enough.
fn fastest_run<T>(mut run: impl FnMut() -> T) -> (f64, T) {
    let start = Instant::now();
    let mut best = f64::INFINITY;
    loop {
        let (time, given) = timed(&mut run);
        best = best.min(time);
        if start.elapsed() >= TURN {
            return (best, given);
        }
    }
}

const PARTS: u32 = 256;

/// Stepping takes so long for a block that no run is undisturbed as a whole:
/// the fastest of equal parts stands for all of them.
fn fastest_part(mut state: State, lent: &mut Buffers, clocks: u32) -> (f64, Left) {
    let mut best = f64::INFINITY;
    for _ in 0..PARTS {
        let (time, ()) = timed(|| step_clocks(&mut state, lent, clocks / PARTS));
        best = best.min(time);
    }
    (best * f64::from(PARTS), accepted_left(&state))
}

/// A turn at a block.
fn block_turn(grant: Grant, block: State, clocks: u32) -> Contestant<'static> {
    Box::new(move |lent| fastest_run(|| grant(&block, lent, clocks)))
}

/// By value, events, stepping.
fn block_contest(what: &'static str, block: State) -> Contest<'static, 3> {
    let clocks = BYTES * u32::from(block.new_slot().length);
    let turn = |grant| block_turn(grant, block, clocks);
    let stepping = Box::new(move |lent: &mut Buffers| fastest_part(block, lent, clocks));
    Contest::new(what, "at most 1.5", [turn(by_value), turn(by_events), stepping])
}

/// Music in place and by value: a whole block hides how the device goes in.
fn music_contest() -> Contest<'static, 2> {
    let turn = |grant| block_turn(grant, clock::music(), MUSIC_CLOCKS);
    Contest::new(blocks()[0].0, "near 1", [turn(in_place), turn(by_value)])
}

/// The least ratio of stepping to the library by value on the block of music.
const LEAST_SPEED: f64 = 4.0;

fn a_byte(time: f64) -> f64 {
    time / f64::from(BYTES)
}

fn print_blocks(contests: &[Contest<3>]) -> Result<(), String> {
    print_heading("65,536 bytes, ns a byte", ["by value", "events"]);
    for contest in contests {
        let [by_value, events, _] = contest.best.map(a_byte);
        print_row(contest.what, [by_value, events], contest.aim);
    }
    print_heading("65,536 bytes, ns a byte", ["stepping", "by value"]);
    let mut aim = "at least 2000";
    for contest in contests {
        let [by_value, _, stepping] = contest.best.map(a_byte);
        print_row(contest.what, [stepping, by_value], aim);
        aim = "";
    }
    let Contest { what, best: [by_value, _, stepping], .. } = &contests[0];
    if stepping / by_value < LEAST_SPEED {
        return Err(format!("{what}: stepping / by value is below {LEAST_SPEED}"));
    }
    Ok(())
}

fn print_music(contest: &Contest<2>) {
    print_heading("65,536 bytes, ns a byte", ["in place", "by value"]);
    print_row(contest.what, contest.best.map(a_byte), contest.aim);
}

// ---- Calls ---------------------------------------------------------------

const MILLION: u32 = 1_000_000;
const PORT: u16 = 0x006B;

#[derive(Clone, Copy)]
enum Call {
    Write,
    Read,
    /// Every code in turn.
    SetSpeed,
    Grant(u32),
}

/// A call that is made to a device again and again.
#[derive(Clone, Copy)]
struct Kind {
    name: &'static str,
    what: &'static str,
    start: model::Device,
    call: Call,
}

impl Kind {
    /// How many make a round.
    fn calls(&self) -> u32 {
        match self.call {
            Call::Grant(1) => 10 * MILLION,
            _ => MILLION,
        }
    }

    /// For the ratios of the library to the second program.
    fn aim(&self) -> &'static str {
        match self.call {
            Call::Grant(20) => "at most 1",
            _ => "at most 2",
        }
    }
}

/// Those that the second program can take too, and that have both forms.
fn kinds() -> [Kind; 10] {
    let kind = |name, what, start, call| Kind { name, what, start, call };
    let disabled = model::power_on();
    let burst = transferring(&[0x22, 1], 0xCD);
    let continuous = transferring(&[0x02], 0xAD);
    [
        kind("write", "port writes, every register", disabled, Call::Write),
        kind("read", "port reads, round the mask", waiting(), Call::Read),
        kind("read-status", "port reads, the status alone", status_alone(), Call::Read),
        kind("set-speed", "speed calls, every code", burst, Call::SetSpeed),
        kind("grant0", "grants of 0 clocks, disabled", disabled, Call::Grant(0)),
        kind("grant1", "grants of 1 clock, disabled", disabled, Call::Grant(1)),
        kind("grant1-continuous", "grants of 1 clock, continuous", continuous, Call::Grant(1)),
        kind("grant20-burst", "grants of 20 clocks, burst", burst, Call::Grant(20)),
        kind("grant20-continuous", "grants of 20 clocks, continuous", continuous, Call::Grant(20)),
        kind("grant20-disabled", "grants of 20 clocks, disabled", disabled, Call::Grant(20)),
    ]
}

/// The second program would take seconds for them.
const MANY_CLOCKS: u32 = 4_000_000_000;

fn many_clocks() -> Kind {
    let what = "grants of 4,000,000,000 clocks, disabled";
    let call = Call::Grant(MANY_CLOCKS);
    Kind { name: "grant4g-disabled", what, start: model::power_on(), call }
}

/// 4,096 bytes from 1000 to 2000 with a bus time of 4 clocks, with auto
/// restart, enabled.
fn transferring(b_timing: &[u8], wr4: u8) -> model::Device {
    let registers = [0x7D, 0x00, 0x10, 0x00, 0x10, 0x54, 0x02, 0x50];
    let bytes = [&registers, b_timing, &[wr4, 0x00, 0x20, 0xA2, 0xCF, 0x87]].concat();
    let mut device = model::power_on();
    send(&mut device, &bytes);
    device
}

fn send(device: &mut model::Device, bytes: &[u8]) {
    for &byte in bytes {
        let (number, _) = model::write(device, PORT, byte);
        assert_eq!(number, 0, "each byte is sent while the bus is free");
    }
}

/// In the wait of a burst slot, with a byte moved.
fn waiting() -> model::Device {
    let mut device = transferring(&[0x22, 55], 0xCD);
    let mut lent = Buffers::zero();
    assert_eq!(device.grant(&mut lent, 10), 0, "a valid device, and room for its clocks");
    device
}

/// The same with the status alone in the mask: in every read but the first the
/// search goes all the way round.
fn status_alone() -> model::Device {
    let mut device = waiting();
    send(&mut device, &[0xBB, 0x01]);
    device
}

fn written_bytes() -> Vec<u8> {
    generate::register_bytes(MILLION as usize).collect()
}

/// The library in one of its forms, or the second program. A call gives its
/// number.
trait Side: Copy {
    fn write(&mut self, byte: u8) -> u8;
    fn read(&mut self) -> (u8, u8);
    fn set_speed(&mut self, code: u8) -> u8;
    fn grant(&mut self, lent: &mut Buffers, clocks: u32) -> u8;
    fn device(&self) -> Device;
}

#[derive(Clone, Copy)]
struct ByValue {
    device: Device,
}

impl Side for ByValue {
    fn write(&mut self, byte: u8) -> u8 {
        let written = self.device.write(PORT, byte);
        self.device = written.device;
        written.number
    }

    fn read(&mut self) -> (u8, u8) {
        let given = self.device.read(PORT);
        self.device = given.device;
        (given.number, given.byte)
    }

    fn set_speed(&mut self, code: u8) -> u8 {
        let set = self.device.set_speed(code);
        self.device = set.device;
        set.number
    }

    fn grant(&mut self, lent: &mut Buffers, clocks: u32) -> u8 {
        let granted = self.device.grant(&mut lent.memory[..], &mut lent.latches[..], clocks);
        self.device = granted.device;
        granted.number
    }

    fn device(&self) -> Device {
        self.device
    }
}

#[derive(Clone, Copy)]
struct InPlace {
    device: Device,
}

impl Side for InPlace {
    fn write(&mut self, byte: u8) -> u8 {
        self.device.write_in_place(PORT, byte).number
    }

    fn read(&mut self) -> (u8, u8) {
        let given = self.device.read_in_place(PORT);
        (given.number, given.byte)
    }

    fn set_speed(&mut self, code: u8) -> u8 {
        self.device.set_speed_in_place(code)
    }

    fn grant(&mut self, lent: &mut Buffers, clocks: u32) -> u8 {
        self.device.grant_in_place(&mut lent.memory[..], &mut lent.latches[..], clocks)
    }

    fn device(&self) -> Device {
        self.device
    }
}

// Not inlined, as the library's calls can't be.
impl Side for model::Device {
    #[inline(never)]
    fn write(&mut self, byte: u8) -> u8 {
        let (number, _) = model::write(self, PORT, byte);
        number
    }

    #[inline(never)]
    fn read(&mut self) -> (u8, u8) {
        model::read(self, PORT)
    }

    #[inline(never)]
    fn set_speed(&mut self, code: u8) -> u8 {
        model::set_speed(self, code)
    }

    #[inline(never)]
    fn grant(&mut self, lent: &mut Buffers, clocks: u32) -> u8 {
        model::grant(self, &mut lent.memory[..], &mut lent.latches[..], clocks)
    }

    fn device(&self) -> Device {
        device_of_model(self)
    }
}

/// Calls of one kind, with the bytes that writes take. Gives the sums of the
/// numbers and of the bytes read.
fn make_calls(
    side: &mut impl Side,
    call: Call,
    calls: u32,
    written: &mut impl Iterator<Item = u8>,
    lent: &mut Buffers,
) -> (u64, u64) {
    let (mut numbers, mut bytes) = (0, 0);
    match call {
        Call::Write => {
            for byte in written.take(calls as usize) {
                numbers += u64::from(side.write(byte));
            }
        }
        Call::Read => {
            for _ in 0..calls {
                let (number, byte) = side.read();
                numbers += u64::from(number);
                bytes += u64::from(byte);
            }
        }
        Call::SetSpeed => {
            // From code 1 on, so that whole rounds end with another than power on's.
            for number in 1..=calls {
                numbers += u64::from(side.set_speed((number % 4) as u8));
            }
        }
        Call::Grant(clocks) => {
            for _ in 0..calls {
                numbers += u64::from(side.grant(lent, clocks));
            }
        }
    }
    (numbers, bytes)
}

/// Calls that are timed together: enough for what timing itself costs, and few
/// enough to be undisturbed now and then.
const BATCH: u32 = 1_000;

/// The time of a call in the fastest batch, and what is left by all.
fn fastest_batch(
    mut side: impl Side,
    call: Call,
    calls: u32,
    written: &[u8],
    lent: &mut Buffers,
) -> (f64, Left) {
    let mut written = written.iter().copied().cycle();
    let batch = || make_calls(&mut side, call, BATCH, &mut written, lent);
    let (time, numbers, bytes) = fastest_of(calls, batch);
    (time, Left { device: side.device(), numbers, bytes })
}

/// The time of a call in the fastest batch, and the sums over all of them.
fn fastest_of(calls: u32, mut batch: impl FnMut() -> (u64, u64)) -> (f64, u64, u64) {
    let (mut best, mut numbers, mut bytes) = (f64::INFINITY, 0, 0);
    for _ in 0..calls / BATCH {
        let (time, (more_numbers, more_bytes)) = timed(&mut batch);
        best = best.min(time);
        numbers += more_numbers;
        bytes += more_bytes;
    }
    (best / f64::from(BATCH), numbers, bytes)
}

/// A turn at calls of a kind.
fn call_turn<'a>(
    side: impl Side + 'a,
    kind: Kind,
    most_calls: u32,
    written: &'a [u8],
) -> Contestant<'a> {
    let calls = kind.calls().min(most_calls);
    Box::new(move |lent| fastest_batch(side, kind.call, calls, written, lent))
}

/// By value, in place, reference.
fn call_contest(kind: Kind, most_calls: u32, written: &[u8]) -> Contest<'_, 3> {
    let device = device_of_model(&kind.start);
    let contestants = [
        call_turn(ByValue { device }, kind, most_calls, written),
        call_turn(InPlace { device }, kind, most_calls, written),
        call_turn(kind.start, kind, most_calls, written),
    ];
    Contest::new(kind.what, kind.aim(), contestants)
}

/// In burst, with a prescaler.
fn device_with_floor() -> Device {
    device_of_model(&transferring(&[0x22, 1], 0xCD))
}

/// The sum of a device's floor, asked for so often. The second program has no
/// turn: if it were asked, too, its grants would be compiled otherwise.
fn sum_of_floors(device: Device, calls: u32) -> u64 {
    (0..calls).map(|_| u64::from(device.cpu_floor())).sum()
}

/// By value alone.
fn floor_contest(most_calls: u32) -> Contest<'static, 1> {
    let device = device_with_floor();
    let by_value: Contestant = Box::new(move |_| {
        let batch = || (0, sum_of_floors(device, BATCH));
        let (time, numbers, bytes) = fastest_of(MILLION.min(most_calls), batch);
        (time, Left { device, numbers, bytes })
    });
    Contest::new("floors, burst", "", [by_value])
}

/// A call that takes so many nanoseconds is not made a million times.
const SLOW: f64 = 1e6;

/// The library alone, many clocks and one: a disabled device has no byte to
/// move, so that its clocks should cost nothing.
fn idle_contest(what: &'static str, side: impl Side + 'static, most: u32) -> Contest<'static, 2> {
    let calls = MILLION.min(most);
    let turn = |clocks| -> Contestant {
        Box::new(move |lent| {
            let device = side.device();
            let once = fastest_run(|| granted_left(side, lent, clocks)).0;
            if once > SLOW {
                return (once, Left { device, numbers: 0, bytes: 0 });
            }
            let (time, mut left) = fastest_batch(side, Call::Grant(clocks), calls, &[], lent);
            // They differ in the clocks counted, and in nothing else.
            left.device.clocks = device.clocks;
            (time, left)
        })
    };
    Contest::new(what, "near 1", [turn(MANY_CLOCKS), turn(1)])
}

/// By value, in place.
fn idle_contests(most: u32) -> [Contest<'static, 2>; 2] {
    let device = Device::power_on();
    [
        idle_contest("4,000,000,000 clocks, disabled, by value", ByValue { device }, most),
        idle_contest("4,000,000,000 clocks, disabled, in place", InPlace { device }, most),
    ]
}

/// The aim in the last column is for both ratios to the reference.
fn print_calls(contests: &[Contest<3>], floors: &Contest<1>) {
    let names = ["by value", "in place", "reference"].map(|name| format!("{name:>11}"));
    let ratios = ["place/value", "place/ref", "value/ref"].map(|name| format!("{name:>13}"));
    println!("\n{:34}{}{}  aim", "calls, ns each", names.concat(), ratios.concat());
    println!("{:34}{:>46}", "aim", "at most 1");
    for Contest { what, best: [by_value, in_place, reference], aim, .. } in contests {
        println!(
            "{what:34}{by_value:11.3}{in_place:11.3}{reference:11.3}{:13.2}{:13.2}{:13.2}  {aim}",
            in_place / by_value,
            in_place / reference,
            by_value / reference
        );
    }
    println!("{:34}{:11.3}", floors.what, floors.best[0]);
}

/// The most that many clocks may take of the time of one.
const MOST_IDLE: f64 = 10.0;

fn print_idle(contests: &[Contest<2>]) -> Result<(), String> {
    print_heading("library, ns a grant", ["many clocks", "1 clock"]);
    let mut slow = Ok(());
    for Contest { what, best, aim, .. } in contests {
        if print_row(what, *best, aim) > MOST_IDLE {
            slow = Err(format!("{what}: more than {MOST_IDLE} times 1 clock"));
        }
    }
    slow
}

// ---- Calls to be counted -------------------------------------------------

/// How calls are made.
#[derive(Clone, Copy)]
enum Form {
    ByValue,
    InPlace,
    Reference,
}

/// The name of a kind, and the form that its ending asks for.
fn name_and_form(word: &str) -> (&str, Form) {
    let ending = |ending, form| word.strip_suffix(ending).map(|name| (name, form));
    let in_place = ending("-in-place", Form::InPlace);
    in_place.or(ending("-reference", Form::Reference)).unwrap_or((word, Form::ByValue))
}

/// Makes calls alone. What it prepares does not depend on how many.
fn only_calls(word: &str, calls: u32) -> Result<(), Failure> {
    let mut lent = Buffers::zero();
    let (name, form) = name_and_form(word);
    let left = match (name, form) {
        ("music", Form::ByValue) => music_blocks(by_value, calls, &mut lent),
        ("music", Form::InPlace) => music_blocks(in_place, calls, &mut lent),
        ("cpu-floor", Form::ByValue) => {
            let device = device_with_floor();
            Left { device, numbers: 0, bytes: sum_of_floors(device, calls) }
        }
        _ => calls_of_kind(kind_of(word)?, form, calls, &mut lent),
    };
    accepted(&left).map_err(|text| (1, text))?;
    println!("{calls} calls, bytes read {}, {:?}", left.bytes, left.device.clocks);
    Ok(())
}

/// The kind that a word names, if there is one that has this form.
fn kind_of(word: &str) -> Result<Kind, Failure> {
    let (name, form) = name_and_form(word);
    let many = Some(many_clocks()).filter(|_| !matches!(form, Form::Reference));
    let kind = kinds().into_iter().chain(many).find(|kind| kind.name == name);
    kind.ok_or_else(|| bad_usage(format!("{word} is not a kind of call")))
}

fn calls_of_kind(kind: Kind, form: Form, calls: u32, lent: &mut Buffers) -> Left {
    let device = device_of_model(&kind.start);
    match form {
        Form::ByValue => calls_of_side(ByValue { device }, kind.call, calls, lent),
        Form::InPlace => calls_of_side(InPlace { device }, kind.call, calls, lent),
        Form::Reference => calls_of_side(kind.start, kind.call, calls, lent),
    }
}

fn calls_of_side(mut side: impl Side, call: Call, calls: u32, lent: &mut Buffers) -> Left {
    let bytes = if matches!(call, Call::Write) { written_bytes() } else { Vec::new() };
    let mut written = bytes.iter().copied().cycle();
    let (numbers, bytes) = make_calls(&mut side, call, calls, &mut written, lent);
    Left { device: side.device(), numbers, bytes }
}

fn music_blocks(grant: Grant, blocks: u32, lent: &mut Buffers) -> Left {
    let start = clock::music();
    let mut left = accepted_left(&start);
    for _ in 0..blocks {
        let numbers = left.numbers;
        left = grant(&start, lent, MUSIC_CLOCKS);
        left.numbers += numbers;
    }
    left
}

// ---- The program ---------------------------------------------------------

fn measure(extent: Extent) -> Result<(), Failure> {
    compare_grants().and_then(|()| hold_contests(&extent)).map_err(|text| (1, text))
}

/// Every round has all contests, so that none meets only a busy machine.
fn hold_contests(extent: &Extent) -> Result<(), String> {
    let written = written_bytes();
    let mut blocks = blocks().map(|(what, block)| block_contest(what, block));
    let mut music = music_contest();
    let mut calls = kinds().map(|kind| call_contest(kind, extent.calls, &written));
    let mut floors = floor_contest(extent.calls);
    let mut idle = idle_contests(extent.calls);
    let start = Buffers::random(2);
    let mut lent = start.clone();
    for _ in 0..extent.rounds {
        blocks.iter_mut().try_for_each(|contest| contest.round(&start, &mut lent))?;
        music.round(&start, &mut lent)?;
        calls.iter_mut().try_for_each(|contest| contest.round(&start, &mut lent))?;
        floors.round(&start, &mut lent)?;
        idle.iter_mut().try_for_each(|contest| contest.round(&start, &mut lent))?;
    }
    print_blocks(&blocks)?;
    print_music(&music);
    print_calls(&calls, &floors);
    print_idle(&idle)
}

/// A number from 1 up.
fn number(word: &str) -> Result<u32, Failure> {
    let number = word.parse().ok().filter(|&number| number > 0);
    number.ok_or_else(|| bad_usage(format!("{word} is not a number from 1 up")))
}

fn run(words: &[&str]) -> Result<(), Failure> {
    match *words {
        [] => measure(FULL),
        ["--rounds", rounds] => measure(Extent { rounds: number(rounds)?, ..FULL }),
        ["--check"] => measure(SHORT),
        ["--calls", kind, calls] => only_calls(kind, number(calls)?),
        _ => Err(bad_usage(format!("these arguments are not understood: {words:?}"))),
    }
}

fn main() -> ExitCode {
    program::main("measure", HELP, run)
}

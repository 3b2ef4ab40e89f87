//! Advice: what in a session is most likely a mistake, the reason, and what to
//! do.
//!
//! It rests on the records, the library's answers and the device's fields. How
//! long the bus stays held is asked of the library too, on a copy of the
//! device. Whoever means what was found can pass over it: advice changes
//! nothing else that is told, and no exit status.

mod block;
mod discouraged;
mod trial;

use crate::record::{Item, Record, Step};
use crate::trace::{passed, Answer, Event, Trace};
use crate::words::{self, grouped, many, Register};
use block::Block;
use std::fmt;
use trial::{Freed, Trial, BUS_HELD};
use zxndma::{pending, Core, Device};

/// What advice is about.
#[derive(Clone, Copy, PartialEq, Eq, Debug)]
pub enum Topic {
    /// Enable finds the block finished.
    FinishedBlock,
    /// Enable, though addresses were written and not loaded.
    NotLoaded,
    /// A command was taken as a parameter.
    CommandAsParameter,
    /// WR0 alone turns the direction that the same program has set.
    DirectionTurned,
    /// A refusal, since the device holds the bus.
    BusHeld,
    /// Continuous with a prescaler.
    ProcessorWaits,
    /// Auto restart without a wait for the processor.
    NeverReturns,
    /// The prescaler is an earlier program's.
    PrescalerLeft,
    /// Auto restart is an earlier program's.
    RestartLeft,
    /// Port 0B, where length + 1 bytes move.
    OneByteMore,
    /// The block reads what it has written.
    Overlap,
    /// The block goes on at the other end of memory.
    Wrap,
    /// A write has a warning: its value should not be used.
    Discouraged,
    /// A parameter is pending at the end.
    ParameterMissing,
    /// The DMA runs at the end.
    StillRuns,
}

/// A piece of advice.
#[derive(Clone, PartialEq, Eq, Debug)]
pub struct Advice {
    pub topic: Topic,
    pub reason: String,
    /// What to do.
    pub remedy: &'static str,
    /// The record at which the same remedy was named before.
    pub earlier: Option<usize>,
}

impl fmt::Display for Advice {
    fn fmt(&self, f: &mut fmt::Formatter) -> fmt::Result {
        let Advice { reason, remedy, earlier, .. } = self;
        match earlier {
            None => write!(f, "advice: {reason}. {remedy}."),
            Some(record) => write!(f, "advice: {reason}; see record {record}."),
        }
    }
}

/// Bits of pending parameters.
const A_ADDRESS: u16 = pending::A_ADDRESS_LOW | pending::A_ADDRESS_HIGH;
const B_ADDRESS: u16 = pending::B_ADDRESS_LOW | pending::B_ADDRESS_HIGH;
/// Writes that are looked at for a command that may come again: no program of
/// the DMA is as long.
const LOOK_AHEAD: usize = 64;

/// What was written since the last Enable that started the device.
#[derive(Clone, Copy, Default)]
struct Program {
    /// The record of a WR0 with parameters: it set the direction.
    direction: Option<usize>,
    /// WR1 or WR2: a port was set up.
    ports: bool,
    prescaler: bool,
    restart: bool,
}

/// Goes through a session with a trace and finds what to advise.
#[derive(Default)]
pub struct Advisor {
    records: usize,
    /// The remedies that were named, each with its first record.
    named: Vec<(&'static str, usize)>,
    program: Program,
    /// The record and the byte that asked for the parameters pending.
    asked: (usize, u8),
    /// The record that wrote the prescaler last, and WR5.
    prescaler: usize,
    restart: usize,
    /// A starting address of A, of B, was written and not loaded.
    unloaded: [bool; 2],
    /// A write came since the last grant or read: a program is under way.
    writing: bool,
    /// Since the last grant a call was refused as the bus was held.
    refused: bool,
    /// The clock that frees the bus, once it was asked for, or never.
    freed: Option<Freed>,
    block: Block,
    trial: Trial,
}

impl Advisor {
    /// Takes what the trace tells of a record.
    pub fn event(&mut self, event: &Event) {
        match event {
            Event::Move(moved) => self.block.moved(moved),
            Event::Restart { .. } => {
                self.block.begin();
                self.unloaded = [false; 2];
            }
            _ => {}
        }
    }

    /// The advice on a record whose events were taken; `following` is what comes
    /// after it in the session.
    pub fn record(&mut self, record: &Record, answer: &Answer, following: &[Item]) -> Vec<Advice> {
        self.records += 1;
        let number = answer.reply.number;
        let mut found = Vec::new();
        match record {
            Record::Write { byte, .. } if number == 0 => {
                self.written(*byte, answer, following, &mut found);
            }
            Record::Write { .. } | Record::Read { .. } if number == BUS_HELD => {
                found.extend(self.bus_held(&answer.before));
            }
            Record::Grant { .. } => {
                found.extend(self.block.overlap(&answer.after.core));
                found.extend(self.block.wrap());
                self.refused = false;
            }
            _ => {}
        }
        self.writing = match record {
            Record::Write { .. } => true,
            Record::Memory { .. } => self.writing,
            Record::Read { .. } | Record::Grant { .. } => false,
        };
        self.noted(found)
    }

    /// The advice on how the session ends.
    pub fn end(&mut self, trace: &Trace) -> Vec<Advice> {
        let core = &trace.device().core;
        let mut found = Vec::new();
        if let Some(name) = words::parameter(pending::next(core.pending)) {
            let (record, byte) = self.asked;
            found.push(advice(
                Topic::ParameterMissing,
                format!(
                    "the session ends with {name} pending, which {byte:02X} in record {record} \
                     asked for: the next byte written is taken as it, whatever it is"
                ),
                "Write it, or clear its bit in the byte that asks for it",
            ));
        }
        if core.enabled {
            found.push(self.still_runs(trace));
        }
        self.noted(found)
    }

    /// Notes what is advised, and in it where the same was said before.
    fn noted(&mut self, mut found: Vec<Advice>) -> Vec<Advice> {
        for advice in &mut found {
            let named = self.named.iter().find(|(remedy, _)| *remedy == advice.remedy);
            advice.earlier = named.map(|(_, record)| *record);
            if advice.earlier.is_none() {
                self.named.push((advice.remedy, self.records));
            }
        }
        found
    }

    // ---- Writes

    fn written(&mut self, byte: u8, answer: &Answer, following: &[Item], found: &mut Vec<Advice>) {
        let (was, is) = (&answer.before.core, &answer.after.core);
        if was.pending != 0 {
            found.extend(self.parameter(byte, answer, following));
        } else {
            if is.pending != 0 {
                self.asked = (self.records, byte);
            }
            self.register(byte, answer, found);
        }
        if is.block.counter == 0 {
            self.block.begin();
        }
        // Other advice on the byte says more: it was hardly meant as what it is.
        if found.is_empty() {
            found.extend(self.discouraged(byte, answer, following));
        }
    }

    /// Advice on a value that should not be used, once for each warning: every
    /// record that has it says so beside its line. A command that was taken as
    /// a timing byte and is written again is left alone: whoever doesn't know
    /// what is pending writes Reset several times.
    fn discouraged(&self, byte: u8, answer: &Answer, following: &[Item]) -> Option<Advice> {
        let advice = discouraged::advice_on(byte, answer)?;
        let named = self.named.iter().any(|(remedy, _)| *remedy == advice.remedy);
        let again =
            || words::command_name(byte).is_some() && carried_out(byte, answer.after, following);
        if named || again() {
            None
        } else {
            Some(advice)
        }
    }

    fn parameter(&mut self, byte: u8, answer: &Answer, following: &[Item]) -> Option<Advice> {
        let bit = pending::next(answer.before.core.pending);
        let advice = self.command_as_parameter(bit, byte, &answer.after, following);
        match bit {
            pending::PRESCALER => {
                self.prescaler = self.records;
                self.program.prescaler = true;
            }
            // It may ask for the prescaler.
            pending::B_TIMING => self.asked = (self.records, byte),
            _ => {
                self.unloaded[0] |= A_ADDRESS & bit != 0;
                self.unloaded[1] |= B_ADDRESS & bit != 0;
            }
        }
        advice
    }

    /// A number may hold any byte. Load or Enable in it is a mistake if the
    /// writes that follow carry out no such command, and so is any command if
    /// a program begins with it; in a mask, which has no bit 7, each is one.
    fn command_as_parameter(
        &self,
        bit: u16,
        byte: u8,
        after: &Device,
        following: &[Item],
    ) -> Option<Advice> {
        let name = words::command_name(byte)?;
        let needed = byte == words::LOAD || byte == words::ENABLE || !self.writing;
        let missing = needed && !carried_out(byte, *after, following);
        if bit != pending::READ_MASK && !missing {
            return None;
        }
        let parameter = words::parameter(bit)?;
        let (record, asked) = self.asked;
        Some(advice(
            Topic::CommandAsParameter,
            format!(
                "{byte:02X} was taken as the {parameter} and not as {name}, since {asked:02X} in \
                 record {record} asked for it"
            ),
            "Write all the parameters that a register byte asks for, or clear their bits in it; \
             a read mask comes after BB",
        ))
    }

    fn register(&mut self, byte: u8, answer: &Answer, found: &mut Vec<Advice>) {
        let (was, is) = (&answer.before.core, &answer.after.core);
        match words::selected(byte) {
            Register::Wr0 if is.pending != 0 => self.program.direction = Some(self.records),
            Register::Wr0 if was.control.forward != is.control.forward => {
                found.extend(self.direction_turned(byte, is));
            }
            Register::Wr1 | Register::Wr2 => self.program.ports = true,
            Register::Wr5 => {
                self.restart = self.records;
                self.program.restart = true;
            }
            _ if byte == words::LOAD => self.unloaded = [false; 2],
            _ if words::enables(byte) && !was.enabled => self.enabled(&answer.after, found),
            _ => {}
        }
    }

    fn direction_turned(&self, byte: u8, is: &Core) -> Option<Advice> {
        let (set, now) = (self.program.direction?, words::direction(is));
        Some(advice(
            Topic::DirectionTurned,
            format!("{byte:02X} is WR0 here and turns the direction that record {set} set: {now}"),
            "A read mask comes after BB, and a parameter after a byte that asks for it, with none \
             left out before it; a direction that is meant is best set with the addresses",
        ))
    }

    // ---- Enable

    /// A disabled device was told to start.
    fn enabled(&mut self, after: &Device, found: &mut Vec<Advice>) {
        let core = &after.core;
        if !core.enabled {
            found.push(self.finished_block(core));
            return;
        }
        found.extend(self.not_loaded(core));
        if core.block.zilog {
            let length = grouped(core.block.length.into());
            let count = grouped(words::block_count(core).into());
            found.push(advice(
                Topic::OneByteMore,
                format!(
                    "by port 0B a block is one byte longer than its length: {length} written, \
                     {count} to move"
                ),
                "Write to port 6B, or write a length that is 1 less",
            ));
        }
        if self.program.ports {
            found.extend(self.left_over(core));
        }
        found.extend(self.processor_waits(after));
        self.program = Program::default();
    }

    fn finished_block(&self, core: &Core) -> Advice {
        let (counter, count) = counter_and_count(core);
        if words::block_count(core) == 0 {
            let reason = "the block has no bytes, since its length is 0: nothing moves";
            let remedy = "Write the length by WR0 before Enable";
            return advice(Topic::FinishedBlock, reason.to_string(), remedy);
        }
        let reason = format!("the block is finished, {counter} of {count}: nothing moves");
        let remedy = if self.unloaded.contains(&true) {
            "Write CF (Load) before 87: it also takes over the addresses that were written"
        } else {
            "Before 87 write CF (Load), to move the block again from its start, or D3 (Continue), \
             to move as many bytes from where it stopped"
        };
        advice(Topic::FinishedBlock, reason, remedy)
    }

    fn not_loaded(&self, core: &Core) -> Option<Advice> {
        let ports = [("A", core.a), ("B", core.b)];
        let missing: Vec<String> = (ports.iter().zip(self.unloaded))
            .filter(|((_, port), unloaded)| *unloaded && port.address != port.pointer)
            .map(|((name, port), _)| {
                format!("{name} is to start at {:04X} and is at {:04X}", port.address, port.pointer)
            })
            .collect();
        if missing.is_empty() {
            return None;
        }
        let reason = format!("{}: the addresses were written and not loaded", missing.join(", "));
        Some(advice(Topic::NotLoaded, reason, "Write CF (Load) before 87"))
    }

    /// What a program that sets up its ports takes over without a word.
    fn left_over(&self, core: &Core) -> Vec<Advice> {
        let mut found = Vec::new();
        let without = "and this program sets up its ports without it";
        if core.control.prescaler != 0 && !self.program.prescaler {
            let (prescaler, record) = (core.control.prescaler, self.prescaler);
            found.push(advice(
                Topic::PrescalerLeft,
                format!("prescaler {prescaler} is left over from record {record}, {without}"),
                "Write C3 (Reset) first, or a B timing byte with bit 5 set and the prescaler 0",
            ));
        }
        if core.control.restart && !self.program.restart {
            let record = self.restart;
            found.push(advice(
                Topic::RestartLeft,
                format!("auto restart is left over from record {record}, {without}"),
                "Write 82 (WR5 without auto restart), or C3 (Reset) first",
            ));
        }
        found
    }

    fn processor_waits(&mut self, after: &Device) -> Option<Advice> {
        let control = &after.core.control;
        let clocks = match self.clocks_to_free(after) {
            Some(clocks) => clocks,
            None => {
                let reason = "the block starts again by itself and has no wait for the processor, \
                              which never gets the bus back";
                return Some(advice(Topic::NeverReturns, reason.to_string(), WITH_WAITS));
            }
        };
        if control.burst || control.prescaler == 0 {
            return None;
        }
        let clocks = many(clocks, "clock");
        Some(advice(
            Topic::ProcessorWaits,
            format!("continuous with a prescaler: the processor stands still for {clocks}"),
            "Write WR4 with 10 in bits 6-5 (burst, CD for AD): its waits are the processor's",
        ))
    }

    // ---- The bus

    /// At the first refusal after a grant: those that follow are of the same
    /// clock.
    fn bus_held(&mut self, device: &Device) -> Option<Advice> {
        if std::mem::replace(&mut self.refused, true) {
            return None;
        }
        let held = "the DMA holds the bus, and what is refused is lost";
        Some(match self.clocks_to_free(device) {
            Some(clocks) => {
                let clocks = many(clocks, "more clock");
                let reason = format!("{held}: {clocks} would free it");
                advice(Topic::BusHeld, reason, "Let them pass first, by 'run'")
            }
            None => {
                let reason = format!("{held}: no clock will free it, since the block restarts");
                advice(Topic::BusHeld, reason, WITH_WAITS)
            }
        })
    }

    /// Clocks that pass before the bus is free. None if it never will be.
    fn clocks_to_free(&mut self, device: &Device) -> Option<u64> {
        let now = passed(&device.clocks);
        // Until then no write is accepted that could change it. After that
        // clock the bus was taken again.
        let known = self.freed.filter(|freed| match freed {
            Freed::At(clock) => *clock > now,
            Freed::Never => true,
        });
        let freed = known.unwrap_or_else(|| self.trial.freed(*device));
        self.freed = Some(freed);
        match freed {
            Freed::At(clock) => Some(clock - now),
            Freed::Never => None,
        }
    }

    fn still_runs(&mut self, trace: &Trace) -> Advice {
        let core = &trace.device().core;
        let (counter, count) = counter_and_count(core);
        let runs = format!("the session ends while the DMA runs, {counter} of {count} moved");
        match trace.clone().until_done() {
            Some(clocks) => {
                let clocks = many(u64::from(clocks), "more clock");
                let reason = format!("{runs}: {clocks} end the block");
                advice(Topic::StillRuns, reason, "Let them pass, by 'run until done'")
            }
            None if self.clocks_to_free(trace.device()).is_some() => {
                let reason = format!("{runs}: with auto restart no block is the last");
                let remedy = "Stop it in one of its waits, by 83 (Disable), or by WR5 (82), which \
                              lets the block end";
                advice(Topic::StillRuns, reason, remedy)
            }
            None => {
                let reason = format!("{runs}: with auto restart no block is the last");
                advice(Topic::StillRuns, reason, WITH_WAITS)
            }
        }
    }
}

const WITH_WAITS: &str = "Before 87 write 82 (WR5 without auto restart), or take burst and a \
                          prescaler, which leave waits to the processor";

fn advice(topic: Topic, reason: String, remedy: &'static str) -> Advice {
    Advice { topic, reason, remedy, earlier: None }
}

/// How many bytes of the block have moved, and how many it has.
fn counter_and_count(core: &Core) -> (String, String) {
    (grouped(core.block.counter.into()), grouped(words::block_count(core).into()))
}

/// The writes that follow, up to the next read or grant, carry out the command.
/// What they do is asked of the library.
fn carried_out(command: u8, after: Device, following: &[Item]) -> bool {
    let mut device = after;
    for item in following.iter().take(LOOK_AHEAD) {
        match &item.step {
            Step::Record(Record::Write { port, byte }) => {
                let written = device.write(*port, *byte);
                if *byte == command && device.core.pending == 0 && written.number == 0 {
                    return true;
                }
                device = written.device;
            }
            Step::Record(Record::Read { .. } | Record::Grant { .. }) | Step::UntilDone => break,
            Step::Record(Record::Memory { .. }) | Step::Expect(_) => {}
        }
    }
    false
}

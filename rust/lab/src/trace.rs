//! Drives the proved library through a session and tells what happens in it.
//!
//! There is no model of the chip here: what is told comes from the library's
//! answers, the device's fields before and after a grant, and the buffers. A
//! grant of a session is made in pieces, which the library promises to be the
//! same as the whole: the first clock of a slot, whose fields then show its bus
//! time and length; the rest of the bus time; the wait in one; further slots
//! of the same grant one by one, since no register changes within a grant; and
//! all clocks of a disabled device in one. Under auto restart a brief trace
//! takes blocks that repeat in one piece, too: no register changes within a
//! grant, so that a core which comes back takes the same course again.
//!
//! How to use it: make a `Trace`, hand its `step` each record, and take what
//! it tells in a closure: `Event`s in the order of their clocks. The answer
//! has the bench's line and the device before and after. A `Trace` keeps what
//! is bounded: totals, the first `LATCH_WRITES` writes to latches, and which
//! bytes of memory the DMA wrote. Moves and spans are told and not kept, so
//! that a session of any length takes the same memory; `timeline` makes a
//! bounded list of them for a picture.

use crate::record::Record;
use zxndma::{warning, Clocks, Core, Device, Port, Slot, BUFFER_LENGTH};

/// Writes to latches that a trace keeps.
pub const LATCH_WRITES: usize = 65_536;
/// Block ends of a grant that a brief trace tells singly.
pub const TOLD_ENDS: u64 = 16;

/// What a clock was.
#[derive(Clone, Copy, PartialEq, Eq, Debug)]
pub enum Kind {
    Bus,
    Held,
    Cpu,
}

/// Clocks of one kind that follow each other.
#[derive(Clone, Copy, PartialEq, Eq, Debug)]
pub struct Span {
    pub kind: Kind,
    /// Number of the first one; the first clock of a session is 1.
    pub start: u64,
    /// How many; not 0.
    pub clocks: u64,
    pub part: Part,
}

/// What clocks are a part of.
#[derive(Clone, Copy, PartialEq, Eq, Debug)]
pub enum Part {
    /// A slot that begins with them.
    NewSlot,
    /// The slot that began before them.
    SameSlot,
    /// No slot: the device is disabled.
    NoSlot,
}

/// One end of a move.
#[derive(Clone, Copy, PartialEq, Eq, Debug)]
pub struct End {
    pub io: bool,
    pub address: u16,
}

/// A byte that moved.
#[derive(Clone, Copy, PartialEq, Eq, Debug)]
pub struct Move {
    pub clock: u64,
    pub from: End,
    pub to: End,
    pub byte: u8,
}

/// What happens. A record is told before what its clocks bring.
#[derive(Clone, Copy, PartialEq, Eq, Debug)]
pub enum Event {
    /// A record, numbered from 1, behind that many clocks, with its
    /// reply.
    Record {
        record: usize,
        clock: u64,
        reply: Reply,
    },
    Span(Span),
    Move(Move),
    /// The block ended with that clock.
    BlockEnd {
        clock: u64,
    },
    /// And started again.
    Restart {
        clock: u64,
    },
    /// And the device is disabled.
    Disabled {
        clock: u64,
    },
    /// Whole blocks that went as the one before them, told at once by a brief
    /// trace.
    Repeated(Repeated),
}

/// Blocks that repeat under auto restart. Each ended, and started again.
#[derive(Clone, Copy, PartialEq, Eq, Debug)]
pub struct Repeated {
    pub blocks: u64,
    pub moves: u64,
    pub last: Move,
    /// All their clocks, and those of the processor among them. If there are
    /// any of these, then the last clock of each block is one.
    pub clocks: u64,
    pub cpu: u64,
}

/// The bench's answer to a record.
#[derive(Clone, Copy, PartialEq, Eq, Debug)]
pub struct Reply {
    /// W, R, G or M.
    pub letter: char,
    pub number: u8,
    /// Of an accepted read.
    pub byte: Option<u8>,
    /// Of an accepted write, as the library answers it; otherwise none.
    pub warning: u8,
}

impl Reply {
    /// A reply without a byte and without a warning.
    fn plain(letter: char, number: u8) -> Reply {
        Reply { letter, number, byte: None, warning: warning::NONE }
    }

    /// The bench's line, without its line feed.
    pub fn line(&self) -> String {
        let Reply { letter, number, byte, warning } = self;
        match (byte, *warning) {
            (Some(byte), _) => format!("{letter} {number} {byte:02X}"),
            (None, warning::NONE) => format!("{letter} {number}"),
            (None, _) => format!("{letter} {number} !"),
        }
    }
}

/// What a record came to.
#[derive(Clone, Copy, PartialEq, Eq, Debug)]
pub struct Answer {
    pub reply: Reply,
    pub before: Device,
    pub after: Device,
}

/// The last line of a session without a fault, without its line feed.
pub fn last_line(clocks: &Clocks) -> String {
    format!("B {} {} {}", clocks.bus, clocks.held, clocks.cpu)
}

/// The last line of a session with a fault, without its line feed.
pub fn fault_line(number: u8) -> String {
    format!("S {number}")
}

/// The clocks that have passed.
pub fn passed(clocks: &Clocks) -> u64 {
    clocks.bus + clocks.held + clocks.cpu
}

/// The ports that the next byte comes from and goes to.
pub fn source_and_destination(core: &Core) -> (Port, Port) {
    if core.control.forward {
        (core.a, core.b)
    } else {
        (core.b, core.a)
    }
}

/// Clocks without one for the processor.
#[derive(Clone, Copy, PartialEq, Eq, Debug, Default)]
pub struct WithoutCpu {
    /// Up to now.
    pub current: u64,
    pub longest: u64,
}

impl WithoutCpu {
    pub fn add(&mut self, span: &Span) {
        match span.kind {
            Kind::Cpu => self.current = 0,
            Kind::Bus | Kind::Held => self.current += span.clocks,
        }
        self.longest = self.longest.max(self.current);
    }

    /// After the block that they repeat: with clocks of the processor, no
    /// stretch in them is longer than those in that one.
    pub fn add_repeated(&mut self, repeated: &Repeated) {
        if repeated.cpu == 0 {
            self.current += repeated.clocks;
            self.longest = self.longest.max(self.current);
        }
    }
}

/// What a session has come to so far.
#[derive(Clone, Copy, PartialEq, Eq, Debug, Default)]
pub struct Totals {
    pub moves: u64,
    pub block_ends: u64,
    pub restarts: u64,
    pub without_cpu: WithoutCpu,
    /// All writes to latches, also those that are not kept.
    pub latch_writes: u64,
}

/// A device at power-on with its buffers, driven record by record.
#[derive(Clone)]
pub struct Trace {
    /// Blocks that repeat are told at once.
    brief: bool,
    device: Device,
    memory: Vec<u8>,
    latches: Vec<u8>,
    records: usize,
    totals: Totals,
    last_move: Option<Move>,
    latch_writes: Vec<(u16, u8)>,
    /// Memory as the memory records alone would have it.
    given: Vec<u8>,
    /// The bytes of memory that the DMA wrote last.
    written: Vec<bool>,
}

/// A stretch of memory that the DMA wrote.
#[derive(Clone, Copy, PartialEq, Eq, Debug)]
pub struct Written {
    pub start: usize,
    pub end: usize,
    /// How many of its bytes differ from what was there.
    pub changed: usize,
}

/// Tells what happens.
type Watch<'a> = &'a mut dyn FnMut(Event);

impl Default for Trace {
    fn default() -> Trace {
        Trace {
            brief: false,
            device: Device::power_on(),
            memory: vec![0; BUFFER_LENGTH],
            latches: vec![0; BUFFER_LENGTH],
            records: 0,
            totals: Totals::default(),
            last_move: None,
            latch_writes: Vec::new(),
            given: vec![0; BUFFER_LENGTH],
            written: vec![false; BUFFER_LENGTH],
        }
    }
}

impl Trace {
    /// A trace that tells of blocks which repeat within a grant at once, once
    /// it has told `TOLD_ENDS` block ends of that grant singly.
    pub fn brief() -> Trace {
        Trace { brief: true, ..Trace::default() }
    }

    pub fn device(&self) -> &Device {
        &self.device
    }

    pub fn memory(&self) -> &[u8] {
        &self.memory
    }

    pub fn latches(&self) -> &[u8] {
        &self.latches
    }

    pub fn totals(&self) -> &Totals {
        &self.totals
    }

    /// The first `LATCH_WRITES` writes to latches in their order: the address
    /// and the byte.
    pub fn latch_writes(&self) -> &[(u16, u8)] {
        &self.latch_writes
    }

    /// The clocks that have passed.
    pub fn clock(&self) -> u64 {
        passed(&self.device.clocks)
    }

    /// The stretches of memory that the DMA was the last to write, in the
    /// order of their addresses.
    pub fn written(&self) -> Vec<Written> {
        let mut stretches: Vec<Written> = Vec::new();
        for at in (0..BUFFER_LENGTH).filter(|at| self.written[*at]) {
            let changed = usize::from(self.memory[at] != self.given[at]);
            match stretches.last_mut() {
                Some(last) if last.end == at => {
                    last.end += 1;
                    last.changed += changed;
                }
                _ => stretches.push(Written { start: at, end: at + 1, changed }),
            }
        }
        stretches
    }

    /// Takes one record.
    pub fn step(&mut self, record: &Record, watch: Watch) -> Answer {
        let before = self.device;
        let reply = match record {
            Record::Write { port, byte } => {
                let answer = self.device.write(*port, *byte);
                self.device = answer.device;
                Reply { warning: answer.warning, ..Reply::plain('W', answer.number) }
            }
            Record::Read { port } => {
                let answer = self.device.read(*port);
                self.device = answer.device;
                let byte = if answer.number == 0 { Some(answer.byte) } else { None };
                Reply { byte, ..Reply::plain('R', answer.number) }
            }
            Record::Grant { clocks } => Reply::plain('G', self.grant_number(*clocks)),
            Record::Memory { address, bytes } => {
                self.put(*address, bytes);
                Reply::plain('M', 0)
            }
        };
        self.records += 1;
        watch(Event::Record { record: self.records, clock: self.clock(), reply });
        if let (Record::Grant { clocks }, 0) = (record, reply.number) {
            self.grant(*clocks, watch);
        }
        Answer { reply, before, after: self.device }
    }

    /// The fewest clocks that end the running block; none if no block ends,
    /// since the device is disabled or starts again by itself. Takes them.
    pub fn until_done(&mut self) -> Option<u32> {
        if self.device.core.control.restart || !self.device.core.enabled {
            return None;
        }
        let mut alike = None;
        let mut clocks: u32 = 0;
        while self.device.core.enabled {
            clocks =
                clocks.checked_add(self.advance(u32::MAX - clocks, &mut alike, &mut |_| ()))?;
        }
        Some(clocks)
    }

    /// The number that a grant is answered with. It doesn't depend on whether
    /// the device is enabled, and the grant to a disabled one writes nothing.
    fn grant_number(&mut self, clocks: u32) -> u8 {
        let mut disabled = self.device;
        disabled.core.enabled = false;
        disabled.core.slot = Slot { elapsed: 0, bus: 0, length: 0, burst: false };
        disabled.grant(&mut self.memory, &mut self.latches, clocks).number
    }

    /// A memory record; addresses wrap.
    fn put(&mut self, address: u16, bytes: &[u8]) {
        for (offset, byte) in bytes.iter().enumerate() {
            let at = (usize::from(address) + offset) % BUFFER_LENGTH;
            self.memory[at] = *byte;
            self.given[at] = *byte;
            self.written[at] = false;
        }
    }

    fn grant(&mut self, clocks: u32, watch: Watch) {
        let mut alike = None;
        let mut left = clocks;
        let restarts_before = self.totals.restarts;
        let mut start: Option<BlockStart> = None;
        while left > 0 {
            let restarts = self.totals.restarts;
            left -= self.advance(left, &mut alike, watch);
            if !self.brief || self.totals.restarts == restarts {
                continue;
            }
            let told = self.totals.restarts - restarts_before;
            if let Some(start) = start.filter(|_| told >= TOLD_ENDS) {
                left -= self.repeat(&start, left, watch);
            }
            start = Some(BlockStart { device: self.device, totals: self.totals });
        }
    }

    /// Takes as many whole blocks like the one from that start to here as fit,
    /// and answers their clocks: 0 where they cannot be told from it.
    fn repeat(&mut self, start: &BlockStart, left: u32, watch: Watch) -> u32 {
        let block = self.clock() - passed(&start.device.clocks);
        let cpu = self.device.clocks.cpu - start.device.clocks.cpu;
        let blocks = u64::from(left) / block;
        // The bytes that go to latches are kept in their order as long as
        // there is room.
        let kept = self.totals.latch_writes == start.totals.latch_writes
            || self.latch_writes.len() == LATCH_WRITES;
        let stretches = cpu == 0 || self.totals.without_cpu.current == 0;
        if blocks == 0 || self.device.core != start.device.core || !kept || !stretches {
            return 0;
        }
        let last = match self.last_move {
            Some(last) => last,
            None => return 0,
        };
        let clocks = blocks * block;
        let granted = self.device.grant(&mut self.memory, &mut self.latches, clocks as u32);
        self.device = granted.device;
        let buffer = if last.to.io { &self.latches } else { &self.memory };
        let byte = buffer[usize::from(last.to.address)];
        let last = Move { clock: last.clock + clocks, byte, ..last };
        let moves = blocks * (self.totals.moves - start.totals.moves);
        let repeated = Repeated { blocks, moves, last, clocks, cpu: blocks * cpu };
        let latch_writes = self.totals.latch_writes - start.totals.latch_writes;
        self.last_move = Some(last);
        self.totals.moves += moves;
        self.totals.latch_writes += blocks * latch_writes;
        self.totals.block_ends += blocks;
        self.totals.restarts += blocks;
        self.totals.without_cpu.add_repeated(&repeated);
        watch(Event::Repeated(repeated));
        clocks as u32
    }

    /// Makes a grant of as many clocks as can be told of at once, one at
    /// least and no more than there are left, and answers how many. A slot that
    /// has begun in the same grant of the session shows what the next ones are.
    fn advance(&mut self, left: u32, alike: &mut Option<Slot>, watch: Watch) -> u32 {
        let core = &self.device.core;
        let slot = core.slot;
        if !core.enabled {
            self.pass(Piece { clocks: left, bus: 0, moves: false, part: Part::NoSlot }, watch);
            return left;
        }
        let elapsed = slot.elapsed;
        let piece = if elapsed == 0 {
            match *alike {
                Some(shape) if u32::from(shape.length) <= left => Piece {
                    clocks: u32::from(shape.length),
                    bus: u32::from(shape.bus),
                    moves: true,
                    part: Part::NewSlot,
                },
                // The first clock, for the fields to show the slot; no slot
                // has a bus time of one clock.
                _ => Piece { clocks: 1, bus: 1, moves: false, part: Part::NewSlot },
            }
        } else if elapsed < slot.bus {
            let rest = u32::from(slot.bus - elapsed);
            let clocks = rest.min(left);
            Piece { clocks, bus: clocks, moves: clocks == rest, part: Part::SameSlot }
        } else {
            let clocks = u32::from(slot.length - elapsed).min(left);
            Piece { clocks, bus: 0, moves: false, part: Part::SameSlot }
        };
        self.pass(piece, watch);
        let begun = self.device.core.slot;
        if piece.part == Part::NewSlot && begun.elapsed == 1 {
            *alike = Some(begun);
        }
        piece.clocks
    }

    /// Grants the clocks of a piece and tells what came of it.
    fn pass(&mut self, piece: Piece, watch: Watch) {
        let before = self.device;
        let start = self.clock() + 1;
        let granted = before.grant(&mut self.memory, &mut self.latches, piece.clocks);
        self.device = granted.device;
        let (was, is) = (before.clocks, self.device.clocks);
        let [bus, held, cpu] = [is.bus - was.bus, is.held - was.held, is.cpu - was.cpu];

        // Bus time comes before the wait, so that the clock counts tell where
        // each kind lies.
        let mut next = Span { kind: Kind::Bus, start, clocks: 0, part: piece.part };
        for (kind, clocks) in [(Kind::Bus, bus), (Kind::Held, held), (Kind::Cpu, cpu)] {
            if clocks > 0 {
                let span = Span { kind, clocks, ..next };
                self.totals.without_cpu.add(&span);
                watch(Event::Span(span));
                next = Span { start: next.start + clocks, part: Part::SameSlot, ..next };
            }
            if kind == Kind::Bus && piece.moves {
                self.moved(&before, start + u64::from(piece.bus) - 1, watch);
            }
        }
        self.slot_end(&before, piece, watch);
    }

    /// Tells of the byte that moved at that clock: by the pointers before it,
    /// and by what the destination holds behind it.
    fn moved(&mut self, before: &Device, clock: u64, watch: Watch) {
        let (source, destination) = source_and_destination(&before.core);
        let end = |port: Port| End { io: port.io, address: port.pointer };
        let (from, to) = (end(source), end(destination));
        let at = usize::from(to.address);
        let byte = if to.io { self.latches[at] } else { self.memory[at] };
        self.totals.moves += 1;
        if to.io {
            self.totals.latch_writes += 1;
            if self.latch_writes.len() < LATCH_WRITES {
                self.latch_writes.push((to.address, byte));
            }
        } else {
            self.written[at] = true;
        }
        let moved = Move { clock, from, to, byte };
        self.last_move = Some(moved);
        watch(Event::Move(moved));
    }

    /// Tells of a block that ended with a piece of an enabled device: this is
    /// disabled, or its counter has another value than its moves gave it.
    fn slot_end(&mut self, before: &Device, piece: Piece, watch: Watch) {
        let (was, is) = (&before.core, &self.device.core);
        if !was.enabled {
            return;
        }
        let counted = was.block.counter + u32::from(piece.moves);
        let restarted = is.enabled && is.block.counter != counted;
        if is.enabled && !restarted {
            return;
        }
        let clock = self.clock();
        self.totals.block_ends += 1;
        watch(Event::BlockEnd { clock });
        if restarted {
            self.totals.restarts += 1;
            watch(Event::Restart { clock });
        } else {
            watch(Event::Disabled { clock });
        }
    }
}

/// What there was as a block started again.
#[derive(Clone, Copy)]
struct BlockStart {
    device: Device,
    totals: Totals,
}

/// Clocks that are granted at once: bus time, then wait, of one slot.
#[derive(Clone, Copy)]
struct Piece {
    clocks: u32,
    bus: u32,
    /// They have the last clock of the bus time, on which the byte moves.
    moves: bool,
    part: Part,
}

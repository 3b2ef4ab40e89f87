//! What the trace tells is what single clocks show: the same grants, made one
//! clock at a time, give the same kinds of clocks, moves, ends and buffers.

#[path = "../../../docs/src/generate.rs"]
mod generate;

use lab::bytes::binary_session;
use lab::record::Record;
use lab::trace::{Event, Kind, Move, Trace, WithoutCpu, TOLD_ENDS};
use zxndma::{Device, BUFFER_LENGTH};

/// More clocks than this are not taken singly.
const MOST_CLOCKS: u64 = 60_000;
const SESSIONS: u64 = 400;

/// A session seen clock by clock.
struct Single {
    device: Device,
    memory: Vec<u8>,
    latches: Vec<u8>,
    kinds: Vec<Kind>,
    /// Clock and byte of each move.
    moves: Vec<(u64, u8)>,
    restarts: Vec<u64>,
    ends: Vec<u64>,
}

impl Single {
    fn new() -> Single {
        Single {
            device: Device::power_on(),
            memory: vec![0; BUFFER_LENGTH],
            latches: vec![0; BUFFER_LENGTH],
            kinds: Vec::new(),
            moves: Vec::new(),
            restarts: Vec::new(),
            ends: Vec::new(),
        }
    }

    /// T is put to 0 before the clock, so that it tells of a move. No rule
    /// looks at it, and what it was is put back.
    fn clock(&mut self) {
        let mut before = self.device;
        before.core.status.t = false;
        before.core.status.e = true;
        let after = before.grant(&mut self.memory, &mut self.latches, 1).device;
        let (was, is) = (before.clocks, after.clocks);
        self.kinds.push(match (is.bus - was.bus, is.held - was.held, is.cpu - was.cpu) {
            (1, 0, 0) => Kind::Bus,
            (0, 1, 0) => Kind::Held,
            (0, 0, 1) => Kind::Cpu,
            other => panic!("{other:?}"),
        });
        let clock = self.kinds.len() as u64;
        if after.core.status.t {
            let core = &before.core;
            let to = if core.control.forward { core.b } else { core.a };
            let place = usize::from(to.pointer);
            let byte = if to.io { self.latches[place] } else { self.memory[place] };
            self.moves.push((clock, byte));
        }
        // E was put to 1: it falls where a block ends.
        if !after.core.status.e {
            self.ends.push(clock);
            if after.core.enabled {
                self.restarts.push(clock);
            }
        }
        let status = self.device.core.status;
        self.device = after;
        self.device.core.status.t |= status.t;
        self.device.core.status.e &= status.e;
    }

    fn step(&mut self, record: &Record) {
        match record {
            Record::Write { port, byte } => self.device = self.device.write(*port, *byte).device,
            Record::Read { port } => self.device = self.device.read(*port).device,
            Record::Grant { clocks } => (0..*clocks).for_each(|_| self.clock()),
            Record::Memory { address, bytes } => {
                for (offset, byte) in bytes.iter().enumerate() {
                    self.memory[(usize::from(*address) + offset) % BUFFER_LENGTH] = *byte;
                }
            }
        }
    }
}

/// The same, from the trace's events.
#[derive(Default)]
struct Told {
    kinds: Vec<Kind>,
    moves: Vec<Move>,
    restarts: Vec<u64>,
    ends: Vec<u64>,
    disabled: Vec<u64>,
    records: usize,
}

impl Told {
    fn take(&mut self, event: Event) {
        match event {
            Event::Record { record, clock, .. } => {
                self.records += 1;
                assert_eq!(record, self.records);
                assert_eq!(clock, self.kinds.len() as u64);
            }
            Event::Span(span) => {
                assert_eq!(span.start, self.kinds.len() as u64 + 1);
                self.kinds.extend((0..span.clocks).map(|_| span.kind));
            }
            Event::Move(moved) => self.moves.push(moved),
            Event::BlockEnd { clock } => self.ends.push(clock),
            Event::Restart { clock } => self.restarts.push(clock),
            Event::Disabled { clock } => self.disabled.push(clock),
            Event::Repeated(_) => panic!("only a brief trace tells of blocks at once"),
        }
    }
}

fn longest_without_cpu(kinds: &[Kind]) -> u64 {
    let stretches = kinds.split(|kind| *kind == Kind::Cpu);
    stretches.map(|stretch| stretch.len() as u64).max().unwrap_or(0)
}

#[test]
fn the_trace_tells_what_single_clocks_show() {
    let mut moves = 0;
    let mut restarts = 0;
    for number in 0..SESSIONS {
        let bytes = generate::session(&mut generate::Rng::numbered(7, number));
        let session = binary_session(&bytes);
        let clocks = session.records().map(|record| match record {
            Record::Grant { clocks } => u64::from(*clocks),
            _ => 0,
        });
        if clocks.sum::<u64>() > MOST_CLOCKS {
            continue;
        }
        let (mut trace, mut told, mut single) = (Trace::default(), Told::default(), Single::new());
        for record in session.records() {
            trace.step(record, &mut |event| told.take(event));
            single.step(record);
            assert_eq!(*trace.device(), single.device, "session {number}");
        }
        assert!(trace.memory() == single.memory && trace.latches() == single.latches);
        assert!(told.kinds == single.kinds, "session {number}: kinds of clocks");
        let told_moves: Vec<(u64, u8)> = told.moves.iter().map(|m| (m.clock, m.byte)).collect();
        assert!(told_moves == single.moves, "session {number}: moves");
        assert_eq!(told.ends, single.ends, "session {number}: block ends");
        assert_eq!(told.restarts, single.restarts, "session {number}: restarts");
        assert_eq!(told.disabled.len() + told.restarts.len(), told.ends.len());
        let longest = longest_without_cpu(&single.kinds);
        assert_eq!(trace.totals().without_cpu.longest, longest, "session {number}");
        moves += told.moves.len();
        restarts += told.restarts.len();
    }
    assert!(moves > 10_000 && restarts > 100, "too little tried: {moves}, {restarts}");
}

/// What a brief trace leaves out is in its counts.
#[test]
fn a_brief_trace_comes_to_the_same() {
    let mut repeated = 0;
    for number in 0..SESSIONS {
        let session = binary_session(&generate::session(&mut generate::Rng::numbered(9, number)));
        let (mut every, mut brief) = (Trace::default(), Trace::brief());
        for record in session.records() {
            let mut told = Told::default();
            let mut longest = [WithoutCpu::default(); 2];
            let mut last = None;
            let answer = every.step(record, &mut |event| match event {
                Event::Span(span) => longest[0].add(&span),
                Event::Move(moved) => told.moves.push(moved),
                Event::Restart { clock } => told.restarts.push(clock),
                _ => {}
            });
            let (mut moves, mut restarts) = (0, 0);
            let briefly = brief.step(record, &mut |event| match event {
                Event::Span(span) => longest[1].add(&span),
                Event::Move(moved) => {
                    moves += 1;
                    last = Some(moved);
                }
                Event::Restart { .. } => restarts += 1,
                Event::Repeated(blocks) => {
                    assert!(restarts >= TOLD_ENDS as usize, "session {number}");
                    longest[1].add_repeated(&blocks);
                    moves += blocks.moves as usize;
                    restarts += blocks.blocks as usize;
                    last = Some(blocks.last);
                    repeated += blocks.blocks;
                }
                _ => {}
            });
            assert_eq!(answer, briefly, "session {number}");
            assert_eq!((told.moves.len(), told.restarts.len()), (moves, restarts));
            assert_eq!(told.moves.last(), last.as_ref(), "session {number}");
            assert_eq!(longest[0], longest[1], "session {number}");
        }
        assert_eq!(every.totals(), brief.totals(), "session {number}");
        assert!(every.memory() == brief.memory() && every.latches() == brief.latches());
        assert!(every.latch_writes() == brief.latch_writes());
        assert_eq!(every.written(), brief.written(), "session {number}");
    }
    assert!(repeated > 1_000, "too little tried: {repeated}");
}

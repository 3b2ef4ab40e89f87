//! `lab timeline`: who had the bus. Makes a bounded list of a session's slots,
//! idle time and port accesses from what the trace tells; `text` and `svg`
//! show it.
//!
//! Three things keep the list short. Slots that are alike and follow each
//! other are one run. Entries that come again and again in the same order, as
//! of a block that restarts or a program that asks for the status, are there
//! for the first and the last time, with the times between counted. Of what
//! is still too long, the first and the last entries are there, and what lies
//! between is added up.

mod layout;
mod list;
mod svg;
mod text;
mod words;

use crate::record::Session;
use crate::trace::{Event, Kind, Part, Reply, Span, Totals, Trace};
use list::List;
pub use svg::svg;
pub use text::text;
use zxndma::Clocks;

/// Most entries of a timeline.
pub const MOST_ENTRIES: usize = list::FIRST + 1 + list::LAST;
/// Stretches of records that an access names.
const MOST_CALLS: usize = 8;
/// Slots of a run that are shown before and behind those that are folded.
const FIRST_SLOTS: u64 = 2;
const LAST_SLOTS: u64 = 1;
/// A slot, or clocks without one, of more clocks is not drawn to scale.
const TO_SCALE: u64 = 64;

/// Clocks of one slot, or of none, that no access divides.
#[derive(Clone, Copy, PartialEq, Eq, Debug)]
pub struct Piece {
    /// They belong to a slot; otherwise the device is disabled.
    pub slot: bool,
    /// Clocks of the slot that passed before.
    pub elapsed: u64,
    pub bus: u64,
    /// Clocks behind the bus time, and whose they are: held or CPU.
    pub wait: u64,
    pub waiting: Kind,
    /// A byte moves on the last bus clock.
    pub moves: bool,
}

impl Piece {
    pub fn clocks(&self) -> u64 {
        self.bus + self.wait
    }

    /// The wait is too long to be drawn clock by clock.
    fn is_folded(&self) -> bool {
        self.clocks() > TO_SCALE
    }
}

/// What follows the end of a block.
#[derive(Clone, Copy, PartialEq, Eq, Debug)]
pub enum BlockEnd {
    Restart,
    Disabled,
}

/// Pieces that are alike and follow each other, up to the end of a block.
#[derive(Clone, Copy, PartialEq, Eq, Debug)]
pub struct Run {
    /// The clocks that have passed before it.
    pub clock: u64,
    pub piece: Piece,
    pub count: u64,
    /// The block ends with the last clock.
    pub end: Option<BlockEnd>,
}

impl Run {
    /// How many pieces are left out, behind the first `FIRST_SLOTS`.
    fn folded(&self) -> u64 {
        match self.count.saturating_sub(FIRST_SLOTS + LAST_SLOTS) {
            // A line in place of one is no gain.
            1 => 0,
            folded => folded,
        }
    }

    /// The pieces that are shown.
    fn shown(&self) -> impl Iterator<Item = Shown> + '_ {
        let folded = self.folded();
        let first = 0..FIRST_SLOTS.min(self.count);
        first.chain(FIRST_SLOTS + folded..self.count).map(move |at| Shown {
            clock: self.clock + at * self.piece.clocks(),
            behind_fold: folded > 0 && at == FIRST_SLOTS + folded,
            end: self.end.filter(|_| at + 1 == self.count),
        })
    }
}

/// A piece of a run that is shown.
struct Shown {
    /// The clocks that have passed before it.
    clock: u64,
    /// It comes behind those that are left out.
    behind_fold: bool,
    end: Option<BlockEnd>,
}

/// What a record did.
#[derive(Clone, Copy, PartialEq, Eq, Debug)]
pub enum Call {
    Write,
    Read,
    Memory,
    Refused(u8),
}

/// Records in a row that did the same.
#[derive(Clone, Copy, PartialEq, Eq, Debug)]
pub struct Calls {
    pub first: usize,
    pub last: usize,
    pub call: Call,
}

impl Calls {
    fn count(&self) -> usize {
        self.last - self.first + 1
    }
}

/// The records between two clocks, apart from grants that were accepted.
#[derive(Clone, PartialEq, Eq, Debug)]
pub struct Access {
    /// The clocks that have passed.
    pub clock: u64,
    /// The first `MOST_CALLS` of them.
    pub calls: Vec<Calls>,
    /// Records that are not in `calls`.
    pub more: u64,
    /// Number of the last record.
    pub last: usize,
    pub refused: u64,
}

impl Access {
    fn new(clock: u64) -> Access {
        Access { clock, calls: Vec::new(), more: 0, last: 0, refused: 0 }
    }

    fn first(&self) -> usize {
        self.calls.first().map_or(self.last, |calls| calls.first)
    }

    fn add(&mut self, record: usize, call: Call) {
        self.last = record;
        self.refused += u64::from(matches!(call, Call::Refused(_)));
        let is_full = self.calls.len() == MOST_CALLS;
        match self.calls.last_mut() {
            _ if self.more > 0 => self.more += 1,
            Some(calls) if calls.call == call && calls.last + 1 == record => calls.last = record,
            _ if is_full => self.more = 1,
            _ => self.calls.push(Calls { first: record, last: record, call }),
        }
    }
}

/// What entries that are not shown come to.
#[derive(Clone, Copy, PartialEq, Eq, Debug, Default)]
pub struct Tally {
    pub bus: u64,
    pub held: u64,
    pub cpu: u64,
    pub moves: u64,
    /// The first and the last record, apart from grants that were accepted.
    pub records: Option<(usize, usize)>,
    pub refused: u64,
}

impl Tally {
    fn clocks(&self) -> u64 {
        self.bus + self.held + self.cpu
    }

    fn add(&mut self, entry: &Entry) {
        match entry {
            Entry::Run(Run { piece, count, .. }) => {
                self.bus += piece.bus * count;
                match piece.waiting {
                    Kind::Held => self.held += piece.wait * count,
                    _ => self.cpu += piece.wait * count,
                }
                self.moves += u64::from(piece.moves) * count;
            }
            Entry::Access(access) => {
                self.records(Some((access.first(), access.last)));
                self.refused += access.refused;
            }
            Entry::Again { tally, .. } | Entry::Left { tally, .. } => {
                self.bus += tally.bus;
                self.held += tally.held;
                self.cpu += tally.cpu;
                self.moves += tally.moves;
                self.records(tally.records);
                self.refused += tally.refused;
            }
        }
    }

    fn records(&mut self, more: Option<(usize, usize)>) {
        self.records = match (self.records, more) {
            (Some((first, _)), Some((_, last))) => Some((first, last)),
            (records, more) => records.or(more),
        };
    }
}

/// A part of a timeline.
#[derive(Clone, PartialEq, Eq, Debug)]
pub enum Entry {
    Run(Run),
    Access(Access),
    /// The `entries` before this one, which begin at `start` and take `period`
    /// clocks, come so many times more, and then once more behind it.
    Again {
        clock: u64,
        start: u64,
        period: u64,
        entries: usize,
        times: u64,
        tally: Tally,
    },
    /// What has no room.
    Left {
        clock: u64,
        tally: Tally,
    },
}

impl Entry {
    /// The clocks that have passed before it.
    fn clock(&self) -> u64 {
        match self {
            Entry::Run(Run { clock, .. })
            | Entry::Access(Access { clock, .. })
            | Entry::Again { clock, .. }
            | Entry::Left { clock, .. } => *clock,
        }
    }

    /// It shows the same, at another clock and with other record numbers.
    fn is_alike(&self, other: &Entry) -> bool {
        match (self, other) {
            (Entry::Run(one), Entry::Run(two)) => {
                (one.piece, one.count, one.end) == (two.piece, two.count, two.end)
            }
            (Entry::Access(one), Entry::Access(two)) => {
                let calls = |access: &Access| -> Vec<(usize, Call)> {
                    access.calls.iter().map(|calls| (calls.count(), calls.call)).collect()
                };
                (one.more, one.refused) == (two.more, two.refused) && calls(one) == calls(two)
            }
            (
                Entry::Again { period: one, times, .. },
                Entry::Again { period: two, times: other, .. },
            ) => (one, times) == (two, other),
            _ => false,
        }
    }
}

/// Who had the bus in a session.
pub struct Timeline {
    /// In the order of their clocks, no more than `MOST_ENTRIES`.
    pub entries: Vec<Entry>,
    pub clocks: Clocks,
    pub totals: Totals,
    pub refused: u64,
    /// The number of the fault that ends the session.
    pub fault: Option<u8>,
}

impl Timeline {
    /// Of a session in which every `run until done` is resolved.
    pub fn of(session: &Session) -> Timeline {
        let mut trace = Trace::default();
        let mut watch = Watch::default();
        for record in session.records() {
            trace.step(record, &mut |event| watch.take(event));
        }
        Timeline {
            refused: watch.refused,
            entries: watch.finish(),
            clocks: trace.device().clocks,
            totals: *trace.totals(),
            fault: session.fault.map(|fault| fault.number),
        }
    }

    /// All clocks that passed.
    fn clock(&self) -> u64 {
        self.clocks.bus + self.clocks.held + self.clocks.cpu
    }
}

/// Makes entries of events.
#[derive(Default)]
struct Watch {
    list: List,
    /// What may still go on, the oldest first; an access and a run never both.
    run: Option<Run>,
    access: Option<Access>,
    open: Option<(u64, Piece)>,
    /// Clocks of the slot under way that belong to pieces before.
    elapsed: u64,
    refused: u64,
}

impl Watch {
    fn take(&mut self, event: Event) {
        match event {
            Event::Record { record, clock, reply } => self.record(record, clock, reply),
            Event::Span(span) => self.span(&span),
            Event::Move(_) => {
                if let Some((_, piece)) = &mut self.open {
                    piece.moves = true;
                }
            }
            Event::Restart { .. } => self.block_end(BlockEnd::Restart),
            Event::Disabled { .. } => self.block_end(BlockEnd::Disabled),
            Event::BlockEnd { .. } | Event::Repeated(_) => {}
        }
    }

    /// Clocks tell of a grant that was accepted.
    fn record(&mut self, record: usize, clock: u64, reply: Reply) {
        let call = match (reply.letter, reply.number) {
            ('G', 0) => return,
            ('W', 0) => Call::Write,
            ('R', 0) => Call::Read,
            (_, 0) => Call::Memory,
            (_, number) => {
                self.refused += 1;
                Call::Refused(number)
            }
        };
        self.end_piece();
        self.end_run();
        self.access.get_or_insert_with(|| Access::new(clock)).add(record, call);
    }

    fn span(&mut self, span: &Span) {
        if let Some(access) = self.access.take() {
            self.list.push(Entry::Access(access));
        }
        let goes_on = match (&self.open, span.part) {
            (Some((_, open)), Part::SameSlot) => open.slot,
            (Some((_, open)), Part::NoSlot) => !open.slot,
            _ => false,
        };
        if !goes_on {
            self.end_piece();
        }
        if span.part != Part::SameSlot {
            self.elapsed = 0;
        }
        let begun = Piece {
            slot: span.part != Part::NoSlot,
            elapsed: self.elapsed,
            bus: 0,
            wait: 0,
            waiting: Kind::Cpu,
            moves: false,
        };
        let (_, piece) = self.open.get_or_insert((span.start - 1, begun));
        if span.kind == Kind::Bus {
            piece.bus += span.clocks;
        } else {
            piece.wait += span.clocks;
            piece.waiting = span.kind;
        }
    }

    fn block_end(&mut self, end: BlockEnd) {
        self.end_piece();
        if let Some(run) = self.run.take() {
            self.list.push(Entry::Run(Run { end: Some(end), ..run }));
        }
    }

    fn end_piece(&mut self) {
        let (clock, piece) = match self.open.take() {
            Some(open) => open,
            None => return,
        };
        self.elapsed = piece.elapsed + piece.clocks();
        match &mut self.run {
            Some(run) if run.piece == piece => run.count += 1,
            _ => {
                self.end_run();
                self.run = Some(Run { clock, piece, count: 1, end: None });
            }
        }
    }

    fn end_run(&mut self) {
        if let Some(run) = self.run.take() {
            self.list.push(Entry::Run(run));
        }
    }

    fn finish(mut self) -> Vec<Entry> {
        self.end_piece();
        self.end_run();
        if let Some(access) = self.access.take() {
            self.list.push(Entry::Access(access));
        }
        self.list.finish()
    }
}

//! A session as the lab holds it: its records and checks, each with its place
//! in the source.

use crate::source::Place;

/// The most bytes that a memory record has.
pub const MEMORY_RECORD: usize = 255;

/// What a record of a session asks for.
#[derive(Clone, PartialEq, Eq, Debug)]
pub enum Record {
    Write {
        port: u16,
        byte: u8,
    },
    Read {
        port: u16,
    },
    Grant {
        clocks: u32,
    },
    /// 1 to 255 bytes; addresses wrap.
    Memory {
        address: u16,
        bytes: Vec<u8>,
    },
}

/// A check of a text session.
#[derive(Clone, PartialEq, Eq, Debug)]
pub enum Expect {
    /// The last reads, as many as there are bytes here, gave these.
    Bytes(Vec<u8>),
    /// The last write, read or grant was answered with this number.
    Refused(u8),
    /// The last write was answered with this warning.
    Warning(u8),
    /// Memory holds these bytes from the address on; addresses wrap.
    Memory { address: u16, bytes: Vec<u8> },
    /// The clock counts: bus, held, CPU.
    Counts([u64; 3]),
    /// The floor under the processor's time; 0 for none.
    Floor(u32),
}

/// A step of a session.
#[derive(Clone, PartialEq, Eq, Debug)]
pub enum Step {
    Record(Record),
    /// A grant of the fewest clocks that end the block; `resolve` makes it a
    /// record.
    UntilDone,
    Expect(Expect),
}

/// A step and where it stands.
#[derive(Clone, PartialEq, Eq, Debug)]
pub struct Item {
    pub place: Place,
    pub step: Step,
}

/// A fault of a binary or hex session: it ends there.
#[derive(Clone, Copy, PartialEq, Eq, Debug)]
pub struct Fault {
    /// 20, 21 or 22.
    pub number: u8,
    pub place: Place,
}

/// A session: its steps, and the fault that ends it, if there is one.
#[derive(Clone, PartialEq, Eq, Debug, Default)]
pub struct Session {
    pub items: Vec<Item>,
    pub fault: Option<Fault>,
}

impl Session {
    /// Its records in order. A `run until done` that is not resolved is none.
    pub fn records(&self) -> impl Iterator<Item = &Record> {
        self.items.iter().filter_map(|item| match &item.step {
            Step::Record(record) => Some(record),
            _ => None,
        })
    }
}

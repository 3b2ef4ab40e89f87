//! The moves of the block under way: where it reads what it wrote, and where it
//! wraps.

use super::{advice, Advice, Topic};
use crate::trace::{End, Move};
use crate::words::{self, many};
use zxndma::{Core, BUFFER_LENGTH};

/// The moves of the block under way.
pub struct Block {
    /// The block that wrote each byte of memory last, by its number.
    writer: Vec<u64>,
    number: u64,
    bytes: u64,
    last: Option<Move>,
    /// The first move that read what the block had written.
    overlap: Option<Move>,
    /// The first move after a wrap, and how many there were before it.
    wrap: Option<(Move, u64)>,
}

impl Default for Block {
    fn default() -> Block {
        Block {
            writer: vec![0; BUFFER_LENGTH],
            number: 1,
            bytes: 0,
            last: None,
            overlap: None,
            wrap: None,
        }
    }
}

impl Block {
    /// Another block begins.
    pub fn begin(&mut self) {
        self.number += 1;
        self.bytes = 0;
        self.last = None;
    }

    pub fn moved(&mut self, moved: &Move) {
        let Move { from, to, .. } = moved;
        if !from.io && self.writer[usize::from(from.address)] == self.number {
            self.overlap.get_or_insert(*moved);
        }
        if !to.io {
            self.writer[usize::from(to.address)] = self.number;
        }
        if let Some(last) = &self.last {
            if wraps(last.from, *from) || wraps(last.to, *to) {
                self.wrap.get_or_insert((*moved, self.bytes));
            }
        }
        self.bytes += 1;
        self.last = Some(*moved);
    }

    /// Advice on the overlap found in a grant.
    pub fn overlap(&mut self, core: &Core) -> Option<Advice> {
        let Move { clock, from, .. } = self.overlap.take()?;
        let place = words::end(from);
        Some(advice(
            Topic::Overlap,
            format!(
                "clock {clock}: the block reads {place}, where it has written before: the \
                 source's own byte is gone, and an earlier one is repeated"
            ),
            if core.a.step == core.b.step {
                "To keep the source's bytes let both ports step the other way, from the block's \
                 last byte on; to fill memory it is right so"
            } else {
                "Copy to a place that the block doesn't read"
            },
        ))
    }

    /// Advice on the wrap found in a grant.
    pub fn wrap(&mut self) -> Option<Advice> {
        let (Move { clock, from, to, .. }, bytes) = self.wrap.take()?;
        let (bytes, from, to) = (many(bytes, "byte"), words::end(from), words::end(to));
        Some(advice(
            Topic::Wrap,
            format!("clock {clock}: the block wraps at FFFF, after {bytes}: {from} -> {to}"),
            "Start elsewhere, or write a length that ends before",
        ))
    }
}

/// One end of a transfer goes from the last address to the first or back.
fn wraps(last: End, next: End) -> bool {
    matches!((last.address, next.address), (0xFFFF, 0) | (0, 0xFFFF))
}

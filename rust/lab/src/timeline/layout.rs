//! Where the parts of a picture stand: entries along lines, and the labels and
//! numbers about them, none over another.

use super::words::{folded_in_words, slots_in_words, wait_in_words};
use super::{Access, BlockEnd, Call, Entry, Piece, Run, Shown, Timeline};
use crate::trace::Kind;
use crate::words::grouped;

pub const WIDTH: u64 = 840;
/// Where lines begin and end.
pub const LEFT: u64 = 36;
const RIGHT: u64 = WIDTH - LEFT;
/// Width of a character.
pub const CHARACTER: u64 = 9;
/// Widths that a clock may have, from the best, and how many lines it may give.
const SCALES: [(u64, usize); 5] = [(48, 1), (32, 1), (24, 6), (16, 6), (12, 10)];
/// Widths for more lines.
const MANY_LINES: [u64; 2] = [12, 8];
/// Room beside the words of a fold.
const BESIDE: u64 = 16;
/// What a folded wait shows of its pattern on each side.
const MARGIN: u64 = 14;
/// Lanes of labels before some are joined.
const MOST_LANES: usize = 3;
/// Parts of a label before it becomes a range.
const MOST_PARTS: usize = 4;

fn width_of(text: &str) -> u64 {
    text.chars().count() as u64 * CHARACTER
}

/// Something on a strip; x is its left side, unless said otherwise.
pub enum Shape {
    /// Clocks of one kind.
    Block {
        kind: Kind,
        x: u64,
        width: u64,
    },
    /// Clocks that are to scale.
    Clocks {
        x: u64,
        width: u64,
    },
    /// What kind a block has, in words at its middle.
    Name {
        kind: Kind,
        x: u64,
    },
    /// What is folded.
    Gap {
        x: u64,
        width: u64,
        words: Vec<String>,
    },
    /// A slot begins.
    Slot {
        x: u64,
    },
    /// The middle of the clock on which a byte moves.
    Move {
        x: u64,
        half: u64,
    },
    End {
        x: u64,
        end: BlockEnd,
    },
}

/// The records at a clock, or at some that are too near to each other for
/// labels of their own.
#[derive(Clone)]
pub struct Label {
    /// Where, and whether a record there was refused.
    pub ticks: Vec<(u64, bool)>,
    /// First and last number of records, and whether they were refused.
    parts: Vec<(usize, usize, bool)>,
    refused: u64,
    /// The parts don't tell which were refused.
    is_range: bool,
}

impl Label {
    fn new(x: u64, access: &Access) -> Label {
        let mut parts: Vec<(usize, usize, bool)> = Vec::new();
        for calls in &access.calls {
            let refused = matches!(calls.call, Call::Refused(_));
            match parts.last_mut() {
                Some((_, last, as_before)) if *as_before == refused && *last + 1 == calls.first => {
                    *last = calls.last;
                }
                _ => parts.push((calls.first, calls.last, refused)),
            }
        }
        let is_range = access.more > 0 || parts.len() > MOST_PARTS;
        if is_range {
            parts = vec![(access.first(), access.last, false)];
        }
        Label { ticks: vec![(x, access.refused > 0)], parts, refused: access.refused, is_range }
    }

    /// Of the first tick.
    fn x(&self) -> u64 {
        self.ticks.first().map_or(LEFT, |(x, _)| *x)
    }

    /// One label for this and the next.
    fn joined(&self, next: &Label) -> Label {
        let first = self.parts.first().map_or(0, |(first, ..)| *first);
        let last = next.parts.last().map_or(0, |(_, last, _)| *last);
        Label {
            ticks: [&self.ticks[..], &next.ticks].concat(),
            parts: vec![(first, last, false)],
            refused: self.refused + next.refused,
            is_range: true,
        }
    }

    /// Its left side and its lane, with those on its right placed; none if
    /// there is no room.
    fn place(&self, placed: &[Placed]) -> Option<(u64, usize)> {
        let width = width_of(&self.text()) + CHARACTER;
        let x = self.x().min(WIDTH.saturating_sub(width));
        let below = placed.iter().filter(|right| right.x < x + width);
        let lane = below.map(|right| right.lane + 1).max().unwrap_or(0);
        // One at the picture's side may have been moved over this one's tick.
        let is_covered = placed.last().map_or(false, |right| right.x <= self.x());
        (lane < MOST_LANES && !is_covered).then_some((x, lane))
    }

    pub fn text(&self) -> String {
        let part = |(first, last, refused): &(usize, usize, bool)| {
            let cross = if *refused { "\u{D7}" } else { "" };
            if first == last {
                format!("{cross}{first}")
            } else {
                format!("{cross}{first}\u{2013}{last}")
            }
        };
        let parts: Vec<String> = self.parts.iter().map(part).collect();
        let mut text = parts.join(", ");
        if self.is_range && self.refused > 0 {
            text += &format!(", {} refused", grouped(self.refused));
        }
        text
    }
}

/// A line of the picture: a strip and what stands about it.
#[derive(Default)]
pub struct Line {
    pub shapes: Vec<Shape>,
    labels: Vec<Label>,
    /// Where a clock number may stand.
    edges: Vec<(u64, u64)>,
    /// Where it ends.
    end: u64,
}

impl Line {
    pub fn is_empty(&self) -> bool {
        self.end == LEFT
    }

    /// Labels that overlap neither each other nor the ticks of others: one that
    /// goes beyond the next ticks stands in a lane above theirs.
    pub fn placed_labels(&self) -> Vec<Placed> {
        // From the right, so that a label's lane is known to those on its left.
        let mut placed: Vec<Placed> = Vec::new();
        for label in self.labels.iter().rev() {
            let mut label = label.clone();
            let mut place = label.place(&placed);
            while let (None, Some(right)) = (place, placed.last()) {
                label = label.joined(&right.label);
                placed.pop();
                place = label.place(&placed);
            }
            placed.extend(place.map(|(x, lane)| Placed { x, lane, label }));
        }
        placed
    }

    /// Clock numbers that don't overlap, each with its middle; the last one is
    /// among them.
    pub fn clock_numbers(&self) -> Vec<(u64, String)> {
        let mut numbers: Vec<(u64, String)> = Vec::new();
        for (at, (x, clock)) in self.edges.iter().enumerate() {
            let number = match clock {
                0 => "clock 0".to_string(),
                clock => grouped(*clock),
            };
            let half = width_of(&number) / 2;
            let middle = (*x).max(half + 4).min(WIDTH - half - 4);
            let overlaps = |(before, number): &(u64, String)| {
                before + width_of(number) / 2 + CHARACTER > middle - half
            };
            if at + 1 == self.edges.len() {
                while numbers.last().map_or(false, overlaps) {
                    numbers.pop();
                }
            }
            if !numbers.last().map_or(false, overlaps) {
                numbers.push((middle, number));
            }
        }
        numbers
    }
}

/// Puts entries into lines.
pub struct Layout {
    /// Width of a clock.
    pub scale: u64,
    x: u64,
    line: Line,
    pub lines: Vec<Line>,
}

impl Layout {
    pub fn of(timeline: &Timeline) -> Layout {
        let few_lines = SCALES.iter().find_map(|(scale, most)| {
            let layout = Layout::with(timeline, *scale);
            (layout.lines.len() <= *most && layout.fits()).then_some(layout)
        });
        few_lines.unwrap_or_else(|| {
            // The narrower one only if it is much shorter.
            let [wide, narrow] = MANY_LINES.map(|scale| Layout::with(timeline, scale));
            if 3 * wide.lines.len() <= 4 * narrow.lines.len() {
                wide
            } else {
                narrow
            }
        })
    }

    fn with(timeline: &Timeline, scale: u64) -> Layout {
        let mut layout = Layout { scale, x: LEFT, line: Line::default(), lines: Vec::new() };
        layout.edge(0);
        for entry in &timeline.entries {
            match entry {
                Entry::Run(run) => layout.run(run),
                Entry::Access(access) => layout.line.labels.push(Label::new(layout.x, access)),
                Entry::Again { clock, tally, .. } | Entry::Left { clock, tally } => {
                    layout.gap(*clock, folded_in_words(entry), clock + tally.clocks());
                }
            }
        }
        layout.end_line();
        layout
    }

    fn fits(&self) -> bool {
        self.lines.iter().all(|line| line.end <= RIGHT)
    }

    fn end_line(&mut self) {
        let line = std::mem::take(&mut self.line);
        self.lines.push(Line { end: self.x, ..line });
        self.x = LEFT;
    }

    /// Room on this line, or on the next.
    fn make_room(&mut self, width: u64, clock: u64) {
        if self.x > LEFT && self.x + width > RIGHT {
            self.end_line();
            self.edge(clock);
        }
    }

    fn edge(&mut self, clock: u64) {
        self.line.edges.push((self.x, clock));
    }

    /// The width of what is not to scale; what follows keeps to the clocks'
    /// places.
    fn rounded(&self, width: u64) -> u64 {
        (width + self.scale - 1) / self.scale * self.scale
    }

    fn run(&mut self, run: &Run) {
        for Shown { clock, behind_fold, end } in run.shown() {
            if behind_fold {
                let start = clock - run.folded() * run.piece.clocks();
                self.gap(start, slots_in_words(run).to_vec(), clock);
            }
            self.piece(&run.piece, clock);
            if let Some(end) = end {
                self.line.shapes.push(Shape::End { x: self.x, end });
            }
        }
    }

    fn gap(&mut self, clock: u64, words: Vec<String>, end: u64) {
        let longest = words.iter().map(|line| width_of(line)).max().unwrap_or(0);
        let width = self.rounded(longest + 2 * BESIDE).min(RIGHT - LEFT);
        self.make_room(width, clock);
        self.line.shapes.push(Shape::Gap { x: self.x, width, words });
        self.x += width;
        self.edge(end);
    }

    fn piece(&mut self, piece: &Piece, clock: u64) {
        let bus = piece.bus * self.scale;
        let words = wait_in_words(piece);
        let wait = if piece.is_folded() {
            self.rounded(width_of(&words) + 2 * (BESIDE + MARGIN))
        } else {
            piece.wait * self.scale
        };
        self.make_room(bus + wait, clock);
        let (x, half) = (self.x, self.scale / 2);
        let shapes = &mut self.line.shapes;
        let to_scale = if piece.is_folded() { bus } else { bus + wait };
        if bus > 0 {
            shapes.push(Shape::Block { kind: Kind::Bus, x, width: bus });
            let unmarked = bus - u64::from(piece.moves) * self.scale;
            if unmarked > width_of(name_of(Kind::Bus)) {
                shapes.push(Shape::Name { kind: Kind::Bus, x: x + unmarked / 2 });
            }
        }
        if wait > 0 {
            let kind = piece.waiting;
            shapes.push(Shape::Block { kind, x: x + bus, width: wait });
            if piece.is_folded() {
                let (x, width) = (x + bus + MARGIN, wait - 2 * MARGIN);
                shapes.push(Shape::Gap { x, width, words: vec![words] });
            } else if wait > width_of(name_of(kind)) + CHARACTER {
                shapes.push(Shape::Name { kind, x: x + bus + wait / 2 });
            }
        }
        if to_scale > 0 {
            shapes.push(Shape::Clocks { x, width: to_scale });
        }
        if piece.slot && piece.elapsed == 0 {
            shapes.push(Shape::Slot { x });
        }
        if piece.moves {
            shapes.push(Shape::Move { x: x + bus - half, half: (half - 1).min(8) });
        }
        self.x += bus + wait;
        self.edge(clock + piece.clocks());
    }
}

pub fn name_of(kind: Kind) -> &'static str {
    match kind {
        Kind::Bus => "bus",
        Kind::Held => "held",
        Kind::Cpu => "CPU",
    }
}

/// A label with its left side and its lane, from the strip upwards.
pub struct Placed {
    pub x: u64,
    pub lane: usize,
    pub label: Label,
}

#[cfg(test)]
mod tests {
    use super::*;

    /// A line with accesses so far from each other.
    fn line(distances: impl Iterator<Item = u64>) -> Line {
        let mut line = Line::default();
        let (mut x, mut record) = (LEFT, 9_900);
        for distance in distances {
            let mut access = Access::new(x);
            for number in 0..distance as usize % 4 + 1 {
                record += 1 + number % 2;
                let call = if record % 5 == 0 { Call::Refused(3) } else { Call::Read };
                access.add(record, call);
            }
            line.labels.push(Label::new(x, &access));
            line.edges.push((x, 12_000 + x));
            x += distance;
            if x > RIGHT {
                break;
            }
        }
        line
    }

    #[test]
    fn nothing_stands_over_another() {
        for seed in 1..2_000_u64 {
            let line = line((0..60).map(|at| 8 + seed * 7_919 * (at + 1) % (1 + seed % 90)));
            let placed = line.placed_labels();
            let ticks: usize = placed.iter().map(|placed| placed.label.ticks.len()).sum();
            assert_eq!(ticks, line.labels.len(), "a tick got lost");
            for (at, one) in placed.iter().enumerate() {
                let end = one.x + width_of(&one.label.text());
                assert!(end < WIDTH && one.lane < MOST_LANES);
                for (_, other) in placed.iter().enumerate().filter(|(other, _)| *other != at) {
                    let is_beside =
                        end <= other.x || other.x + width_of(&other.label.text()) <= one.x;
                    assert!(one.lane != other.lane || is_beside, "labels, {seed}");
                    let has_tick = (one.x..end).contains(&other.label.x());
                    assert!(!has_tick || other.lane < one.lane, "a label and a tick, {seed}");
                }
            }
            let numbers = line.clock_numbers();
            for pair in numbers.windows(2) {
                let half = |at: usize| width_of(&pair[at].1) / 2;
                assert!(pair[0].0 + half(0) < pair[1].0 - half(1), "numbers, {seed}");
            }
            assert!(numbers.last().is_some());
        }
    }
}

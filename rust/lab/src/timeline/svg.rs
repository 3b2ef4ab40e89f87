//! A timeline as a picture. The SVG has no script, needs no other file and no
//! certain font, and has whole numbers only, so that it is the same wherever
//! it is made.

use super::layout::{name_of, Layout, Line, Placed, Shape, CHARACTER, LEFT, WIDTH};
use super::words::{end_in_words, fault_in_words, totals_in_words};
use super::{BlockEnd, Timeline};
use crate::trace::Kind;
use std::fmt::Write;

/// Where the lines begin, below the title, the totals and the legend.
const HEADER: u64 = 204;
/// Height of the strip that shows who had the bus, and where a word stands in it.
const STRIP: u64 = 52;
const BASE: u64 = 31;
/// Room above a strip for a tick, above it for each lane of labels, and below
/// the strip for clock numbers.
const TICK: u64 = 20;
const LANE: u64 = 18;
const BELOW: u64 = 44;
/// Characters of a session's name.
const MOST_NAME: usize = 40;

/// The picture, with the session's name in its title.
pub fn svg(timeline: &Timeline, name: &str) -> String {
    let layout = Layout::of(timeline);
    let mut picture = Picture::default();
    let mut y = HEADER;
    for line in &layout.lines {
        y = picture.line(line, y);
    }
    if let Some(fault) = timeline.fault {
        picture.words(Ink::Words, LEFT, y, &fault_in_words(fault));
        y += LANE;
    }
    picture.document(timeline, &escaped(name), layout.scale, y)
}

/// Text as XML takes it. What XML has no place for, or a reader could not
/// see, is a question mark; a long one is cut.
fn escaped(text: &str) -> String {
    let mut escaped = String::new();
    for (at, character) in text.chars().enumerate() {
        if at == MOST_NAME {
            escaped += "..";
            break;
        }
        match character {
            '&' => escaped += "&amp;",
            '<' => escaped += "&lt;",
            '>' => escaped += "&gt;",
            '"' => escaped += "&quot;",
            c if c.is_control() || matches!(c, '\u{FFFE}' | '\u{FFFF}') => escaped.push('?'),
            c => escaped.push(c),
        }
    }
    escaped
}

/// What is drawn alike, from the bottom to the top.
#[derive(Clone, Copy)]
enum Ink {
    Bus,
    Held,
    Cpu,
    Clocks,
    Gap,
    Slot,
    Move,
    Tick,
    Access,
    Refused,
    Restart,
    Disabled,
    OnBus,
    OnWait,
    Words,
    Centred,
}

/// Of each ink, in their order: whether it has words, and how it looks.
const INKS: [(bool, &str); 16] = [
    (false, "fill=\"#1d4e89\" stroke=\"#111\""),
    (false, "fill=\"url(#held)\" stroke=\"#111\""),
    (false, "fill=\"url(#cpu)\" stroke=\"#111\""),
    (false, "fill=\"url(#clock)\""),
    (false, "fill=\"#fff\" stroke=\"#111\" stroke-dasharray=\"4 3\""),
    (false, "stroke=\"#111\" stroke-width=\"3\""),
    (false, "fill=\"#fff\" stroke=\"#111\""),
    (false, "stroke=\"#111\" stroke-width=\"2\""),
    (false, "fill=\"#111\""),
    (false, "fill=\"none\" stroke=\"#b00020\" stroke-width=\"3\""),
    (false, "fill=\"#fff\" stroke=\"#111\" stroke-width=\"2\""),
    (false, "fill=\"#111\" stroke=\"#111\" stroke-width=\"2\""),
    (true, "fill=\"#fff\" font-weight=\"bold\" text-anchor=\"middle\""),
    (
        true,
        "fill=\"#111\" stroke=\"#fff\" stroke-width=\"5\" paint-order=\"stroke\" text-anchor=\"middle\"",
    ),
    (true, "fill=\"#111\""),
    (true, "fill=\"#111\" text-anchor=\"middle\""),
];

#[derive(Default)]
struct Picture {
    /// Path data or text elements, by ink.
    layers: [String; INKS.len()],
}

impl Picture {
    /// Adds to a path.
    fn path(&mut self, ink: Ink, data: std::fmt::Arguments) {
        // A string takes all that is written.
        let _ = self.layers[ink as usize].write_fmt(data);
    }

    fn rectangle(&mut self, ink: Ink, x: u64, y: u64, width: u64, height: u64) {
        self.path(ink, format_args!("M{x} {y}h{width}v{height}h-{width}z"));
    }

    /// Escaped words, from x on or about it, as the ink has it.
    fn words(&mut self, ink: Ink, x: u64, y: u64, words: &str) {
        self.path(ink, format_args!("<text x=\"{x}\" y=\"{y}\">{words}</text>\n"));
    }

    /// A line from y on, and where the next one begins.
    fn line(&mut self, line: &Line, y: u64) -> u64 {
        let labels = line.placed_labels();
        let lanes = labels.iter().map(|placed| placed.lane + 1).max().unwrap_or(0) as u64;
        let y = y + lanes * LANE + if lanes > 0 { TICK } else { CHARACTER };
        for Placed { x, lane, label } in &labels {
            let rise = TICK + LANE * *lane as u64;
            self.words(Ink::Words, *x, y - rise - 3, &label.text());
            for (at, (tick, refused)) in label.ticks.iter().enumerate() {
                self.tick(*tick, y, if at == 0 { rise } else { TICK }, *refused);
            }
        }
        line.shapes.iter().for_each(|shape| self.shape(shape, y));
        if line.is_empty() {
            self.words(Ink::Words, LEFT + CHARACTER, y + BASE, "no clock passed");
        }
        for (x, number) in line.clock_numbers() {
            self.words(Ink::Centred, x, y + STRIP + 30, &number);
        }
        y + STRIP + BELOW
    }

    fn shape(&mut self, shape: &Shape, y: u64) {
        match shape {
            Shape::Block { kind, x, width } => {
                let ink = match kind {
                    Kind::Bus => Ink::Bus,
                    Kind::Held => Ink::Held,
                    Kind::Cpu => Ink::Cpu,
                };
                self.rectangle(ink, *x, y, *width, STRIP);
            }
            Shape::Clocks { x, width } => self.rectangle(Ink::Clocks, *x, y, *width, STRIP),
            Shape::Name { kind, x } => {
                let ink = if *kind == Kind::Bus { Ink::OnBus } else { Ink::OnWait };
                self.words(ink, *x, y + BASE, name_of(*kind));
            }
            Shape::Gap { x, width, words } => self.gap(*x, y, *width, words),
            Shape::Slot { x } => self.path(Ink::Slot, format_args!("M{x} {y}v{}", STRIP + 6)),
            Shape::Move { x, half } => self.diamond(*x, y + STRIP / 2, *half),
            Shape::End { x, end } => self.end(*x, y + STRIP, *end),
        }
    }

    /// With broken sides.
    fn gap(&mut self, x: u64, y: u64, width: u64, words: &[String]) {
        let (left, across) = (x + 1, width - 2);
        let (down, up) = ("l5 13l-5 13l5 13l-5 13", "l-5 -13l5 -13l-5 -13l5 -13");
        self.path(Ink::Gap, format_args!("M{left} {y}{down}h{across}{up}z"));
        let pitch = if words.len() > 2 { 15 } else { 17 };
        let first = y + BASE - pitch * (words.len() as u64).saturating_sub(1) / 2;
        for (line, words) in (0..).zip(words) {
            self.words(Ink::Centred, x + width / 2, first + pitch * line, words);
        }
    }

    fn diamond(&mut self, x: u64, y: u64, half: u64) {
        let top = y - 12;
        self.path(Ink::Move, format_args!("M{x} {top}l{half} 12l-{half} 12l-{half} -12z"));
    }

    /// Below the strip, on the side of the slot that ended.
    fn end(&mut self, x: u64, y: u64, end: BlockEnd) {
        let (x, y) = (x - 2, y + 3);
        match end {
            BlockEnd::Disabled => self.rectangle(Ink::Disabled, x - 9, y, 9, 9),
            BlockEnd::Restart => {
                self.path(Ink::Restart, format_args!("M{x} {y}v10l-11 -5z"));
            }
        }
    }

    /// So far above the strip.
    fn tick(&mut self, x: u64, y: u64, rise: u64, refused: bool) {
        let top = y - rise;
        self.path(Ink::Tick, format_args!("M{x} {top}V{y}"));
        if refused {
            let (left, top) = (x - 5, y - 13);
            self.path(Ink::Refused, format_args!("M{left} {top}l10 10m0 -10l-10 10"));
        } else {
            self.path(Ink::Access, format_args!("M{x} {y}l-5 -9h10z"));
        }
    }

    fn legend(&mut self) {
        let y = HEADER - 108;
        for (kind, x) in [(Kind::Bus, LEFT), (Kind::Held, 128), (Kind::Cpu, 228)] {
            self.shape(&Shape::Block { kind, x, width: 40 }, y);
            self.words(Ink::Words, x + 48, y + BASE, name_of(kind));
        }
        self.shape(&Shape::Block { kind: Kind::Bus, x: 320, width: 24 }, y);
        self.diamond(332, y + STRIP / 2, 8);
        self.words(Ink::Words, 352, y + BASE, "a byte moves");
        self.gap(484, y, 36, &[]);
        self.words(Ink::Words, 532, y + BASE, "folded: not to scale");

        let y = HEADER - 22;
        self.tick(LEFT + 6, y, TICK, false);
        self.words(Ink::Words, LEFT + 20, y - 5, "record: port access, memory");
        self.tick(330, y, TICK, true);
        self.words(Ink::Words, 344, y - 5, "refused");
        for (end, x) in [(BlockEnd::Disabled, 440), (BlockEnd::Restart, 664)] {
            self.end(x, y - 18, end);
            self.words(Ink::Words, x + 6, y - 5, end_in_words(end));
        }
    }

    fn document(mut self, timeline: &Timeline, name: &str, scale: u64, height: u64) -> String {
        let title = match name {
            "-" | "" => "Who had the bus".to_string(),
            name => format!("Who had the bus: {name}"),
        };
        let totals = totals_in_words(timeline);
        for (line, y) in totals.iter().zip([58, 78]) {
            self.words(Ink::Words, LEFT, y, line);
        }
        self.legend();
        let mut out = format!(
            "<svg xmlns=\"http://www.w3.org/2000/svg\" viewBox=\"0 0 {WIDTH} {height}\" \
             width=\"{WIDTH}\" height=\"{height}\" role=\"img\" aria-labelledby=\"title desc\" \
             font-family=\"monospace\" font-size=\"15\">\n\
             <title id=\"title\">{title}</title>\n\
             <desc id=\"desc\">{}. {}. {DESCRIPTION}</desc>\n\
             <defs>\n{PATTERNS}\
             <pattern id=\"clock\" x=\"{LEFT}\" width=\"{scale}\" height=\"8\" \
             patternUnits=\"userSpaceOnUse\"><path d=\"M0 0v8\" stroke=\"#888\"/></pattern>\n\
             </defs>\n\
             <rect width=\"{WIDTH}\" height=\"{height}\" fill=\"#fff\"/>\n\
             <text x=\"{LEFT}\" y=\"32\" font-size=\"20\" font-weight=\"bold\">{title}</text>\n",
            totals[0], totals[1],
        );
        for ((has_words, look), layer) in INKS.iter().zip(&self.layers) {
            match (layer.is_empty(), has_words) {
                (true, _) => {}
                (false, true) => out += &format!("<g {look}>\n{layer}</g>\n"),
                (false, false) => out += &format!("<path {look} d=\"{layer}\"/>\n"),
            }
        }
        out + "</svg>\n"
    }
}

const DESCRIPTION: &str = "Time goes from left to right, line by line. Above the strips stand the \
    numbers of the records that access a port or memory, below them the clocks that have passed.";

const PATTERNS: &str = "\
<pattern id=\"held\" width=\"10\" height=\"10\" patternUnits=\"userSpaceOnUse\">\
<rect width=\"10\" height=\"10\" fill=\"#f2a93b\"/>\
<path d=\"M-2 2l4 -4M0 10l10 -10M8 12l4 -4\" stroke=\"#3a2600\" stroke-width=\"2\"/></pattern>
<pattern id=\"cpu\" width=\"8\" height=\"8\" patternUnits=\"userSpaceOnUse\">\
<rect width=\"8\" height=\"8\" fill=\"#f4f6f4\"/>\
<circle cx=\"4\" cy=\"4\" r=\"1\" fill=\"#667\"/></pattern>
";

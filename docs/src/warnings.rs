//! A module: which warnings came, and which bytes that are close to one, counted
//! by question and answer.
//!
//! What a byte is goes by the parameter that is awaited. So a byte that has a
//! warning in one place must come in every other, too, and in refused writes.
//! `compare.rs` and `states.rs` include it.

// `compare.rs` uses a part of it.
#![allow(dead_code)]
#![forbid(unsafe_code)]

use crate::questions::{self, Answers};
use crate::reference::model::{self, Device, Pending};

// ---- One write -----------------------------------------------------------

struct Write {
    before: Device,
    port: u16,
    byte: u8,
    number: u8,
}

/// Bits 1-0: AA of a WR0 byte, or a timing.
fn low_bits(byte: u8) -> usize {
    usize::from(byte & 0b11)
}

/// Bits 6-5: the mode of a WR4 byte.
fn mode_bits(byte: u8) -> usize {
    usize::from((byte >> 5) & 0b11)
}

/// Bits 6-5 as in a WR4 byte that has a warning.
fn discouraged_mode(byte: u8) -> bool {
    [0b00, 0b11].contains(&mode_bits(byte))
}

impl Write {
    /// The warning that the byte has, if the write is accepted. A number of
    /// pending parameters that stands for no sequence doesn't say what it is.
    fn would_have(&self) -> u8 {
        match self.before.pending {
            Pending::Sequence(_) => model::warning(&self.before, self.byte),
            Pending::Stray(_) => model::NO_WARNING,
        }
    }

    /// It is accepted, with this warning.
    fn has(&self, warning: u8) -> bool {
        self.number == 0 && self.would_have() == warning
    }

    /// It is accepted and has no warning. Gives the code of the parameter that
    /// the byte is, 0 for none.
    fn without(&self) -> Option<u8> {
        self.has(model::NO_WARNING).then(|| self.before.pending.next())
    }

    /// The same for a byte that is no parameter. Gives the register.
    fn register_without(&self) -> Option<u8> {
        self.without().filter(|&code| code == 0).map(|_| model::register(self.byte))
    }

    /// The same for a byte that is one. Gives its code's place in `PARAMETERS`.
    fn parameter_without(&self) -> Option<usize> {
        self.without().filter(|&code| code != 0).map(|code| usize::from(code) - 1)
    }

    /// 0 by port 6B, 1 by port 0B.
    fn by(&self) -> usize {
        usize::from(self.port & 0x00FF == 0x0B)
    }
}

// ---- Questions -----------------------------------------------------------

type Question = questions::Question<Write>;

const WARNINGS: &[&str] = &["AA", "timing", "mode"];
/// By their codes, from 1 on.
const PARAMETERS: &[&str] = &[
    "A low",
    "A high",
    "length low",
    "length high",
    "A timing",
    "B timing",
    "prescaler",
    "B low",
    "B high",
    "read mask",
];
const OTHER_VALUES: &[&str] = &["AA 01", "mode 01", "mode 10"];
const OTHER_TIMINGS: &[&str] = &["A 00", "A 01", "A 10", "B 00", "B 01", "B 10"];
const THREE_BITS: &[&str] = &["000", "001", "010", "011", "100", "101", "110", "111"];
const NOT_TIMINGS: &[&str] = &[
    "A low",
    "A high",
    "length low",
    "length high",
    "prescaler",
    "B low",
    "B high",
    "read mask",
    "WR6",
];
const OTHER_REGISTERS: &[&str] = &["WR0", "WR1", "WR2", "WR3", "WR5", "WR6", "no register"];

/// Of every write.
const OF_ALL: &[Question] = &[
    ("AA", &["10 by 6B", "10 by 0B", "11 by 6B", "11 by 0B"], aa),
    ("timing of 11", &["A by 6B", "A by 0B", "B by 6B", "B by 0B"], timing),
    ("timing of 11, of B", &["alone", "before the prescaler"], timing_of_b),
    ("mode", &["00 by 6B", "00 by 0B", "11 by 6B", "11 by 0B"], mode),
    ("AA or mode, parameters behind it", &["none", "some"], parameters_behind),
    ("in a burst wait", WARNINGS, in_burst_wait),
    ("none, other value", OTHER_VALUES, other_value),
    ("none, other timing", OTHER_TIMINGS, other_timing),
    ("none, mode 01 or 10 with bits 4-2 of", THREE_BITS, other_bits),
    ("none, as WR0 with AA of 10 or 11", PARAMETERS, as_aa),
    ("none, as a timing of 11", NOT_TIMINGS, as_timing),
    ("none, as WR4 with mode 00 or 11", PARAMETERS, as_mode),
    ("none, bits 6-5 of 00 or 11 in", OTHER_REGISTERS, in_other_register),
    ("refused with 2", WARNINGS, refused_with_2),
    ("refused with 3", WARNINGS, refused_with_3),
];

/// Only of those to devices of any content.
const OF_DEVICES: &[Question] = &[("refused with 1", WARNINGS, refused_with_1)];

fn aa(write: &Write) -> Option<usize> {
    let value = low_bits(write.byte).checked_sub(0b10)?;
    write.has(model::AA_WARNING).then(|| 2 * value + write.by())
}

/// Which timing the byte is that has its warning: 0 for A's, 1 for B's.
fn warned_timing(write: &Write) -> Option<usize> {
    let of_b = || write.before.pending.next() == model::B_TIMING;
    write.has(model::TIMING_WARNING).then(|| usize::from(of_b()))
}

fn timing(write: &Write) -> Option<usize> {
    warned_timing(write).map(|of_b| 2 * of_b + write.by())
}

fn timing_of_b(write: &Write) -> Option<usize> {
    warned_timing(write).filter(|&of_b| of_b == 1).map(|_| usize::from((write.byte >> 5) & 1))
}

fn mode(write: &Write) -> Option<usize> {
    let value = usize::from(mode_bits(write.byte) == 0b11);
    write.has(model::MODE_WARNING).then(|| 2 * value + write.by())
}

fn parameters_behind(write: &Write) -> Option<usize> {
    let asked = match model::register(write.byte) {
        0 => write.byte & 0b0111_1000,
        _ => write.byte & 0b0000_1100,
    };
    let warned = write.has(model::AA_WARNING) || write.has(model::MODE_WARNING);
    warned.then(|| usize::from(asked != 0))
}

fn in_burst_wait(write: &Write) -> Option<usize> {
    let warning = Some(write.would_have()).filter(|_| write.number == 0 && write.before.enabled)?;
    usize::from(warning).checked_sub(1)
}

fn other_value(write: &Write) -> Option<usize> {
    match (write.register_without()?, low_bits(write.byte), mode_bits(write.byte)) {
        (0, 0b01, _) => Some(0),
        (4, _, 0b01) => Some(1),
        (4, _, 0b10) => Some(2),
        _ => None,
    }
}

fn other_timing(write: &Write) -> Option<usize> {
    match (write.without()?, low_bits(write.byte)) {
        (_, 0b11) => None,
        (model::A_TIMING, bits) => Some(bits),
        (model::B_TIMING, bits) => Some(3 + bits),
        _ => None,
    }
}

fn other_bits(write: &Write) -> Option<usize> {
    let register = write.register_without()?;
    (register == 4).then(|| usize::from((write.byte >> 2) & 0b111))
}

fn as_aa(write: &Write) -> Option<usize> {
    let alike = model::register(write.byte) == 0 && low_bits(write.byte) >= 0b10;
    write.parameter_without().filter(|_| alike)
}

fn as_timing(write: &Write) -> Option<usize> {
    let alike = low_bits(write.byte) == 0b11;
    let place = match write.without()? {
        // WR0 would have a warning of its own.
        0 => "WR6",
        code => PARAMETERS[usize::from(code) - 1],
    };
    NOT_TIMINGS.iter().position(|&name| alike && name == place)
}

fn as_mode(write: &Write) -> Option<usize> {
    let alike = model::register(write.byte) == 4 && discouraged_mode(write.byte);
    write.parameter_without().filter(|_| alike)
}

fn in_other_register(write: &Write) -> Option<usize> {
    let register = write.register_without().filter(|_| discouraged_mode(write.byte))?;
    [0, 1, 2, 3, 5, 6, model::NO_REGISTER].iter().position(|&other| other == register)
}

/// The warning that a byte would have, but the write is refused.
fn refused(write: &Write, number: u8) -> Option<usize> {
    let warning = Some(write.would_have()).filter(|_| write.number == number)?;
    usize::from(warning).checked_sub(1)
}

fn refused_with_1(write: &Write) -> Option<usize> {
    refused(write, 1)
}

fn refused_with_2(write: &Write) -> Option<usize> {
    refused(write, 2)
}

fn refused_with_3(write: &Write) -> Option<usize> {
    refused(write, 3)
}

// ---- All writes ----------------------------------------------------------

/// How often each answer came.
pub struct Warnings {
    answers: Answers<Write>,
}

impl Warnings {
    /// Of devices of any content.
    pub fn of_devices() -> Warnings {
        Warnings { answers: Answers::to(OF_ALL.iter().chain(OF_DEVICES)) }
    }

    pub fn of_sessions() -> Warnings {
        Warnings { answers: Answers::to(OF_ALL.iter()) }
    }

    /// A write, with the device before it and its number.
    pub fn count(&mut self, before: &Device, port: u16, byte: u8, number: u8) {
        self.answers.count(&Write { before: *before, port, byte, number });
    }

    /// The counts as lines, each after the same words.
    pub fn summary(&self, words: &str) -> String {
        self.answers.lines(words).trim_end().to_string()
    }

    /// The first answer that never came, with its question.
    pub fn missing(&self) -> Option<String> {
        self.answers.missing()
    }
}

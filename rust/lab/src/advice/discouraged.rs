//! Values that programs should not use: which one a byte holds, what the device
//! makes of it, and what to write. That it is one is the library's warning.

use super::{advice, Advice, Topic};
use crate::trace::Answer;
use crate::words;
use zxndma::{pending, warning};

/// On an accepted write; none without a warning.
pub fn advice_on(byte: u8, answer: &Answer) -> Option<Advice> {
    let warning = answer.reply.warning;
    let bits = words::warned_bits(warning, byte);
    let next = pending::next(answer.before.core.pending);
    let is = &answer.after.core;
    let (name, place, acts, remedy) = match warning {
        warning::OPERATION => (
            "WR0",
            "1-0",
            "it transfers, as 01 does".to_string(),
            "Write 01 there; if the byte was not meant as WR0: a read mask comes after BB, and a \
             parameter after a byte that asks for it",
        ),
        warning::TIMING => (
            words::parameter(next)?,
            "1-0",
            match next {
                pending::A_TIMING => format!("A takes {} clocks, as by 00", is.a.cycle),
                _ => format!("B takes {} clocks, as by 00", is.b.cycle),
            },
            "Write 00 there for 4 clocks, 01 for 3 or 10 for 2",
        ),
        warning::MODE => (
            "WR4",
            "6-5",
            format!("it is {}, as 01 is", words::continuous_or_burst(is)),
            "Write 01 there for continuous, or 10 for burst: AD and CD, if both bytes of B's address \
             follow",
        ),
        _ => return None,
    };
    // Where the Z80 DMA has a use for it.
    let meaning = match (warning, bits) {
        (warning::OPERATION, 0b10) => " (search on the Z80 DMA)",
        (warning::OPERATION, _) => " (search and transfer on the Z80 DMA)",
        (warning::MODE, 0b00) => " (byte mode on the Z80 DMA)",
        _ => "",
    };
    let reason = format!(
        "{byte:02X} is {name} with {bits:02b} in bits {place}{meaning}, which programs should \
         not use: {acts}"
    );
    Some(advice(Topic::Discouraged, reason, remedy))
}

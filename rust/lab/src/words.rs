//! What bytes, registers and answers are called. A register is named by the
//! bits of its byte, or a parameter by what the device had pending; what it
//! set is taken from the device's fields, and whether it should be used from the
//! library's warning.

use crate::trace::{source_and_destination, Answer, End};
use std::fmt;
use zxndma::{pending, warning, Core, Device, Port};

/// Of the bits 0 to 9 of pending parameters.
const PARAMETERS: [&str; 10] = [
    "A address low",
    "A address high",
    "length low",
    "length high",
    "A timing",
    "B timing",
    "prescaler",
    "B address low",
    "B address high",
    "read mask",
];

/// The registers that can be read, by their number.
pub const REGISTERS: [&str; 7] =
    ["status", "counter low", "counter high", "A low", "A high", "B low", "B high"];

/// The warnings of writes, by their names.
pub const WARNINGS: [(&str, u8); 4] = [
    ("none", warning::NONE),
    ("operation", warning::OPERATION),
    ("timing", warning::TIMING),
    ("mode", warning::MODE),
];

pub const LOAD: u8 = 0xCF;
pub const ENABLE: u8 = 0x87;

/// The commands of WR6.
const COMMANDS: [(u8, &str); 12] = [
    (0xC3, "Reset"),
    (0xC7, "Reset timing of A"),
    (0xCB, "Reset timing of B"),
    (LOAD, "Load"),
    (0xD3, "Continue"),
    (ENABLE, "Enable"),
    (0x83, "Disable"),
    (0x8B, "Reinitialize status"),
    (0xBF, "Read status"),
    (0xA7, "Start reading"),
    (0xBB, "Read mask follows"),
    (0xB3, "Force ready"),
];

/// What a byte selects that comes without a parameter pending.
#[derive(Clone, Copy, PartialEq, Eq, Debug)]
pub enum Register {
    Wr0,
    Wr1,
    Wr2,
    Wr3,
    Wr4,
    Wr5,
    Wr6,
    None,
}

pub fn selected(byte: u8) -> Register {
    match (byte >> 7, byte & 0b11) {
        (0, 0b00) if byte & 0b100 != 0 => Register::Wr1,
        (0, 0b00) => Register::Wr2,
        (0, _) => Register::Wr0,
        (_, 0b00) => Register::Wr3,
        (_, 0b01) => Register::Wr4,
        (_, 0b10) if byte & 0b0100_0100 == 0 => Register::Wr5,
        (_, 0b10) => Register::None,
        _ => Register::Wr6,
    }
}

/// The byte is Enable, by WR6 or WR3, if it comes without a parameter pending.
pub fn enables(byte: u8) -> bool {
    byte == ENABLE || selected(byte) == Register::Wr3 && byte & 0x40 != 0
}

/// The name of a command of WR6.
pub fn command_name(byte: u8) -> Option<&'static str> {
    COMMANDS.iter().find(|(code, _)| *code == byte).map(|(_, name)| *name)
}

/// Why a call was refused, by its number.
pub fn refusal(number: u8) -> &'static str {
    match number {
        0 => "accepted",
        1 => "the device is not valid",
        2 => "the port number's low byte is neither 6B nor 0B",
        3 => "the device holds the bus",
        4 => "the memory lent is not 65,536 bytes",
        5 => "the latches lent are not 65,536 bytes",
        6 => "the clock counts would not fit 64 bits",
        _ => "no such number",
    }
}

/// The name of a warning, by its number.
pub fn warning_name(number: u8) -> &'static str {
    let named = WARNINGS.iter().find(|(_, warning)| *warning == number);
    named.map_or("of no such number", |(name, _)| *name)
}

/// The bits of a byte that its warning is about.
pub fn warned_bits(warning: u8, byte: u8) -> u8 {
    let bits = if warning == warning::MODE { byte >> 5 } else { byte };
    bits & 0b11
}

/// The value that a byte's warning is about, and what to use in its place.
fn discouraged(warning: u8, byte: u8) -> Option<String> {
    let (what, instead) = match warning {
        warning::OPERATION => ("AA", "01"),
        warning::TIMING => ("timing", "00"),
        warning::MODE => ("mode", "01, or 10 for burst"),
        _ => return None,
    };
    Some(format!("{what} {:02b} is discouraged: use {instead}", warned_bits(warning, byte)))
}

/// What is wrong with a session, by its fault's number.
pub fn fault(number: u8) -> &'static str {
    match number {
        20 => "the version is missing or not 1",
        21 => "a record is cut short, in its length or behind it",
        _ => "a record's kind is unknown or missing, or its length is wrong for the kind",
    }
}

/// The names of the pending parameters, the next one first.
pub fn pending_names(pending: u16) -> Vec<&'static str> {
    let bits = (0..u16::BITS).map(|number| pending & 1 << number);
    bits.filter_map(parameter).collect()
}

/// The name of a pending parameter, by its bit; none for 0.
pub fn parameter(bit: u16) -> Option<&'static str> {
    PARAMETERS.get(bit.trailing_zeros() as usize).copied()
}

/// A number with a comma at each thousand.
pub fn grouped(number: u64) -> String {
    let digits = number.to_string();
    let mut text = String::new();
    for (at, digit) in digits.chars().enumerate() {
        if at > 0 && (digits.len() - at) % 3 == 0 {
            text.push(',');
        }
        text.push(digit);
    }
    text
}

/// As many of something: "1 byte", "2 bytes".
pub fn many(number: u64, what: &str) -> String {
    let s = if number == 1 { "" } else { "s" };
    format!("{} {what}{s}", grouped(number))
}

/// Bytes in hex, with blanks between.
pub fn hex(bytes: &[u8]) -> String {
    let pairs: Vec<String> = bytes.iter().map(|byte| format!("{byte:02X}")).collect();
    pairs.join(" ")
}

/// One end of a transfer.
pub fn end(end: End) -> String {
    format!("{} {:04X}", memory_or_io(end.io), end.address)
}

fn memory_or_io(io: bool) -> &'static str {
    if io {
        "I/O"
    } else {
        "memory"
    }
}

/// The bytes of a block: its count by length and mode.
pub fn block_count(core: &Core) -> u32 {
    u32::from(core.block.length) + u32::from(core.block.zilog)
}

fn mode(core: &Core) -> &'static str {
    if core.block.zilog {
        "Zilog"
    } else {
        "zxn"
    }
}

fn port_setup(port: &Port) -> String {
    let step = match port.step {
        0 => "decrements",
        1 => "increments",
        _ => "is fixed",
    };
    format!("{}, {step}", memory_or_io(port.io))
}

/// Where bytes go.
pub fn direction(core: &Core) -> &'static str {
    if core.control.forward {
        "A to B"
    } else {
        "B to A"
    }
}

pub fn continuous_or_burst(core: &Core) -> &'static str {
    if core.control.burst {
        "burst"
    } else {
        "continuous"
    }
}

/// In words. Its time is the length of a slot: a session runs at 28 MHz, where no
/// bus time is longer.
fn prescaler(core: &Core) -> String {
    match core.control.prescaler {
        0 => "off".to_string(),
        prescaler => {
            let clocks = many(32 * u64::from(prescaler), "clock");
            format!("{prescaler}, {clocks} for each byte")
        }
    }
}

fn mask(mask: u8) -> String {
    let named = (0..).zip(REGISTERS).filter(|(bit, _)| mask >> bit & 1 == 1);
    let names: Vec<&str> = named.map(|(_, name)| name).collect();
    let names = if names.is_empty() { "status only".to_string() } else { names.join(", ") };
    format!("{mask:02X}, {names}")
}

/// What an accepted write did.
pub struct Written {
    /// The parameter's name, if it was one.
    parameter: Option<&'static str>,
    /// What it set, and whether it should. None for the low byte of a number
    /// whose high byte is next.
    pub set: Option<String>,
    /// The parameters that a register asks for.
    next: Vec<&'static str>,
}

impl fmt::Display for Written {
    fn fmt(&self, f: &mut fmt::Formatter) -> fmt::Result {
        let parts: Vec<&str> = self.parameter.into_iter().chain(self.set.as_deref()).collect();
        write!(f, "{}", parts.join(": "))?;
        if !self.next.is_empty() {
            write!(f, "; next: {}", self.next.join(", "))?;
        }
        Ok(())
    }
}

/// What an accepted write did.
pub fn write(answer: &Answer, byte: u8) -> Written {
    let (was, is) = (&answer.before.core, &answer.after.core);
    let came = pending::next(was.pending);
    let parameter = parameter(came);
    let set = match parameter {
        Some(_) => parameter_set(came, is),
        None => Some(register(was, is, byte)),
    };
    let mut parts = Vec::from_iter(set);
    parts.extend(discouraged(answer.reply.warning, byte));
    if was.block.zilog != is.block.zilog {
        let longer = if is.block.zilog { ": a block has length + 1 bytes" } else { "" };
        parts.push(format!("mode {}{longer}", mode(is)));
    }
    let set = if parts.is_empty() { None } else { Some(parts.join("; ")) };
    // A parameter among others goes without the list: its register had it.
    let asks = was.pending == came;
    let next = if asks { pending_names(is.pending) } else { Vec::new() };
    // What these two set begins with their name.
    let parameter = parameter.filter(|_| !matches!(came, pending::PRESCALER | pending::READ_MASK));
    Written { parameter, set, next }
}

/// What a parameter, by its bit, made of the device.
fn parameter_set(bit: u16, is: &Core) -> Option<String> {
    // A high byte has the bit after its low byte's.
    let high_is_next = pending::next(is.pending) == bit << 1;
    Some(match bit {
        pending::A_ADDRESS_LOW | pending::LENGTH_LOW | pending::B_ADDRESS_LOW if high_is_next => {
            return None
        }
        pending::A_ADDRESS_LOW | pending::A_ADDRESS_HIGH => {
            format!("A starts at {:04X}", is.a.address)
        }
        pending::LENGTH_LOW | pending::LENGTH_HIGH => format!("length {}", is.block.length),
        pending::A_TIMING => format!("A takes {} clocks", is.a.cycle),
        pending::B_TIMING => format!("B takes {} clocks", is.b.cycle),
        pending::PRESCALER => format!("prescaler {}", prescaler(is)),
        pending::B_ADDRESS_LOW | pending::B_ADDRESS_HIGH => {
            format!("B starts at {:04X}", is.b.address)
        }
        _ => format!("read mask {}", mask(is.readback.mask)),
    })
}

/// A byte that came without a parameter pending: the register, and what the
/// device holds behind it.
fn register(was: &Core, is: &Core, byte: u8) -> String {
    match selected(byte) {
        Register::Wr0 => format!("WR0: {}", direction(is)),
        Register::Wr1 => format!("WR1: A is {}", port_setup(&is.a)),
        Register::Wr2 => format!("WR2: B is {}", port_setup(&is.b)),
        Register::Wr3 if enables(byte) => format!("WR3, {}", enabled(was, is)),
        Register::Wr3 => format!("WR3, {}", disabled(was)),
        Register::Wr4 => format!("WR4: {}", continuous_or_burst(is)),
        Register::Wr5 => {
            format!("WR5: auto restart {}", if is.control.restart { "on" } else { "off" })
        }
        Register::Wr6 => command(was, is, byte),
        Register::None => format!("{byte:02X} selects no register"),
    }
}

fn command(was: &Core, is: &Core, byte: u8) -> String {
    let name = match command_name(byte) {
        Some(name) => name,
        None => return format!("WR6: {byte:02X} is no command of the zxnDMA"),
    };
    match byte {
        0xC3 => format!("{name}: disabled, cycles 4, prescaler off, no auto restart, status 3A"),
        0xC7 => format!("{name}: A takes {} clocks", is.a.cycle),
        0xCB => format!("{name}: B takes {} clocks", is.b.cycle),
        LOAD | 0xD3 => format!(
            "{name}: A {:04X}, B {:04X}, counter {}",
            is.a.pointer, is.b.pointer, is.block.counter
        ),
        ENABLE => enabled(was, is),
        0x83 => disabled(was),
        0x8B => format!("{name}: E 1, T 0"),
        0xBF => format!("{name}: the next read gives it"),
        0xA7 => format!("{name} at the start of the mask"),
        0xB3 => format!("{name}: does nothing"),
        _ => name.to_string(),
    }
}

fn enabled(was: &Core, is: &Core) -> String {
    if was.enabled {
        return "Enable: it was enabled already".to_string();
    }
    if !is.enabled {
        let (counter, count) = (is.block.counter, block_count(is));
        return format!("Enable: the block is finished, {counter} of {count}: stays disabled, E 0");
    }
    format!("Enable: {}", transfer(is))
}

/// What an enabled device is to do: mode, ends, bytes left, how.
pub fn transfer(core: &Core) -> String {
    let (source, destination) = source_and_destination(core);
    let at = |port: Port| end(End { io: port.io, address: port.pointer });
    let left = block_count(core).saturating_sub(core.block.counter);
    let mut text = format!(
        "{}, {} -> {}, {}, {}",
        mode(core),
        at(source),
        at(destination),
        many(u64::from(left), "byte"),
        continuous_or_burst(core)
    );
    if core.control.prescaler != 0 {
        text += &format!(", prescaler {}", prescaler(core));
    }
    if core.control.restart {
        text += ", auto restart";
    }
    text
}

/// The floor under the processor's time, if a write starts the device with one
/// or changes that of a running device. A disabled one has no need of it: all
/// clocks are the processor's.
pub fn floor(answer: &Answer) -> Option<String> {
    let Answer { before, after, .. } = answer;
    if !after.core.enabled {
        return None;
    }
    let was = if before.core.enabled { before.cpu_floor() } else { 0 };
    match after.cpu_floor() {
        is if is == was => None,
        0 => Some(
            "no CPU floor any more: the slots to come have no wait for the processor".to_string(),
        ),
        // Accesses may cut a wait short, by Disable, and start the next slot.
        is => Some(format!(
            "CPU floor {is}: of any {is} clocks in a row without a port access the processor has \
             one at least"
        )),
    }
}

fn disabled(was: &Core) -> String {
    let dropped = if was.slot.elapsed > 0 { ": the rest of the wait is dropped" } else { "" };
    format!("Disable{dropped}")
}

/// What an accepted read gave: the register's name, and of the status its
/// bits. The read position behind the read tells the register.
pub fn read(before: &Device, after: &Device, byte: u8) -> String {
    let readback = &before.core.readback;
    if readback.waiting || readback.mask == 0 {
        return status(byte);
    }
    let count = REGISTERS.len();
    match (usize::from(after.core.readback.position) + count - 1) % count {
        0 => status(byte),
        number => REGISTERS[number].to_string(),
    }
}

/// The status byte's two bits.
pub fn status(byte: u8) -> String {
    let (e, t) = (byte >> 5 & 1, byte & 1);
    let ended = if e == 0 { "a block has ended" } else { "no block has ended" };
    let moved = if t == 1 { "a byte has moved" } else { "no byte has moved" };
    format!("status: E {e}, {ended}; T {t}, {moved}")
}

#[cfg(test)]
mod tests {
    use super::*;
    use crate::record::Record;
    use crate::trace::Trace;

    /// What each byte of a sequence to a port is told to do.
    fn told_at(port: u16, bytes: &[u8]) -> Vec<String> {
        let mut trace = Trace::brief();
        let mut one = |byte: &u8| {
            let answer = trace.step(&Record::Write { port, byte: *byte }, &mut |_| ());
            write(&answer, *byte).to_string()
        };
        bytes.iter().map(&mut one).collect()
    }

    fn told(bytes: &[u8]) -> Vec<String> {
        told_at(0x6B, bytes)
    }

    #[test]
    fn registers_and_parameters_are_told() {
        let told =
            told(&[0x79, 0x00, 0x10, 0x04, 0x00, 0x5C, 0x02, 0x60, 0x21, 55, 0xC5, 0x20, 0xA2]);
        let expected = [
            "WR0: B to A; next: A address low, A address high, length low, length high",
            "A address low",
            "A address high: A starts at 1000",
            "length low",
            "length high: length 4",
            "WR1: A is I/O, increments; next: A timing",
            "A timing: A takes 2 clocks",
            "WR2: B is memory, is fixed; next: B timing",
            "B timing: B takes 3 clocks; next: prescaler",
            "prescaler 55, 1,760 clocks for each byte",
            "WR4: burst; next: B address low",
            "B address low: B starts at 0020",
            "WR5: auto restart on",
        ];
        assert_eq!(told, expected);
    }

    #[test]
    fn discouraged_values_are_told() {
        let told = told(&[0x27, 3, 0x44, 0xFF, 0x40, 0x23, 3, 0x81, 0xED, 3, 3, 0x02]);
        let expected = [
            "WR0: A to B; AA 11 is discouraged: use 01; next: length low",
            "length low: length 3",
            "WR1: A is memory, decrements; next: A timing",
            "A timing: A takes 4 clocks; timing 11 is discouraged: use 00",
            "WR2: B is memory, decrements; next: B timing",
            "B timing: B takes 4 clocks; timing 11 is discouraged: use 00; next: prescaler",
            "prescaler 3, 96 clocks for each byte",
            "WR4: continuous; mode 00 is discouraged: use 01, or 10 for burst",
            "WR4: continuous; mode 11 is discouraged: use 01, or 10 for burst; next: B address \
             low, B address high",
            "B address low",
            "B address high: B starts at 0303",
            "WR0: B to A; AA 10 is discouraged: use 01",
        ];
        assert_eq!(told, expected);
        // Before the mode that the port sets.
        let expected = "WR0: B to A; AA 11 is discouraged: use 01; mode Zilog: a block has \
                        length + 1 bytes";
        assert_eq!(told_at(0x0B, &[3]), [expected]);
    }

    #[test]
    fn warnings_are_named_by_their_numbers() {
        for (number, (name, warning)) in (0..).zip(WARNINGS) {
            assert_eq!((number, name), (warning, warning_name(number)));
        }
    }

    #[test]
    fn pending_parameters_are_named_by_their_bits() {
        let named = |number| pending_names(number).join(", ");
        assert_eq!(named(0), "");
        assert_eq!(
            named(pending::A_ADDRESS_LOW | pending::LENGTH_LOW | pending::LENGTH_HIGH),
            "A address low, length low, length high"
        );
        assert_eq!(named(0x03FF), PARAMETERS.join(", "));
        assert_eq!(named(0xFC00), "");
        let by_bits: Vec<&str> = (0..16).filter_map(|number| parameter(1 << number)).collect();
        assert_eq!(by_bits, PARAMETERS);
        assert_eq!(parameter(0), None);
    }

    #[test]
    fn commands_are_told() {
        let told = told(&[0x87, 0x21, 0x04, 0xCF, 0x87]);
        assert_eq!(told[0], "Enable: the block is finished, 0 of 0: stays disabled, E 0");
        assert_eq!(told[3], "Load: A 0000, B 0000, counter 0");
        assert_eq!(told[4], "Enable: zxn, memory 0000 -> memory 0000, 4 bytes, continuous");
        for (byte, name) in COMMANDS {
            let told = self::told(&[byte]);
            assert!(told[0].starts_with(name), "{byte:02X}: {}", told[0]);
        }
    }

    /// At Enable, and at every write that changes it; of a disabled device, and
    /// of one that starts without a floor, nothing.
    #[test]
    fn floors_are_told_as_they_change() {
        let mut trace = Trace::brief();
        let mut told = |record: Record| floor(&trace.step(&record, &mut |_| ()));
        let mut written = |bytes: &[u8]| -> Vec<String> {
            let write = |byte: &u8| told(Record::Write { port: 0x6B, byte: *byte });
            let floors: Vec<String> = bytes.iter().filter_map(write).collect();
            // Into the wait.
            told(Record::Grant { clocks: 10 });
            assert_eq!(told(Record::Read { port: 0x6B }), None);
            floors
        };
        let is = |clocks: u32| {
            let row = format!("CPU floor {clocks}: of any {clocks} clocks in a row without a port");
            row + " access the processor has one at least"
        };
        let none = "no CPU floor any more: the slots to come have no wait for the processor";
        let setup = [0x65, 9, 0, 0x54, 2, 0x50, 0x22, 1, 0xC1, 0xCF];
        assert!(written(&setup).is_empty());
        assert_eq!(written(&[0x87]), [is(5)]);
        // Enabled already; the same timing, another prescaler; a shorter block.
        assert!(written(&[0x87, 0x50, 0x22, 2, 0x65, 8, 0]).is_empty());
        assert_eq!(written(&[0x50, 0x22, 0, 0x50, 0x22, 1]), [none.to_string(), is(5)]);
        assert_eq!(written(&[0xA1, 0xC1, 0x54, 1]), [none.to_string(), is(5), is(6)]);
        // Registers of a disabled device, and then Enable.
        assert_eq!(written(&[0x83, 0xC7, 0x87]), [is(7)]);
        assert!(written(&[0x83, 0xA1, 0x87]).is_empty());
    }

    /// 24 bytes select no register, and no other byte does so.
    #[test]
    fn every_byte_has_a_name() {
        let none = (0..=255).filter(|byte| told(&[*byte])[0].ends_with("selects no register"));
        assert_eq!(none.count(), 24);
    }

    #[test]
    fn reads_are_named_by_the_mask() {
        let mut device = Device::power_on();
        for byte in [0xBB, 0b0100_0110, 0xBF] {
            device = device.write(0x6B, byte).device;
        }
        let names: Vec<String> = (0..5)
            .map(|_| {
                let before = device;
                let given = before.read(0x6B);
                device = given.device;
                read(&before, &device, given.byte)
            })
            .collect();
        let status = "status: E 1, no block has ended; T 0, no byte has moved";
        assert_eq!(names, [status, "counter low", "counter high", "B high", "counter low"]);
    }
}

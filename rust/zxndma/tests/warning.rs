//! The warnings of port writes: which bytes have one, which look alike and have
//! none, and that a byte acts as the one to use in its place.

use zxndma::{pending, warning, Device, WriteAnswer};

const PORT: u16 = 0x006B;

/// Each parameter, and the bytes behind which it is next.
const PARAMETERS: [(u16, &[u8]); 10] = [
    (pending::A_ADDRESS_LOW, &[0x0D]),
    (pending::A_ADDRESS_HIGH, &[0x15]),
    (pending::LENGTH_LOW, &[0x25]),
    (pending::LENGTH_HIGH, &[0x45]),
    (pending::A_TIMING, &[0x44]),
    (pending::B_TIMING, &[0x40]),
    (pending::PRESCALER, &[0x40, 0x20]),
    (pending::B_ADDRESS_LOW, &[0xA5]),
    (pending::B_ADDRESS_HIGH, &[0xA9]),
    (pending::READ_MASK, &[0xBB]),
];

/// A byte of each kind that has a warning, with the bytes before it.
const DISCOURAGED: [(&[u8], u8, u8); 7] = [
    (&[], 0x02, warning::OPERATION),
    (&[], 0x7F, warning::OPERATION),
    (&[0x44], 0x03, warning::TIMING),
    (&[0x40], 0x03, warning::TIMING),
    (&[0x40], 0x23, warning::TIMING),
    (&[], 0x8D, warning::MODE),
    (&[], 0xE1, warning::MODE),
];

fn write(device: Device, byte: u8) -> WriteAnswer {
    let written = device.write(PORT, byte);
    assert_eq!(written.number, 0, "{byte:02X}");
    written
}

fn behind(bytes: &[u8]) -> Device {
    bytes.iter().fold(Device::power_on(), |device, byte| write(device, *byte).device)
}

/// The bytes that have this warning at that device.
fn with_warning(device: Device, warning: u8) -> Vec<u8> {
    (0..=255).filter(|byte| write(device, *byte).warning == warning).collect()
}

fn bytes(fits: fn(u8) -> bool) -> Vec<u8> {
    (0..=255).filter(|byte| fits(*byte)).collect()
}

/// WR0 is `0xxxxxAA`, WR4 `1mmxxx01`.
#[test]
fn with_nothing_pending_it_goes_by_register_and_bits() {
    let device = Device::power_on();
    let operation = bytes(|byte| byte < 0x80 && matches!(byte & 3, 0b10 | 0b11));
    let mode = bytes(|byte| matches!(byte & 0b1110_0011, 0b1000_0001 | 0b1110_0001));
    assert_eq!((operation.len(), mode.len()), (64, 16));
    assert_eq!(with_warning(device, warning::OPERATION), operation);
    assert_eq!(with_warning(device, warning::MODE), mode);
    assert_eq!(with_warning(device, warning::TIMING), []);
    assert_eq!(with_warning(device, warning::NONE).len(), 256 - 64 - 16);
}

#[test]
fn what_looks_alike_has_none() {
    let none = with_warning(Device::power_on(), warning::NONE);
    let near = [
        bytes(|byte| byte & 0b1000_0011 == 0b0000_0001), // WR0, AA 01
        bytes(|byte| byte & 0b1110_0011 == 0b1010_0001), // WR4, mode 01
        bytes(|byte| byte & 0b1110_0011 == 0b1100_0001), // WR4, mode 10
        bytes(|byte| byte & 0b1000_0011 == 0b0000_0000), // WR1, WR2
        bytes(|byte| byte & 0b1000_0011 == 0b1000_0000), // WR3
        bytes(|byte| byte & 0b1000_0011 == 0b1000_0010), // WR5, and the 24 that select nothing
        bytes(|byte| byte & 0b1000_0011 == 0b1000_0011), // WR6
    ];
    for byte in near.concat() {
        assert!(none.contains(&byte), "{byte:02X}");
    }
    assert_eq!(near.concat().len(), none.len());
}

/// 11 is a warning in the two timing bytes, whatever their other bits are, and
/// in no other parameter.
#[test]
fn a_parameter_has_one_as_a_timing_byte_only() {
    for (parameter, before) in PARAMETERS {
        let device = behind(before);
        assert_eq!(device.core.pending, parameter);
        let timing = matches!(parameter, pending::A_TIMING | pending::B_TIMING);
        let expected = if timing { bytes(|byte| byte & 3 == 3) } else { Vec::new() };
        assert_eq!(with_warning(device, warning::TIMING), expected, "{parameter}");
        let none = 256 - expected.len();
        assert_eq!(with_warning(device, warning::NONE).len(), none, "{parameter}");
    }
}

#[test]
fn each_write_has_its_own() {
    for (before, byte, expected) in DISCOURAGED {
        // By each port number of the DMA.
        for port in [0x006B, 0x000B, 0xFF6B, 0xFF0B] {
            let written = behind(before).write(port, byte);
            assert_eq!((written.number, written.warning), (0, expected), "{byte:02X}");
        }
    }
    // Nothing is kept of it: a byte behind it has none, and the same byte again has it again.
    let device = behind(&[0xE1]);
    assert_eq!(write(device, 0xA1).warning, warning::NONE);
    assert_eq!(write(device, 0xE1).warning, warning::MODE);
}

#[test]
fn a_refused_write_has_none() {
    // One byte to move: the device holds the bus.
    let held = behind(&[0x25, 0x01, 0xCF, 0x87]);
    for (before, byte, _) in DISCOURAGED {
        let device = behind(before);
        let mut invalid = device;
        invalid.core.readback.mask = 0x80;
        let mut waits = held;
        waits.core.pending = device.core.pending;
        for (device, port, number) in [(invalid, PORT, 1), (device, 0x006C, 2), (waits, PORT, 3)] {
            let refused = device.write(port, byte);
            let expected = WriteAnswer { number, warning: warning::NONE, device };
            assert_eq!(refused, expected, "{byte:02X}");
        }
    }
}

/// A byte with a warning leaves the device that the one to use leaves.
#[test]
fn a_discouraged_byte_acts_as_the_one_to_use() {
    let same = |device: Device, warning: u8, instead: fn(u8) -> u8| {
        for byte in with_warning(device, warning) {
            let other = write(device, instead(byte));
            assert_eq!(other.warning, warning::NONE, "{byte:02X}");
            assert_eq!(write(device, byte).device, other.device, "{byte:02X}");
        }
    };
    same(Device::power_on(), warning::OPERATION, |byte| byte & !0b11 | 0b01);
    same(behind(&[0x44, 0x02, 0x44]), warning::TIMING, |byte| byte & !0b11);
    same(behind(&[0x40, 0x02, 0x40]), warning::TIMING, |byte| byte & !0b11);
    // From burst, so that continuous shows.
    same(behind(&[0xC1]), warning::MODE, |byte| byte & !0b110_0000 | 0b010_0000);
}

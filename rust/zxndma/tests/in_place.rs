//! The calls in place: each leaves the device and the buffers that the call by
//! value gives, with the same answer, refused ones too, and touches no other
//! device of the table.

mod common;

use common::{pass, send, set};
use std::thread;
use zxndma::{speed, warning, Device, Given, Written, BUFFER_LENGTH};

const PORT: u16 = 0x006B;
/// Where the device lies in its table, between others.
const PLACE: usize = 1;

/// Four bytes from 1000 to 2000, both cycles 2; loaded and not enabled.
const COPY: [u8; 15] =
    [0x7D, 0x00, 0x10, 0x04, 0x00, 0x54, 0x02, 0x50, 0x22, 0x00, 0xAD, 0x00, 0x20, 0x82, 0xCF];

fn copying() -> Device {
    send(Device::power_on(), &COPY)
}

fn enabled(device: Device) -> Device {
    send(device, &[0x87])
}

/// In the wait of a burst slot of 64 clocks, with the first of four bytes moved.
fn waiting() -> Device {
    pass(enabled(send(copying(), &[0x50, 0x20, 0x02, 0xC1])), 10)
}

/// Each breaks another rule of validity, enabled or not.
fn invalid() -> [Device; 3] {
    let (mut masked, mut paced, mut counted) = (copying(), enabled(copying()), waiting());
    masked.core.readback.mask = 0x80;
    paced.core.a.cycle = 5;
    counted.clocks.held = u64::MAX;
    [masked, paced, counted]
}

/// A table of devices that differ, with this one in its place.
fn table_with(device: Device) -> [Device; 4] {
    [waiting(), device, enabled(copying()), set(copying(), speed::MHZ_7)]
}

/// Memory or latches with no two neighbouring bytes alike.
fn buffer(length: usize, first: u8) -> Vec<u8> {
    (0..length).map(|k| first.wrapping_add((k % 251) as u8)).collect()
}

// Each of these makes a call in both forms and compares what they leave, all of
// the table included; it gives the answer.

fn write(device: Device, port: u16, byte: u8) -> Written {
    let by_value = device.write(port, byte);
    let mut table = table_with(device);
    let written = table[PLACE].write_in_place(port, byte);
    let expected = Written { number: by_value.number, warning: by_value.warning };
    assert_eq!((written, table), (expected, table_with(by_value.device)), "{byte:02X}");
    written
}

fn read(device: Device, port: u16) -> Given {
    let by_value = device.read(port);
    let mut table = table_with(device);
    let given = table[PLACE].read_in_place(port);
    let expected = Given { number: by_value.number, byte: by_value.byte };
    assert_eq!((given, table), (expected, table_with(by_value.device)));
    given
}

fn set_speed(device: Device, code: u8) -> u8 {
    let by_value = device.set_speed(code);
    let mut table = table_with(device);
    let number = table[PLACE].set_speed_in_place(code);
    assert_eq!((number, table), (by_value.number, table_with(by_value.device)), "{code}");
    number
}

fn grant_with(device: Device, lengths: [usize; 2], clocks: u32) -> u8 {
    let lent = [buffer(lengths[0], 3), buffer(lengths[1], 100)];
    let [mut memory, mut latches] = lent.clone();
    let by_value = device.grant(&mut memory, &mut latches, clocks);
    let expected = [memory, latches];

    let mut table = table_with(device);
    let [mut memory, mut latches] = lent.clone();
    let number = table[PLACE].grant_in_place(&mut memory, &mut latches, clocks);
    assert_eq!((number, table), (by_value.number, table_with(by_value.device)), "{clocks}");
    let left = [memory, latches];
    assert!(left == expected, "other buffers after {clocks} clocks");
    assert!(number == 0 || left == lent, "a refused grant changes buffers");
    number
}

fn grant(device: Device, clocks: u32) -> u8 {
    grant_with(device, [BUFFER_LENGTH; 2], clocks)
}

#[test]
fn accepted_writes() {
    // Nothing pending, and each parameter.
    for before in [
        &[][..],
        &[0x0D],
        &[0x15],
        &[0x25],
        &[0x45],
        &[0x44],
        &[0x40],
        &[0x40, 0x20],
        &[0xA5],
        &[0xA9],
        &[0xBB],
    ] {
        for device in [send(Device::power_on(), before), send(waiting(), before)] {
            for byte in 0..=u8::MAX {
                assert_eq!(write(device, PORT, byte).number, 0, "{byte:02X}");
                assert_eq!(write(device, 0xFF0B, byte).number, 0, "{byte:02X}");
            }
        }
    }
}

#[test]
fn warnings() {
    let device = Device::power_on();
    let written = |device, byte| {
        let Written { number, warning } = write(device, PORT, byte);
        assert_eq!(number, 0, "{byte:02X}");
        warning
    };
    assert_eq!(written(device, 0x7F), warning::OPERATION);
    assert_eq!(written(send(device, &[0x44]), 0x03), warning::TIMING);
    assert_eq!(written(device, 0xE1), warning::MODE);
    assert_eq!(written(device, 0xA1), warning::NONE);
    // A refused write has none.
    let refused = Written { number: 2, warning: warning::NONE };
    assert_eq!(write(device, 0x006C, 0xE1), refused);
}

#[test]
fn refused_writes_and_reads() {
    // The lowest number that applies, also where others do.
    let invalid = invalid().map(|device| (device, PORT, 1));
    let invalid_elsewhere = invalid.map(|(device, _, number)| (device, 0x006C, number));
    let held = [enabled(copying()), pass(enabled(copying()), 3)];
    let others =
        [(copying(), 0x006C, 2), (held[0], 0xFFFF, 2), (held[0], PORT, 3), (held[1], 0x000B, 3)];
    for (device, port, number) in invalid.into_iter().chain(invalid_elsewhere).chain(others) {
        for byte in [0x00, 0x83, 0xE1] {
            assert_eq!(write(device, port, byte), Written { number, warning: 0 });
        }
        assert_eq!(read(device, port), Given { number, byte: 0 });
        // The device stays where it is and as it was.
        let mut table = table_with(device);
        table[PLACE].write_in_place(port, 0x83);
        table[PLACE].read_in_place(port);
        assert_eq!(table, table_with(device));
    }
}

#[test]
fn accepted_reads() {
    // All bytes moved: the status, the counter and the two pointers.
    let mut device = pass(enabled(copying()), 16);
    for expected in [0x1B, 0x04, 0x00, 0x04, 0x10, 0x04, 0x20, 0x1B] {
        assert_eq!(read(device, PORT), Given { number: 0, byte: expected });
        device.read_in_place(PORT);
    }
    // Each mask from each position, and a status read that waits.
    for mask in 0..=127 {
        for position in 0..=6 {
            device.core.readback.mask = mask;
            device.core.readback.position = position;
            assert_eq!(read(device, PORT).number, 0, "{mask}, {position}");
        }
    }
    assert_eq!(read(send(device, &[0xBF]), 0xFF0B), Given { number: 0, byte: 0x1B });
}

#[test]
fn speeds() {
    for device in [copying(), enabled(copying()), waiting()] {
        for code in 0..=u8::MAX {
            assert_eq!(set_speed(device, code), if code <= 3 { 0 } else { 7 });
        }
    }
    for device in invalid() {
        for code in [0, 3, 4, 255] {
            assert_eq!(set_speed(device, code), 1);
        }
    }
}

#[test]
fn accepted_grants() {
    let restarting = enabled(send(copying(), &[0xA2]));
    let downward = send(copying(), &[0x04, 0x00, 0xCF]);
    let to_port = send(copying(), &[0x28, 0xAD, 0xFE, 0x00, 0xCF]);
    let slow = set(enabled(to_port), speed::MHZ_3_5);
    let devices = [copying(), enabled(copying()), waiting(), restarting, enabled(downward), slow];
    for device in devices {
        for clocks in [0, 1, 3, 4, 16, 17, 54, 64, 200, 10_000] {
            assert_eq!(grant(device, clocks), 0);
        }
    }
}

#[test]
fn refused_grants() {
    let (whole, short) = (BUFFER_LENGTH, BUFFER_LENGTH - 1);
    for device in [copying(), enabled(copying()), waiting()] {
        for memory in [0, 1, short, whole + 1] {
            assert_eq!(grant_with(device, [memory, whole], 16), 4);
            assert_eq!(grant_with(device, [memory, short], 16), 4);
            assert_eq!(grant_with(device, [whole, memory], 16), 5);
        }
        // The clock counts have room for 15 clocks.
        let mut late = device;
        late.clocks.cpu = u64::MAX - 15 - late.clocks.bus - late.clocks.held;
        assert_eq!([grant(late, 15), grant(late, 16), grant(late, u32::MAX)], [0, 6, 6]);
        assert_eq!(grant_with(late, [whole, short], 16), 5);
    }
    for device in invalid() {
        assert_eq!([grant(device, 0), grant(device, 16)], [1, 1]);
        assert_eq!(grant_with(device, [short, short], 16), 1);
    }
}

/// A program, its clocks and its reads on one device of the table, call by call
/// beside a device by value.
#[test]
fn a_whole_run() {
    let mut table = [Device::power_on(); 3];
    let mut device = Device::power_on();
    let mut buffers = [buffer(BUFFER_LENGTH, 0), buffer(BUFFER_LENGTH, 7)];
    let mut buffers_by_value = buffers.clone();
    for byte in COPY.into_iter().chain([0x87, 0x83]) {
        // The last one comes while the bus is held.
        let written = device.write(PORT, byte);
        let Written { number, warning } = table[PLACE].write_in_place(PORT, byte);
        assert_eq!((number, warning), (written.number, written.warning), "{byte:02X}");
        device = written.device;
    }
    for clocks in [3, 0, 8, 1, 100] {
        let [memory, latches] = &mut buffers_by_value;
        device = device.grant(memory, latches, clocks).device;
        let [memory, latches] = &mut buffers;
        assert_eq!(table[PLACE].grant_in_place(memory, latches, clocks), 0);
        assert!(buffers == buffers_by_value, "{clocks}");

        let given = device.read(PORT);
        let Given { number, byte } = table[PLACE].read_in_place(PORT);
        assert_eq!((number, byte), (given.number, given.byte), "{clocks}");
        device = given.device;
        assert_eq!(table, [Device::power_on(), device, Device::power_on()], "{clocks}");
    }
    assert_eq!(buffers[0][0x2000..0x2004], buffers[0][0x1000..0x1004]);
}

/// Each thread is lent one device of the table.
#[test]
fn devices_of_a_table_on_threads() {
    let run = |device: &mut Device, length: u8| {
        let (mut memory, mut latches) = (buffer(BUFFER_LENGTH, 0), buffer(BUFFER_LENGTH, 7));
        for byte in [0x65, length, 0x00, 0xCF, 0x87] {
            assert_eq!(device.write_in_place(PORT, byte).number, 0, "{byte:02X}");
        }
        for _ in 0..50 {
            assert_eq!(device.grant_in_place(&mut memory, &mut latches, 5), 0);
        }
        assert_eq!(device.set_speed_in_place(speed::MHZ_14), 0);
        device.read_in_place(PORT).byte
    };
    let mut table = [copying(); 3];
    let [first, second, _] = &mut table;
    let statuses = thread::scope(|scope| {
        let other = scope.spawn(|| run(second, 20));
        let status = run(first, 40);
        [status, other.join().expect("the thread ends")]
    });
    assert_eq!(statuses, [0x1B; 2]);

    let by_value = |length| {
        let device = send(copying(), &[0x65, length, 0x00, 0xCF, 0x87]);
        set(pass(device, 250), speed::MHZ_14).read(PORT).device
    };
    assert_eq!(table, [by_value(40), by_value(20), copying()]);
}

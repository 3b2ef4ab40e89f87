//! Calls that must be accepted.

use zxndma::{Device, BUFFER_LENGTH};

const PORT: u16 = 0x006B;

pub fn set(device: Device, code: u8) -> Device {
    let set = device.set_speed(code);
    assert_eq!(set.number, 0, "{code}");
    set.device
}

pub fn send(device: Device, bytes: &[u8]) -> Device {
    bytes.iter().fold(device, |device, byte| {
        let written = device.write(PORT, *byte);
        assert_eq!(written.number, 0, "{byte:02X}");
        written.device
    })
}

pub fn pass(device: Device, clocks: u32) -> Device {
    let (mut memory, mut latches) = (vec![0; BUFFER_LENGTH], vec![0; BUFFER_LENGTH]);
    let granted = device.grant(&mut memory, &mut latches, clocks);
    assert_eq!(granted.number, 0, "{clocks}");
    granted.device
}

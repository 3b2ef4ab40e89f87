//! The processor's speed: its codes, what a transfer takes at each, and what
//! sets it.

mod common;

use common::{pass, send, set};
use zxndma::{speed, Device};

const RESET: u8 = 0xC3;
const CODES: [u8; 4] = [speed::MHZ_3_5, speed::MHZ_7, speed::MHZ_14, speed::MHZ_28];

/// Two bytes from 1000 to 2000 in burst, both cycles 4, enabled.
fn transferring(code: u8, prescaler: u8) -> Device {
    let device = set(Device::power_on(), code);
    let device = send(device, &[0x7D, 0x00, 0x10, 0x02, 0x00, 0x54, 0x00, 0x50, 0x20, prescaler]);
    send(device, &[0xCD, 0x00, 0x20, 0x82, 0xCF, 0x87])
}

/// The clocks on the bus and the length of a slot.
fn slot(code: u8, prescaler: u8) -> (u16, u16) {
    let slot = pass(transferring(code, prescaler), 1).core.slot;
    (slot.bus, slot.length)
}

#[test]
fn slots_by_speed_and_prescaler() {
    assert_eq!(CODES.map(|code| slot(code, 0)), [(64, 64), (32, 32), (16, 16), (8, 8)]);
    assert_eq!(CODES.map(|code| slot(code, 1)), [(64, 64), (32, 32), (16, 32), (8, 32)]);
    assert_eq!(CODES.map(|code| slot(code, 2)), [(64, 64), (32, 64), (16, 64), (8, 64)]);
    assert_eq!(CODES.map(|code| slot(code, 3)), [(64, 96), (32, 96), (16, 96), (8, 96)]);
}

#[test]
fn power_on_is_28_mhz() {
    assert_eq!(Device::power_on().core.control.speed, speed::MHZ_28);
}

#[test]
fn other_codes_are_refused() {
    for code in 4..=u8::MAX {
        let device = Device::power_on();
        let refused = device.set_speed(code);
        assert_eq!((refused.number, refused.device), (7, device), "{code}");
        let mut invalid = device;
        invalid.core.control.speed = code;
        assert!(!invalid.is_valid(), "{code}");
        for code in [0, 3, 4, 255] {
            let refused = invalid.set_speed(code);
            assert_eq!((refused.number, refused.device), (1, invalid), "{code}");
        }
    }
}

/// With the bus held, in the wait, and with the device disabled; and it is only
/// the speed that changes.
#[test]
fn any_time_will_do() {
    let enabled = transferring(speed::MHZ_28, 1);
    for device in [enabled, pass(enabled, 3), pass(enabled, 20), pass(enabled, 64)] {
        for code in CODES {
            let mut expected = device;
            expected.core.control.speed = code;
            assert_eq!(set(device, code), expected);
        }
    }
}

#[test]
fn a_running_slot_keeps_its_figures() {
    // Three clocks of a slot of 8, then 3.5 MHz: the second slot has 64.
    let device = set(pass(transferring(speed::MHZ_28, 0), 3), speed::MHZ_3_5);
    assert!(pass(device, 5 + 63).core.enabled);
    assert!(!pass(device, 5 + 64).core.enabled);
    assert_eq!(pass(device, 5 + 64).clocks.bus, 8 + 64);
}

#[test]
fn reset_leaves_it() {
    for code in CODES {
        let reset = send(set(Device::power_on(), code), &[RESET]);
        assert_eq!(reset.core.control.speed, code);
    }
}

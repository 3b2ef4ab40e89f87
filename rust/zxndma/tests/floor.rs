//! The floor under the processor's time: what a sample player has at each speed,
//! what has none, and that clocks keep to it.

mod common;

use common::{pass, send, set};
use zxndma::{speed, Device};

const CODES: [u8; 4] = [speed::MHZ_28, speed::MHZ_14, speed::MHZ_7, speed::MHZ_3_5];
const BURST: u8 = 0xC1;
const CONTINUOUS: u8 = 0xA1;

/// Two bytes from memory to a port, again and again, both cycles 2; loaded and
/// not enabled.
fn player(prescaler: u8, mode: u8) -> Device {
    let ports = [0x7D, 0x00, 0x10, 0x02, 0x00, 0x54, 0x02, 0x68, 0x22, prescaler];
    let device = send(Device::power_on(), &ports);
    send(device, &[mode, 0xA2, 0xCF])
}

fn enabled(device: Device) -> Device {
    send(device, &[0x87])
}

/// The most clocks in a row without one of the processor, one grant for each.
fn longest(mut device: Device, clocks: u32) -> u32 {
    let (mut stretch, mut longest) = (0, 0);
    for _ in 0..clocks {
        let before = device.clocks.cpu;
        device = pass(device, 1);
        stretch = if device.clocks.cpu > before { 0 } else { stretch + 1 };
        longest = longest.max(stretch);
    }
    longest
}

#[test]
fn a_sample_player_by_its_speed() {
    let floors = |device| CODES.map(|code| set(device, code).cpu_floor());
    assert_eq!(floors(player(55, BURST)), [5, 9, 17, 33]);
    assert_eq!(floors(enabled(player(55, BURST))), [5, 9, 17, 33]);
    assert_eq!(floors(player(55, CONTINUOUS)), [0; 4]);
    // At 3.5 MHz the 32 clocks of prescaler 1 are all on the bus.
    assert_eq!(floors(player(1, BURST)), [5, 9, 17, 0]);
    assert_eq!(floors(player(0, BURST)), [0; 4]);
}

#[test]
fn no_floor_of_a_device_that_is_not_valid() {
    let mut device = player(55, BURST);
    device.core.a.cycle = 5;
    assert!(!device.is_valid());
    assert_eq!(device.cpu_floor(), 0);
}

#[test]
fn clocks_keep_to_it() {
    for code in CODES {
        let device = enabled(set(player(2, BURST), code));
        assert_eq!(longest(device, 200) + 1, device.cpu_floor(), "{code}");
        // From any other clock on, too.
        for clocks in [1, 5, 40, 64, 100, 128] {
            let device = pass(device, clocks);
            assert!(longest(device, 150) < device.cpu_floor(), "{code}, {clocks}");
        }
    }
    let device = enabled(player(2, CONTINUOUS));
    assert_eq!((longest(device, 200), device.cpu_floor()), (200, 0));
}

/// The running slot has 32 clocks on the bus, and those behind it have 4.
#[test]
fn a_running_slot_counts_by_its_own_figures() {
    let running = set(pass(enabled(set(player(2, BURST), speed::MHZ_3_5)), 1), speed::MHZ_28);
    assert_eq!((running.cpu_floor(), longest(running, 100)), (33, 31));
    assert_eq!(pass(running, 62).cpu_floor(), 33);
    assert_eq!(pass(running, 63).cpu_floor(), 5);
}

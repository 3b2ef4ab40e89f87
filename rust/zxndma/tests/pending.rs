//! The pending parameters: their bits, the numbers that are valid, and the
//! numbers of the sequences that devices kept before.

use zxndma::{pending, Device};

/// What can be pending: some of WR0's, some of WR4's, one of the others, or
/// nothing.
fn valid_numbers() -> Vec<u16> {
    let [a_low, a_high] = [pending::A_ADDRESS_LOW, pending::A_ADDRESS_HIGH];
    let [b_low, b_high] = [pending::B_ADDRESS_LOW, pending::B_ADDRESS_HIGH];
    let wr0 = a_low | a_high | pending::LENGTH_LOW | pending::LENGTH_HIGH;
    let others = [
        pending::A_TIMING,
        pending::B_TIMING,
        pending::PRESCALER,
        b_low,
        b_high,
        b_low | b_high,
        pending::READ_MASK,
    ];
    (0..=wr0).chain(others).collect()
}

#[test]
fn the_valid_numbers_are_those_listed() {
    let listed: Vec<u16> = (0..=15).chain([16, 32, 64, 128, 256, 384, 512]).collect();
    assert_eq!(valid_numbers(), listed);
}

#[test]
fn the_next_one_is_the_lowest_bit() {
    for number in 1..=u16::MAX {
        let next = pending::next(number);
        assert_eq!((next.count_ones(), next & number), (1, next), "{number}");
        assert_eq!(number & (next - 1), 0, "{number}");
    }
    assert_eq!(pending::next(0), 0);
}

#[test]
fn sequences_of_codes_become_numbers() {
    assert_eq!(pending::from_codes([0, 0, 0, 0]), Some(0));
    assert_eq!(pending::from_codes([1, 2, 3, 4]), Some(15));
    assert_eq!(
        pending::from_codes([2, 4, 0, 0]),
        Some(pending::A_ADDRESS_HIGH | pending::LENGTH_HIGH)
    );
    assert_eq!(pending::from_codes([7, 0, 0, 0]), Some(pending::PRESCALER));
    assert_eq!(pending::from_codes([8, 9, 0, 0]), Some(384));
    assert_eq!(pending::from_codes([10, 0, 0, 0]), Some(pending::READ_MASK));
}

#[test]
fn sequences_of_no_valid_device_have_no_number() {
    // In the wrong order, twice, behind a 0, of two registers, B timing with
    // the prescaler, and codes that there are not.
    for codes in [
        [2, 1, 0, 0],
        [1, 1, 0, 0],
        [0, 1, 0, 0],
        [1, 0, 2, 0],
        [4, 5, 0, 0],
        [1, 2, 3, 8],
        [7, 8, 9, 0],
        [6, 7, 0, 0],
        [9, 10, 0, 0],
        [11, 0, 0, 0],
        [17, 0, 0, 0],
        [255, 0, 0, 0],
    ] {
        assert_eq!(pending::from_codes(codes), None, "{codes:?}");
    }
}

/// Of all sequences there are, as many as there are valid numbers have one,
/// and each has its own.
#[test]
fn each_valid_number_has_one_sequence() {
    let mut found: Vec<u16> = Vec::new();
    for first in 0..=u8::MAX {
        // Behind the first, two codes that do not exist are enough.
        for rest in 0..13_u16.pow(3) {
            let code = |place: u32| (rest / 13_u16.pow(place) % 13) as u8;
            found.extend(pending::from_codes([first, code(0), code(1), code(2)]));
        }
    }
    found.sort_unstable();
    assert_eq!(found, valid_numbers());
}

/// The library refuses every other number, and none of these.
#[test]
fn the_library_takes_the_valid_numbers() {
    let valid = valid_numbers();
    for number in 0..=u16::MAX {
        let mut device = Device::power_on();
        device.core.pending = number;
        assert_eq!(device.is_valid(), valid.contains(&number), "{number}");
    }
}

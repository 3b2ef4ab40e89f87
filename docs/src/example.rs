//! A program: embeds the zxnDMA in Rust, as an example to start from.
//!
//! First a table of three devices that are changed in place, each with a block of
//! its own. Then one device by value: it copies four bytes from 1000 to 2000 and
//! reads the registers back; it writes a discouraged value, which has a warning;
//! it copies the bytes at another speed; then it asks how long the processor may
//! have to wait. docs/src/example.c does the same in C; docs/src/run-examples
//! builds both.

#![deny(unsafe_code)]

#[path = "../../rust/zxndma/src/lib.rs"]
mod zxndma;

use std::process::exit;
use zxndma::{speed, warning, Clocks, Device, BUFFER_LENGTH};

const HELP: &str = "\
usage: example
Copies bytes by a table of three zxnDMAs, changed in place. Then it copies four
by one that is handed over by value and reads its registers back, writes a byte
that has a warning, copies the four at 3.5 MHz, and asks how long the processor
may have to wait: an example of a program with the libraries libhost.a and
libin_place.a of target/staticlib linked in. It prints refusals, clock counts,
bytes, registers, the warning and the floors: example.out.
Exit status: 0 done; 1 a call was refused that should not be; 2 bad arguments.
";

/// The DMA's port in zxn mode.
const PORT: u16 = 0x006B;

const PROGRAM: [u8; 14] = [
    0x83, // Disable
    0x7D, 0x00, 0x10, 0x04, 0x00, // WR0: A to B, A address 1000, length 4
    0x54, 0x02, // WR1: A is memory and increments, 2 clocks
    0x50, 0x02, // WR2: B is memory and increments, 2 clocks
    0xAD, 0x00, 0x20, // WR4: continuous, B address 2000
    0x82, // WR5: no auto restart
];

const START: [u8; 2] = [
    0xCF, // Load
    0x87, // Enable
];

/// What each device of the table moves instead: WR0 with the length, WR2, WR4 with
/// the B address.
const BLOCKS: [[u8; 7]; 3] = [
    [0x65, 0x04, 0x00, 0x10, 0xAD, 0x00, 0x30], // 4 bytes, to memory from 3000 on
    [0x65, 0x02, 0x00, 0x10, 0xAD, 0x00, 0x40], // 2 bytes, to memory from 4000 on
    [0x65, 0x03, 0x00, 0x28, 0xAD, 0xFE, 0x00], // 3 bytes, to the I/O port 00FE
];

const DISCOURAGED: [u8; 1] = [
    0xE1, // WR4 with the mode 11; continuous, as A1 is
];

const PACED: [u8; 4] = [
    0x50, 0x22, 0x03, // WR2: B is memory and increments, 2 clocks, prescaler 3
    0xC1, // WR4: burst
];

/// This program expects no refusal.
fn accepted(call: &str, number: u8) {
    if number != 0 {
        eprintln!("{}: refused with {}", call, number);
        exit(1);
    }
}

/// What to use in place of a discouraged value, if the byte holds one.
fn print_warning(byte: u8, number: u8) {
    let instead = match number {
        warning::OPERATION => "WR0 with 01 in bits 1-0",
        warning::TIMING => "a timing byte with 00, 01 or 10 in bits 1-0",
        warning::MODE => "WR4 with 01 or 10 in bits 6-5",
        _ => return,
    };
    println!("write of {:02X}: warning {}, use {}", byte, number, instead);
}

/// Writes these bytes to the port of a device, in place.
fn send_in_place(device: &mut Device, bytes: &[u8]) {
    for &byte in bytes {
        let written = device.write_in_place(PORT, byte);
        accepted("write_in_place", written.number);
        print_warning(byte, written.warning);
    }
}

/// Writes these bytes to the port of a device, by value.
fn send(mut device: Device, bytes: &[u8]) -> Device {
    for &byte in bytes {
        let written = device.write(PORT, byte);
        accepted("write", written.number);
        print_warning(byte, written.warning);
        device = written.device;
    }
    device
}

/// Lets so many clocks pass, by value.
fn pass(device: Device, memory: &mut [u8], latches: &mut [u8], clocks: u32) -> Device {
    let granted = device.grant(memory, latches, clocks);
    accepted("grant", granted.number);
    granted.device
}

fn print_clocks(title: &str, clocks: Clocks) {
    println!("{} bus {}, held {}, CPU {}", title, clocks.bus, clocks.held, clocks.cpu);
}

fn print_bytes(title: &str, bytes: &[u8]) {
    print!("{}", title);
    for byte in bytes {
        print!(" {:02X}", byte);
    }
    println!();
}

/// What a device of the table holds, and the status that was read from it.
fn print_device(title: &str, k: usize, status: u8, device: &Device) {
    let (core, moved) = (device.core, device.core.block.counter);
    print!("{} {}: status {:02X}, ", title, k, status);
    print!("A {:04X}, B {:04X}, {} bytes moved;", core.a.pointer, core.b.pointer, moved);
    print_clocks("", device.clocks);
}

fn yes_or_no(fact: bool) -> &'static str {
    if fact {
        "yes"
    } else {
        "no"
    }
}

fn main() {
    match std::env::args().nth(1).as_deref() {
        None => {
            let mut memory = vec![0; BUFFER_LENGTH];
            let mut latches = vec![0; BUFFER_LENGTH];
            memory[0x1000..0x1004].copy_from_slice(&[0x11, 0x22, 0x33, 0x44]);
            run_in_place(&mut memory, &mut latches);
            run_by_value(&mut memory, &mut latches);
        }
        Some("-h" | "--help") => print!("{}", HELP),
        Some(_) => {
            eprintln!("example: no argument is expected; see --help");
            exit(2);
        }
    }
}

/// A table that the host keeps: each device is written, granted and read where it
/// lies.
fn run_in_place(memory: &mut [u8], latches: &mut [u8]) {
    let mut table = [Device::power_on(); BLOCKS.len()];
    for (device, block) in table.iter_mut().zip(&BLOCKS) {
        send_in_place(device, &PROGRAM);
        send_in_place(device, block);
        send_in_place(device, &START);
    }
    // Each device has a speed of its own.
    accepted("set_speed_in_place", table[2].set_speed_in_place(speed::MHZ_14));

    // Disable, while the device holds the bus: the write is refused and leaves the
    // device as it was.
    let refused = table[1].write_in_place(PORT, 0x83);
    let enabled = yes_or_no(table[1].core.enabled);
    println!("write to device 1: refused with {}, enabled: {}", refused.number, enabled);

    for (k, device) in table.iter_mut().enumerate() {
        accepted("grant_in_place", device.grant_in_place(memory, latches, 24));
        let given = device.read_in_place(PORT);
        accepted("read_in_place", given.number);
        print_device("device", k, given.byte, device);
    }
    print_bytes("memory at 3000:", &memory[0x3000..0x3004]);
    print_bytes("memory at 4000:", &memory[0x4000..0x4002]);
    print_bytes("latch 00FE:", &latches[0x00FE..0x00FF]);

    // By value the same calls, without the refused one, leave the same device.
    let device = send(send(send(Device::power_on(), &PROGRAM), &BLOCKS[1]), &START);
    let answer = pass(device, memory, latches, 24).read(PORT);
    accepted("read", answer.number);
    print_device("by value, device", 1, answer.byte, &answer.device);
}

/// One device, handed over with each call and handed back in its answer.
fn run_by_value(memory: &mut [u8], latches: &mut [u8]) {
    let mut device = send(send(Device::power_on(), &PROGRAM), &START);

    // The enabled device holds the bus: a write is refused and changes nothing.
    let refused = device.write(PORT, 0x83);
    println!("write while the bus is held: refused with {}", refused.number);

    device = pass(device, memory, latches, 16);
    print_clocks("clocks:", device.clocks);
    print_bytes("memory at 2000:", &memory[0x2000..0x2004]);

    let mut registers = [0; 7];
    for register in &mut registers {
        let given = device.read(PORT);
        accepted("read", given.number);
        *register = given.byte;
        device = given.device;
    }
    print_bytes("registers:", &registers);

    // A discouraged value is accepted and has a warning; what it does is settled
    // all the same.
    device = send(device, &DISCOURAGED);

    // There are four speeds, with the codes 0 to 3.
    let refused = device.set_speed(4);
    println!("speed code 4: refused with {}", refused.number);

    // The same four bytes at 3.5 MHz take eight times the clocks.
    let set = device.set_speed(speed::MHZ_3_5);
    accepted("set_speed", set.number);
    device = pass(send(set.device, &START), memory, latches, 8 * 16);
    print_clocks("clocks, with the same at 3.5 MHz:", device.clocks);

    // In burst, with slots longer than their bus time, the processor has clocks
    // between the bytes: an interrupt waits for one.
    println!("CPU floor, continuous: {}", device.cpu_floor());
    device = send(device, &PACED);
    println!("CPU floor, burst: one of any {} clocks", device.cpu_floor());
    println!("valid: {}", yes_or_no(device.is_valid()));
}

//! The zxnDMA for Rust: a safe wrapper of libhost.a and libin_place.a. Use it
//! as a crate, whose build script finds the libraries; or include this file as
//! a module and pass rustc their folder by `-L native=FOLDER`. It compiles in
//! editions 2021 and 2024.
//!
//! A device is plain data. Write, read, grant and set speed come in two forms,
//! which do the same: in place, with a device that the host keeps and lends, as
//! an element of its own table; and by value, where the device is handed over
//! and handed back in the answer. A `Device` is copied by assignment, and a call
//! in place on a copy changes the copy: make it on the element itself. Any
//! content is a device; calls refuse one that is not valid. A refused call
//! changes nothing: the device stays, or comes back, as it was, and no byte of a
//! buffer is written.
//!
//! Clocks are those of 28 MHz, whatever the processor's speed is. At 28 MHz a
//! cycle of 4 takes 4 of them; at 14, 7 and 3.5 MHz it takes 2, 4 and 8 times
//! as many.

// A program may use a part of it.
#![allow(dead_code)]
// The only unsafe code of a program that includes it: its calls into the library.
#![allow(unsafe_code)]

/// The bytes of memory, and of latches, that an accepted grant is lent.
pub const BUFFER_LENGTH: usize = 65_536;

/// One of the device's two ports, A or B.
#[repr(C)]
#[derive(Clone, Copy, PartialEq, Eq, Debug)]
pub struct Port {
    /// Starting address: what Load and auto restart copy into the pointer.
    pub address: u16,
    /// Address of the next byte.
    pub pointer: u16,
    /// The port is I/O; otherwise it is memory.
    pub io: bool,
    /// 0 decrements the pointer, 1 increments it, any other value keeps it
    /// fixed.
    pub step: u8,
    /// Cycle length in clocks at 28 MHz; valid from 2 to 4.
    pub cycle: u8,
}

/// The block that is transferred.
#[repr(C)]
#[derive(Clone, Copy, PartialEq, Eq, Debug)]
pub struct Block {
    /// Block length as written to WR0.
    pub length: u16,
    /// Bytes moved since the counter was last put to zero; valid up to
    /// 65,536.
    pub counter: u32,
    /// Compatibility mode: Zilog, where a block is one byte longer than its
    /// length; otherwise zxn.
    pub zilog: bool,
}

/// How the block is transferred.
#[repr(C)]
#[derive(Clone, Copy, PartialEq, Eq, Debug)]
pub struct Control {
    /// From port A to port B; otherwise from B to A.
    pub forward: bool,
    /// Least time for each byte in units of 32 clocks; 0 is off.
    pub prescaler: u8,
    /// Burst mode; otherwise continuous.
    pub burst: bool,
    /// Auto restart at the end of the block.
    pub restart: bool,
    /// The processor's speed by its code, as `speed` names them; valid from 0
    /// to 3.
    pub speed: u8,
}

/// The codes of the processor's speeds.
pub mod speed {
    // A cycle takes 8, 4, 2 and 1 times the clocks that it takes at 28 MHz.
    pub const MHZ_3_5: u8 = 0;
    pub const MHZ_7: u8 = 1;
    pub const MHZ_14: u8 = 2;
    pub const MHZ_28: u8 = 3;
}

/// The two bits of the status byte that change.
#[repr(C)]
#[derive(Clone, Copy, PartialEq, Eq, Debug)]
pub struct Status {
    /// Bit E: false once a block was found finished, until Reset or 8B.
    pub e: bool,
    /// Bit T: true once a byte has been transferred, until Reset or 8B.
    pub t: bool,
}

/// What the next port reads give.
#[repr(C)]
#[derive(Clone, Copy, PartialEq, Eq, Debug)]
pub struct Readback {
    /// Read mask, bit k for register k; valid up to 127.
    pub mask: u8,
    /// Read position, a register number; valid from 0 to 6.
    pub position: u8,
    /// A status read is waiting: the next accepted read gives the status.
    pub waiting: bool,
}

/// The pending parameters as one number: a bit for each.
pub mod pending {
    // The bits, in the order in which the parameters come.
    pub const A_ADDRESS_LOW: u16 = 1;
    pub const A_ADDRESS_HIGH: u16 = 2;
    pub const LENGTH_LOW: u16 = 4;
    pub const LENGTH_HIGH: u16 = 8;
    pub const A_TIMING: u16 = 16;
    pub const B_TIMING: u16 = 32;
    pub const PRESCALER: u16 = 64;
    pub const B_ADDRESS_LOW: u16 = 128;
    pub const B_ADDRESS_HIGH: u16 = 256;
    pub const READ_MASK: u16 = 512;

    /// The bit of the next parameter, which is the lowest one set; 0 for none.
    pub fn next(pending: u16) -> u16 {
        pending & pending.wrapping_neg()
    }

    /// The number of a sequence of codes, as which a device kept its pending
    /// parameters before: the next one first, 0 behind the last, and codes 1 to
    /// 10 in the order of the bits. None for a sequence that no valid device
    /// held, also where its bits would be a valid number.
    pub fn from_codes(codes: [u8; 4]) -> Option<u16> {
        let count = codes.iter().take_while(|code| **code != 0).count();
        let (held, behind) = codes.split_at(count);
        let ends = behind.iter().all(|code| *code == 0);
        let ascends = held.windows(2).all(|pair| pair[0] < pair[1]);
        let together = match *held {
            [] => true,
            [alone] => alone <= 10,
            // All of WR0, or both of WR4.
            [first, .., last] => last <= 4 || (first, last) == (8, 9),
        };
        let number = || held.iter().fold(0, |number, code| number | 1 << (code - 1));
        (ends && ascends && together).then(number)
    }
}

/// The running transfer slot; in a valid device all 0 and continuous while no
/// clock of one has elapsed.
#[repr(C)]
#[derive(Clone, Copy, PartialEq, Eq, Debug)]
pub struct Slot {
    /// Clocks elapsed, 0 to 8,159.
    pub elapsed: u16,
    /// Bus time in clocks, 4 to 64.
    pub bus: u16,
    /// Length in clocks: the bus time, or a multiple of 32 up to 8,160 that is
    /// not below it.
    pub length: u16,
    /// The wait after the bus time is given to the processor.
    pub burst: bool,
}

/// The clock counts. Their sum fits 64 bits in a valid device.
#[repr(C)]
#[derive(Clone, Copy, PartialEq, Eq, Debug)]
pub struct Clocks {
    /// Clocks spent on the bus.
    pub bus: u64,
    /// Clocks of waiting with the bus held.
    pub held: u64,
    /// Clocks left to the processor.
    pub cpu: u64,
}

/// The device without its clock counts.
#[repr(C)]
#[derive(Clone, Copy, PartialEq, Eq, Debug)]
pub struct Core {
    pub a: Port,
    pub b: Port,
    pub block: Block,
    pub control: Control,
    pub status: Status,
    pub readback: Readback,
    /// The pending parameters, a bit for each, as `pending` names them: the
    /// lowest set bit is the next one, and 0 is none. Valid are 0 to 15, 16,
    /// 32, 64, 128, 256, 384 (128 and 256) and 512: what a register, or a B
    /// timing byte, can leave pending.
    pub pending: u16,
    /// A slot is running or about to begin.
    pub enabled: bool,
    pub slot: Slot,
}

/// A zxnDMA.
#[repr(C)]
#[derive(Clone, Copy, PartialEq, Eq, Debug)]
pub struct Device {
    pub core: Core,
    pub clocks: Clocks,
}

/// The warnings of a port write: the byte was accepted and holds a value that
/// programs should not use. It acts all the same, as said below; a warning is no
/// refusal, and has a field of its own. Whether the byte is WR0, WR4 or a timing
/// byte goes by what was pending as it was written.
pub mod warning {
    /// No such value, or a refused write.
    pub const NONE: u8 = 0;
    /// WR0 with bits 1-0 of 10 or 11: a transfer. Use 01.
    pub const OPERATION: u8 = 1;
    /// A timing or B timing with bits 1-0 of 11: a cycle of 4. Use 00, or 01 for
    /// 3, 10 for 2.
    pub const TIMING: u8 = 2;
    /// WR4 with bits 6-5 of 00 or 11: continuous. Use 01, or 10 for burst.
    pub const MODE: u8 = 3;
}

/// The answer to a port write.
#[repr(C)]
#[derive(Clone, Copy, PartialEq, Eq, Debug)]
pub struct WriteAnswer {
    /// 0 for accepted, else the refusal number: 1, 2 or 3.
    pub number: u8,
    /// One of those in `warning`: 0 for none, and for a refused write.
    pub warning: u8,
    /// The device afterwards.
    pub device: Device,
}

/// The answer to a port read.
#[repr(C)]
#[derive(Clone, Copy, PartialEq, Eq, Debug)]
pub struct ReadAnswer {
    /// 0 for accepted, else the refusal number: 1, 2 or 3.
    pub number: u8,
    /// The byte read, 0 for a refused read.
    pub byte: u8,
    /// The device afterwards.
    pub device: Device,
}

/// The answer to a grant.
#[repr(C)]
#[derive(Clone, Copy, PartialEq, Eq, Debug)]
pub struct GrantAnswer {
    /// 0 for accepted, else the refusal number: 1, 4, 5 or 6.
    pub number: u8,
    /// The device afterwards.
    pub device: Device,
}

/// The answer to a call that sets the speed.
#[repr(C)]
#[derive(Clone, Copy, PartialEq, Eq, Debug)]
pub struct SpeedAnswer {
    /// 0 for accepted, else the refusal number: 1 or 7.
    pub number: u8,
    /// The device afterwards.
    pub device: Device,
}

/// What a port write in place answers.
#[repr(C)]
#[derive(Clone, Copy, PartialEq, Eq, Debug)]
pub struct Written {
    /// 0 for accepted, else the refusal number: 1, 2 or 3.
    pub number: u8,
    /// One of those in `warning`: 0 for none, and for a refused write.
    pub warning: u8,
}

/// What a port read in place answers.
#[repr(C)]
#[derive(Clone, Copy, PartialEq, Eq, Debug)]
pub struct Given {
    /// 0 for accepted, else the refusal number: 1, 2 or 3.
    pub number: u8,
    /// The byte read, 0 for a refused read.
    pub byte: u8,
}

// Edition 2024 wants the word `unsafe` on a block of foreign functions, and
// compilers before 1.82 don't know it there. `_` is an `expr` from edition
// 2024 on, so that the first pattern fits there and the second one elsewhere.
macro_rules! library {
    (($edition_2024:expr) $name:literal $($functions:tt)*) => {
        #[link(name = $name, kind = "static")]
        unsafe extern "C" { $($functions)* }
    };
    ((_) $name:literal $($functions:tt)*) => {
        #[link(name = $name, kind = "static")]
        extern "C" { $($functions)* }
    };
}

library! { (_) "in_place"
    fn zxndma_write_in_place(device: *mut Device, port: u16, byte: u8) -> Written;
    fn zxndma_read_in_place(device: *mut Device, port: u16) -> Given;
    fn zxndma_grant_in_place(
        device: *mut Device,
        memory: *mut u8,
        memory_length: usize,
        latches: *mut u8,
        latches_length: usize,
        clocks: u32,
    ) -> u8;
    fn zxndma_set_speed_in_place(device: *mut Device, code: u8) -> u8;
}

library! { (_) "host"
    fn zxndma_power_on() -> Device;
    fn zxndma_write(device: Device, port: u16, byte: u8) -> WriteAnswer;
    fn zxndma_read(device: Device, port: u16) -> ReadAnswer;
    fn zxndma_grant(
        device: Device,
        memory: *mut u8,
        memory_length: usize,
        latches: *mut u8,
        latches_length: usize,
        clocks: u32,
    ) -> GrantAnswer;
    fn zxndma_set_speed(device: Device, code: u8) -> SpeedAnswer;
    fn zxndma_valid(device: Device) -> bool;
    fn zxndma_cpu_floor(device: Device) -> u32;
}

// What all the calls below rest on: the library's functions are proved to
// answer any device, they keep nothing of what they are given, and the gate
// compares the layout of the structs above with the library's.
impl Device {
    /// A device as it is when power comes on: its speed is 28 MHz.
    pub fn power_on() -> Device {
        // SAFETY: plain data comes back, and every flag in it is 0 or 1.
        unsafe { zxndma_power_on() }
    }

    /// A byte is written to the DMA's port: the port number's low byte is 6B
    /// (zxn mode) or 0B (Zilog mode). An accepted byte with a discouraged value
    /// has a warning in its answer. Refused with 1, 2 or 3, and then the device
    /// is as it was.
    pub fn write_in_place(&mut self, port: u16, byte: u8) -> Written {
        // SAFETY: the pointer is to a device that is borrowed mutably until the
        // call is over, and what is left there is one; a Rust bool is 0 or 1.
        unsafe { zxndma_write_in_place(self, port, byte) }
    }

    /// A byte is read from the DMA's port. Refused with 1, 2 or 3, and then
    /// the byte is 0 and the device as it was.
    pub fn read_in_place(&mut self, port: u16) -> Given {
        // SAFETY: as for a write in place.
        unsafe { zxndma_read_in_place(self, port) }
    }

    /// That many clocks pass, and all of them are used. Answers 0, or with what
    /// it was refused: 4 or 5 if memory or latches are not `BUFFER_LENGTH`
    /// bytes, and 1 or 6; then device and buffers are as they were.
    pub fn grant_in_place(&mut self, memory: &mut [u8], latches: &mut [u8], clocks: u32) -> u8 {
        let (memory, memory_length) = (memory.as_mut_ptr(), memory.len());
        let (latches, latches_length) = (latches.as_mut_ptr(), latches.len());
        // SAFETY: as for a write in place. Each pointer is a slice's, so it is
        // not null and to that many bytes; device and both slices are borrowed
        // mutably until the call is over, so nothing else reaches them and they
        // do not overlap.
        unsafe {
            zxndma_grant_in_place(self, memory, memory_length, latches, latches_length, clocks)
        }
    }

    /// The processor's speed is set, by its code, at any time. A slot that is
    /// running keeps its figures, and the slots after it go by the new speed. No
    /// other call changes the speed, and Reset leaves it. Answers 0, or with what
    /// it was refused: 7 if the code is above 3, and 1; then the device is as it
    /// was.
    pub fn set_speed_in_place(&mut self, code: u8) -> u8 {
        // SAFETY: as for a write in place.
        unsafe { zxndma_set_speed_in_place(self, code) }
    }

    /// As `write_in_place`, with the device handed over, and handed back in the
    /// answer.
    pub fn write(self, port: u16, byte: u8) -> WriteAnswer {
        // SAFETY: plain data goes over by value; a Rust bool is 0 or 1.
        unsafe { zxndma_write(self, port, byte) }
    }

    /// As `read_in_place`, by value.
    pub fn read(self, port: u16) -> ReadAnswer {
        // SAFETY: as for a write.
        unsafe { zxndma_read(self, port) }
    }

    /// As `grant_in_place`, by value.
    pub fn grant(self, memory: &mut [u8], latches: &mut [u8], clocks: u32) -> GrantAnswer {
        let (memory, memory_length) = (memory.as_mut_ptr(), memory.len());
        let (latches, latches_length) = (latches.as_mut_ptr(), latches.len());
        // SAFETY: as for a write. Each pointer is a slice's, so it is not null
        // and to that many bytes; both are borrowed mutably until the call is
        // over, so nothing else reaches them and they do not overlap.
        unsafe { zxndma_grant(self, memory, memory_length, latches, latches_length, clocks) }
    }

    /// As `set_speed_in_place`, by value.
    pub fn set_speed(self, code: u8) -> SpeedAnswer {
        // SAFETY: as for a write.
        unsafe { zxndma_set_speed(self, code) }
    }

    /// The device is valid: no call refuses it with 1.
    pub fn is_valid(self) -> bool {
        // SAFETY: as for a write; the answer's byte is 0 or 1.
        unsafe { zxndma_valid(self) }
    }

    /// A floor under the processor's time: among any so many clocks in a row,
    /// the next one or a later one being the first, at least one is the
    /// processor's, as long as up to the last of them no port access and no speed
    /// call is accepted and the host does not change the device itself. How the
    /// clocks are cut into grants does not matter, nor do refused calls and
    /// changes of memory. At most 65. 0 is no claim: the device is not valid, or
    /// the slot that runs, or the one that the registers start, enabled or not, is
    /// continuous or no longer than its bus time.
    pub fn cpu_floor(self) -> u32 {
        // SAFETY: as for a write.
        unsafe { zxndma_cpu_floor(self) }
    }
}

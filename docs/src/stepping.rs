//! A program and a module: a zxnDMA that takes one clock at a time.
//!
//! In plain Rust, in place, and with nothing carried from one clock to the next
//! but the state. It has what clocks need of the device, and no port writes or
//! reads. Its rules are those of one clock in docs/RULES.md, and its states are
//! valid ones: where a slot begins, the block is not finished.
//!
//! Built alone, by `rustc --edition 2021 -O stepping.rs`, it runs a block of
//! music; `stepping --help` says how. `measure.rs` includes it.

#![allow(dead_code)]
#![forbid(unsafe_code)]

#[path = "program.rs"]
mod program;

use clock::Bytes;
use std::process::ExitCode;

/// The part of the device that clocks use, and what a clock does to it.
pub mod clock {
    /// Memory, or the I/O latches. A 16-bit address is always within it.
    pub type Bytes = [u8; 65_536];

    /// Port A or port B.
    #[derive(Clone, Copy, PartialEq, Eq, Debug)]
    pub struct Port {
        /// The starting address, which auto restart copies into the pointer.
        pub address: u16,
        /// The address of the next byte.
        pub pointer: u16,
        /// I/O if true, memory if false.
        pub io: bool,
        /// 0 decrements the pointer, 1 increments it, anything else leaves it.
        pub step: u8,
        /// The cycle in clocks at 28 MHz, 2 to 4.
        pub cycle: u8,
    }

    #[derive(Clone, Copy, PartialEq, Eq, Debug)]
    pub struct Block {
        pub length: u16,
        /// The bytes moved, up to 65,536.
        pub counter: u32,
        /// Zilog mode: the block has one byte more than its length.
        pub zilog: bool,
    }

    #[derive(Clone, Copy, PartialEq, Eq, Debug)]
    pub struct Control {
        /// From A to B if true, from B to A if false.
        pub forward: bool,
        /// The least length of a slot in units of 32 clocks; 0 is off.
        pub prescaler: u8,
        /// Burst if true, continuous if false.
        pub burst: bool,
        /// Auto restart.
        pub restart: bool,
        /// The code of the speed, 0 to 3: at each a cycle takes half the clocks
        /// of the one before, at 3 its own.
        pub speed: u8,
    }

    /// The running slot, with the figures fixed on its first clock. All 0 and
    /// continuous while no clock of it has elapsed.
    #[derive(Clone, Copy, PartialEq, Eq, Debug)]
    pub struct Slot {
        pub elapsed: u16,
        /// The bus time.
        pub bus: u16,
        /// The whole length, with the wait.
        pub length: u16,
        pub burst: bool,
    }

    pub const NO_SLOT: Slot = Slot { elapsed: 0, bus: 0, length: 0, burst: false };

    /// How many clocks there were of each kind.
    #[derive(Clone, Copy, PartialEq, Eq, Debug)]
    pub struct Clocks {
        pub bus: u64,
        pub held: u64,
        pub cpu: u64,
    }

    #[derive(Clone, Copy, PartialEq, Eq, Debug)]
    pub struct State {
        pub a: Port,
        pub b: Port,
        pub block: Block,
        pub control: Control,
        /// The bits E and T of the status.
        pub e: bool,
        pub t: bool,
        pub enabled: bool,
        pub slot: Slot,
        pub clocks: Clocks,
    }

    impl State {
        /// The clocks of a grant, one after the other.
        pub fn grant(&mut self, memory: &mut Bytes, latches: &mut Bytes, clocks: u32) {
            for _ in 0..clocks {
                self.one_clock(memory, latches);
            }
        }

        /// One clock, by the rules.
        pub fn one_clock(&mut self, memory: &mut Bytes, latches: &mut Bytes) {
            if !self.enabled {
                self.clocks.cpu += 1;
                return;
            }
            if self.slot.elapsed == 0 {
                self.slot = self.new_slot();
            }
            self.slot.elapsed += 1;
            if self.slot.elapsed > self.slot.bus {
                if self.slot.burst {
                    self.clocks.cpu += 1;
                } else {
                    self.clocks.held += 1;
                }
            } else {
                self.clocks.bus += 1;
                if self.slot.elapsed == self.slot.bus {
                    self.move_byte(memory, latches);
                }
            }
            if self.slot.elapsed == self.slot.length {
                self.end_slot();
            }
        }

        /// The bytes of the block: 0 to 65,536.
        pub fn block_count(&self) -> u32 {
            u32::from(self.block.length) + u32::from(self.block.zilog)
        }

        /// The counter is at or above the block count.
        fn finished(&self) -> bool {
            self.block.counter >= self.block_count()
        }

        /// The figures of a slot that begins now, before its first clock.
        pub fn new_slot(&self) -> Slot {
            let cycles = u16::from(self.a.cycle) + u16::from(self.b.cycle);
            let bus = cycles << (3 - self.control.speed);
            // A prescaler of 0 is never the larger.
            let length = bus.max(32 * u16::from(self.control.prescaler));
            Slot { elapsed: 0, bus, length, burst: self.control.burst }
        }

        /// A byte moves from source to destination, and both pointers step.
        pub fn move_byte(&mut self, memory: &mut Bytes, latches: &mut Bytes) {
            let (source, destination) =
                if self.control.forward { (&self.a, &self.b) } else { (&self.b, &self.a) };
            let from = if source.io { &*latches } else { &*memory };
            let byte = from[usize::from(source.pointer)];
            let to = if destination.io { latches } else { memory };
            to[usize::from(destination.pointer)] = byte;
            self.a.step_pointer();
            self.b.step_pointer();
            self.block.counter += 1;
            self.t = true;
        }

        /// What follows a slot's last clock.
        pub fn end_slot(&mut self) {
            self.slot = NO_SLOT;
            if !self.finished() {
                return;
            }
            self.e = false;
            if self.control.restart && self.block_count() > 0 {
                self.a.pointer = self.a.address;
                self.b.pointer = self.b.address;
                self.block.counter = 0;
            } else {
                self.enabled = false;
            }
        }
    }

    impl Port {
        fn step_pointer(&mut self) {
            match self.step {
                0 => self.pointer = self.pointer.wrapping_sub(1),
                1 => self.pointer = self.pointer.wrapping_add(1),
                _ => {}
            }
        }
    }

    /// Clocks of the whole block of music: 65,536 slots of 32 x 55.
    pub const MUSIC_CLOCKS: u32 = 115_343_360;

    /// A block of music about to begin: 65,536 bytes of memory to one I/O
    /// port, in burst, at prescaler 55 and 28 MHz.
    pub fn music() -> State {
        State {
            a: Port { address: 0, pointer: 0, io: false, step: 1, cycle: 4 },
            b: Port { address: 0xFFDF, pointer: 0xFFDF, io: true, step: 2, cycle: 4 },
            block: Block { length: 0xFFFF, counter: 0, zilog: true },
            control: Control {
                forward: true,
                prescaler: 55,
                burst: true,
                restart: false,
                speed: 3,
            },
            e: true,
            t: false,
            enabled: true,
            slot: NO_SLOT,
            clocks: Clocks { bus: 0, held: 0, cpu: 0 },
        }
    }
}

const HELP: &str = "\
usage: stepping
Runs a zxnDMA in plain Rust that takes one clock at a time. It needs nothing.

What it runs is a block of music, 65,536 bytes from memory to an I/O port in burst at
prescaler 55 and 28 MHz: 115,343,360 clocks, one at a time. Prints the clock counts
and the bytes moved.

Exit status: 0 done; 2 bad arguments.
";

fn run_music() {
    let mut memory: Box<Bytes> = Box::new([0; 65_536]);
    let mut latches: Box<Bytes> = Box::new([0; 65_536]);
    let mut state = clock::music();
    state.grant(&mut memory, &mut latches, clock::MUSIC_CLOCKS);
    let clock::Clocks { bus, held, cpu } = state.clocks;
    println!("clocks: bus {bus}, held {held}, CPU {cpu}");
    println!("bytes moved: {}", state.block.counter);
}

fn main() -> ExitCode {
    program::main("stepping", HELP, |words| match words.first() {
        None => {
            run_music();
            Ok(())
        }
        Some(word) => Err(program::bad_usage(format!("{word} is not an option"))),
    })
}

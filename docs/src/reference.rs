//! The second program, also a module: a model of the zxnDMA, slow and obvious.
//!
//! It takes every clock singly. It shares nothing with the product but the
//! papers, so that the two can be compared. "01" below is the paper with the
//! rules, "02" the one with the requests that came after it.
//!
//! Built alone it is a bench program: a session on standard input, its lines
//! on standard output. Another program can also include it as a module.

#![allow(dead_code)]
#![forbid(unsafe_code)]

use std::io::{Read, Write};
use std::process::ExitCode;

/// The device, its five calls and the floor under the processor's time.
pub mod model {
    /// The bytes of memory, and of latches, that a grant must be lent.
    pub const SIZE: usize = 65_536;

    // The parameters by code, in the order of 01's table. 0 stands for none.
    pub const A_LOW: u8 = 1;
    pub const A_HIGH: u8 = 2;
    pub const LENGTH_LOW: u8 = 3;
    pub const LENGTH_HIGH: u8 = 4;
    pub const A_TIMING: u8 = 5;
    pub const B_TIMING: u8 = 6;
    pub const PRESCALER: u8 = 7;
    pub const B_LOW: u8 = 8;
    pub const B_HIGH: u8 = 9;
    pub const READ_MASK: u8 = 10;

    // The rules of a port's step. Any other number is fixed.
    pub const DECREMENT: u8 = 0;
    pub const INCREMENT: u8 = 1;

    /// What `register` gives for the bytes that select none.
    pub const NO_REGISTER: u8 = 7;

    // The warnings, in the order of 02, whose word is mark: a byte has a
    // discouraged value.
    pub const NO_WARNING: u8 = 0;
    pub const AA_WARNING: u8 = 1;
    pub const TIMING_WARNING: u8 = 2;
    pub const MODE_WARNING: u8 = 3;

    /// Port A or port B.
    #[derive(Clone, Copy, PartialEq, Eq, Debug)]
    pub struct Port {
        /// The starting address.
        pub address: u16,
        /// The address of the next byte.
        pub pointer: u16,
        /// I/O if true, memory if false.
        pub io: bool,
        /// 0 decrement, 1 increment, anything else fixed.
        pub step: u8,
        /// The cycle in clocks, at 28 MHz.
        pub cycle: u8,
    }

    /// The running slot. All 0 and not burst when no clock of it is spent.
    #[derive(Clone, Copy, PartialEq, Eq, Debug)]
    pub struct Slot {
        /// The clocks spent.
        pub elapsed: u16,
        /// The bus time.
        pub bus: u16,
        /// The whole length, waiting included.
        pub length: u16,
        /// Burst if true, continuous if false.
        pub burst: bool,
    }

    /// The three books.
    #[derive(Clone, Copy, PartialEq, Eq, Debug)]
    pub struct Clocks {
        pub bus: u64,
        pub held: u64,
        pub cpu: u64,
    }

    /// The whole device. It can hold any content, also unsound content.
    #[derive(Clone, Copy, PartialEq, Eq, Debug)]
    pub struct Device {
        pub a: Port,
        pub b: Port,
        pub slot: Slot,
        pub clocks: Clocks,
        pub length: u16,
        pub counter: u32,
        /// The direction: true is A to B, false is B to A.
        pub a_to_b: bool,
        pub prescaler: u8,
        pub burst: bool,
        pub auto_restart: bool,
        /// The code of the processor's speed: 0 to 3.
        pub speed: u8,
        /// The compatibility mode: true is Zilog, false is zxn.
        pub zilog: bool,
        pub enabled: bool,
        /// The E bit of the status: true is 1.
        pub e: bool,
        /// The T bit of the status: true is 1.
        pub t: bool,
        pub mask: u8,
        /// The reading place, 0 to 6.
        pub place: u8,
        /// A status read is waiting.
        pub status_waiting: bool,
        pub pending: Pending,
    }

    /// The parameters awaited. The product keeps them as a number with a bit
    /// for each; here they are kept as a sequence, so that the number has a
    /// witness.
    #[derive(Clone, Copy, PartialEq, Eq, Debug)]
    pub enum Pending {
        /// Their codes, the next one first, 0 behind the last.
        Sequence([u8; 4]),
        /// A number that stands for no sequence, kept as it came: unsound.
        Stray(u16),
    }

    const NO_SLOT: Slot = Slot { elapsed: 0, bus: 0, length: 0, burst: false };
    const NO_PARAMETER: Pending = Pending::Sequence([0; 4]);

    // ---- Sequences and numbers -------------------------------------------

    /// 01's table: the parameters that are awaited together, in their order.
    /// Each is asked for by a bit of its own, so that any of a row can be left
    /// out. The prescaler comes to be awaited when B timing has been written:
    /// its row has nothing before it.
    const TABLE: [&[u8]; 6] = [
        &[A_LOW, A_HIGH, LENGTH_LOW, LENGTH_HIGH], // WR0
        &[A_TIMING],                               // WR1
        &[B_TIMING],                               // WR2
        &[PRESCALER],                              // a B timing byte with bit 5 set
        &[B_LOW, B_HIGH],                          // WR4
        &[READ_MASK],                              // WR6, after BB
    ];

    impl Pending {
        /// What a number stands for: the sequence out of a row of the table
        /// that has this number, if there is one.
        pub fn of_number(number: u16) -> Pending {
            for row in TABLE {
                let mut sequence = [0; 4];
                let wanted = row.iter().filter(|&&code| number & bit_of(code) != 0);
                for (place, &code) in sequence.iter_mut().zip(wanted) {
                    *place = code;
                }
                if Pending::Sequence(sequence).number() == number {
                    return Pending::Sequence(sequence);
                }
            }
            Pending::Stray(number)
        }

        /// The number: the bits of those awaited.
        pub fn number(&self) -> u16 {
            match self {
                Pending::Sequence(codes) => {
                    let awaited = codes.iter().filter(|&&code| code != 0);
                    awaited.fold(0, |number, &code| number | bit_of(code))
                }
                Pending::Stray(number) => *number,
            }
        }

        /// The code of the next one, 0 for none. Nothing asks this of a stray
        /// number: the calls refuse its device.
        pub fn next(&self) -> u8 {
            match self {
                Pending::Sequence(codes) => codes[0],
                Pending::Stray(_) => 0,
            }
        }
    }

    /// Bits 0 to 9 in the order of the table.
    fn bit_of(code: u8) -> u16 {
        1 << (code - 1)
    }

    // ---- Power-on and soundness ------------------------------------------

    /// 01: Power-on. 02: it is code 3.
    pub fn power_on() -> Device {
        let port = Port { address: 0, pointer: 0, io: false, step: INCREMENT, cycle: 4 };
        Device {
            a: port,
            b: port,
            slot: NO_SLOT,
            clocks: Clocks { bus: 0, held: 0, cpu: 0 },
            length: 0,
            counter: 0,
            a_to_b: true,
            prescaler: 0,
            burst: false,
            auto_restart: false,
            speed: 3,
            zilog: false,
            enabled: false,
            e: true,
            t: false,
            mask: 0x7F,
            place: 0,
            status_waiting: false,
            pending: NO_PARAMETER,
        }
    }

    /// 01: "Sound means". 02: "Soundness takes the new ranges".
    pub fn valid(d: &Device) -> bool {
        // Cycles 2 to 4.
        let cycles = (2..=4).contains(&d.a.cycle) && (2..=4).contains(&d.b.cycle);
        // Counter at most 65,536; mask at most 127; reading place 0 to 6.
        let counter = d.counter <= 65_536;
        let mask = d.mask <= 127;
        let place = d.place <= 6;
        // Code 0 to 3.
        let speed = d.speed <= 3;
        // The books' sum in 64 bits.
        let books = books_sum(d) <= u128::from(u64::MAX);
        // Awaited parameters are a tail of a sequence in the table.
        let parameters = match &d.pending {
            Pending::Sequence(codes) => valid_sequence(codes),
            Pending::Stray(_) => false,
        };
        let s = &d.slot;
        // Disabled means no clock of a slot is spent.
        let idle = d.enabled || s.elapsed == 0;
        let slot = if s.elapsed > 0 {
            // With clocks spent: bus time 4 to 64, slot equal to it or a
            // multiple of 32 from 32 to 8,160 that is not below it, spent below
            // the slot.
            let multiple = s.length % 32 == 0 && (32..=8_160).contains(&s.length);
            (4..=64).contains(&s.bus)
                && (s.length == s.bus || (multiple && s.length >= s.bus))
                && s.elapsed < s.length
        } else {
            // With none, the fixed slot figures are 0 and continuous.
            *s == NO_SLOT
        };
        // Enabled with the byte not yet moved means counter below block count.
        let not_moved = s.elapsed == 0 || s.elapsed < s.bus;
        let block = !(d.enabled && not_moved) || d.counter < block_count(d);
        let numbers = cycles && counter && mask && place && speed && books;
        numbers && parameters && idle && slot && block
    }

    /// A tail of a sequence in the table: some of WR0's four in their order,
    /// some of WR4's two in their order, one of the others alone, or none.
    pub fn valid_sequence(codes: &[u8; 4]) -> bool {
        // How many stand before the first 0; behind it only 0 may stand.
        let count = codes.iter().take_while(|&&code| code != 0).count();
        if codes[count..].iter().any(|&code| code != 0) {
            return false;
        }
        let awaited = &codes[..count];
        let in_order = awaited.windows(2).all(|pair| pair[0] < pair[1]);
        let all_wr0 = awaited.iter().all(|code| (A_LOW..=LENGTH_HIGH).contains(code));
        let all_wr4 = awaited.iter().all(|code| (B_LOW..=B_HIGH).contains(code));
        let alone = count == 1 && [A_TIMING, B_TIMING, PRESCALER, READ_MASK].contains(&awaited[0]);
        (in_order && (all_wr0 || all_wr4)) || alone
    }

    /// The sum of the three books, too wide to wrap.
    pub fn books_sum(d: &Device) -> u128 {
        u128::from(d.clocks.bus) + u128::from(d.clocks.held) + u128::from(d.clocks.cpu)
    }

    /// 01: the length in zxn mode, length + 1 in Zilog mode; always the
    /// present ones.
    pub fn block_count(d: &Device) -> u32 {
        u32::from(d.length) + u32::from(d.zilog)
    }

    /// The counter is at or above the block count.
    fn block_done(d: &Device) -> bool {
        d.counter >= block_count(d)
    }

    /// 01: held when enabled, except while waiting in a burst slot: its bus
    /// time is spent and its length is not.
    pub fn holds_bus(d: &Device) -> bool {
        let s = &d.slot;
        let burst_wait = s.burst && s.elapsed >= s.bus && s.elapsed < s.length;
        d.enabled && !burst_wait
    }

    // ---- Speed -----------------------------------------------------------

    /// 02: the host sets the speed, at any time; gives the number. The slots
    /// that begin from now on go by it. One that is running keeps its figures.
    pub fn set_speed(d: &mut Device, code: u8) -> u8 {
        if !valid(d) {
            return 1;
        }
        if code > 3 {
            return 7;
        }
        d.speed = code;
        0
    }

    /// 02: the clocks that a cycle takes for each one that it takes at 28 MHz.
    pub fn factor(d: &Device) -> u16 {
        match d.speed {
            0 => 8, // 3.5 MHz
            1 => 4, // 7 MHz
            2 => 2, // 14 MHz
            3 => 1, // 28 MHz
            code => panic!("no sound state has the speed code {}", code),
        }
    }

    /// 02: the bus time of a slot that begins now: factor x (A + B).
    pub fn bus_time(d: &Device) -> u16 {
        factor(d) * (u16::from(d.a.cycle) + u16::from(d.b.cycle))
    }

    /// 02: the length of a slot that begins now: the bus time, or with a
    /// prescaler the larger of bus time and 32 x prescaler.
    pub fn slot_length(d: &Device) -> u16 {
        let fixed_time = 32 * u16::from(d.prescaler);
        if d.prescaler == 0 || fixed_time < bus_time(d) {
            bus_time(d)
        } else {
            fixed_time
        }
    }

    /// The slot that the present registers would start, before its first clock.
    fn next_slot(d: &Device) -> Slot {
        Slot { elapsed: 0, bus: bus_time(d), length: slot_length(d), burst: d.burst }
    }

    // ---- A floor under the processor's time ------------------------------

    impl Device {
        /// Among so many clocks in a row at least one is a CPU clock, as long as
        /// nothing but clocks comes to the device: one more than the largest bus
        /// time of the slot that has clocks spent, if there is one, and of those
        /// that the registers would start. 0, which claims nothing, where one of
        /// these is continuous or no longer than its bus time, and for an
        /// unsound state (02, the floor under the processor's time).
        pub fn cpu_floor(&self) -> u32 {
            if !valid(self) {
                return 0;
            }
            // The registers would start one slot after the other, all alike;
            // those of a disabled device would as well.
            let started = next_slot(self);
            let spent = Some(self.slot).filter(|slot| slot.elapsed > 0);
            let mut largest = 0;
            for slot in spent.into_iter().chain([started]) {
                if !slot.burst || slot.length <= slot.bus {
                    return 0;
                }
                largest = largest.max(u32::from(slot.bus));
            }
            largest + 1
        }
    }

    // ---- Port writes -----------------------------------------------------

    /// The refusals of a port write or read, the lowest number first.
    fn port_refusal(d: &Device, port: u16) -> u8 {
        let low = port & 0x00FF;
        if !valid(d) {
            1
        } else if low != 0x6B && low != 0x0B {
            2
        } else if holds_bus(d) {
            3
        } else {
            0
        }
    }

    /// A byte written to a port; gives the number and the warning.
    pub fn write(d: &mut Device, port: u16, byte: u8) -> (u8, u8) {
        let number = port_refusal(d, port);
        if number != 0 {
            return (number, NO_WARNING);
        }
        // What the byte is goes by what is awaited before it takes effect.
        let warning = warning(d, byte);
        // The port's low byte sets the mode, before the byte takes effect.
        d.zilog = port & 0x00FF == 0x0B;
        if d.pending.next() != 0 {
            parameter(d, byte);
        } else {
            base(d, byte);
        }
        (0, warning)
    }

    /// 02: the mark that decoding a byte answers. It changes nothing of what
    /// the byte does.
    pub fn warning(d: &Device, byte: u8) -> u8 {
        match d.pending.next() {
            // No parameter awaited: the byte selects a register, or none.
            0 => match register(byte) {
                0 => aa_warning(byte),
                4 => mode_warning(byte),
                _ => NO_WARNING,
            },
            A_TIMING => timing_warning(byte),
            B_TIMING => timing_warning(byte),
            // Another parameter.
            _ => NO_WARNING,
        }
    }

    /// Of a WR0 byte: AA of 10 or 11.
    fn aa_warning(byte: u8) -> u8 {
        match byte & 0b0000_0011 {
            0b10 => AA_WARNING,
            0b11 => AA_WARNING,
            _ => NO_WARNING,
        }
    }

    /// Of a timing byte: bits 1-0 of 11.
    fn timing_warning(byte: u8) -> u8 {
        match byte & 0b0000_0011 {
            0b11 => TIMING_WARNING,
            _ => NO_WARNING,
        }
    }

    /// Of a WR4 byte: bits 6-5 of 00 or 11.
    fn mode_warning(byte: u8) -> u8 {
        match (byte >> 5) & 0b11 {
            0b00 => MODE_WARNING,
            0b11 => MODE_WARNING,
            _ => NO_WARNING,
        }
    }

    /// 01's table: the register, 0 to 6, that a byte selects, or none.
    pub fn register(byte: u8) -> u8 {
        if byte & 0b1000_0000 == 0 && byte & 0b0000_0011 != 0 {
            0 // 0xxxxxAA, AA not 00
        } else if byte & 0b1000_0111 == 0b0000_0100 {
            1 // 0xxxx100
        } else if byte & 0b1000_0111 == 0b0000_0000 {
            2 // 0xxxx000
        } else if byte & 0b1000_0011 == 0b1000_0000 {
            3 // 1xxxxx00
        } else if byte & 0b1000_0011 == 0b1000_0001 {
            4 // 1xxxxx01
        } else if byte & 0b1100_0111 == 0b1000_0010 {
            5 // 10xxx010
        } else if byte & 0b1000_0011 == 0b1000_0011 {
            6 // 1xxxxx11
        } else {
            NO_REGISTER
        }
    }

    /// A byte that comes with no parameter awaited.
    fn base(d: &mut Device, byte: u8) {
        match register(byte) {
            0 => {
                d.a_to_b = bit(byte, 2);
                await_parameter(d, bit(byte, 3), A_LOW);
                await_parameter(d, bit(byte, 4), A_HIGH);
                await_parameter(d, bit(byte, 5), LENGTH_LOW);
                await_parameter(d, bit(byte, 6), LENGTH_HIGH);
            }
            1 => {
                d.a.io = bit(byte, 3);
                d.a.step = step_rule(byte);
                await_parameter(d, bit(byte, 6), A_TIMING);
            }
            2 => {
                d.b.io = bit(byte, 3);
                d.b.step = step_rule(byte);
                await_parameter(d, bit(byte, 6), B_TIMING);
            }
            3 => {
                if bit(byte, 6) {
                    enable(d);
                } else {
                    disable(d);
                }
            }
            4 => {
                // Bits 6-5 of 10 are burst, all else continuous.
                d.burst = bit(byte, 6) && !bit(byte, 5);
                await_parameter(d, bit(byte, 2), B_LOW);
                await_parameter(d, bit(byte, 3), B_HIGH);
            }
            5 => d.auto_restart = bit(byte, 5),
            6 => command(d, byte),
            _ => {}
        }
    }

    fn bit(byte: u8, number: u8) -> bool {
        (byte >> number) & 1 == 1
    }

    /// Puts a parameter behind those awaited already, if it is wanted.
    fn await_parameter(d: &mut Device, wanted: bool, code: u8) {
        if let (true, Pending::Sequence(codes)) = (wanted, &mut d.pending) {
            if let Some(free) = codes.iter_mut().find(|place| **place == 0) {
                *free = code;
            }
        }
    }

    /// Bits 5-4, kept as they are written: 00 decrement, 01 increment, 10 and
    /// 11 fixed.
    fn step_rule(byte: u8) -> u8 {
        (byte >> 4) & 0b11
    }

    /// Bits 1-0: 00 is 4 clocks, 01 is 3, 10 is 2, 11 is 4.
    fn timing(byte: u8) -> u8 {
        match byte & 0b11 {
            0b00 => 4,
            0b01 => 3,
            0b10 => 2,
            _ => 4,
        }
    }

    /// A byte that is the parameter awaited next. It takes effect at once.
    fn parameter(d: &mut Device, byte: u8) {
        let code = d.pending.next();
        if let Pending::Sequence(codes) = &mut d.pending {
            *codes = [codes[1], codes[2], codes[3], 0];
        }
        match code {
            A_LOW => d.a.address = with_low(d.a.address, byte),
            A_HIGH => d.a.address = with_high(d.a.address, byte),
            LENGTH_LOW => d.length = with_low(d.length, byte),
            LENGTH_HIGH => d.length = with_high(d.length, byte),
            A_TIMING => d.a.cycle = timing(byte),
            B_TIMING => {
                d.b.cycle = timing(byte);
                await_parameter(d, bit(byte, 5), PRESCALER);
            }
            PRESCALER => d.prescaler = byte,
            B_LOW => d.b.address = with_low(d.b.address, byte),
            B_HIGH => d.b.address = with_high(d.b.address, byte),
            READ_MASK => {
                // Bit 7 is dropped, and reading goes to the start.
                d.mask = byte & 0x7F;
                d.place = 0;
            }
            _ => {}
        }
    }

    fn with_low(number: u16, byte: u8) -> u16 {
        (number & 0xFF00) | u16::from(byte)
    }

    fn with_high(number: u16, byte: u8) -> u16 {
        (number & 0x00FF) | (u16::from(byte) << 8)
    }

    /// 01: Commands. Those not listed are ignored.
    fn command(d: &mut Device, byte: u8) {
        match byte {
            0xC3 => reset(d),
            0xC7 => d.a.cycle = 4,
            0xCB => d.b.cycle = 4,
            0xCF => load(d),
            0xD3 => d.counter = 0,
            0x87 => enable(d),
            0x83 => disable(d),
            0x8B => {
                d.e = true;
                d.t = false;
            }
            0xBF => d.status_waiting = true,
            0xA7 => d.place = 0,
            0xBB => await_parameter(d, true, READ_MASK),
            0xB3 => {}
            _ => {}
        }
    }

    /// C3. 02: it leaves the speed.
    fn reset(d: &mut Device) {
        disable(d);
        d.a.cycle = 4;
        d.b.cycle = 4;
        d.prescaler = 0;
        d.auto_restart = false;
        d.e = true;
        d.t = false;
        d.mask = 0x7F;
        d.place = 0;
        d.status_waiting = false;
    }

    /// CF, and the reload by auto restart: pointers take the two starting
    /// addresses; counter 0.
    fn load(d: &mut Device) {
        d.a.pointer = d.a.address;
        d.b.pointer = d.b.address;
        d.counter = 0;
    }

    /// 87, or WR3 with bit 6 set.
    fn enable(d: &mut Device) {
        if d.enabled {
            return;
        }
        if block_done(d) {
            d.e = false;
        } else {
            d.enabled = true;
        }
    }

    /// 83, or WR3 with bit 6 clear: disabled; a running wait is dropped.
    fn disable(d: &mut Device) {
        d.enabled = false;
        d.slot = NO_SLOT;
    }

    // ---- Port reads ------------------------------------------------------

    /// A read of a port; gives the number and the byte.
    pub fn read(d: &mut Device, port: u16) -> (u8, u8) {
        let number = port_refusal(d, port);
        if number != 0 {
            return (number, 0);
        }
        // After BF: the status, and the reading place is left.
        if d.status_waiting {
            d.status_waiting = false;
            return (0, status(d));
        }
        // The first register in the mask at or after the reading place, going
        // round; the place moves to the one after it.
        for further in 0..7 {
            let chosen = (d.place + further) % 7;
            if bit(d.mask, chosen) {
                d.place = (chosen + 1) % 7;
                return (0, register_byte(d, chosen));
            }
        }
        // An empty mask gives the status and moves nothing.
        (0, status(d))
    }

    /// The bits 00E1101T.
    pub fn status(d: &Device) -> u8 {
        0b0001_1010 | (u8::from(d.e) << 5) | u8::from(d.t)
    }

    /// The seven registers, for mask bits 0 to 6.
    fn register_byte(d: &Device, chosen: u8) -> u8 {
        match chosen {
            0 => status(d),
            1 => (d.counter % 256) as u8,
            2 => (d.counter / 256 % 256) as u8,
            3 => (d.a.pointer % 256) as u8,
            4 => (d.a.pointer / 256) as u8,
            5 => (d.b.pointer % 256) as u8,
            _ => (d.b.pointer / 256) as u8,
        }
    }

    // ---- Grants ----------------------------------------------------------

    /// A grant of clocks; gives the number.
    pub fn grant(d: &mut Device, memory: &mut [u8], latches: &mut [u8], clocks: u32) -> u8 {
        if !valid(d) {
            return 1;
        }
        if memory.len() != SIZE {
            return 4;
        }
        if latches.len() != SIZE {
            return 5;
        }
        if books_sum(d) + u128::from(clocks) > u128::from(u64::MAX) {
            return 6;
        }
        take_clocks(d, memory, latches, clocks);
        0
    }

    /// The clocks of an accepted grant. A host calls `grant`; this is public so
    /// that the failure below can be tried on a device that `grant` refuses.
    pub fn take_clocks(d: &mut Device, memory: &mut [u8], latches: &mut [u8], clocks: u32) {
        for _ in 0..clocks {
            one_clock(d, memory, latches);
        }
    }

    /// 01: One clock, of a sound device whose books have room for it.
    fn one_clock(d: &mut Device, memory: &mut [u8], latches: &mut [u8]) {
        // Not enabled: a CPU clock.
        if !d.enabled {
            d.clocks.cpu += 1;
            return;
        }
        if d.slot.elapsed == 0 {
            // No sound state comes here with its block finished. Enable and a
            // slot's last clock have looked, and until the slot's first clock
            // the bus is held, so that no write comes between. It is a failure
            // and no rule: a slip in one of those would move a byte too many,
            // and here it is seen.
            assert!(
                !block_done(d),
                "a slot begins with the block finished: counter {}, block count {}; \
                 no sound state comes here",
                d.counter,
                block_count(d)
            );
            // A slot's first clock fixes the bus time, the length, and burst
            // or continuous.
            d.slot = next_slot(d);
        }
        d.slot.elapsed += 1;
        if d.slot.elapsed <= d.slot.bus {
            // Within the bus time; on its last clock one byte moves.
            d.clocks.bus += 1;
            if d.slot.elapsed == d.slot.bus {
                move_byte(d, memory, latches);
            }
        } else if d.slot.burst {
            // Waiting in burst.
            d.clocks.cpu += 1;
        } else {
            // Waiting in continuous.
            d.clocks.held += 1;
        }
        if d.slot.elapsed == d.slot.length {
            slot_ends(d);
        }
    }

    /// The source port is read, the destination written, each pointer steps,
    /// the counter gains 1, T becomes 1.
    fn move_byte(d: &mut Device, memory: &mut [u8], latches: &mut [u8]) {
        let (source, destination) = if d.a_to_b { (d.a, d.b) } else { (d.b, d.a) };
        let from = usize::from(source.pointer);
        let byte = if source.io { latches[from] } else { memory[from] };
        let to = usize::from(destination.pointer);
        if destination.io {
            latches[to] = byte;
        } else {
            memory[to] = byte;
        }
        step(&mut d.a);
        step(&mut d.b);
        d.counter += 1;
        d.t = true;
    }

    /// A pointer steps by its port's rule and wraps modulo 65,536.
    fn step(port: &mut Port) {
        port.pointer = match port.step {
            DECREMENT => port.pointer.wrapping_sub(1),
            INCREMENT => port.pointer.wrapping_add(1),
            _ => port.pointer,
        };
    }

    /// What follows a slot's last clock, within that clock.
    fn slot_ends(d: &mut Device) {
        d.slot = NO_SLOT;
        if block_done(d) {
            d.e = false;
            if d.auto_restart && block_count(d) > 0 {
                load(d);
            } else {
                d.enabled = false;
            }
        }
    }
}

/// The bench program's session: records in, lines out.
pub mod session {
    use super::model::{self, Device};

    // The kinds of a record.
    const WRITE: u8 = 1;
    const READ: u8 = 2;
    const GRANT: u8 = 3;
    const MEMORY: u8 = 4;

    /// A call of a session.
    #[derive(Clone, Copy)]
    pub enum Call {
        Write { port: u16, byte: u8 },
        Read,
        Grant { clocks: u32 },
    }

    /// Is shown a call and its number, with the device before it and after it.
    pub type Watch<'a> = &'a mut dyn FnMut(&Device, Call, u8, &Device);

    /// The lines that a whole session writes.
    pub fn run(session: &[u8]) -> Vec<u8> {
        run_watched(session, &mut |_, _, _, _| {})
    }

    /// As `run`; every call is shown, refused ones too.
    pub fn run_watched(session: &[u8], watch: Watch) -> Vec<u8> {
        let mut lines = String::new();
        match records(session, &mut lines, watch) {
            Ok(c) => lines.push_str(&format!("B {} {} {}\n", c.bus, c.held, c.cpu)),
            Err(fault) => lines.push_str(&format!("S {}\n", fault)),
        }
        lines.into_bytes()
    }

    /// Runs the records to the end or to the first fault. Gives the books, or
    /// the fault's number.
    fn records(session: &[u8], lines: &mut String, watch: Watch) -> Result<model::Clocks, u8> {
        let mut device = model::power_on();
        let mut memory = vec![0_u8; model::SIZE];
        let mut latches = vec![0_u8; model::SIZE];
        // The version missing or not 1.
        if session.first() != Some(&1) {
            return Err(20);
        }
        let mut rest = &session[1..];
        while !rest.is_empty() {
            // Cut short in the length bytes.
            if rest.len() < 2 {
                return Err(21);
            }
            let length = usize::from(word(rest[0], rest[1]));
            rest = &rest[2..];
            // Cut short after them.
            if rest.len() < length {
                return Err(21);
            }
            let (record, behind) = rest.split_at(length);
            rest = behind;
            let before = device;
            match *record {
                [WRITE, high, low, byte] => {
                    let port = word(high, low);
                    let (number, warning) = model::write(&mut device, port, byte);
                    watch(&before, Call::Write { port, byte }, number, &device);
                    // 02: a space and an exclamation mark where there is a mark.
                    let mark = if warning != model::NO_WARNING { " !" } else { "" };
                    lines.push_str(&format!("W {}{}\n", number, mark));
                }
                [READ, high, low] => {
                    let (number, byte) = model::read(&mut device, word(high, low));
                    watch(&before, Call::Read, number, &device);
                    if number == 0 {
                        lines.push_str(&format!("R 0 {:02X}\n", byte));
                    } else {
                        lines.push_str(&format!("R {}\n", number));
                    }
                }
                [GRANT, b3, b2, b1, b0] => {
                    let clocks = u32::from_be_bytes([b3, b2, b1, b0]);
                    let number = model::grant(&mut device, &mut memory, &mut latches, clocks);
                    watch(&before, Call::Grant { clocks }, number, &device);
                    lines.push_str(&format!("G {}\n", number));
                }
                [MEMORY, high, low, ref bytes @ ..] if (1..=255).contains(&bytes.len()) => {
                    let mut address = word(high, low);
                    for &byte in bytes {
                        memory[usize::from(address)] = byte;
                        address = address.wrapping_add(1);
                    }
                    lines.push_str("M 0\n");
                }
                // Kind unknown or absent, or length wrong for it.
                _ => return Err(22),
            }
        }
        Ok(device.clocks)
    }

    fn word(high: u8, low: u8) -> u16 {
        u16::from_be_bytes([high, low])
    }
}

const HELP: &str = "\
usage: reference <SESSION
The second program: a model of the zxnDMA that takes every clock singly. Reads a
session of the bench program, in binary, from standard input and writes its lines
to standard output. It needs nothing; docs/src/session-bytes makes such sessions.
Exit status: 0 written, faults of the session too; 1 it can't read or write; 2 bad
arguments; 101, and no lines, a slot begins with the block finished, which no
session can bring about as long as this program keeps its rules.
";

/// Answers `--help`; without arguments it runs a session.
fn main() -> ExitCode {
    match std::env::args().nth(1).as_deref() {
        None => run_session(),
        Some("-h" | "--help") => {
            print!("{HELP}");
            ExitCode::SUCCESS
        }
        Some(_) => {
            eprintln!("reference: no argument is expected; see --help");
            ExitCode::from(2)
        }
    }
}

/// Reads a session to its end and writes its lines.
fn run_session() -> ExitCode {
    let mut input = Vec::new();
    if let Err(error) = std::io::stdin().read_to_end(&mut input) {
        eprintln!("reading the session: {}", error);
        return ExitCode::FAILURE;
    }
    let lines = session::run(&input);
    let mut output = std::io::stdout();
    if let Err(error) = output.write_all(&lines).and_then(|()| output.flush()) {
        eprintln!("writing the lines: {}", error);
        return ExitCode::FAILURE;
    }
    ExitCode::SUCCESS
}

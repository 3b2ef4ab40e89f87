//! A module: random sessions for the bench program, the same for the same seed.
//!
//! `compare.rs`, `states.rs`, `measure.rs`, `timings.rs` and the lab's tests
//! include it. Its random numbers and some of its choices serve `states.rs` for
//! devices, too.

// Each of these programs uses a part of it.
#![allow(dead_code)]
#![forbid(unsafe_code)]

// ---- Random numbers ------------------------------------------------------

/// SplitMix64: small, fast and good enough to choose by.
pub struct Rng {
    state: u64,
}

/// SplitMix64's scrambling of a number.
fn mix(number: u64) -> u64 {
    let number = (number ^ (number >> 30)).wrapping_mul(0xBF58_476D_1CE4_E5B9);
    let number = (number ^ (number >> 27)).wrapping_mul(0x94D0_49BB_1331_11EB);
    number ^ (number >> 31)
}

impl Rng {
    pub fn new(seed: u64) -> Rng {
        Rng { state: seed }
    }

    /// For one session out of a seed's many: each can be made without those
    /// before it. Scrambled, so that neighbours have nothing in common.
    pub fn numbered(seed: u64, number: u64) -> Rng {
        Rng::new(mix(mix(seed).wrapping_add(number)))
    }

    pub fn next(&mut self) -> u64 {
        self.state = self.state.wrapping_add(0x9E37_79B9_7F4A_7C15);
        mix(self.state)
    }

    /// 0 to n - 1; n is not 0.
    pub fn below(&mut self, n: u32) -> u32 {
        (self.next() % u64::from(n)) as u32
    }

    /// Both ends can come.
    pub fn between(&mut self, low: u32, high: u32) -> u32 {
        low + self.below(high - low + 1)
    }

    /// True k times in n.
    pub fn chance(&mut self, k: u32, n: u32) -> bool {
        self.below(n) < k
    }

    pub fn byte(&mut self) -> u8 {
        self.next() as u8
    }

    pub fn word(&mut self) -> u16 {
        self.next() as u16
    }

    pub fn bytes(&mut self, count: u32) -> Vec<u8> {
        (0..count).map(|_| self.byte()).collect()
    }

    pub fn pick<T: Copy>(&mut self, from: &[T]) -> T {
        from[self.below(from.len() as u32) as usize]
    }

    /// Half of them from a few, the others any.
    pub fn pick_or<T: Copy>(&mut self, few: &[T], any: fn(&mut Rng) -> T) -> T {
        if self.chance(1, 2) {
            self.pick(few)
        } else {
            any(self)
        }
    }
}

// ---- Records -------------------------------------------------------------

/// A session that is being put together, with a bound on its clocks.
pub struct Session {
    bytes: Vec<u8>,
    records: usize,
    clocks_left: u32,
}

/// A record: the length of its content, then the content, kind first.
pub fn record(content: &[u8]) -> Vec<u8> {
    let length = u16::try_from(content.len()).expect("a record's length has two bytes");
    [&length.to_be_bytes()[..], content].concat()
}

impl Session {
    /// The version byte and no record yet.
    pub fn new(clocks: u32) -> Session {
        Session { bytes: vec![1], records: 0, clocks_left: clocks }
    }

    pub fn into_bytes(self) -> Vec<u8> {
        self.bytes
    }

    fn add(&mut self, content: &[u8]) {
        self.bytes.extend(record(content));
        self.records += 1;
    }

    pub fn write(&mut self, port: u16, byte: u8) {
        let [high, low] = port.to_be_bytes();
        self.add(&[1, high, low, byte]);
    }

    pub fn read(&mut self, port: u16) {
        let [high, low] = port.to_be_bytes();
        self.add(&[2, high, low]);
    }

    /// No more clocks than the session has left: the second program takes
    /// them singly.
    pub fn grant(&mut self, clocks: u32) {
        let clocks = clocks.min(self.clocks_left);
        self.clocks_left -= clocks;
        self.add(&[&[3][..], &clocks.to_be_bytes()].concat());
    }

    /// 1 to 255 bytes.
    pub fn memory(&mut self, address: u16, bytes: &[u8]) {
        self.add(&[&[4][..], &address.to_be_bytes(), bytes].concat());
    }
}

// ---- Numbers worth trying ------------------------------------------------

/// Half of them from a few, so that blocks overlap, wrap, and meet what an
/// earlier transfer left, and an I/O write falls on the DMA's own port.
fn address(rng: &mut Rng) -> u16 {
    const FEW: [u16; 12] =
        [0, 1, 2, 0x000B, 0x006B, 0x00FF, 0x0100, 0x1000, 0x1001, 0xFF6B, 0xFFFE, 0xFFFF];
    rng.pick_or(&FEW, Rng::word)
}

/// Mostly short; some go past a byte, and some don't end. 81 would have a warning
/// as a register's byte.
fn length(rng: &mut Rng) -> u16 {
    match rng.below(16) {
        0..=5 => rng.below(6) as u16,
        6..=11 => rng.below(40) as u16,
        12 => rng.pick(&[0x00FE, 0x00FF, 0x0100, 0x0101]),
        13 => rng.between(200, 900) as u16,
        14 => rng.pick(&[0x8181, 0xFFFE, 0xFFFF]),
        _ => rng.word(),
    }
}

/// Some would have a warning if they were a register's byte or a timing.
fn prescaler(rng: &mut Rng) -> u8 {
    match rng.below(8) {
        0 => 0,
        1..=3 => 1,
        4 => rng.pick(&[2, 2, 3]),
        5 => 55,
        6 => rng.pick(&[0x81, 255]),
        _ => rng.byte(),
    }
}

/// Both right low bytes take any high byte.
fn dma_port(rng: &mut Rng, zilog: bool) -> u16 {
    let low = if zilog { 0x0B } else { 0x6B };
    let high = if rng.chance(1, 2) { 0 } else { rng.byte() };
    u16::from_be_bytes([high, low])
}

/// Near misses, or any port.
fn other_port(rng: &mut Rng) -> u16 {
    const NEAR: [u16; 10] =
        [0x006A, 0x006C, 0x000A, 0x000C, 0x002B, 0x004B, 0x00EB, 0x008B, 0x6B00, 0x0B00];
    rng.pick_or(&NEAR, Rng::word)
}

/// One less, the number, or one more.
fn near(rng: &mut Rng, number: u32) -> u32 {
    (number + rng.below(3)).saturating_sub(1)
}

/// Where ports A and B begin, for a block whose last byte is so far from its
/// first: where a pointer wraps, and at a distance at which one port comes to
/// what the other has written, or has yet to write.
pub fn places(rng: &mut Rng, far: u16) -> (u16, u16) {
    let any = address(rng);
    let within = rng.between(0, u32::from(far)) as u16;
    let a = rng.pick(&[any, within, within.wrapping_neg()]);
    let any = rng.word();
    let distance = rng.pick(&[0, 1, 1, 1, 2, 255, far, any]);
    let distance = rng.pick(&[distance, distance.wrapping_neg()]);
    (a, a.wrapping_add(distance))
}

/// Whole slots for one grant, by those left of the block and those of a block:
/// few, about the block's end, some or whole blocks more, or any up to the end.
pub fn many_slots(rng: &mut Rng, left: u32, block: u32) -> u32 {
    let block = block.max(1);
    match rng.below(10) {
        0 => rng.below(4),
        1..=3 => near(rng, left),
        4 => left + rng.below(block),
        5 => left + block * rng.between(1, 2_000 / block + 2),
        _ => rng.below(left + 1),
    }
}

/// Clocks of a slot: none, about the end of its bus time or its own, or any.
pub fn part_of_a_slot(rng: &mut Rng, bus: u32, slot: u32) -> u32 {
    let any = rng.below(slot);
    rng.pick(&[0, 0, 1, bus - 1, bus, bus + 1, slot - 1, any, any]).min(slot - 1)
}

// ---- Bytes written to the port -------------------------------------------

const RESET: u8 = 0xC3;
const DISABLE: u8 = 0x83;
const ENABLE: u8 = 0x87;
const LOAD: u8 = 0xCF;
const CONTINUE: u8 = 0xD3;
const READ_MASK: u8 = 0xBB;
const STATUS_READ: u8 = 0xBF;
/// A command that does nothing.
const NOTHING: u8 = 0xB3;

/// WR3's bits that don't matter.
const WR3_IGNORED: u8 = 0b0011_1100;

fn enable(rng: &mut Rng) -> u8 {
    let wr3 = 0xC0 | (rng.byte() & WR3_IGNORED);
    rng.pick(&[ENABLE, wr3])
}

fn disable(rng: &mut Rng) -> u8 {
    let wr3 = 0x80 | (rng.byte() & WR3_IGNORED);
    rng.pick(&[DISABLE, wr3])
}

/// BB and a mask: empty, one bit, all, any; bit 7 set in some.
fn read_mask(rng: &mut Rng) -> Vec<u8> {
    let mask = match rng.below(5) {
        0 => 0,
        1 => 1 << rng.below(7),
        2 => 0x7F,
        _ => rng.byte(),
    };
    let bit_7 = rng.pick(&[0, 0x80]);
    vec![READ_MASK, mask | bit_7]
}

/// One of the 24 bytes that select no register: 11xxxx10 or 10xxx110.
fn selects_none(rng: &mut Rng) -> u8 {
    if rng.chance(2, 3) {
        0b1100_0010 | (rng.byte() & 0b0011_1100)
    } else {
        0b1000_0110 | (rng.byte() & 0b0011_1000)
    }
}

fn command(rng: &mut Rng) -> u8 {
    match rng.below(16) {
        0..=3 => enable(rng),
        4 => disable(rng),
        5 => RESET,
        6 | 7 => LOAD,
        8 | 9 => CONTINUE,
        // Any of WR6, listed or not.
        10 => 0x83 | (rng.byte() & 0x7C),
        // The resets of timings and status, then those about reading.
        _ => rng.pick(&[0xC7, 0xCB, 0x8B, STATUS_READ, 0xA7, NOTHING]),
    }
}

/// A register's byte and those of its parameters that `wanted` has a bit for.
fn with_parameters(base: u8, first_bit: u8, wanted: u8, values: &[u8]) -> Vec<u8> {
    let mut bytes = vec![base | (wanted << first_bit)];
    let chosen = values.iter().enumerate().filter(|(n, _)| (wanted >> n) & 1 == 1);
    bytes.extend(chosen.map(|(_, value)| value));
    bytes
}

// ---- Programming sequences -----------------------------------------------

/// Port A or port B.
#[derive(Clone, Copy)]
struct Side {
    address: u16,
    io: bool,
    /// The two bits.
    step: u8,
    /// The timing byte, if one is written.
    timing: Option<u8>,
}

impl Side {
    fn random(rng: &mut Rng) -> Side {
        Side {
            address: address(rng),
            io: rng.chance(2, 5),
            step: rng.pick(&[0, 1, 1, 1, 2, 3]),
            timing: if rng.chance(3, 4) { Some(rng.byte()) } else { None },
        }
    }

    /// With a timing byte.
    fn timed(rng: &mut Rng) -> Side {
        Side { timing: Some(rng.byte()), ..Side::random(rng) }
    }

    fn cycle(&self) -> u32 {
        self.timing.map_or(4, |byte| [4, 3, 2, 4][usize::from(byte & 3)])
    }

    /// WR1 or WR2 with its parameters.
    fn register(&self, base: u8) -> Vec<u8> {
        let base = base | (u8::from(self.io) << 3) | (self.step << 4);
        let timing = self.timing.unwrap_or(0);
        with_parameters(base, 6, u8::from(self.timing.is_some()), &[timing])
    }
}

/// What a programming sequence sets up. It answers how long slots and blocks
/// take; that is right as long as the device has accepted all of it, and else
/// a guess, which is enough to choose grants by.
#[derive(Clone, Copy)]
struct Plan {
    zilog: bool,
    a_to_b: bool,
    length: u16,
    a: Side,
    b: Side,
    /// The prescaler byte, if one is written; only behind B's timing byte.
    prescaler: Option<u8>,
    /// WR4's bits 6-5.
    mode: u8,
    auto_restart: bool,
}

/// WR4's bits 6-5 for burst.
const BURST: u8 = 0b10;

/// WR0's parameters in its order: bits of `wanted` below.
const WR0_LENGTH: u8 = 0b1100;
const WR0_ALL: u8 = 0b1111;
const WR4_ALL: u8 = 0b11;

impl Plan {
    fn random(rng: &mut Rng) -> Plan {
        let mut plan = Plan {
            zilog: rng.chance(1, 3),
            a_to_b: rng.chance(1, 2),
            length: length(rng),
            a: Side::random(rng),
            b: Side::random(rng),
            prescaler: if rng.chance(1, 2) { Some(prescaler(rng)) } else { None },
            mode: rng.pick(&[0, 1, BURST, BURST, 3]),
            auto_restart: rng.chance(1, 4),
        };
        if rng.chance(1, 4) {
            // Overlapping blocks.
            plan.b.address = plan.a.address.wrapping_add(rng.below(9) as u16).wrapping_sub(4);
        }
        plan
    }

    /// A block that is soon over and leaves the bus.
    fn short(rng: &mut Rng) -> Plan {
        let length = rng.below(6) as u16;
        let prescaler = rng.pick(&[None, Some(1), Some(2)]);
        Plan { length, prescaler, auto_restart: false, ..Plan::random(rng) }
    }

    /// Slots with a wait in which the host can write and read.
    fn with_burst_waits(rng: &mut Rng) -> Plan {
        let mut plan = Plan::random(rng);
        plan.mode = BURST;
        plan.b.timing = Some(rng.byte());
        plan.prescaler = Some(prescaler(rng).max(1));
        plan.length = plan.length.max(1);
        plan
    }

    /// A block of few bytes in slots with burst waits, all of whose figures
    /// are known.
    fn with_known_waits(rng: &mut Rng) -> Plan {
        let about_a_byte = rng.between(254, 258) as u16;
        let few = rng.between(1, 6) as u16;
        let mut plan = Plan::with_known_slots(rng);
        plan.mode = BURST;
        plan.prescaler = Some(rng.pick(&[1, 1, 1, 1, 2, 3, 55]));
        plan.length =
            if plan.slot() == 32 { rng.pick(&[few, few, few, about_a_byte]) } else { few };
        plan.auto_restart = rng.chance(1, 2);
        plan
    }

    /// The most bytes there can be, or one less, in slots of 4 clocks; a few
    /// of 32.
    fn longest(rng: &mut Rng) -> Plan {
        const MOST: [(bool, u16); 4] =
            [(false, 0xFFFF), (true, 0xFFFE), (true, 0xFFFF), (true, 0xFFFF)];
        let mut plan = Plan::random(rng);
        (plan.zilog, plan.length) = rng.pick(&MOST);
        plan.a.timing = Some(2);
        plan.b.timing = Some(2);
        plan.prescaler = if rng.chance(1, 6) { Some(1) } else { None };
        plan.place(rng);
        plan
    }

    /// Slots whose length is known: all that decides on it is written.
    fn with_known_slots(rng: &mut Rng) -> Plan {
        Plan {
            a: Side::timed(rng),
            b: Side::timed(rng),
            prescaler: Some(rng.pick(&[0, 0, 1, 1, 1, 2, 55, 255])),
            mode: rng.pick(&[1, 3, BURST, BURST, BURST]),
            ..Plan::random(rng)
        }
    }

    /// A block of up to thousands of bytes, fewer in long slots; or of so many
    /// that its grants may not come to the end.
    fn many_bytes(rng: &mut Rng) -> Plan {
        let mut plan = Plan::with_known_slots(rng);
        let most = (400_000 / plan.slot()).min(6_000);
        let any = rng.word().max(1);
        let some = rng.between(most / 8, most) as u16;
        plan.length = rng.pick(&[any, some, some, some, some]);
        plan.place(rng);
        plan
    }

    /// A block of a few bytes that starts again and again.
    fn restarting(rng: &mut Rng) -> Plan {
        let mut plan = Plan::with_known_slots(rng);
        let any = rng.between(4, 40) as u16;
        let one_byte = u16::from(!plan.zilog);
        plan.length = rng.pick(&[one_byte, 1, 2, 3, any]);
        plan.auto_restart = true;
        plan.place(rng);
        plan
    }

    /// Has pointers wrap and blocks overlap, with any two steps.
    fn place(&mut self, rng: &mut Rng) {
        (self.a.address, self.b.address) = places(rng, self.length.max(1) - 1);
        for side in [&mut self.a, &mut self.b] {
            side.step = rng.pick(&[0, 0, 1, 1, 2, 3]);
        }
        if rng.chance(1, 2) {
            self.b.io = self.a.io;
        }
    }

    /// For another transfer in the same session: a new one, or the other way
    /// round between the same places, which reads back what was written.
    fn following(&self, rng: &mut Rng) -> Plan {
        if rng.chance(1, 2) {
            Plan::random(rng)
        } else {
            Plan { a_to_b: !self.a_to_b, zilog: rng.chance(1, 2), ..*self }
        }
    }

    fn bus_time(&self) -> u32 {
        self.a.cycle() + self.b.cycle()
    }

    fn slot(&self) -> u32 {
        match self.b.timing.and(self.prescaler) {
            None | Some(0) => self.bus_time(),
            Some(prescaler) => 32 * u32::from(prescaler),
        }
    }

    /// The bytes of a block.
    fn count(&self) -> u32 {
        u32::from(self.length) + u32::from(self.zilog)
    }

    /// The clocks of a block.
    fn block(&self) -> u32 {
        self.slot() * self.count()
    }

    /// About the block's clocks; of a long block only the start.
    fn about_a_block(&self, rng: &mut Rng) -> u32 {
        near(rng, self.block().min(20_000))
    }

    fn source(&self) -> Side {
        if self.a_to_b {
            self.a
        } else {
            self.b
        }
    }

    fn wr0(&self, rng: &mut Rng, wanted: u8) -> Vec<u8> {
        let base = rng.between(1, 3) as u8 | (u8::from(self.a_to_b) << 2);
        let [a_high, a_low] = self.a.address.to_be_bytes();
        let [length_high, length_low] = self.length.to_be_bytes();
        with_parameters(base, 3, wanted, &[a_low, a_high, length_low, length_high])
    }

    fn wr1(&self) -> Vec<u8> {
        self.a.register(0b100)
    }

    fn wr2(&self) -> Vec<u8> {
        // The timing byte's bit 5 says if the prescaler follows.
        let announced = u8::from(self.prescaler.is_some()) << 5;
        let timing = self.b.timing.map(|byte| (byte & !(1 << 5)) | announced);
        let mut bytes = Side { timing, ..self.b }.register(0);
        bytes.extend(timing.and(self.prescaler));
        bytes
    }

    fn wr4(&self, rng: &mut Rng, wanted: u8) -> Vec<u8> {
        let ignored = rng.byte() & 0b0001_0000;
        let [high, low] = self.b.address.to_be_bytes();
        with_parameters(0x81 | (self.mode << 5) | ignored, 2, wanted, &[low, high])
    }

    fn wr5(&self, rng: &mut Rng) -> Vec<u8> {
        let ignored = rng.byte() & 0b0001_1000;
        vec![0x82 | (u8::from(self.auto_restart) << 5) | ignored]
    }

    /// The whole sequence, in groups of a register and its parameters.
    fn groups(&self, rng: &mut Rng) -> Vec<Vec<u8>> {
        let mut groups = vec![vec![rng.pick(&[RESET, RESET, DISABLE])]];
        // WR0 in one, or once for some parameters and once for the others.
        let first = if rng.chance(1, 3) { rng.below(16) as u8 } else { WR0_ALL };
        groups.push(self.wr0(rng, first));
        if first != WR0_ALL {
            groups.push(self.wr0(rng, WR0_ALL & !first));
        }
        groups.push(self.wr1());
        groups.push(self.wr2());
        // So for WR4.
        let first = if rng.chance(1, 4) { rng.below(4) as u8 } else { WR4_ALL };
        groups.push(self.wr4(rng, first));
        if first != WR4_ALL {
            groups.push(self.wr4(rng, WR4_ALL & !first));
        }
        groups.push(self.wr5(rng));
        if rng.chance(1, 4) {
            groups.push(read_mask(rng));
        }
        groups.push(vec![LOAD]);
        groups.push(vec![enable(rng)]);
        groups
    }

    /// A change of one thing: the plan's, and the bytes that tell the device.
    fn change(&mut self, rng: &mut Rng) -> Vec<u8> {
        match rng.below(19) {
            0..=2 => {
                self.length = if rng.chance(1, 4) { 0 } else { length(rng) };
                let wanted = rng.pick(&[WR0_LENGTH, WR0_LENGTH, 0b0100, 0b1000]);
                self.wr0(rng, wanted)
            }
            3 => {
                self.a_to_b = rng.chance(1, 2);
                self.a.address = address(rng);
                let wanted = rng.below(16) as u8;
                self.wr0(rng, wanted)
            }
            4 => self.change_a(Side::random(rng)),
            5 | 6 => {
                self.prescaler = rng.pick(&[None, Some(0), Some(1), Some(2), Some(3)]);
                self.change_b(Side::random(rng))
            }
            7 => {
                let wanted = rng.pick(&[0, 0, 1, 2, 3]);
                self.change_mode(rng, wanted)
            }
            8 | 9 => self.switch_auto_restart(rng),
            10 => vec![selects_none(rng)],
            11 => read_mask(rng),
            12 => vec![STATUS_READ],
            _ => vec![command(rng)],
        }
    }

    fn change_a(&mut self, side: Side) -> Vec<u8> {
        self.a = Side { address: self.a.address, ..side };
        self.wr1()
    }

    fn change_b(&mut self, side: Side) -> Vec<u8> {
        self.b = Side { address: self.b.address, ..side };
        self.wr2()
    }

    fn change_mode(&mut self, rng: &mut Rng, wanted: u8) -> Vec<u8> {
        self.mode = rng.below(4) as u8;
        self.wr4(rng, wanted)
    }

    fn switch_auto_restart(&mut self, rng: &mut Rng) -> Vec<u8> {
        self.auto_restart = !self.auto_restart;
        self.wr5(rng)
    }

    /// As `change`, but the transfer may go on and its slots stay known: other
    /// registers for them, or another end of the block, by the device's counter.
    fn change_course(&mut self, rng: &mut Rng, counter: u16) -> Vec<u8> {
        match rng.below(10) {
            0 => {
                self.a_to_b = !self.a_to_b;
                self.wr0(rng, 0)
            }
            1 | 2 => self.change_a(Side::timed(rng)),
            3 | 4 => {
                self.prescaler = Some(rng.pick(&[0, 1, 2, 3]));
                self.change_b(Side::timed(rng))
            }
            5 => self.change_mode(rng, 0),
            6 | 7 => self.switch_auto_restart(rng),
            8 => {
                let further = rng.pick(&[0, 1, 2, 300, 3_000]);
                self.length = rng.pick(&[0, counter.wrapping_add(further)]);
                self.wr0(rng, WR0_LENGTH)
            }
            _ => {
                // Only the port, and by it the mode.
                self.zilog = !self.zilog;
                vec![NOTHING]
            }
        }
    }
}

/// Leaves out, doubles, swaps or spoils something, one to three times.
fn vary(rng: &mut Rng, groups: &mut Vec<Vec<u8>>) {
    for _ in 0..rng.between(1, 3) {
        let one = rng.below(groups.len() as u32) as usize;
        let other = rng.below(groups.len() as u32) as usize;
        match rng.below(6) {
            0 => {
                groups.remove(one);
            }
            1 => groups.insert(one, groups[one].clone()),
            2 => groups.swap(one, other),
            3 => {
                groups[one].pop();
            }
            4 => groups[one] = vec![rng.byte()],
            _ => groups.insert(one, vec![selects_none(rng)]),
        }
    }
}

// ---- Parts of a session --------------------------------------------------

/// Some bytes on the plan's port; now and then the host changes the port, and
/// with it the mode, in between, or sends a byte to another port first.
fn write_all(rng: &mut Rng, session: &mut Session, plan: &mut Plan, bytes: &[u8]) {
    for &byte in bytes {
        if rng.chance(1, 60) {
            plan.zilog = !plan.zilog;
        }
        if rng.chance(1, 80) {
            session.write(other_port(rng), byte);
        }
        session.write(dma_port(rng, plan.zilog), byte);
    }
}

/// One byte, whatever it does.
fn write_any(rng: &mut Rng, session: &mut Session, plan: &mut Plan) {
    let byte = rng.byte();
    write_all(rng, session, plan, &[byte]);
}

/// Some reads in a row; they go round the mask when there are enough.
fn read_some(rng: &mut Rng, session: &mut Session) {
    for _ in 0..rng.pick(&[1, 1, 2, 3, 7, 8, 15]) {
        let zilog = rng.chance(1, 3);
        session.read(dma_port(rng, zilog));
    }
}

/// Bytes into memory: where the source is, or anywhere.
fn fill_memory(rng: &mut Rng, session: &mut Session, plan: &Plan) {
    let start = if rng.chance(2, 3) { plan.source().address } else { address(rng) };
    let back = rng.pick(&[0, 0, 1, 20]);
    let count = match rng.below(4) {
        0 => 1,
        1 => 255,
        _ => rng.between(1, 40),
    };
    session.memory(start.wrapping_sub(back), &rng.bytes(count));
}

/// Bytes into memory wherever the source comes to in a block; into latches, if
/// it is I/O, by a transfer of them.
fn fill_source(rng: &mut Rng, session: &mut Session, plan: &Plan) {
    let source = plan.source();
    let length = if source.step > 1 { 0 } else { plan.length };
    let back = if source.step == 0 { length } else { 0 };
    let first = source.address.wrapping_sub(back);
    for place in (0..=length).step_by(255) {
        let count = u32::from(length - place) + 1;
        session.memory(first.wrapping_add(place), &rng.bytes(count.min(255)));
    }
    if source.io {
        let a = Side { address: first, io: false, step: 1, timing: Some(2) };
        let b = Side { io: true, ..a };
        let mut copy = Plan { zilog: true, a_to_b: true, length, a, b, ..*plan };
        (copy.prescaler, copy.auto_restart) = (Some(0), false);
        program(rng, session, &mut copy, false);
        session.grant(copy.block());
    }
}

/// Clocks for one grant, most of them about the ends of the plan's slots.
fn clocks(rng: &mut Rng, plan: &Plan) -> u32 {
    let slot = plan.slot();
    match rng.below(40) {
        0 => 0,
        1..=4 => rng.below(12),
        5..=10 => near(rng, plan.bus_time()),
        11..=17 => near(rng, slot),
        18..=22 => rng.below(slot),
        // Whole slots keep the place within the slot.
        23..=28 => slot * rng.between(1, 4),
        29..=32 => slot * rng.below(4) + rng.below(slot),
        33..=35 => plan.about_a_block(rng),
        36..=38 => rng.below(plan.block().min(20_000) + 20),
        _ => rng.below(100_000),
    }
}

/// A total of clocks in one to four grants.
fn grant_in_parts(rng: &mut Rng, session: &mut Session, total: u32) {
    let mut left = total;
    for _ in 0..rng.below(4) {
        let part = rng.below(left + 1);
        session.grant(part);
        left -= part;
        if rng.chance(1, 3) {
            read_some(rng, session);
        }
    }
    session.grant(left);
}

/// How far a transfer has come, as far as its plan is right.
struct Progress {
    /// Slots of the block that have begun; each moves a byte.
    begun: u32,
    /// The clocks that the running slot has left; 0 between two slots.
    rest: u32,
}

impl Progress {
    /// The rest of the running slot, whole slots, and some clocks of one more.
    fn grant(&mut self, session: &mut Session, plan: &Plan, slots: u32, over: u32) {
        session.grant(self.rest + slots * plan.slot() + over);
        self.begun += slots + u32::from(over > 0);
        self.rest = if over > 0 { plan.slot() - over } else { 0 };
        if plan.auto_restart {
            self.begun %= plan.count().max(1);
        }
    }

    /// The block has ended, and the device is disabled.
    fn is_over(&self, plan: &Plan) -> bool {
        let running = u32::from(self.rest > 0);
        !plan.auto_restart && self.begun >= plan.count() + running
    }
}

/// Where a transfer stands whose block's end is moved in its waits, as far as
/// its plan is right.
struct Course {
    counter: u32,
    /// The clocks of the running slot that have passed; 0 between two slots.
    elapsed: u32,
    enabled: bool,
}

impl Course {
    fn grant(&mut self, session: &mut Session, plan: &Plan, clocks: u32) {
        session.grant(clocks);
        let mut left = clocks;
        while self.enabled && left > 0 {
            let used = left.min(plan.slot() - self.elapsed);
            let (before, after) = (self.elapsed, self.elapsed + used);
            self.counter += u32::from(before < plan.bus_time() && after >= plan.bus_time());
            self.elapsed = after;
            left -= used;
            if after == plan.slot() {
                self.end_slot(plan);
            }
        }
    }

    fn end_slot(&mut self, plan: &Plan) {
        self.elapsed = 0;
        if self.counter >= plan.count() {
            self.enabled = plan.auto_restart && plan.count() > 0;
            self.counter = if self.enabled { 0 } else { self.counter };
        }
    }

    fn enable(&mut self, plan: &Plan) {
        self.enabled |= self.counter < plan.count();
    }

    fn disable(&mut self) {
        (self.enabled, self.elapsed) = (false, 0);
    }

    /// Into the wait of this slot or of one soon after it.
    fn go_into_a_wait(&mut self, rng: &mut Rng, session: &mut Session, plan: &Plan) {
        let (bus, slot) = (plan.bus_time(), plan.slot());
        let into = bus + rng.below(slot - bus);
        let slots = rng.below(plan.count().saturating_sub(self.counter).clamp(1, 4));
        self.grant(session, plan, slots * slot + into.saturating_sub(self.elapsed));
    }

    /// To the end of the running slot, or about there, cut anywhere.
    fn go_to_the_end(&mut self, rng: &mut Rng, session: &mut Session, plan: &Plan) {
        let (bus, slot) = (plan.bus_time(), plan.slot());
        let rest = slot - self.elapsed;
        let over = part_of_a_slot(rng, bus, slot);
        let total = rng.pick(&[rest, rest, rest - 1, rest + 1, rest + over, rest + slot + over]);
        let first = rng.pick(&[0, rest - 1, rest, total]).min(total);
        let first = if rng.chance(1, 3) { rng.below(total + 1) } else { first };
        self.grant(session, plan, first);
        if rng.chance(1, 2) {
            session.read(dma_port(rng, plan.zilog));
        }
        self.grant(session, plan, total - first);
    }
}

/// Bytes on the plan's port, and on no other.
fn write_plain(rng: &mut Rng, session: &mut Session, plan: &Plan, bytes: &[u8]) {
    for &byte in bytes {
        session.write(dma_port(rng, plan.zilog), byte);
    }
}

/// A length that makes a block of so many bytes, or of as few as there can be.
fn write_count(rng: &mut Rng, session: &mut Session, plan: &mut Plan, count: u32) {
    let before = plan.length.to_be_bytes();
    plan.length = count.saturating_sub(u32::from(plan.zilog)).min(65_535) as u16;
    let after = plan.length.to_be_bytes();
    // One byte of it is enough where the other stays.
    let wanted = match (before[0] == after[0], before[1] == after[1]) {
        (true, _) if rng.chance(1, 2) => 0b0100,
        (_, true) if rng.chance(1, 2) => 0b1000,
        _ => WR0_LENGTH,
    };
    let bytes = plan.wr0(rng, wanted);
    // The register's byte by the other port moves the end back and forth.
    let other = rng.chance(1, 6);
    session.write(dma_port(rng, plan.zilog != other), bytes[0]);
    write_plain(rng, session, plan, &bytes[1..]);
}

/// The other port, with a byte that does nothing else.
fn write_on_other_port(rng: &mut Rng, session: &mut Session, plan: &mut Plan) {
    plan.zilog = !plan.zilog;
    let byte = rng.pick(&[NOTHING, 0xC2, 0x8E]);
    write_plain(rng, session, plan, &[byte]);
}

/// Load or Continue.
fn zero_counter(rng: &mut Rng, session: &mut Session, plan: &Plan, course: &mut Course) {
    let byte = rng.pick(&[LOAD, CONTINUE]);
    write_plain(rng, session, plan, &[byte]);
    course.counter = 0;
}

/// In a wait: moves the block's end to the counter, below it or past it, or
/// the counter to 0, or changes what is to follow.
fn move_block_end(rng: &mut Rng, session: &mut Session, plan: &mut Plan, course: &mut Course) {
    let counter = course.counter;
    match rng.below(18) {
        0..=2 => write_count(rng, session, plan, counter),
        3 | 4 => {
            let count = rng.below(counter.max(1));
            write_count(rng, session, plan, count);
        }
        5 => {
            plan.zilog = false;
            write_count(rng, session, plan, 0);
            if rng.chance(1, 2) {
                zero_counter(rng, session, plan, course);
            }
        }
        6 | 7 => {
            let count = counter + rng.between(1, 3);
            write_count(rng, session, plan, count);
        }
        8 | 9 => write_on_other_port(rng, session, plan),
        10 | 11 => {
            // One more byte in Zilog mode than in zxn mode, where it ends here.
            plan.zilog = rng.chance(2, 3);
            let count = counter + u32::from(plan.zilog);
            write_count(rng, session, plan, count);
            write_on_other_port(rng, session, plan);
        }
        12 | 13 => zero_counter(rng, session, plan, course),
        14 => {
            // A block of one byte, not moved yet, which the port takes away.
            plan.zilog = true;
            zero_counter(rng, session, plan, course);
            write_count(rng, session, plan, 1);
            write_on_other_port(rng, session, plan);
        }
        15 | 16 => {
            let bytes = plan.switch_auto_restart(rng);
            write_plain(rng, session, plan, &bytes);
        }
        _ => {
            let byte = disable(rng);
            write_plain(rng, session, plan, &[byte]);
            course.disable();
        }
    }
}

/// An Enable behind a block's end: at once, or after something that gives the
/// block bytes again. If the device stays disabled, it gets another block.
fn enable_behind(rng: &mut Rng, session: &mut Session, plan: &mut Plan, course: &mut Course) {
    let byte = enable(rng);
    write_plain(rng, session, plan, &[byte]);
    course.enable(plan);
    let clocks = rng.pick(&[0, 1, plan.bus_time(), plan.slot()]);
    course.grant(session, plan, clocks);
    if course.enabled {
        return;
    }
    read_all(rng, session, plan);
    if plan.count() == 0 || rng.chance(1, 3) {
        let count = rng.between(1, 5);
        write_count(rng, session, plan, count);
    } else if rng.chance(1, 4) {
        write_on_other_port(rng, session, plan);
    }
    if rng.chance(3, 4) {
        zero_counter(rng, session, plan, course);
    }
    write_plain(rng, session, plan, &[ENABLE]);
    course.enable(plan);
}

/// All seven registers, if the bus is free.
fn read_all(rng: &mut Rng, session: &mut Session, plan: &mut Plan) {
    write_all(rng, session, plan, &[READ_MASK, 0x7F]);
    for _ in 0..7 {
        session.read(dma_port(rng, plan.zilog));
    }
}

/// In a wait: a change after which the transfer goes on, or any.
fn steer(rng: &mut Rng, session: &mut Session, plan: &mut Plan, progress: &mut Progress) {
    match rng.below(8) {
        0 => write_change(rng, session, plan),
        1 => {
            let byte = rng.pick(&[LOAD, CONTINUE]);
            write_all(rng, session, plan, &[byte]);
            progress.begun = 0;
        }
        _ => {
            let bytes = plan.change_course(rng, progress.begun as u16);
            write_all(rng, session, plan, &bytes);
        }
    }
}

/// Some grants of many slots, each of them cut anywhere in a slot. The host
/// looks at the registers; where the cut is in a burst wait, it may change them.
/// After the block's end it goes on with another.
fn run_in_cuts(rng: &mut Rng, session: &mut Session, plan: &mut Plan, mut progress: Progress) {
    for _ in 0..rng.between(2, 8) {
        let (bus, slot, count) = (plan.bus_time(), plan.slot(), plan.count());
        let left = count.saturating_sub(progress.begun);
        let slots = many_slots(rng, left, count).min(250_000 / slot);
        let over = part_of_a_slot(rng, bus, slot);
        progress.grant(session, plan, slots, over);
        read_all(rng, session, plan);
        if progress.is_over(plan) {
            let pointers = rng.pick(&[LOAD, CONTINUE]);
            write_all(rng, session, plan, &[pointers, ENABLE]);
            progress = Progress { begun: 0, rest: 0 };
        } else if plan.mode == BURST && over >= bus {
            for _ in 0..rng.below(4) {
                steer(rng, session, plan, &mut progress);
            }
        }
    }
    read_all(rng, session, plan);
}

/// The sequence, as it should be or varied.
fn program(rng: &mut Rng, session: &mut Session, plan: &mut Plan, varied: bool) {
    let mut groups = plan.groups(rng);
    if varied {
        vary(rng, &mut groups);
    }
    write_all(rng, session, plan, &groups.concat());
}

/// A write or a read that isn't for the DMA.
fn miss_port(rng: &mut Rng, session: &mut Session) {
    let port = other_port(rng);
    if rng.chance(1, 2) {
        session.write(port, rng.byte());
    } else {
        session.read(port);
    }
}

/// Writes a change; now and then its last byte, mostly a parameter, stays out.
fn write_change(rng: &mut Rng, session: &mut Session, plan: &mut Plan) {
    let mut bytes = plan.change(rng);
    if rng.chance(1, 12) {
        bytes.pop();
    }
    write_all(rng, session, plan, &bytes);
    if rng.chance(1, 3) {
        read_some(rng, session);
    }
}

/// In a wait that ends after so many clocks: a register whose timing, most often
/// 11, comes when the next slot holds the bus, and again in that slot's wait.
fn write_timing_late(rng: &mut Rng, session: &mut Session, plan: &mut Plan, left: u32) {
    let bus = plan.bus_time();
    let discouraged = rng.pick(&[0, 0b11]);
    let side = Side { timing: Some(rng.byte() | discouraged), ..Side::random(rng) };
    let bytes = if rng.chance(1, 2) { plan.change_a(side) } else { plan.change_b(side) };
    let (register, parameters) = bytes.split_at(1);
    write_all(rng, session, plan, register);
    session.grant(left + rng.below(bus));
    write_all(rng, session, plan, parameters);
    session.grant(bus);
    write_all(rng, session, plan, parameters);
}

/// Anything a host may do next, whatever the device is doing.
fn act(rng: &mut Rng, session: &mut Session, plan: &mut Plan) {
    match rng.below(20) {
        0..=6 => session.grant(clocks(rng, plan)),
        7..=10 => read_some(rng, session),
        11..=16 => write_change(rng, session, plan),
        17 => fill_memory(rng, session, plan),
        18 => miss_port(rng, session),
        _ => write_any(rng, session, plan),
    }
}

fn act_often(rng: &mut Rng, session: &mut Session, plan: &mut Plan, most: u32) {
    for _ in 0..rng.between(1, most) {
        act(rng, session, plan);
    }
}

// ---- Whole sessions ------------------------------------------------------

/// The second program takes the clocks one by one: few sessions have many.
fn clocks_of_a_session(rng: &mut Rng) -> u32 {
    if rng.chance(1, 30) {
        200_000
    } else {
        50_000
    }
}

/// One to three transfers, each programmed and run.
fn transfers(rng: &mut Rng) -> Session {
    let mut session = Session::new(clocks_of_a_session(rng));
    let mut plan = Plan::random(rng);
    for _ in 0..rng.between(1, 3) {
        fill_memory(rng, &mut session, &plan);
        let varied = rng.chance(2, 5);
        program(rng, &mut session, &mut plan, varied);
        if rng.chance(1, 2) {
            let total = plan.about_a_block(rng);
            grant_in_parts(rng, &mut session, total);
        } else {
            act_often(rng, &mut session, &mut plan, 12);
        }
        read_some(rng, &mut session);
        plan = plan.following(rng);
    }
    session
}

/// A transfer in burst, with much done in its waits.
fn burst_waits(rng: &mut Rng) -> Session {
    let mut session = Session::new(clocks_of_a_session(rng));
    let mut plan = Plan::with_burst_waits(rng);
    fill_memory(rng, &mut session, &plan);
    program(rng, &mut session, &mut plan, false);
    // Into the wait of one of the first slots.
    let left = rng.between(1, plan.slot() - plan.bus_time());
    session.grant(plan.slot() * rng.between(1, 3) - left);
    if rng.chance(1, 3) {
        write_timing_late(rng, &mut session, &mut plan, left);
    }
    for _ in 0..rng.between(1, 6) {
        write_change(rng, &mut session, &mut plan);
        if rng.chance(1, 2) {
            // Whole slots lead into a wait again.
            session.grant(plan.slot() * rng.between(1, 3));
        }
    }
    act_often(rng, &mut session, &mut plan, 16);
    read_some(rng, &mut session);
    session
}

/// Transfers in burst whose blocks' ends are moved in the waits, so that the
/// slots end, or go on, otherwise than they began.
fn moved_block_ends(rng: &mut Rng) -> Session {
    let mut session = Session::new(clocks_of_a_session(rng));
    let mut plan = Plan::with_known_waits(rng);
    fill_memory(rng, &mut session, &plan);
    program(rng, &mut session, &mut plan, false);
    let mut course = Course { counter: 0, elapsed: 0, enabled: true };
    for _ in 0..rng.between(2, 6) {
        course.go_into_a_wait(rng, &mut session, &plan);
        for _ in 0..rng.between(1, 3) {
            move_block_end(rng, &mut session, &mut plan, &mut course);
        }
        course.go_to_the_end(rng, &mut session, &plan);
        if !course.enabled {
            enable_behind(rng, &mut session, &mut plan, &mut course);
        }
    }
    read_all(rng, &mut session, &mut plan);
    session
}

/// Long blocks, or many short ones, in a few grants each.
fn long_runs(rng: &mut Rng) -> Session {
    let mut session = Session::new(1_000_000);
    for _ in 0..rng.between(1, 3) {
        let short = rng.chance(1, 3);
        let mut plan = if short { Plan::restarting(rng) } else { Plan::many_bytes(rng) };
        fill_source(rng, &mut session, &plan);
        program(rng, &mut session, &mut plan, false);
        run_in_cuts(rng, &mut session, &mut plan, Progress { begun: 0, rest: 0 });
    }
    session
}

/// A block to its end, and on from there without Load, in slots with waits:
/// the counter comes to its limit, and the mode decides where that is.
fn counter_runs_on(rng: &mut Rng) -> Session {
    let mut session = Session::new(1_000_000);
    let mut plan = Plan::longest(rng);
    plan.length -= rng.below(500) as u16;
    (plan.prescaler, plan.auto_restart) = (Some(0), false);
    fill_source(rng, &mut session, &plan);
    program(rng, &mut session, &mut plan, false);
    session.grant(plan.block() + rng.below(3));
    let begun = plan.count();
    plan.length = rng.pick(&[0xFFFE, 0xFFFF]);
    (plan.prescaler, plan.mode) = (Some(rng.pick(&[1, 2])), BURST);
    plan.auto_restart = rng.chance(1, 4);
    let registers = [plan.wr0(rng, WR0_LENGTH), plan.wr2(), plan.wr4(rng, 0), plan.wr5(rng)];
    write_all(rng, &mut session, &mut plan, &registers.concat());
    write_all(rng, &mut session, &mut plan, &[ENABLE]);
    run_in_cuts(rng, &mut session, &mut plan, Progress { begun, rest: 0 });
    session
}

/// The longest block to its end, or about there, and on from it; or two.
fn longest_block(rng: &mut Rng) -> Session {
    let mut session = Session::new(4_000_000);
    let mut plan = Plan::longest(rng);
    fill_source(rng, &mut session, &plan);
    program(rng, &mut session, &mut plan, false);
    let blocks = rng.pick(&[1, 1, 2]);
    let total = near(rng, blocks * plan.block());
    grant_in_parts(rng, &mut session, total);
    act_often(rng, &mut session, &mut plan, 40);
    read_some(rng, &mut session);
    session
}

/// Random bytes to the right ports, and anything else between them.
fn noise(rng: &mut Rng) -> Session {
    let mut session = Session::new(clocks_of_a_session(rng));
    let mut plan = Plan::random(rng);
    for _ in 0..rng.between(1, 60) {
        match rng.below(8) {
            0..=3 => write_any(rng, &mut session, &mut plan),
            4 => session.grant(rng.pick(&[0, 1, 3, 4, 8, 33, 300])),
            _ => act(rng, &mut session, &mut plan),
        }
    }
    session
}

/// So many records that neither they nor their lines fit a pipe.
fn long(rng: &mut Rng) -> Session {
    let mut session = Session::new(300_000);
    let records = rng.between(14_000, 40_000) as usize;
    while session.records < records {
        let mut plan = Plan::short(rng);
        program(rng, &mut session, &mut plan, false);
        grant_in_parts(rng, &mut session, plan.block());
        read_some(rng, &mut session);
        if rng.chance(1, 20) {
            miss_port(rng, &mut session);
        }
    }
    session
}

/// Any session without a fault.
fn faultless(rng: &mut Rng) -> Session {
    match rng.below(1_000) {
        0..=9 => longest_block(rng),
        10..=14 => long(rng),
        15..=24 => counter_runs_on(rng),
        25..=124 => long_runs(rng),
        125..=249 => noise(rng),
        250..=504 => burst_waits(rng),
        505..=564 => moved_block_ends(rng),
        _ => transfers(rng),
    }
}

// ---- Faults --------------------------------------------------------------

/// A length for the content of a record: about the kind's right ones, or far
/// from them.
fn any_length(rng: &mut Rng, kind: u8) -> u32 {
    let limits = match kind {
        1 => [4, 4],
        2 => [3, 3],
        3 => [5, 5],
        4 => [4, 258],
        _ => [1, 5],
    };
    match rng.below(10) {
        0..=5 => {
            let limit = rng.pick(&limits);
            near(rng, limit).max(1)
        }
        6 => rng.between(1, 7),
        7 => rng.between(8, 300),
        8 => rng.between(1_000, 9_000),
        _ => 65_535,
    }
}

/// A record with a kind that there is or isn't, and a length that may be
/// right for it.
fn any_record(rng: &mut Rng) -> Vec<u8> {
    let unknown = rng.between(5, 255) as u8;
    let kind = rng.pick(&[1, 2, 3, 4, 4, 4, 0, 5, 255, unknown]);
    let length = any_length(rng, kind);
    let mut content = rng.bytes(length);
    content[0] = kind;
    if kind == 3 {
        // A grant, should the length be right or be made so: of few clocks.
        content.iter_mut().skip(1).take(3).for_each(|byte| *byte = 0);
    }
    record(&content)
}

/// Keeps one byte at least, and of more than one not all.
fn cut(rng: &mut Rng, bytes: &mut Vec<u8>) {
    // Near the start as often as anywhere, for long records too.
    let most = rng.pick(&[bytes.len(), bytes.len().min(8)]) as u32;
    bytes.truncate(rng.between(1, most.max(2) - 1) as usize);
}

/// What stands behind a fault, which ends the session whatever it is.
fn behind(rng: &mut Rng) -> Vec<u8> {
    match rng.below(3) {
        0 => Vec::new(),
        1 => {
            let count = rng.between(1, 40);
            rng.bytes(count)
        }
        _ => transfers(rng).into_bytes().split_off(1),
    }
}

/// Nothing at all, or a first byte that isn't 1.
fn wrong_version(rng: &mut Rng) -> Vec<u8> {
    let mut bytes = faultless(rng).into_bytes();
    bytes[0] = rng.pick(&[0, 2, 3, 0x81, 255]);
    let kept = rng.pick(&[0, 1, 2, 3, bytes.len()]);
    bytes.truncate(kept);
    bytes
}

/// A record that is cut short, empty, or perhaps wrong; with something behind
/// it, except where that would make up for the cut.
fn fault(rng: &mut Rng) -> Vec<u8> {
    let mut bytes = if rng.chance(1, 8) { record(&[]) } else { any_record(rng) };
    if rng.chance(2, 5) {
        cut(rng, &mut bytes);
    } else {
        bytes.extend(behind(rng));
    }
    bytes
}

/// Some right records or none, then a fault.
fn faulty(rng: &mut Rng) -> Vec<u8> {
    let before = if rng.chance(1, 4) { Session::new(0) } else { faultless(rng) };
    let mut bytes = before.into_bytes();
    if rng.chance(1, 8) {
        // Cut anywhere in them: mostly within a record.
        cut(rng, &mut bytes);
    } else {
        bytes.extend(fault(rng));
    }
    bytes
}

/// One session. Its clocks are mostly below 50,000, in some up to a million,
/// rarely some millions.
pub fn session(rng: &mut Rng) -> Vec<u8> {
    match rng.below(100) {
        0..=2 => wrong_version(rng),
        3..=16 => faulty(rng),
        _ => faultless(rng).into_bytes(),
    }
}

// ---- Bytes for measuring -------------------------------------------------

/// Bytes to be written: every register with all parameters and every command,
/// other numbers in each round. The Enable finds the length 0: else the next
/// write would be refused.
pub fn register_bytes(count: usize) -> impl Iterator<Item = u8> {
    let round = |n: u32| {
        let [_, high, middle, low] = (n * 7).to_be_bytes();
        let registers = [0x7D, low, middle, low, high, 0x54, low, 0x50, 0x22, low];
        let more = [0xCD, middle, low, 0xA2, 0xCF, 0xD3, 0xBB, low, 0x8B, 0xBF, 0xA7, 0xB3];
        let ending = [0x65, 0x00, 0x00, 0x87, 0x83, 0xC7, 0xCB, 0xC3];
        registers.into_iter().chain(more).chain(ending)
    };
    (0..).flat_map(round).take(count)
}

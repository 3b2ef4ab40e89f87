//! A module: the clocks of `stepping.rs`, taken together, in plain Rust.
//!
//! A grant goes to the end of the running slot, then through all slots that end
//! within it, block after block, then into the slot after them. What it costs
//! depends on the bytes that it moves and not on its clocks. A byte of a slot
//! that is cut, and the end of such a slot, are those of `stepping.rs`.
//!
//! Every byte moves, and in order, however the blocks overlap. The states are
//! valid ones: an enabled device whose next byte has not moved has not finished
//! its block.
//!
//! A program includes it beside `stepping.rs`, as `measure.rs` does.

#![forbid(unsafe_code)]

use super::stepping::clock::{Bytes, Port, Slot, State};

/// The clocks of a grant.
pub fn grant(state: &mut State, memory: &mut Bytes, latches: &mut Bytes, clocks: u32) {
    let mut left = clocks;
    if state.slot.elapsed > 0 {
        left -= running_slot(state, memory, latches, left);
    }
    if state.enabled && left > 0 {
        left -= whole_slots(state, memory, latches, left);
    }
    if state.enabled && left > 0 {
        state.slot = state.new_slot();
        left -= running_slot(state, memory, latches, left);
    }
    state.clocks.cpu += u64::from(left);
}

/// Goes on with a slot, at most to its end. Gives the clocks used.
fn running_slot(state: &mut State, memory: &mut Bytes, latches: &mut Bytes, clocks: u32) -> u32 {
    let slot = state.slot;
    let used = clocks.min(u32::from(slot.length - slot.elapsed));
    let bus_left = u32::from(slot.bus.saturating_sub(slot.elapsed));
    count(state, &slot, used.min(bus_left), used.saturating_sub(bus_left));
    if bus_left > 0 && used >= bus_left {
        state.move_byte(memory, latches);
    }
    state.slot.elapsed += used as u16;
    if state.slot.elapsed == slot.length {
        state.end_slot();
    }
    used
}

/// Takes the slots that end within these clocks, while there are bytes to move.
/// The device is enabled, and no slot is running. Gives the clocks used.
fn whole_slots(state: &mut State, memory: &mut Bytes, latches: &mut Bytes, clocks: u32) -> u32 {
    let slot = state.new_slot();
    let length = u32::from(slot.length);
    let slots = move_blocks(state, memory, latches, clocks / length);
    let bus = slots * u32::from(slot.bus);
    count(state, &slot, bus, slots * length - bus);
    slots * length
}

/// Counts clocks of slots: those on the bus and those of the wait.
fn count(state: &mut State, slot: &Slot, bus: u32, wait: u32) {
    let clocks = &mut state.clocks;
    clocks.bus += u64::from(bus);
    let waiting = if slot.burst { &mut clocks.cpu } else { &mut clocks.held };
    *waiting += u64::from(wait);
}

/// Source and destination.
fn ends(state: &mut State) -> (&mut Port, &mut Port) {
    if state.control.forward {
        (&mut state.a, &mut state.b)
    } else {
        (&mut state.b, &mut state.a)
    }
}

/// What a port's step adds to its pointer, modulo 65,536.
fn step(port: &Port) -> u16 {
    match port.step {
        0 => 0xFFFF,
        1 => 1,
        _ => 0,
    }
}

/// The bytes of so many whole slots, or of fewer if the last block ends before.
/// Gives how many.
fn move_blocks(state: &mut State, memory: &mut Bytes, latches: &mut Bytes, slots: u32) -> u32 {
    let (source, destination) = ends(state);
    match (source.io, destination.io) {
        (false, false) => run_blocks(state, slots, |from, to| memory[to] = memory[from]),
        (false, true) => run_blocks(state, slots, |from, to| latches[to] = memory[from]),
        (true, false) => run_blocks(state, slots, |from, to| memory[to] = latches[from]),
        (true, true) => run_blocks(state, slots, |from, to| latches[to] = latches[from]),
    }
}

/// The compiler makes loops of their own for each way to move a byte. Pointers
/// and counter are in registers, and 16-bit addresses need no check. A fixed
/// step is a number that it does not know: for a destination known to be fixed
/// it would leave out every byte but the last, and a port takes them all.
fn run_blocks(state: &mut State, slots: u32, mut move_byte: impl FnMut(usize, usize)) -> u32 {
    let (count, restart) = (state.block_count(), state.control.restart);
    let (mut counter, mut left) = (state.block.counter, slots);
    let (source, destination) = ends(state);
    let (from_step, to_step) = (step(source), step(destination));
    let (mut from, mut to) = (source.pointer, destination.pointer);
    let mut ended = false;
    loop {
        let run = left.min(count - counter);
        if from_step == 1 && to_step == 1 && run >= LONG {
            (from, to) = move_up(from, to, run, &mut move_byte);
        } else {
            for _ in 0..run {
                move_byte(usize::from(from), usize::from(to));
                from = from.wrapping_add(from_step);
                to = to.wrapping_add(to_step);
            }
        }
        left -= run;
        counter += run;
        if counter < count {
            break;
        }
        ended = true;
        if !restart {
            break;
        }
        (from, to, counter) = (source.address, destination.address, 0);
    }
    (source.pointer, destination.pointer) = (from, to);
    state.block.counter = counter;
    state.t |= left < slots;
    state.e &= !ended;
    state.enabled = restart || !ended;
    slots - left
}

/// From so many bytes on it pays to look for the places where pointers wrap.
const LONG: u32 = 32;

/// Both pointers go up, in parts in which neither wraps. Bytes move in order
/// here too; where source and destination do not overlap, the compiler takes
/// several at once. (Downwards that was slower than the plain loop.)
fn move_up(from: u16, to: u16, run: u32, move_byte: &mut impl FnMut(usize, usize)) -> (u16, u16) {
    let (mut from, mut to, mut left) = (from, to, run as usize);
    while left > 0 {
        let (first, second) = (usize::from(from), usize::from(to));
        let part = left.min(65_536 - first).min(65_536 - second);
        for k in 0..part {
            move_byte(first + k, second + k);
        }
        // A part of 65,536 bytes leaves both where they are.
        from = from.wrapping_add(part as u16);
        to = to.wrapping_add(part as u16);
        left -= part;
    }
    (from, to)
}

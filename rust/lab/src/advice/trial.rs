//! When a device frees the bus: the library is asked, with buffers that nobody
//! else sees.

use crate::trace::passed;
use zxndma::{Device, BUFFER_LENGTH};

/// The refusal of a device that holds the bus.
pub const BUS_HELD: u8 = 3;
const DMA_PORT: u16 = 0x6B;
/// Clocks of the longest block: 65,536 slots of the longest wait.
const LONGEST_BLOCK: u32 = 65_536 * 8_160;

/// When the bus is free.
#[derive(Clone, Copy)]
pub enum Freed {
    At(u64),
    Never,
}

/// Buffers to try clocks on: when they pass doesn't depend on the bytes.
pub struct Trial {
    memory: Vec<u8>,
    latches: Vec<u8>,
}

impl Default for Trial {
    fn default() -> Trial {
        Trial { memory: vec![0; BUFFER_LENGTH], latches: vec![0; BUFFER_LENGTH] }
    }
}

impl Trial {
    fn grant(&mut self, device: Device, clocks: u32) -> Device {
        device.grant(&mut self.memory, &mut self.latches, clocks).device
    }

    /// The clock with which the bus becomes free; if it is free, the last one.
    pub fn freed(&mut self, device: Device) -> Freed {
        let holds = |device: Device| device.read(DMA_PORT).number == BUS_HELD;
        if !holds(device) {
            return Freed::At(passed(&device.clocks));
        }
        // One clock, since the first one of a slot shows its bus time.
        let begun = self.grant(device, 1);
        let slot = begun.core.slot;
        let moved = self.grant(begun, u32::from(slot.bus.saturating_sub(slot.elapsed)));
        if !holds(moved) {
            return Freed::At(passed(&moved.clocks));
        }
        // As long as the bus is held no register changes: it is held to the
        // block's end, and all clocks after that are the processor's.
        if device.core.control.restart {
            return Freed::Never;
        }
        let ended = self.grant(moved, LONGEST_BLOCK);
        Freed::At(passed(&ended.clocks) - (ended.clocks.cpu - moved.clocks.cpu))
    }
}

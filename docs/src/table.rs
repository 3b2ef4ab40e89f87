//! A module: a host's table of devices, one of which is lent to calls in place.
//!
//! A call may change the device that it is lent, and no other one. `states.rs`
//! includes it.

#![forbid(unsafe_code)]

use crate::zxndma::Device;

/// The places of a table.
pub const PLACES: [&str; 3] = ["first", "middle", "last"];

/// The devices of a table, with one more before the first and one behind the
/// last, so that each place has neighbours.
pub type Devices = [Device; PLACES.len() + 2];

#[derive(Clone)]
pub struct Table {
    devices: Devices,
    /// What stands at each place but the one of the device that is lent.
    others: Devices,
    /// That device's place among all of them.
    place: usize,
    /// How often it has been lent there.
    calls: u64,
    /// How many devices have been put into the table.
    put: u64,
}

impl Table {
    /// Of these devices, none of which is lent yet. The first one that is goes
    /// behind this place.
    pub fn of(others: Devices, place: usize) -> Table {
        Table { devices: others, others, place: 1 + place, calls: 0, put: 0 }
    }

    /// This device, to be changed where it stands. Only if it doesn't stand there
    /// it is put into the table, at the next place.
    pub fn lend(&mut self, device: Device) -> &mut Device {
        if self.devices[self.place] != device {
            self.put(device);
        }
        self.calls += 1;
        &mut self.devices[self.place]
    }

    fn put(&mut self, device: Device) {
        self.place = 1 + self.place % PLACES.len();
        self.devices = self.others;
        self.devices[self.place] = device;
        self.calls = 0;
        self.put += 1;
    }

    /// The place of the device that was lent last, as a number of `PLACES`.
    pub fn place(&self) -> usize {
        self.place - 1
    }

    /// How often it has been lent there.
    pub fn calls(&self) -> u64 {
        self.calls
    }

    /// Every device but that one is as it was, or which one is not.
    pub fn others_stay(&self) -> Result<(), String> {
        let changed = |place: &usize| self.devices[*place] != self.others[*place];
        let mut places = 0..self.devices.len();
        match places.find(|place| *place != self.place && changed(place)) {
            None => Ok(()),
            Some(place) => Err(self.difference(place)),
        }
    }

    /// What another place held, and what it holds.
    fn difference(&self, place: usize) -> String {
        let side = if place < self.place { "before" } else { "behind" };
        format!(
            "the {} device of the table was lent, and the one {} {} it changes\n\
             was:     {:?}\nbecomes: {:?}",
            PLACES[self.place()],
            place.abs_diff(self.place),
            side,
            self.others[place],
            self.devices[place]
        )
    }

    /// All calls were lent the same device, which was put there once.
    pub fn device_stayed(&self) -> Result<(), String> {
        if self.put == 1 {
            return Ok(());
        }
        Err(format!("the device does not stay at its place: {} were put there", self.put))
    }
}

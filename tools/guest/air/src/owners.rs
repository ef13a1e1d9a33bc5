//! Which radio acknowledges what comes to an address.
//!
//! The kernel tells the addresses of a radio's interfaces, but for those of monitors. An access point may have an active
//! monitor for each of its networks. So a radio also has each address by which it sends beacons, as long as they come.

use std::collections::BTreeMap;

use crate::frame::{Address, Kind};
use crate::rules::Radio;

/// After so many nanoseconds without a beacon its sender's address is forgotten. Beacons come some ten times a second.
/// An access point that is begun anew leaves them out for a second or two.
pub const FORGOTTEN_AFTER: u64 = 5_000_000_000;

/// An address of which the kernel told, and how often. It tells of an interface, and again of the address by which that
/// one scans, which may be the same.
#[derive(Debug)]
struct Told {
    radio: Radio,
    times: u32,
}

/// An address by which a radio sent a beacon, and until when it is the radio's if no other beacon comes.
#[derive(Debug)]
struct Learned {
    radio: Radio,
    until: u64,
}

/// The addresses of all radios.
#[derive(Debug, Default)]
pub struct Owners {
    told: BTreeMap<Address, Told>,
    learned: BTreeMap<Address, Learned>,
}

impl Owners {
    /// The kernel tells that a radio has an address.
    pub fn give(&mut self, radio: Radio, address: Address) {
        let told = self.told.entry(address).or_insert(Told { radio, times: 0 });
        let times = if told.radio == radio { told.times + 1 } else { 1 };
        *told = Told { radio, times };
    }

    /// It tells that the radio has it no more: that holds if it is told as often as that the radio has it.
    pub fn take(&mut self, radio: Radio, address: Address) {
        match self.told.get_mut(&address) {
            Some(told) if told.radio == radio && told.times > 1 => told.times -= 1,
            Some(told) if told.radio == radio => {
                self.told.remove(&address);
                self.learned.remove(&address);
            }
            _ => {}
        }
    }

    /// A radio sent a frame by an address, at this time in nanoseconds. A beacon makes the address the radio's.
    pub fn learn(&mut self, radio: Radio, address: Address, kind: Kind, now: u64) {
        if kind == Kind::Beacon {
            self.learned.insert(address, Learned { radio, until: now.saturating_add(FORGOTTEN_AFTER) });
        }
    }

    /// Whose address it is at this time: what the kernel tells holds before what was learned.
    pub fn of(&self, address: Address, now: u64) -> Option<Radio> {
        let learned = || self.learned.get(&address).filter(|learned| now <= learned.until).map(|learned| learned.radio);
        self.told.get(&address).map(|told| told.radio).or_else(learned)
    }
}

#[cfg(test)]
mod tests {
    use super::*;

    const BSSID: Address = [2, 0, 0, 0, 1, 1];

    #[test]
    fn an_address_is_taken_as_often_as_it_was_given() {
        let mut owners = Owners::default();
        owners.give(Radio(1), BSSID);
        owners.give(Radio(1), BSSID);
        owners.take(Radio(2), BSSID);
        owners.take(Radio(1), BSSID);
        assert_eq!(owners.of(BSSID, 0), Some(Radio(1)));
        owners.take(Radio(1), BSSID);
        assert_eq!(owners.of(BSSID, 0), None);
    }

    #[test]
    fn beacons_alone_name_an_address_of_their_radio() {
        let mut owners = Owners::default();
        for kind in [Kind::Association, Kind::Authentication, Kind::Data, Kind::Null, Kind::Probe, Kind::Other] {
            owners.learn(Radio(1), BSSID, kind, 0);
            assert_eq!(owners.of(BSSID, 0), None, "{kind}");
        }
        owners.learn(Radio(1), BSSID, Kind::Beacon, 0);
        assert_eq!(owners.of(BSSID, 0), Some(Radio(1)));
    }

    #[test]
    fn each_beacon_names_it_anew() {
        let mut owners = Owners::default();
        for now in [0, FORGOTTEN_AFTER, 2 * FORGOTTEN_AFTER] {
            owners.learn(Radio(1), BSSID, Kind::Beacon, now);
            assert_eq!(owners.of(BSSID, now + FORGOTTEN_AFTER), Some(Radio(1)));
        }
        assert_eq!(owners.of(BSSID, 3 * FORGOTTEN_AFTER + 1), None);
    }

    #[test]
    fn the_radio_whose_beacon_came_last_has_it() {
        let mut owners = Owners::default();
        owners.learn(Radio(1), BSSID, Kind::Beacon, 0);
        owners.learn(Radio(2), BSSID, Kind::Beacon, 1);
        assert_eq!(owners.of(BSSID, 1), Some(Radio(2)));
    }

    #[test]
    fn what_the_kernel_tells_holds_before_any_beacon() {
        let mut owners = Owners::default();
        owners.give(Radio(1), BSSID);
        owners.learn(Radio(2), BSSID, Kind::Beacon, 0);
        assert_eq!(owners.of(BSSID, 0), Some(Radio(1)));
        owners.take(Radio(1), BSSID);
        assert_eq!(owners.of(BSSID, 0), None);
    }
}

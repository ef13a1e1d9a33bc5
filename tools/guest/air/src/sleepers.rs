//! Radios of stations that doze: what such a radio hears, and so acknowledges (IEEE Std 802.11-2016, 11.2.3).
//!
//! A radio dozes from the moment at which a frame of its own, of type Data and for a network, was acknowledged with Power
//! Management 1. It is awake from its next frame of that kind with Power Management 0 on, heard or not. It is awake too
//! from each frame by which it joins or leaves a network. While it dozes it hears, of its network:
//!
//! - beacons
//! - what follows a DTIM beacon that says that units for groups follow, up to one of these units with More Data 0
//! - what follows its own PS-Poll, up to one frame of data for it
//!
//! A beacon that tells of no more units for groups, or of none for the station that polled, ends such a wait too. A
//! lost frame ends no wait. By the word `hear` dozing radios hear all, as those of the kernel's simulation do.

use std::collections::BTreeMap;
use std::str::FromStr;

use crate::frame::{self, Address, Kind};
use crate::rules::Radio;
use crate::tim::{Aid, Tim};

/// Whether radios that doze hear all the same.
#[derive(Clone, Copy, Debug, Default, PartialEq, Eq)]
pub enum Ears {
    #[default]
    Hear,
    Deaf,
}

impl FromStr for Ears {
    type Err = String;

    fn from_str(word: &str) -> Result<Ears, String> {
        match word {
            "hear" => Ok(Ears::Hear),
            "deaf" => Ok(Ears::Deaf),
            _ => Err(format!("no sleeper does what `{word}` says")),
        }
    }
}

/// The station of a radio that dozes.
#[derive(Debug)]
struct Sleeper {
    station: Address,
    network: Address,
    /// Units for groups follow the last beacon.
    awaits_groups: bool,
    /// It polled by this identifier, and no answer came.
    polled: Option<Aid>,
}

impl Sleeper {
    fn is_awake(&self) -> bool {
        self.awaits_groups || self.polled.is_some()
    }

    /// It heard a beacon of its network.
    fn look_at(&mut self, beacon: &[u8]) {
        let tim = Tim::of_beacon(beacon);
        self.awaits_groups = tim.map_or(false, |tim| tim.is_followed_by_groups());
        self.polled = self.polled.filter(|aid| tim.map_or(false, |tim| tim.has(*aid)));
    }
}

/// The radios that doze.
#[derive(Debug, Default)]
pub struct Sleepers {
    ears: Ears,
    dozing: BTreeMap<Radio, Sleeper>,
}

impl Sleepers {
    /// From now on radios that doze hear all, or what a sleeper hears.
    pub fn set_ears(&mut self, ears: Ears) {
        self.ears = ears;
    }

    /// Whether a radio hears a frame that is sent now.
    pub fn hears(&self, radio: Radio, octets: &[u8]) -> bool {
        let is_beacon_of = |network| Kind::of(octets) == Kind::Beacon && frame::transmitter(octets) == Some(network);
        let sleeper = self.dozing.get(&radio).filter(|_| self.ears == Ears::Deaf);
        sleeper.map_or(true, |sleeper| sleeper.is_awake() || is_beacon_of(sleeper.network))
    }

    /// A radio heard a frame.
    pub fn heard(&mut self, radio: Radio, octets: &[u8]) {
        let sleeper = self.dozing.get_mut(&radio);
        let sleeper = match sleeper {
            Some(sleeper) if frame::transmitter(octets) == Some(sleeper.network) => sleeper,
            _ => return,
        };
        let receiver = frame::receiver(octets);
        match Kind::of(octets) {
            Kind::Beacon => sleeper.look_at(octets),
            Kind::Data | Kind::Null if receiver == Some(sleeper.station) => sleeper.polled = None,
            Kind::Data if receiver.map_or(false, frame::is_group) && !frame::has_more_data(octets) => {
                sleeper.awaits_groups = false;
            }
            _ => {}
        }
    }

    /// A radio sent a frame by an address of its own, and it was acknowledged or not.
    pub fn sent(&mut self, radio: Radio, octets: &[u8], was_acknowledged: bool) {
        match Kind::of(octets) {
            Kind::Data | Kind::Null if frame::is_to_network(octets) => {
                if !frame::has_power_management(octets) {
                    self.dozing.remove(&radio);
                } else if was_acknowledged {
                    self.doze(radio, octets);
                }
            }
            Kind::PsPoll => {
                if let Some(sleeper) = self.dozing.get_mut(&radio) {
                    sleeper.polled = frame::identifier(octets).map(Aid);
                }
            }
            Kind::Authentication | Kind::Association | Kind::Leaving => {
                self.dozing.remove(&radio);
            }
            _ => {}
        }
    }

    /// A radio lost an address.
    pub fn forget(&mut self, radio: Radio, address: Address) {
        if self.dozing.get(&radio).map_or(false, |sleeper| sleeper.station == address) {
            self.dozing.remove(&radio);
        }
    }

    /// A frame that says so lets a radio doze, if it doesn't already.
    fn doze(&mut self, radio: Radio, octets: &[u8]) {
        if let (Some(network), Some(station)) = (frame::receiver(octets), frame::transmitter(octets)) {
            let is_same = |sleeper: &Sleeper| (sleeper.network, sleeper.station) == (network, station);
            if !self.dozing.get(&radio).map_or(false, is_same) {
                let sleeper = Sleeper { station, network, awaits_groups: false, polled: None };
                self.dozing.insert(radio, sleeper);
            }
        }
    }
}

#[cfg(test)]
#[path = "sleepers_test.rs"]
mod tests;

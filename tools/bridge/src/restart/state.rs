//! The state that a bridge leaves for the next one, and whether that uses it. Nothing is timed, opened or written here.
use std::collections::HashSet;
use std::fmt;

use crate::formats::frames::Address;
use crate::network::Network;
use crate::os::clock::{Duration, Instant};
use crate::stations::station::KeptStation;

/// A state that is older isn't used: its stations have noticed that nobody answered.
const MOST_AGE: Duration = Duration::from_secs(60);

/// Of which radio a state is, and how that was served.
#[derive(Debug, Clone, PartialEq, Eq)]
pub struct Setting {
    pub phy: String,
    pub channel: u8,
    /// The beacon interval in time units.
    pub interval: u16,
}

#[derive(Debug, Clone, PartialEq, Eq)]
pub struct NetworkState {
    pub bssid: Address,
    pub ssid: Vec<u8>,
    /// Its rates, as the octets of its elements.
    pub rates: Vec<u8>,
    /// How many units it kept, if the program has said so at its end.
    pub units: Option<u64>,
    /// For how many stations it kept units when its last beacon was sent.
    pub waiting: usize,
    /// The stations that are associated with it, in the order of their identifiers.
    pub stations: Vec<KeptStation>,
}

/// What a bridge leaves for the next one.
#[derive(Debug, Clone, PartialEq, Eq)]
pub struct State {
    pub setting: Setting,
    /// When it was written, by the clock that nobody sets and that goes on while the machine is suspended: its age is
    /// what stations have noticed.
    pub written: Instant,
    /// Whether the bridge wrote it at its end: then all in it is as it was then.
    pub is_last: bool,
    pub networks: Vec<NetworkState>,
}

/// Why a state isn't used.
#[derive(Debug, Clone, Copy, PartialEq, Eq)]
pub enum NotUsed {
    /// It isn't whole, or says what can't be.
    Damaged,
    /// It was written more than a minute ago.
    Old,
    /// It is of another radio.
    OtherRadio,
    /// The channel, the beacon interval or each of the networks differs.
    OtherConfiguration,
}

impl fmt::Display for NotUsed {
    fn fmt(&self, to: &mut fmt::Formatter<'_>) -> fmt::Result {
        to.write_str(match self {
            NotUsed::Damaged => "it is damaged",
            NotUsed::Old => "it is older than a minute",
            NotUsed::OtherRadio => "it is of another radio",
            NotUsed::OtherConfiguration => "it is of another configuration",
        })
    }
}

impl NetworkState {
    /// Whether no two stations have one address or one identifier, and these ascend.
    pub(super) fn is_possible(&self) -> bool {
        let addresses: HashSet<Address> = self.stations.iter().map(|kept| kept.address).collect();
        let ascends = self.stations.windows(2).all(|pair| pair[0].aid < pair[1].aid);
        ascends && addresses.len() == self.stations.len()
    }

    /// What is told of units that the network kept: they are lost with the program that kept them.
    pub fn lost_units(&self) -> Option<String> {
        let NetworkState { bssid, units, waiting, .. } = self;
        match units {
            Some(0) => None,
            Some(units) => Some(format!("{units} units that {bssid} kept for stations are lost")),
            None if *waiting > 0 => Some(format!("the units that {bssid} kept for {waiting} stations are lost")),
            None => None,
        }
    }

    /// Whether a network is still this one to its stations.
    pub fn is(&self, network: &Network) -> bool {
        (self.bssid, &self.ssid, &self.rates) == (network.bssid, &network.ssid, &network.rates)
    }
}

/// The newest whole state of these texts, of which an empty one is none, with its place, if it is to be used for a
/// radio that is served so.
pub fn choose(texts: &[Vec<u8>], setting: &Setting, now: Instant) -> Result<Option<(usize, State)>, NotUsed> {
    if texts.iter().all(Vec::is_empty) {
        return Ok(None);
    }
    let whole = texts.iter().enumerate().filter_map(|(place, text)| Some((place, State::read(text)?)));
    let (place, state) = whole.max_by_key(|(_, state)| state.written).ok_or(NotUsed::Damaged)?;
    match () {
        () if state.setting.phy != setting.phy => Err(NotUsed::OtherRadio),
        () if !(state.written..=state.written + MOST_AGE).contains(&now) => Err(NotUsed::Old),
        () if state.setting != *setting => Err(NotUsed::OtherConfiguration),
        () => Ok(Some((place, state))),
    }
}

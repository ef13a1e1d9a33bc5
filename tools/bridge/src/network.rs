//! A network, as the bridge is told of it.
use crate::formats::frames::Address;

const BASIC: u8 = 0x80;

/// What the bridge knows of a network.
#[derive(Debug, Clone, PartialEq, Eq)]
pub struct Network {
    pub bssid: Address,
    pub ssid: Vec<u8>,
    /// Its rates, as the octets of its elements: units of 500 kb/s, with the highest bit if a rate is basic.
    pub rates: Vec<u8>,
    /// How many stations are associated with it at most.
    pub max_stations: u16,
    /// How many stations it knows at most.
    pub max_known: u16,
    /// How many units it keeps for stations that doze, at most.
    pub quota: u32,
    /// The interface of its wire, if it has one.
    pub wire: Option<String>,
    /// Whether it sends on what its stations send to each other.
    pub relays: bool,
    /// Its share of the air, as a part of all networks' shares: from 1 to `air::MOST_WEIGHT`.
    pub weight: u8,
}

/// The places of networks by their addresses. There are sixteen at most, and nobody else chooses their addresses: to
/// compare them takes less time than to hash one.
#[derive(Debug, Default)]
pub struct Places(Vec<Address>);

impl Places {
    /// Those of networks with these addresses, in their order.
    pub fn new(bssids: impl IntoIterator<Item = Address>) -> Places {
        Places(bssids.into_iter().collect())
    }

    /// The place of the network with this address; `None` if none has it.
    pub fn of(&self, bssid: &Address) -> Option<usize> {
        self.0.iter().position(|other| other == bssid)
    }
}

impl Network {
    /// Its lowest basic rate, or its lowest if none is basic, in units of 500 kb/s.
    pub fn lowest_basic_rate(&self) -> u8 {
        let basic = self.rates.iter().filter(|rate| **rate & BASIC != 0).map(|rate| rate & !BASIC).min();
        basic.or_else(|| self.rates.iter().copied().min()).unwrap_or(2)
    }
}

#[cfg(test)]
mod tests {
    use super::*;
    use crate::testing::samples::{OTHER, OURS, STATION};

    #[test]
    fn each_network_has_its_place() {
        let places = Places::new([OURS, OTHER]);
        assert_eq!([OURS, OTHER, STATION].map(|address| places.of(&address)), [Some(0), Some(1), None]);
    }
}

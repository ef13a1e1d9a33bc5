//! The queue of the beacons that wait, apart from all other frames. That nothing else goes while one waits is said in
//! `dequeue`, and `monitor` has a socket for them alone.
use std::collections::VecDeque;

use super::Transmitter;
use crate::outbound::air::account::Unsent;
use crate::outbound::air::scheduler::Place;

/// So many beacons of a network wait at most: older ones are worth nothing beside them.
const MOST_OF_NETWORK: usize = 2;

/// The beacons that wait, as packets, with the networks that send them.
#[derive(Debug, Default)]
pub struct BeaconQueue {
    packets: VecDeque<(Place, Vec<u8>)>,
}

impl BeaconQueue {
    /// A beacon waits. If too many of its network do, their oldest is dropped; answers whether one was.
    fn push(&mut self, place: Place, packet: Vec<u8>) -> bool {
        let mut of_network = self.packets.iter().enumerate().filter(|(_, (sender, _))| *sender == place);
        let oldest = of_network.next().map(|(number, _)| number);
        let dropped = oldest.filter(|_| of_network.count() + 1 >= MOST_OF_NETWORK);
        if let Some(number) = dropped {
            self.packets.remove(number);
        }
        self.packets.push_back((place, packet));
        dropped.is_some()
    }

    pub fn is_empty(&self) -> bool {
        self.packets.is_empty()
    }
}

impl Transmitter {
    /// A beacon waits. One that is dropped for it is counted.
    pub(super) fn push_beacon(&mut self, place: Place, packet: Vec<u8>) {
        if self.beacons.push(place, packet) {
            self.queue.accounts[place].count_unsent(Unsent::Full);
        }
    }

    pub fn has_beacons(&self) -> bool {
        !self.beacons.is_empty()
    }

    /// The beacons that wait, as packets, in their order.
    pub fn beacons(&self) -> impl Iterator<Item = &[u8]> {
        self.beacons.packets.iter().map(|(_, packet)| packet.as_slice())
    }

    /// The radio was given the first so many of the beacons.
    pub fn gave_beacons(&mut self, number: usize) {
        self.sent += self.beacons.packets.drain(..number).count() as u64;
    }

    /// The interface refused the first beacon: it is dropped. Answers how many octets its packet had.
    pub fn refused_beacon(&mut self) -> usize {
        self.beacons.packets.pop_front().map_or(0, |(_, packet)| packet.len())
    }
}

//! What the program has the networks send waits here, and goes to the interfaces: by the radio's `monitor` as `air`
//! says, and by each `wire` in order, many frames a call, and no longer than is worth it.
pub mod air;
mod counts;
pub mod monitor;
mod wire;

use crate::control::faults::Fault;
use crate::formats::frames::{is_tagged, Address, Frame};
use crate::formats::radiotap::Outcome;
use crate::network::{Network, Places};
use crate::os::clock::Instant;
use crate::os::gate::Gate;
use crate::os::interfaces::Interfaces;
use crate::os::port::Port;
use crate::outbound::air::links::Unacknowledged;
use crate::outbound::air::scheduler::Place;
use crate::outbound::air::Transmitter;
use crate::outbound::counts::{count, Counts};
use crate::outbound::monitor::MonitorSender;
use crate::outbound::wire::WireQueue;

/// What waits to be sent of all networks, on the air and by their wires.
#[derive(Debug)]
pub struct Outbound {
    pub air: Transmitter,
    monitor: MonitorSender,
    /// Of each network.
    wires: Vec<WireQueue>,
    networks: Vec<Network>,
    pub places: Places,
    counts: Counts,
}

impl Outbound {
    /// Nothing waits of these networks.
    pub fn new(networks: Vec<Network>) -> Outbound {
        Outbound {
            air: Transmitter::new(&networks),
            monitor: MonitorSender::default(),
            wires: networks.iter().map(|_| WireQueue::default()).collect(),
            places: Places::new(networks.iter().map(|network| network.bssid)),
            networks,
            counts: Counts::new(),
        }
    }

    /// What was sent, and what wasn't.
    pub fn counts(&self) -> Counts {
        let mut counts = self.counts.clone();
        self.monitor.refused.add_to(&mut counts);
        for (network, queue) in self.networks.iter().zip(&self.wires) {
            network.wire.iter().for_each(|interface| queue.count_unsent(interface, &mut counts));
        }
        let Unacknowledged { again, lost } = self.air.unacknowledged();
        let of_wires = self.wires.iter().map(|queue| queue.sent).sum();
        for (what, number) in [
            ("sent on the air", self.air.sent),
            ("sent on the wires", of_wires),
            ("sent once more, since no acknowledgement came", again),
            ("never acknowledged", lost),
        ] {
            if number > 0 {
                count(&mut counts, what, number);
            }
        }
        for (network, account) in self.networks.iter().zip(self.air.accounts()) {
            for (why, number) in &account.unsent {
                count(&mut counts, &format!("of {} not sent on the air: {why}", network.bssid), *number);
            }
        }
        counts
    }

    /// Whether nothing waits for any interface, nor for its room.
    pub fn is_idle<P: Port>(&self, interfaces: &Interfaces<P>) -> bool {
        let is_settled = interfaces.wires.iter().flatten().all(Gate::is_settled);
        monitor::is_idle(&self.air, interfaces) && is_settled && self.wires.iter().all(WireQueue::is_empty)
    }

    /// Whether something waits for an interface that has room.
    pub fn has_room<P: Port>(&self, interfaces: &Interfaces<P>) -> bool {
        let has_room = |wire: &Option<Gate<P>>| wire.as_ref().map_or(false, |gate| !gate.is_blocked());
        let mut wires = self.wires.iter().zip(&interfaces.wires);
        monitor::has_room(&self.air, interfaces) || wires.any(|(queue, wire)| !queue.is_empty() && has_room(wire))
    }

    /// A network sends a frame on the air; a fault if there is no such network.
    pub fn send_on_air(&mut self, bssid: Address, octets: Vec<u8>, now: Instant) -> Result<(), Fault> {
        let place = self.place(bssid)?;
        self.air.send(place, octets, now);
        Ok(())
    }

    /// The network of this place sends a frame on its wire.
    pub fn send_on_wire(&mut self, place: Place, octets: Vec<u8>, now: Instant) {
        if self.networks[place].wire.is_none() {
            count(&mut self.counts, "lost, of networks without --wire", 1);
        } else if is_tagged(&octets) {
            count(&mut self.counts, "not sent, since they have a VLAN's tag", 1);
        } else {
            self.wires[place].push(octets, now);
        }
    }

    /// The place of the network of which the program says something; a fault if there is no such network.
    pub fn place(&self, bssid: Address) -> Result<Place, Fault> {
        let unknown = || Fault::WrongAnswer("the program answered for a network that it doesn't have".to_owned());
        self.places.of(&bssid).ok_or_else(unknown)
    }

    /// The radio shows a frame that it sent, with what became of it.
    pub fn reported(&mut self, frame: &[u8], outcome: Outcome, now: Instant) {
        let sender = Frame::of(frame).and_then(|frame| frame.transmitter());
        if let Some(place) = sender.and_then(|sender| self.places.of(&sender)) {
            self.air.reported(place, frame, outcome, now);
        }
    }

    /// If the radio tells nothing of frames, its socket says whether it has some still.
    pub fn look<P: Port>(&mut self, interfaces: &Interfaces<P>, now: Instant) {
        if !self.air.tells_outcomes() {
            monitor::look(&mut self.air, interfaces, now);
        }
    }

    /// A frame goes on to the program that was heard on the air.
    pub fn heard(&mut self, frame: Frame<'_>) {
        if let Some(place) = self.places.of(&frame.receiver()) {
            self.air.heard(place, frame);
        }
    }

    /// The time is this: what was waited for on the air in vain is waited for no more.
    pub fn expire<P: Port>(&mut self, interfaces: &Interfaces<P>, now: Instant) {
        monitor::expire(&mut self.air, interfaces, now);
    }

    pub fn flush_beacons<P: Port>(&mut self, interfaces: &mut Interfaces<P>) {
        self.monitor.flush_beacons(&mut self.air, interfaces);
    }

    /// Sends what waits, as far as there is room and until it is that time.
    pub fn flush<P: Port>(&mut self, interfaces: &mut Interfaces<P>, now: Instant, until: Instant) {
        self.monitor.flush(&mut self.air, interfaces, now, until);
        for (queue, wire) in self.wires.iter_mut().zip(&mut interfaces.wires) {
            wire.iter_mut().for_each(|gate| queue.flush(gate, now, until));
        }
    }
}

#[cfg(test)]
#[path = "outbound_test.rs"]
mod tests;

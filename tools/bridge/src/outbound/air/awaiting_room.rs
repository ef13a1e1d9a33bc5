//! Frames that had their turn (`dequeue`): they wait until the radio's socket has room for them.

use crate::inbound::frame::LONGEST;
use crate::os::clock::{Duration, Instant};
use crate::outbound::air::account::Unsent;
use crate::outbound::air::handing_back::unit_of;
use crate::outbound::air::in_flight::FrameName;
use crate::outbound::air::{Interface, Transmitter};

/// Of how many frames that were sent the room is kept for those that come.
const MOST_SPARE: usize = 8;

impl Transmitter {
    /// The frames that had their turn, as packets, in their order.
    pub fn awaiting_room(&self) -> impl Iterator<Item = &[u8]> {
        self.awaiting_room.iter().map(|(_, packet)| packet.as_slice())
    }

    /// The radio was given the first so many of these frames.
    pub fn gave(&mut self, number: usize) {
        self.spare.extend(self.awaiting_room.drain(..number).map(|(_, packet)| packet));
        self.spare.truncate(MOST_SPARE);
        self.sent += number as u64;
    }

    /// The interface refused the first of these frames: it is dropped. Answers how many octets its packet had.
    pub fn refused(&mut self, now: Instant) -> usize {
        match self.awaiting_room.pop_front() {
            Some((name, packet)) => {
                self.lose(name, &packet, Unsent::Refused, now);
                packet.len()
            }
            None => 0,
        }
    }

    /// The interface is down: what is to be sent waits.
    pub fn went_down(&mut self) {
        self.interface = Interface::Down;
    }

    /// The interface is up again after so long. What the radio had before is lost. What had its turn before is dropped
    /// if it waited too long meanwhile; what waits for its turn is looked at when that comes.
    pub fn came_up(&mut self, after: Duration, now: Instant) {
        self.interface = Interface::Up;
        let awaiting_room = &self.awaiting_room;
        let lost = self.in_flight.take_lost(|name| awaiting_room.iter().any(|(waiting, _)| *waiting == name));
        self.was_reset(lost, now);
        if after > LONGEST {
            for (name, packet) in std::mem::take(&mut self.awaiting_room) {
                self.lose(name, &packet, Unsent::Late, now);
                self.spare.push(packet);
            }
            self.spare.truncate(MOST_SPARE);
        }
    }

    /// A frame that had its turn is dropped: the radio never gets it. A unit whose station dozes goes back instead.
    fn lose(&mut self, name: FrameName, packet: &[u8], why: Unsent, now: Instant) {
        let FrameName { place, receiver, .. } = name;
        let sent = self.in_flight.forget(name);
        // One that `in_flight` has forgotten had its turn long ago, and still waited for room.
        let may_go_back = sent.map_or(true, |sent| self.queue.never_went(place, sent.receiver, sent.ticket));
        let unit = unit_of(packet).filter(|_| may_go_back);
        let goes_back = unit.map_or(false, |unit| self.hand_back_late(place, receiver, &unit, now));
        if !goes_back {
            self.queue.accounts[name.place].count_unsent(why);
        }
        self.release(name.place, name.receiver);
    }
}

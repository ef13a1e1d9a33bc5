//! A frame comes: what it is, and for which receiver it waits.
use std::rc::Rc;

use super::Transmitter;
use crate::formats::frames::{Address, Frame, BEACON};
use crate::formats::radiotap::sending_header;
use crate::os::clock::Instant;
use crate::outbound::air::account::Unsent;
use crate::outbound::air::frame::{FrameKind, OutboundFrame, Receiver, PROBE_RESPONSE};
use crate::outbound::air::proved_queues::Change;
use crate::outbound::air::queue::Returned;
use crate::outbound::air::scheduler::Place;
use crate::outbound::air::sleeping::Mode;
use crate::outbound::air::station_requests::accepts;
use crate::stations::meaning::{from_network, FromNetwork};

impl Transmitter {
    /// A network sends a frame, at this time.
    pub fn send(&mut self, place: Place, octets: Vec<u8>, now: Instant) {
        let (address, kind) = match Frame::of(&octets) {
            Some(frame) => (frame.receiver(), FrameKind::of(frame)),
            None => (Address::BROADCAST, FrameKind::Word),
        };
        if octets.first() == Some(&BEACON) {
            self.follows_dtim[place] = announces_group_units(&octets);
            let rate = self.links.lowest(place);
            return self.push_beacon(place, [&sending_header(rate, 0)[..], &octets].concat());
        }
        let is_unasked = octets.first() == Some(&PROBE_RESPONSE) && !self.links.answers(place, address);
        let kind = if is_unasked { FrameKind::AnswerToAll } else { kind };
        if accepts(&octets) {
            self.join(place, address, now);
        }
        let follows_dtim = self.follow_dtim(place, &octets, kind);
        let frame = OutboundFrame { octets: Rc::new(octets), address, kind, since: now };
        match kind {
            FrameKind::Unit => self.push_unit(place, frame, now),
            _ => self.push(place, frame, now),
        }
        self.hand_back_without_room(now);
        if follows_dtim {
            self.queue.scheduler.hurry(place, Receiver::Groups);
        }
    }

    /// Whether a frame is one of the units for the group that follow a beacon: all but the last have More Data 1.
    fn follow_dtim(&mut self, place: Place, octets: &[u8], kind: FrameKind) -> bool {
        let follows = self.follows_dtim[place] && kind == FrameKind::GroupUnit;
        self.follows_dtim[place] = follows && Frame::of(octets).map_or(false, |frame| frame.more_data());
        follows
    }

    /// A unit waits for its station, goes back if that dozes and didn't poll, or is dropped if that left.
    fn push_unit(&mut self, place: Place, frame: OutboundFrame, now: Instant) {
        let address = frame.address;
        let mode = self.sleepers.mode(place, address);
        let kind = match mode {
            Mode::Wakes => FrameKind::Kept,
            Mode::Dozes => FrameKind::PollAnswer,
            Mode::Awake | Mode::FallsAsleep | Mode::Leaves => FrameKind::Unit,
        };
        let frame = OutboundFrame { kind, ..frame };
        if mode == Mode::Wakes {
            return self.queue.push_kept(place, frame, now);
        }
        if mode == Mode::Dozes {
            self.sleepers.was_sent(place, address);
        }
        if mode == Mode::Leaves && !self.queue.knows(place, address) {
            return self.queue.accounts[place].count_unsent(Unsent::Left);
        }
        match self.queue.push(place, Receiver::Station(address), frame, now) {
            Some(Returned { frame, goes_back: true }) => self.hand_back_unsent(place, frame, now),
            // The program knows by now that the station left: it has it again.
            Some(Returned { frame, goes_back: false }) if mode == Mode::Awake => {
                self.queue.change(place, address, Change::Joins);
                self.push(place, frame, now);
            }
            Some(Returned { goes_back: false, .. }) => self.queue.accounts[place].count_unsent(Unsent::Left),
            None if mode == Mode::Dozes => self.queue.scheduler.hurry(place, Receiver::Station(address)),
            None => {}
        }
    }

    /// A unit came for a station that dozes, and goes back: once it is known what else does, or at once.
    fn hand_back_unsent(&mut self, place: Place, frame: OutboundFrame, now: Instant) {
        let station = frame.address;
        if self.sleepers.mode(place, station) != Mode::FallsAsleep {
            self.hand_back_late(place, station, &frame.octets, now);
        } else if !self.sleepers.goes_back(place, station, frame.octets) {
            self.queue.accounts[place].count_unsent(Unsent::Full);
        }
    }

    /// The bridge sends a frame of its own for a network, behind what waits for its receiver.
    pub fn send_own(&mut self, place: Place, octets: Vec<u8>, retries: u8, now: Instant) {
        let address = Frame::of(&octets).map_or(Address::BROADCAST, |frame| frame.receiver());
        let kind = FrameKind::Own { retries };
        self.push(place, OutboundFrame { octets: Rc::new(octets), address, kind, since: now }, now);
        self.hand_back_without_room(now);
    }

    /// A station is associated: what waits for it among the others' frames goes before what comes for it from now on.
    pub(super) fn join(&mut self, place: Place, address: Address, now: Instant) {
        self.links.join(place, address);
        if !self.is_asleep(place, address) {
            self.queue.change(place, address, Change::Joins);
        }
        self.queue.drop_notices(place, address);
        self.queue.join(place, address, now);
        self.release(place, address);
    }

    /// In which queue of its network a frame waits: all for one receiver in one, so that none overtakes another.
    fn receiver_of(&self, place: Place, frame: &OutboundFrame) -> Receiver {
        let station = Receiver::Station(frame.address);
        let is_unit = frame.kind.is_unit();
        if frame.address.is_group() {
            Receiver::Groups
        } else if is_unit
            || accepts(&frame.octets)
            || self.links.knows(place, frame.address)
            || self.queue.scheduler.waiting(place, station) > 0
        {
            station
        } else {
            Receiver::Others
        }
    }

    fn push(&mut self, place: Place, frame: OutboundFrame, now: Instant) {
        let receiver = self.receiver_of(place, &frame);
        let frame = match (receiver, frame.kind) {
            (Receiver::Others, FrameKind::Word) => {
                return self.queue.push_notice(place, OutboundFrame { kind: FrameKind::Notice, ..frame });
            }
            (Receiver::Others, FrameKind::Answer) => {
                self.queue.drop_notices(place, frame.address);
                frame
            }
            _ => frame,
        };
        let returned = self.queue.push(place, receiver, frame, now);
        debug_assert!(returned.is_none(), "only units go back");
    }
}

fn announces_group_units(beacon: &[u8]) -> bool {
    let said = Frame::of(beacon).and_then(from_network);
    matches!(said, Some(FromNetwork::Beacon(tim)) if tim.dtim_count == 0 && tim.has_group_units)
}

//! What the frames that pass show of stations: those that are heard, that the radio has sent, that the program is given,
//! and that it answers.
use super::table::StationTable;
use crate::formats::frames::Frame;
use crate::formats::radiotap::{Outcome, Reception};
use crate::os::clock::Instant;
use crate::stations::joining::essentials;
use crate::stations::meaning::{from_network, from_station, FromNetwork, FromStation, Tim};
use crate::stations::news::News;
use crate::stations::station::{Member, Move, State};

impl StationTable {
    /// A frame was heard that is for a network. Answers whether the frame before it said another mode of its station, or
    /// the last frame that the program was given.
    pub fn heard(&mut self, frame: Frame<'_>, reception: Reception, now: Instant) -> bool {
        let member = match self.sender(frame) {
            Some(member) => member,
            None => return false,
        };
        let bssid = self.bssids[member.0];
        match self.station_mut(&member) {
            Some(station) => {
                (station.heard, station.frame_heard) = (now, now);
                station.signal = reception.signal.or(station.signal);
                station.from.rate = reception.rate.or(station.from.rate);
                match from_station(frame, bssid) {
                    Some(FromStation::Data { dozes, .. }) => {
                        std::mem::replace(&mut station.will_doze, dozes) != dozes || station.dozes != dozes
                    }
                    _ => false,
                }
            }
            None => false,
        }
    }

    /// The radio tells what became of a frame that it was given.
    pub fn reported(&mut self, frame: &[u8], outcome: Outcome, is_unit: bool, now: Instant) {
        let member = Frame::of(frame).and_then(|frame| self.receiver(frame));
        if let Some(station) = member.and_then(|member| self.station_mut(&member)) {
            if outcome.is_acknowledged {
                station.heard = now;
            }
            if is_unit {
                station.to.rate = outcome.rate.or(station.to.rate);
            }
        }
    }

    /// The station that dozes, as the program knows it, until it is given this frame.
    pub fn woken_by(&self, octets: &[u8]) -> Option<Member> {
        let (member, said) = self.said_dozing(Frame::of(octets)?)?;
        matches!(said, FromStation::Data { dozes: false, .. }).then_some(member)
    }

    /// The station that dozes, as the program knows it, and polls by this frame.
    pub fn polled_by(&self, octets: &[u8]) -> Option<Member> {
        let (member, said) = self.said_dozing(Frame::of(octets).filter(Frame::is_ps_poll)?)?;
        (said == FromStation::Poll).then_some(member)
    }

    /// What a station says by this frame that dozes, as the program knows it.
    fn said_dozing(&self, frame: Frame<'_>) -> Option<(Member, FromStation)> {
        let member = self.sender(frame)?;
        let dozes = self.station(&member).map_or(false, |station| station.dozes);
        let said = from_station(frame, self.bssids[member.0]).filter(|_| dozes)?;
        Some((member, said))
    }

    /// A poll of a station isn't given to the program: it polled all the same what it was told of.
    pub fn ignored_poll(&mut self, member: Member) {
        if let Some(State::Associated(aid)) = self.station(&member).map(|station| station.state) {
            self.told_of[member.0].remove(&aid);
        }
    }

    /// A frame of the air is said to the program.
    pub fn fed(&mut self, octets: &[u8], now: Instant) {
        let found = Frame::of(octets).and_then(|frame| {
            let member = self.sender(frame)?;
            Some((member, from_station(frame, self.bssids[member.0])?))
        });
        if let Some((member, what)) = found {
            self.take_fed(member, what, octets, now);
        }
    }

    fn take_fed(&mut self, member: Member, what: FromStation, octets: &[u8], now: Instant) {
        let station = match self.stations[member.0].get_mut(&member.1) {
            Some(station) => station,
            None => return,
        };
        match (what, station.state) {
            (FromStation::Association { listen }, _) => {
                station.wanted_listen = listen;
                station.asks_by = Some(essentials(octets));
                station.joins_dozing = false;
            }
            (FromStation::Disassociation { reason }, State::Associated(_)) => {
                self.set_state(member, State::Authenticated, now);
                self.news.push((member, News::Leaves { reason }));
                self.moves.push((member, Move::Leaves));
            }
            (FromStation::Deauthentication { reason }, state) => {
                let was_leaving = station.is_leaving;
                self.take_out(member);
                if matches!(state, State::Associated(_)) {
                    self.moves.push((member, Move::Leaves));
                }
                if !was_leaving {
                    self.news.push((member, News::Leaves { reason }));
                }
            }
            (FromStation::Data { dozes, .. }, State::Authenticated) => station.joins_dozing = dozes,
            (FromStation::Data { dozes, is_unit }, State::Associated(aid)) => {
                if dozes != station.dozes {
                    self.moves.push((member, if dozes { Move::Dozes } else { Move::Wakes }));
                }
                (station.dozes, station.joins_dozing) = (dozes, dozes);
                if dozes && !station.has_dozed {
                    station.has_dozed = true;
                    self.changes += 1;
                }
                if is_unit {
                    station.from.count(octets.len());
                }
                self.told_of[member.0].remove(&aid);
            }
            (FromStation::Poll, State::Associated(aid)) => {
                if station.dozes {
                    self.moves.push((member, Move::Polls));
                }
                self.told_of[member.0].remove(&aid);
            }
            _ => {}
        }
    }

    /// The program has a network send a frame; answers what a beacon says.
    pub fn answered(&mut self, place: usize, octets: &[u8], now: Instant) -> Option<Tim> {
        let frame = Frame::of(octets)?;
        let member = (place, frame.receiver());
        match from_network(frame)? {
            FromNetwork::Authentication { status: 0 } => self.authenticate(member, now),
            FromNetwork::Authentication { status } => self.refuse(member, status, false),
            FromNetwork::Association { status: 0, aid } => self.associate(member, aid, now),
            FromNetwork::Association { status, .. } => {
                self.station_mut(&member).and_then(|station| station.asks_by.take());
                self.refuse(member, status, true);
            }
            FromNetwork::SentAway { reason } => {
                self.news.push((member, News::SentAway { reason }));
                if self.station(&member).is_some() {
                    self.moves.push((member, Move::Left));
                }
            }
            FromNetwork::Unit => {
                if let Some(station) = self.stations[member.0].get_mut(&member.1) {
                    station.to.count(octets.len());
                }
            }
            FromNetwork::Beacon(tim) => {
                self.count_beacon(place, &tim);
                return Some(tim);
            }
        }
        None
    }

    fn sender(&self, frame: Frame<'_>) -> Option<Member> {
        Some((self.places.of(&frame.receiver())?, frame.transmitter()?))
    }

    fn receiver(&self, frame: Frame<'_>) -> Option<Member> {
        Some((self.places.of(&frame.transmitter()?)?, frame.receiver()))
    }

    /// Counts for how many beacons in a row units are told of; a station for which they are told of for more beacons
    /// than its listen interval dozes too long (9.4.1.6).
    fn count_beacon(&mut self, place: usize, tim: &Tim) {
        if tim.aids.is_empty() && self.told_of[place].is_empty() {
            return;
        }
        let before = std::mem::take(&mut self.told_of[place]);
        for aid in &tim.aids {
            let beacons = before.get(aid).map_or(1, |number| number.saturating_add(1));
            self.told_of[place].insert(*aid, beacons);
            let member = self.associated.get(&(place, *aid)).map(|address| (place, *address));
            let listen = member.and_then(|member| self.station(&member)).map(|station| station.listen);
            if let Some((member, listen)) = member.zip(listen).filter(|(_, listen)| beacons == u32::from(*listen) + 1) {
                self.news.push((member, News::DozesTooLong { beacons, listen }));
            }
        }
    }
}

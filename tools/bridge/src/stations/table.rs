//! The stations that the networks know, as the frames that pass show them (`observing`); the program isn't asked.
//!
//! A station is entered if the program answers its authentication with status 0, and taken out if its
//! deauthentication is said to the program. So the table holds every station that the program knows, and for a moment
//! may hold one more: if an answer was on its way while the station left.
use std::collections::{BTreeMap, BTreeSet, HashMap};
use std::ops::Bound;

use crate::apctl::tables::Row;
use crate::formats::frames::{Address, AddressMap};
use crate::network::Places;
use crate::os::clock::Instant;
use crate::stations::news::{Forgotten, News};
use crate::stations::station::{Asked, KeptStation, Member, Move, State, Station, Traffic};

/// Of how many stations of a network it is looked at in one piece whether the program's table has them: the others'
/// turn comes behind the next tables. In an ordinary run the program tells by a frame of each that is gone.
const MOST_COMPARED: usize = 1000;

/// Where a station stands among those of its network: those that are associated first, each in the order in which they
/// were entered.
#[derive(Debug, Default, Clone, Copy, PartialEq, Eq, PartialOrd, Ord)]
struct Rank {
    is_unassociated: bool,
    turn: u64,
}

impl Rank {
    fn of(station: &Station) -> Rank {
        Rank { is_unassociated: !station.is_associated(), turn: station.turn }
    }
}

/// The program's table of a network, as it comes.
#[derive(Debug, Default, Clone, Copy)]
struct Listing {
    /// Its number, by which it is known which stations it has.
    number: u64,
    /// The turn of the last station that was entered before it.
    last_turn: u64,
    /// The last station that was looked at, if others stand behind it.
    compared: Rank,
}

/// The stations of all networks.
#[derive(Debug, Default)]
pub struct StationTable {
    pub(super) bssids: Vec<Address>,
    pub(super) places: Places,
    /// Of each network.
    pub(super) stations: Vec<AddressMap<Station>>,
    pub(super) associated: HashMap<(usize, u16), Address>,
    /// Of each network its stations in their order.
    ranks: Vec<BTreeMap<Rank, Address>>,
    /// Of each network those that are authenticated only, by since when they are.
    unassociated: Vec<BTreeSet<(Instant, Address)>>,
    /// Of each network, for how many beacons in a row units were told of, by the station's identifier.
    pub(super) told_of: Vec<BTreeMap<u16, u32>>,
    /// How often each network refused, by status.
    pub refusals: Vec<BTreeMap<u16, u64>>,
    entered: Vec<Member>,
    left: Vec<(Member, Instant)>,
    pub(super) news: Vec<(Member, News)>,
    pub(super) moves: Vec<(Member, Move)>,
    turns: u64,
    /// Of each network the program's table that came last.
    listings: Vec<Listing>,
    /// How often the stations changed that are associated, or what a new program has to know of them.
    pub changes: u64,
}

impl StationTable {
    /// No stations of these networks.
    pub fn new(bssids: Vec<Address>) -> StationTable {
        StationTable {
            places: Places::new(bssids.iter().copied()),
            stations: bssids.iter().map(|_| AddressMap::default()).collect(),
            ranks: vec![BTreeMap::new(); bssids.len()],
            unassociated: vec![BTreeSet::new(); bssids.len()],
            told_of: vec![BTreeMap::new(); bssids.len()],
            refusals: vec![BTreeMap::new(); bssids.len()],
            listings: vec![Listing::default(); bssids.len()],
            bssids,
            ..StationTable::default()
        }
    }

    /// A station that joined before the program began anew: it is associated, by this request, and nothing is told of
    /// it.
    pub fn restore(&mut self, member: Member, kept: &KeptStation, now: Instant) {
        self.authenticate(member, now);
        self.set_state(member, State::Associated(kept.aid), now);
        if let Some(station) = self.stations[member.0].get_mut(&member.1) {
            station.listen = kept.listen;
            (station.dozes, station.will_doze) = (kept.dozes, kept.dozes);
            station.has_dozed = kept.dozes || kept.has_dozed;
            station.joined_by = Some(kept.request.clone());
        }
    }

    /// What a new program has to know of the stations that are associated with a network, in the order of their
    /// identifiers.
    pub fn kept(&self, place: usize) -> Vec<KeptStation> {
        let stations = self.associated_of(place).filter(|(_, station)| !station.is_leaving);
        let mut found: Vec<KeptStation> = stations
            .filter_map(|(address, station)| {
                let (aid, request) = match (station.state, &station.joined_by) {
                    (State::Associated(aid), Some(request)) => (aid, request.clone()),
                    _ => return None,
                };
                let Station { listen, dozes, has_dozed, .. } = *station;
                Some(KeptStation { address, aid, listen, dozes, has_dozed, request })
            })
            .collect();
        found.sort_by_key(|kept| kept.aid);
        found
    }

    /// For how many stations of a network units were kept when its last beacon was sent.
    pub fn told_of(&self, place: usize) -> usize {
        self.told_of[place].len()
    }

    /// A station is to be forgotten: the program is about to be told that it left. One that is authenticated only is so
    /// from now on, should it stay all the same.
    pub fn forget(&mut self, member: Member, why: Forgotten, now: Instant) {
        if self.station(&member).map(|station| station.state) == Some(State::Authenticated) {
            self.set_state(member, State::Authenticated, now);
        }
        if let Some(station) = self.stations[member.0].get_mut(&member.1) {
            station.leaving_since = now;
            if !station.is_leaving {
                station.is_leaving = true;
                self.news.push((member, News::Forgotten(why)));
            }
        }
    }

    /// What a row of the program's tables says: a network knows this station, or no others than those before.
    pub fn agree(&mut self, row: Row, now: Instant) {
        match row {
            Row::Begin { place } => {
                self.listings[place].number += 1;
                self.listings[place].last_turn = self.turns;
            }
            Row::Station { place, address, state } => {
                let number = self.listings[place].number;
                if !self.stations[place].contains_key(&address) {
                    self.authenticate((place, address), now);
                    self.set_state((place, address), state, now);
                }
                self.station_mut(&(place, address)).into_iter().for_each(|station| station.listed_in = number);
            }
            Row::End { place } => self.take_unlisted_out(place),
        }
    }

    /// Takes stations out that the program's last table of a network hasn't, of those whose turn it is to be looked at.
    /// One that was entered since that table began isn't in doubt.
    fn take_unlisted_out(&mut self, place: usize) {
        let Listing { number, last_turn, compared } = self.listings[place];
        let next = self.ranks[place].range((Bound::Excluded(compared), Bound::Unbounded)).take(MOST_COMPARED);
        let next: Vec<(Rank, Address)> = next.map(|(rank, address)| (*rank, *address)).collect();
        let last = next.last().filter(|_| next.len() == MOST_COMPARED);
        self.listings[place].compared = last.map_or(Rank::default(), |(rank, _)| *rank);
        let is_gone = |station: &Station| station.listed_in < number && station.turn <= last_turn;
        for member in next.into_iter().map(|(_, address)| (place, address)) {
            if self.station(&member).map_or(false, is_gone) {
                self.take_out(member);
                self.moves.push((member, Move::Left));
            }
        }
    }

    pub fn station(&self, member: &Member) -> Option<&Station> {
        self.stations[member.0].get(&member.1)
    }

    pub(super) fn station_mut(&mut self, member: &Member) -> Option<&mut Station> {
        self.stations[member.0].get_mut(&member.1)
    }

    /// A station, of which it is to be noted whether it was asked.
    pub fn asked(&mut self, member: &Member) -> Option<&mut Asked> {
        self.station_mut(member).map(|station| &mut station.asked)
    }

    /// The stations of a network: those that are associated first, each in the order in which they were entered.
    pub fn stations_of(&self, place: usize) -> impl Iterator<Item = (Address, &Station)> {
        let stations = &self.stations[place];
        self.ranks[place].values().filter_map(|address| Some((*address, stations.get(address)?)))
    }

    /// Those of a network that are associated, in the same order.
    pub fn associated_of(&self, place: usize) -> impl Iterator<Item = (Address, &Station)> {
        self.stations_of(place).take_while(|(_, station)| station.is_associated())
    }

    /// How many stations a network knows.
    pub fn known(&self, place: usize) -> usize {
        self.stations[place].len()
    }

    /// The stations of a network that are authenticated only, with since when they are: the earliest first.
    pub fn unassociated(&self, place: usize) -> impl Iterator<Item = (Instant, Address)> + '_ {
        self.unassociated[place].iter().copied()
    }

    /// The stations that were entered since this was asked last.
    pub(super) fn take_entered(&mut self) -> Vec<Member> {
        std::mem::take(&mut self.entered)
    }

    /// The stations that were taken out since this was asked last, with when each was to be looked at.
    pub(super) fn take_left(&mut self) -> Vec<(Member, Instant)> {
        std::mem::take(&mut self.left)
    }

    /// Something is told of a station.
    pub(super) fn tell(&mut self, member: Member, news: News) {
        self.news.push((member, news));
    }

    /// What happened since this was asked last.
    pub(super) fn take_news(&mut self) -> Vec<(Member, News)> {
        std::mem::take(&mut self.news)
    }

    /// How modes changed since this was asked last.
    pub fn take_moves(&mut self) -> Vec<(Member, Move)> {
        std::mem::take(&mut self.moves)
    }

    /// An unknown station is entered; one that is known is authenticated only, and if it was so before, since then.
    pub(super) fn authenticate(&mut self, member: Member, now: Instant) {
        match self.station(&member).map(|station| station.state) {
            Some(State::Authenticated) => return,
            Some(State::Associated(_)) => {
                self.moves.push((member, Move::Left));
                return self.set_state(member, State::Authenticated, now);
            }
            None => {}
        }
        self.turns += 1;
        let station = Station { since: now, heard: now, frame_heard: now, turn: self.turns, ..Station::default() };
        self.ranks[member.0].insert(Rank::of(&station), member.1);
        self.stations[member.0].insert(member.1, station);
        self.unassociated[member.0].insert((now, member.1));
        self.entered.push(member);
    }

    pub(super) fn associate(&mut self, member: Member, aid: u16, now: Instant) {
        if self.station(&member).is_none() {
            self.authenticate(member, now);
        }
        self.set_state(member, State::Associated(aid), now);
        if let Some(station) = self.stations[member.0].get_mut(&member.1) {
            station.is_leaving = false;
            let dozes = std::mem::take(&mut station.joins_dozing);
            (station.dozes, station.has_dozed) = (dozes, dozes);
            self.moves.push((member, Move::Joins { dozes }));
            station.listen = station.wanted_listen;
            station.joined_by = station.asks_by.take();
            (station.to, station.from) = (Traffic::default(), Traffic::default());
            self.news.push((member, News::Joins { aid, listen: station.listen }));
        }
    }

    pub(super) fn refuse(&mut self, member: Member, status: u16, is_association: bool) {
        *self.refusals[member.0].entry(status).or_default() += 1;
        self.news.push((member, News::Refused { status, is_association }));
    }

    /// Sets a known station's state: it is active, and its identifier is free or its own.
    pub(super) fn set_state(&mut self, member: Member, state: State, now: Instant) {
        self.leave_state(member);
        if let Some(station) = self.stations[member.0].get_mut(&member.1) {
            station.state = state;
            self.ranks[member.0].insert(Rank::of(station), member.1);
            station.since = now;
            (station.dozes, station.has_dozed, station.joined_by) = (false, false, None);
            match state {
                State::Associated(aid) => {
                    self.changes += 1;
                    self.associated.insert((member.0, aid), member.1);
                }
                State::Authenticated => {
                    self.unassociated[member.0].insert((now, member.1));
                }
            }
        }
    }

    /// A station has its state no more: its identifier is free, or it is authenticated only no more.
    fn leave_state(&mut self, member: Member) {
        if let Some(station) = self.stations[member.0].get(&member.1) {
            self.ranks[member.0].remove(&Rank::of(station));
        }
        match self.station(&member).map(|station| (station.state, station.since)) {
            Some((State::Associated(aid), _)) => {
                self.changes += 1;
                self.told_of[member.0].remove(&aid);
                if self.associated.get(&(member.0, aid)) == Some(&member.1) {
                    self.associated.remove(&(member.0, aid));
                }
            }
            Some((State::Authenticated, since)) => {
                self.unassociated[member.0].remove(&(since, member.1));
            }
            None => {}
        }
    }

    pub(super) fn take_out(&mut self, member: Member) {
        self.leave_state(member);
        if let Some(station) = self.stations[member.0].remove(&member.1) {
            self.left.push((member, station.asked.due));
        }
    }
}

#[cfg(test)]
#[path = "table_test.rs"]
mod tests;

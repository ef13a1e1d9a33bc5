//! What is known of each station: at which rate it is sent to, and what is done if it acknowledges nothing.
//!
//! The rates of a station are those of its association request that its network has too; units go at the rate that the
//! rule of `rate_control` chooses, all else at the network's lowest basic rate. Whatever the radio is given it gives
//! back, with how often it was sent and whether it was acknowledged. A unit that wasn't is sent once more, with Retry
//! set, if nothing was sent to its station since; later it would come out of order. So what comes next for a station
//! waits while a sample is on the air, and after a unit that was lost until one is acknowledged. If tries are lost,
//! `air` gives the radio one frame of a station at a time, unless many wait.
//!
//! Each network has tables of its own: what strangers do to one takes nothing from another. Nothing is sent or timed
//! here. A radio that says nothing of what it sent is given all frames at the lowest basic rate.
use std::collections::VecDeque;
use std::rc::Rc;

use crate::formats::frames::{Address, AddressMap, Frame, FrameType};
use crate::formats::radiotap::{Outcome, MOST_RETRIES};
use crate::network::Network;
use crate::os::clock::{Duration, Instant};
use crate::outbound::air::in_flight::MOST_OUT;
use crate::outbound::air::rate_control::{Choice, RateControl};
use crate::outbound::air::reporting::Reporting;
use crate::outbound::air::scheduler::Place;
use crate::outbound::air::station_requests::StationRequests;
use crate::spare::give_back_shared;

/// How long the frames for a station wait at most for what became of the one before.
const MOST_WAIT: Duration = MOST_OUT;
/// After so long without an acknowledged unit one doesn't know any more which rates a station hears: it may have gone
/// elsewhere. It takes about as long to the next beacon, at which one that dozes wakes.
const SILENCE: Duration = Duration::from_millis(100);
/// The most stations of a network that rates are known of: more can't be associated (9.4.1.8).
const MOST_STATIONS: usize = 2007;

const FLAGS_AT: usize = 1;
const RETRY: u8 = 0x08;

/// What is done with units of a network that nobody acknowledged.
#[derive(Debug, Clone, Copy, Default, PartialEq, Eq)]
pub struct Unacknowledged {
    /// Units that were sent once more.
    pub again: u64,
    /// Units that nobody acknowledged, and that weren't sent once more.
    pub lost: u64,
}

/// What is done once the radio has told of a frame.
#[derive(Debug, Clone, PartialEq, Eq)]
pub(super) enum Next {
    Nothing,
    /// What comes next for the station waits no more.
    Goes,
    /// The unit was lost, and is sent once more (`once_more`).
    Again,
    /// The unit was lost, and isn't sent once more.
    GivenUp,
}

/// What the radio tells of a frame.
#[derive(Debug, Clone, Copy)]
pub(super) struct Reported {
    pub outcome: Outcome,
    /// Whether its station listened for it, and didn't doze.
    pub listens: bool,
    /// Whether it is sent once more.
    pub goes_again: bool,
}

/// How the next unit to a station is expected to go.
#[derive(Debug, Clone, Copy)]
pub(super) struct Outlook {
    /// Whether it comes through as good as surely, as far as one knows.
    pub is_sure: bool,
    /// Whether the last unit was lost.
    pub is_in_doubt: bool,
    /// Whether it acknowledged no unit for so long that others wait until it acknowledges this one.
    pub is_silent: bool,
    /// At which rate a unit goes, unless it is a sample.
    pub unit_rate: u8,
}

/// What a frame for a station goes beside.
#[derive(Debug, Clone, Copy)]
pub(super) struct Beside {
    /// Whether its network is busy.
    pub is_busy: bool,
    /// Whether others wait for its station.
    pub others_wait: bool,
}

/// The frame that was sent to a station last.
#[derive(Debug)]
struct Last {
    frame: Rc<Vec<u8>>,
    /// Its fragment and sequence number.
    number: Option<u16>,
    choice: Choice,
    was_again: bool,
    /// Whether others waited until its station acknowledges it after a silence.
    was_first: bool,
}

#[derive(Debug)]
struct Link {
    rates: RateControl,
    last: Option<Last>,
    /// Until when frames for it wait, if they do.
    waits_until: Option<Instant>,
    /// Since when they don't.
    goes_since: Instant,
    /// When the last unit went that the program had kept for it.
    had_kept: Instant,
    /// When it acknowledged a frame last.
    acknowledged: Instant,
    /// The same of a unit.
    heard_unit: Instant,
    /// Its turn among all, by which the one is found that wasn't sent to for longest.
    used: u64,
    /// Whether it isn't associated any more.
    has_left: bool,
}

/// The stations of one network.
#[derive(Debug)]
struct NetworkLinks {
    network: Network,
    /// Its lowest basic rate.
    lowest: u8,
    links: AddressMap<Link>,
    requests: StationRequests,
}

/// The stations of all networks.
#[derive(Debug)]
pub(super) struct Links {
    networks: Vec<NetworkLinks>,
    waits: VecDeque<(Instant, Place, Address)>,
    turns: u64,
    reporting: Reporting,
    /// Of each network what became so far of units that nobody acknowledged.
    pub(super) unacknowledged: Vec<Unacknowledged>,
}

impl Links {
    /// No station of these networks yet.
    pub fn new(networks: &[Network]) -> Links {
        let members = |network: &Network| NetworkLinks {
            network: network.clone(),
            lowest: network.lowest_basic_rate(),
            links: AddressMap::default(),
            requests: StationRequests::default(),
        };
        Links {
            networks: networks.iter().map(members).collect(),
            waits: VecDeque::new(),
            turns: 0,
            reporting: Reporting::Unknown { vain: 0 },
            unacknowledged: vec![Unacknowledged::default(); networks.len()],
        }
    }

    /// A frame was heard that is for this network alone: what it asks for is kept until it is answered.
    pub fn hear(&mut self, place: Place, frame: Frame<'_>) {
        let members = &mut self.networks[place];
        members.requests.hear(frame, &members.network.rates);
    }

    /// Whether a station had asked for this network alone; then it is answered.
    pub fn answers(&mut self, place: Place, address: Address) -> bool {
        self.networks[place].requests.take_probe(address)
    }

    /// A network tells a station that it is associated: the rates of its request are its rates.
    pub fn join(&mut self, place: Place, address: Address) {
        let NetworkLinks { links, requests, .. } = &mut self.networks[place];
        if let Some(rates) = requests.take_rates(address) {
            if links.len() >= MOST_STATIONS && !links.contains_key(&address) {
                let oldest = links
                    .iter()
                    .min_by_key(|(address, station)| (station.used, **address))
                    .map(|(address, _)| *address);
                oldest.map(|address| links.remove(&address));
            }
            let station = Link {
                rates,
                last: None,
                waits_until: None,
                goes_since: Instant::START,
                had_kept: Instant::START,
                acknowledged: Instant::START,
                heard_unit: Instant::START,
                used: self.turns,
                has_left: false,
            };
            links.insert(address, station);
        } else if let Some(station) = links.get_mut(&address) {
            station.has_left = false;
        }
    }

    /// A station isn't associated any more: what it was sent last isn't sent once more, and nothing waits for that.
    pub fn leave(&mut self, place: Place, address: Address, now: Instant) {
        if let Some(station) = self.networks[place].links.get_mut(&address) {
            (station.last, station.has_left) = (None, true);
            if station.go(now) {
                self.forget_ended_waits();
            }
        }
    }

    /// Whether a station is associated, and its rates are known, and used.
    pub fn knows(&self, place: Place, address: Address) -> bool {
        self.networks[place].links.get(&address).map_or(false, |station| !station.has_left)
    }

    /// A network's lowest basic rate.
    pub fn lowest(&self, place: Place) -> u8 {
        self.networks[place].lowest
    }

    /// Since when frames for a station don't wait for what became of one before.
    pub fn goes_since(&self, place: Place, address: Address) -> Instant {
        self.networks[place].links.get(&address).map_or(Instant::START, |station| station.goes_since)
    }

    /// When the last unit went to a station that the program had kept for it.
    pub fn had_kept(&self, place: Place, address: Address) -> Instant {
        self.networks[place].links.get(&address).map_or(Instant::START, |station| station.had_kept)
    }

    /// A unit goes to a station that the program had kept for it.
    pub fn has_kept(&mut self, place: Place, address: Address, now: Instant) {
        self.networks[place].links.get_mut(&address).into_iter().for_each(|station| station.had_kept = now);
    }

    /// When a station acknowledged a frame last.
    pub fn acknowledged(&self, place: Place, address: Address) -> Instant {
        self.networks[place].links.get(&address).map_or(Instant::START, |station| station.acknowledged)
    }

    /// How the next unit to a station is expected to go.
    pub fn outlook(&self, place: Place, address: Address, now: Instant) -> Outlook {
        let NetworkLinks { lowest, links, .. } = &self.networks[place];
        let unknown = Outlook { is_sure: true, is_in_doubt: false, is_silent: false, unit_rate: *lowest };
        links.get(&address).map_or(unknown, |station| Outlook {
            is_sure: station.rates.are_sure(),
            is_in_doubt: station.rates.is_in_doubt(),
            is_silent: self.is_told() && now > station.heard_unit + SILENCE,
            unit_rate: if self.is_told() { station.rates.plainly().rate } else { *lowest },
        })
    }

    /// How a frame is sent to a station now, and whether what comes next for it waits for what becomes of it.
    pub fn choose(
        &mut self,
        place: Place,
        address: Address,
        frame: &Rc<Vec<u8>>,
        beside: Beside,
        now: Instant,
    ) -> (Choice, bool) {
        let is_told = self.is_told();
        let NetworkLinks { lowest, links, .. } = &mut self.networks[place];
        let plainly = Choice { rate: *lowest, retries: MOST_RETRIES, is_sample: false };
        self.turns += 1;
        let station = match links.get_mut(&address).filter(|station| is_told && !station.has_left) {
            Some(station) => station,
            None => return (plainly, false),
        };
        station.used = self.turns;
        let lost = station.last.as_ref().filter(|last| last.was_again && Rc::ptr_eq(&last.frame, frame));
        let was_again = lost.is_some();
        let was_first = beside.others_wait && is_unit(frame) && now > station.heard_unit + SILENCE;
        let choice = match (lost, is_unit(frame)) {
            (Some(lost), _) if lost.was_first => station.rates.plainly(),
            (Some(lost), _) => station.rates.once_more(lost.choice.rate),
            (None, true) if was_first => station.rates.first(now, beside.is_busy),
            (None, true) => station.rates.next(now, beside.is_busy),
            (None, false) => plainly,
        };
        let waits = was_again || choice.is_sample || station.rates.is_in_doubt();
        let was_first = was_first && !choice.is_sample;
        let last = Last { frame: Rc::clone(frame), number: number(frame), choice, was_again, was_first };
        if let Some(before) = station.last.replace(last) {
            give_back_shared(before.frame);
        }
        if waits {
            let until = now + MOST_WAIT;
            station.waits_until = Some(until);
            self.waits.push_back((until, place, address));
        }
        (choice, waits)
    }

    /// The radio tells what became of a frame that it was given for a station, which listened for it or may have dozed.
    /// That a station didn't acknowledge what it couldn't hear tells nothing of its rates.
    pub fn reported(&mut self, place: Place, address: Address, frame: &[u8], told: Reported, now: Instant) -> Next {
        let Reported { outcome, listens, goes_again } = told;
        self.unacknowledged[place].again += u64::from(goes_again);
        let station = match self.networks[place].links.get_mut(&address) {
            Some(station) => station,
            None => return if goes_again { Next::Again } else { Next::Nothing },
        };
        self.reporting = self.reporting.after_outcome();
        let number = number(frame);
        let last = station.last.as_ref().filter(|last| last.number == number);
        let is_sample = last.as_ref().map_or(false, |last| last.choice.is_sample);
        let is_unit = is_unit(frame);
        if outcome.is_acknowledged {
            station.acknowledged = now;
            station.heard_unit = if is_unit { now } else { station.heard_unit };
        }
        if is_unit && (listens || outcome.is_acknowledged) {
            let rate = outcome.rate.or_else(|| last.as_ref().map(|last| last.choice.rate));
            let tries = outcome.retries.saturating_add(1);
            let rates = &mut station.rates;
            rate.into_iter().for_each(|rate| rates.reported(rate, tries, outcome.is_acknowledged, is_sample));
        }
        let is_lost = is_unit && !outcome.is_acknowledged;
        let is_last = last.is_some();
        let next = match last {
            _ if goes_again => Next::Again,
            _ if is_lost => Next::GivenUp,
            Some(_) => Next::Goes,
            None => Next::Nothing,
        };
        if is_last && station.go(now) {
            self.forget_ended_waits();
        }
        next
    }

    /// The radio was reset before it told of a frame for a station, which tells nothing of the rates. The frame goes
    /// once more or doesn't, and nothing waits for it.
    pub fn was_reset(&mut self, place: Place, address: Address, goes_again: bool, now: Instant) {
        self.unacknowledged[place].again += u64::from(goes_again);
        let station = self.networks[place].links.get_mut(&address);
        if station.map_or(false, |station| station.go(now)) {
            self.forget_ended_waits();
        }
    }

    /// The frame by which a unit for a station goes once more: the one that was lost, with Retry set.
    pub fn once_more(&mut self, place: Place, address: Address, lost: &Rc<Vec<u8>>) -> Rc<Vec<u8>> {
        let frame = Rc::new(again(lost));
        let last = self.networks[place].links.get_mut(&address).and_then(|station| station.last.as_mut());
        if let Some(last) = last.filter(|last| Rc::ptr_eq(&last.frame, lost)) {
            (last.was_again, last.frame) = (true, Rc::clone(&frame));
        }
        frame
    }

    /// A unit of a network that nobody acknowledged is sent no more.
    pub fn count_lost(&mut self, place: Place) {
        self.unacknowledged[place].lost += 1;
    }

    /// Drops ended waits from the front, so that they schedule no wake-up.
    fn forget_ended_waits(&mut self) {
        while let Some((until, place, address)) = self.waits.front() {
            let station = self.networks[*place].links.get(address);
            if station.map_or(false, |station| station.waits_until == Some(*until)) {
                break;
            }
            self.waits.pop_front();
        }
    }

    /// Whether what comes next for a station waits for what becomes of the frame before.
    pub fn waits(&self, place: Place, address: Address) -> bool {
        self.networks[place].links.get(&address).map_or(false, |station| station.waits_until.is_some())
    }

    /// When `expire` has something to do.
    pub fn due(&self) -> Option<Instant> {
        self.waits.front().map(|(until, ..)| *until)
    }

    /// The time is this: a station for which frames have waited long enough, if there is one. They wait no more.
    pub fn expire(&mut self, now: Instant) -> Option<(Place, Address)> {
        while let Some((until, place, address)) = self.waits.front().copied().filter(|(until, ..)| *until <= now) {
            self.waits.pop_front();
            let station = self.networks[place].links.get_mut(&address);
            if let Some(station) = station.filter(|station| station.waits_until == Some(until)) {
                station.go(now);
                self.reporting = self.reporting.after_vain_wait();
                return Some((place, address));
            }
        }
        None
    }

    /// Whether the radio tells what becomes of frames, as far as one knows.
    pub fn is_told(&self) -> bool {
        self.reporting != Reporting::Silent
    }
}

impl Link {
    /// What comes next for it waits no more; answers whether it did.
    fn go(&mut self, now: Instant) -> bool {
        let waited = self.waits_until.take().is_some();
        if waited {
            self.goes_since = now;
        }
        waited
    }
}

/// The fragment and sequence number.
fn number(frame: &[u8]) -> Option<u16> {
    Frame::of(frame)?.sequence_control()
}

/// Whether it is a frame of data, be it a Null frame.
fn is_unit(frame: &[u8]) -> bool {
    Frame::of(frame).map_or(false, |frame| frame.frame_type() == FrameType::Data)
}

fn again(frame: &[u8]) -> Vec<u8> {
    let mut octets = frame.to_vec();
    octets[FLAGS_AT] |= RETRY;
    octets
}

#[cfg(test)]
#[path = "links_test.rs"]
mod tests;

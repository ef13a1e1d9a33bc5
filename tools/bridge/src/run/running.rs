//! The interfaces, and what waits between them and the program.
use std::collections::{BTreeMap, VecDeque};

use super::radio::Radio;
use super::Manner;
use crate::apctl::tables::Tables;
use crate::control::events::Events;
use crate::control::faults::Fault;
use crate::inbound::batching::Batching;
use crate::inbound::judging::{Judge, LeftOut};
use crate::inbound::queue::InboundQueue;
use crate::network::Network;
use crate::os::batch::Batch;
use crate::os::clock::{now, wall_now, Arrivals, Duration, Instant, SECOND};
use crate::os::gate::Gate;
use crate::os::interfaces::Interfaces;
use crate::os::poller::Token;
use crate::os::port::Port;
use crate::outbound::air::hand_back_pace::Pace;
use crate::outbound::Outbound;
use crate::run::beacon_timing::BeaconTiming;
use crate::run::wake_timing::WakeTiming;
use crate::stations::station::Member;
use crate::stations::{Errand, Stations};

/// Within this time the first beacon has to be seen as sent.
pub(super) const TO_BEACON: Duration = SECOND;

/// By what a frame came: the air, or the wire of the network of this place.
#[derive(Debug, Clone, Copy, PartialEq, Eq, PartialOrd, Ord)]
pub enum Way {
    Air,
    Wire(usize),
}

/// A wire whose interface went down or away, or wasn't there yet.
#[derive(Debug)]
pub struct Ended {
    /// Since when, if it isn't back.
    pub(super) since: Option<Instant>,
    /// Whether what came by it before is still to be read.
    pub(super) has_backlog: bool,
    /// How many frames of its network were lost while it was down.
    pub(super) lost: u64,
}

/// What was given to the program, by kind.
#[derive(Debug, Default, Clone, Copy)]
pub struct Given {
    pub(super) air: u64,
    pub(super) wires: u64,
    pub(super) ticks: u64,
    pub(super) tables: u64,
    pub(super) handed_back: u64,
    pub(super) without_checksums: u64,
}

/// Whether the first beacon was seen as sent.
#[derive(Debug, Clone, Copy, PartialEq, Eq)]
pub(super) enum FirstBeacon {
    /// It has to be by this time. None is said if an earlier bridge saw the radio send as it is set up: if it doesn't
    /// now, the channel is busy, or `tools/live` sets it up anew.
    Awaited { until: Option<Instant> },
    /// It was.
    Seen,
    /// It was, and `tools/live` was told so.
    Told,
}

/// What is known of the interfaces that are read.
#[derive(Debug, Default)]
pub(super) struct Reading {
    /// How often the bridge was woken, and in which waking the air and each wire were read last.
    pub(super) wakings: u64,
    pub(super) read_in: Vec<u64>,
    /// Whether the last packet that was read of an interface in this waking had waited in the kernel for half as long
    /// as data is worth.
    pub(super) is_behind: bool,
    /// Until when it catches up in this waking, once it has begun to.
    pub(super) catches_up_until: Option<Instant>,
    /// How many frames were sent on the air when those that were acknowledged were read last.
    pub(super) sent_before: u64,
    /// Whether one waits for frames that were acknowledged.
    pub(super) awaits_acknowledged: bool,
    /// When packets came.
    pub(super) arrivals: Arrivals,
}

/// The interfaces, and what waits between them and the program.
pub struct Running<P> {
    pub(super) interfaces: Interfaces<P>,
    pub(super) outbound: Outbound,
    pub(super) networks: Vec<Network>,
    pub(super) judge: Judge,
    pub(super) waiting: InboundQueue,
    pub(super) batching: Batching,
    pub(super) stations: Stations,
    pub(super) events: Events,
    pub(super) tables: Tables,
    pub(super) timing: BeaconTiming,
    pub(super) first_beacon: FirstBeacon,
    pub(super) radio: Radio,
    pub(super) given: Given,
    pub(super) left_out: BTreeMap<(Way, LeftOut), u64>,
    pub(super) has_told_drops: bool,
    /// The wires that have ended once, by the places of their networks.
    pub(super) ended: BTreeMap<usize, Ended>,
    pub(super) reading: Reading,
    /// Whether wires learn which stations join, and of each network how often its wire did.
    pub(super) tells_wires: bool,
    pub(super) updates: Vec<u64>,
    pub(super) update_paces: Vec<Pace>,
    /// Whether the last events that were recorded are units that go back to the program.
    pub(super) hands_back: bool,
    /// Which stations wait for beacons before the program is told that they wake.
    pub(super) wakes: WakeTiming,
    /// Stations that have just joined and sent nothing since, with until when what the wire brings for them waits.
    pub(super) getting_ready: VecDeque<(Instant, Member)>,
    /// Units by which stations that doze are asked whether they are there, with the places of their networks.
    pub(super) questions: VecDeque<(usize, Vec<u8>)>,
    /// Whether people have asked for the tables, and the program wasn't asked for them yet.
    pub(super) tables_asked: bool,
    /// Whether stations have to join again, and `tools/live` wasn't told yet that all were told so.
    pub(super) dismisses: bool,
    /// When `tools/live` was told last that the program answers.
    pub(super) alive_told: Instant,
    /// Whether all ends, and no beacon interval begins any more.
    pub(super) is_ending: bool,
}

impl<P: Port> Running<P> {
    pub(super) fn new(interfaces: Interfaces<P>, manner: &Manner) -> Running<P> {
        let (start, networks) = (now(), manner.networks.clone());
        let timing = BeaconTiming::new(start, manner.setting.interval);
        Running {
            radio: Radio::new(manner.setting.channel, networks.len(), &timing),
            interfaces,
            outbound: Outbound::new(networks.clone()),
            judge: Judge::new(networks.iter().map(|network| network.bssid)),
            waiting: InboundQueue::new(networks.len()),
            batching: Batching::default(),
            stations: Stations::new(&networks, manner.most_silence),
            events: Events::new(networks.iter().map(|network| network.bssid).collect(), wall_now()),
            tables: Tables::new(networks.len()),
            timing,
            first_beacon: FirstBeacon::Awaited { until: (!manner.has_sent).then_some(start + TO_BEACON) },
            given: Given::default(),
            left_out: BTreeMap::new(),
            has_told_drops: false,
            ended: BTreeMap::new(),
            reading: Reading { read_in: vec![0; 1 + networks.len()], ..Reading::default() },
            tells_wires: manner.tells_wires,
            updates: vec![0; networks.len()],
            update_paces: vec![Pace::default(); networks.len()],
            networks,
            hands_back: false,
            wakes: WakeTiming::new(),
            getting_ready: VecDeque::new(),
            questions: VecDeque::new(),
            tables_asked: false,
            dismisses: false,
            alive_told: Instant::START,
            is_ending: false,
        }
    }

    pub(super) fn begin_waking(&mut self) {
        self.reading.wakings += 1;
        self.reading.is_behind = false;
        self.reading.catches_up_until = None;
    }

    /// Whether the wire of the network of this place has ended, and isn't back.
    pub(super) fn is_down(&self, place: usize) -> bool {
        self.ended.get(&place).map_or(false, |ended| ended.since.is_some())
    }

    /// Does what is to be done of stations that are silent, may have moved, or wait for beacons, if it is time. Of
    /// one that may have moved it has to be known whether it has acknowledged a question by now.
    pub(super) fn look(&mut self, batch: &mut Batch, time: Instant) -> Result<(), Fault> {
        if self.timing.looks(time) {
            let errands = self.stations.look(time);
            if self.stations.is_behind() {
                self.timing.looks_again(time);
            }
            self.run(errands, time);
        }
        if self.stations.moves_due() <= time {
            self.receive(Token::Acknowledged, batch, time)?;
            let errands = self.stations.look_who_moved(time);
            self.run(errands, time);
        }
        self.end_getting_ready(time);
        if self.wakes.has_untried(self.timing.interval(time)) {
            let due = self.wakes.take_due(self.interval(time));
            self.end_waits_for_beacons(due);
        }
        Ok(())
    }

    /// Sends and says what the bridge has to by itself.
    pub(super) fn run(&mut self, errands: impl IntoIterator<Item = Errand>, time: Instant) {
        for errand in errands {
            match errand {
                Errand::Send { place, frame, retries } => self.outbound.air.send_own(place, frame, retries, time),
                Errand::Say(octets) => self.wait_of_air(&octets, false, time),
                Errand::Ask { place, frame } => self.questions.push_back((place, frame)),
            }
        }
    }

    pub(super) fn unblock(&mut self, token: Token) {
        match token {
            Token::Monitor => self.interfaces.monitor.unblock(),
            Token::Wire(place) => self.interfaces.wire(place).into_iter().for_each(Gate::unblock),
            _ => {}
        }
    }
}

//! Stations that an earlier bridge served stay: the program is told of them before frames go, and what the next bridge
//! has to know of them is left for it (`restart`).
use super::phase::{Phase, Replaying};
use super::running::Running;
use super::{Bridge, TO_READY};
use crate::control::faults::Fault;
use crate::control::log;
use crate::formats::frames::Frame;
use crate::network::Network;
use crate::os::clock::{boot_now, now, Instant};
use crate::os::interfaces::Interfaces;
use crate::os::port::{OfSocket, Port};
use crate::restart::replay::{Replay, Restored};
use crate::restart::state::{self, NetworkState, NotUsed, Setting, State};
use crate::restart::state_draft::{Made, StateDraft};
use crate::restart::state_files::StateFiles;

/// Marks in the record around the events by which a new program comes to know stations: what it answers to these was
/// swallowed.
pub(super) const RESTORED_FROM: &str = "restored: of the lines from here on the answers were not sent";
pub(super) const RESTORED_TO: &str = "restored: up to here";

impl<P: OfSocket> Bridge<P> {
    /// The interfaces are there. If an earlier bridge has left stations, the program is told of these first.
    pub(super) fn restore(&mut self, interfaces: Interfaces<P>) -> Result<(), Fault> {
        let state = match &mut self.state_files {
            Some(state_files) => left_state(state_files, &self.manner.setting, boot_now()),
            None => None,
        };
        let replay = state.and_then(|state| restoring_of(&state, &self.manner.networks));
        match replay {
            Some(replay) => {
                self.feeder.remark(RESTORED_FROM);
                let until = self.time + TO_READY;
                self.phase = Phase::Replay(Box::new(Replaying { until, replay, interfaces, deferred: Vec::new() }));
                Ok(())
            }
            None => self.begin(interfaces),
        }
    }

    /// Says to the program what is to be restored, as far as it has read what was said before; answers how much was
    /// said.
    pub(super) fn feed_replay(&mut self) -> usize {
        let mut said = 0;
        if let Phase::Replay(replaying) = &mut self.phase {
            let room = self.feeder.room();
            while said < room {
                match replaying.replay.next() {
                    Some(event) => self.feeder.feed(event.event()),
                    None => break,
                }
                said += 1;
            }
        }
        said
    }

    /// Frames go once the program has answered all that was restored.
    pub(super) fn end_restoring(&mut self) -> Result<(), Fault> {
        let Replaying { replay, interfaces, deferred, .. } = match self.phase.take_replayed() {
            Some(replayed) => replayed,
            None => return Ok(()),
        };
        self.feeder.remark(RESTORED_TO);
        let restored = replay.restored();
        self.time = now();
        self.begin(interfaces)?;
        if let Some(running) = self.phase.running() {
            running.restore(&restored, self.time);
        }
        deferred.into_iter().try_for_each(|request| self.take_request(request))
    }

    /// Leaves for the next bridge what it has to know of stations, as it is at the end.
    pub(super) fn keep_last(&mut self) {
        if let (Some(state_files), Some(running)) = (&mut self.state_files, self.phase.still_running()) {
            let (changes, time) = (running.stations.table.changes, now());
            state_files.write(&running.last_state(&self.manner.setting, time).text(), changes, time);
        }
    }

    /// Goes on by a step with what is left for the next bridge, if it is time.
    pub(super) fn keep(&mut self) {
        let (state_files, running) = match (&mut self.state_files, self.phase.still_running()) {
            (Some(state_files), Some(running)) => (state_files, running),
            _ => return,
        };
        if state_files.is_writing() {
            return state_files.write_on(self.time);
        }
        let changes = running.stations.table.changes;
        let draft = match self.state_draft.take() {
            None if !state_files.is_due(changes, self.time) => return,
            None => StateDraft::new(&self.manner.setting, boot_now(), running.networks.len(), changes),
            Some(draft) => draft,
        };
        match draft.step(|place| running.state_of(place, None)) {
            Made::Part(draft) => self.state_draft = Some(draft),
            Made::Whole { text, changes } => state_files.begin(text, changes),
        }
    }

    /// Whether a part of what is left for the next bridge is still to be made or written.
    pub(super) fn keeps(&self) -> bool {
        self.state_draft.is_some() || self.state_files.as_ref().map_or(false, StateFiles::is_writing)
    }
}

impl<P: Port> Running<P> {
    /// The program knows stations that joined before.
    pub(super) fn restore(&mut self, restored: &Restored, time: Instant) {
        for ((place, station), kept) in &restored.stay {
            if let Some(request) = Frame::of(&kept.request) {
                self.outbound.air.restore(*place, request, time);
            }
            if kept.dozes {
                self.outbound.air.has_dozed(*place, *station, time);
            }
        }
        for (place, network) in self.networks.iter().enumerate() {
            let stay = restored.stay.iter().filter(|((of, _), _)| *of == place).count();
            let again = restored.again.iter().filter(|(of, _)| *of == place).count();
            if stay + again > 0 {
                let bssid = network.bssid;
                log::notice(format_args!("{stay} stations of {bssid} stay; {again} are told to join again"));
            }
        }
        let errands = self.stations.restore(restored, time);
        self.run(errands, time);
    }

    /// What a new program has to know of all stations, at the end.
    fn last_state(&mut self, setting: &Setting, time: Instant) -> State {
        let tables = self.tables.last().filter(|_| self.tables.are_new(time));
        let kept = |place: usize| tables.and_then(|tables| tables.get(place)).and_then(|table| table.count("kept"));
        let networks = (0..self.networks.len()).map(|place| self.state_of(place, kept(place))).collect();
        State { setting: setting.clone(), written: boot_now(), is_last: true, networks }
    }

    /// The same of a network, with the number of units that it keeps if that is known.
    fn state_of(&self, place: usize, units: Option<u64>) -> NetworkState {
        let network = &self.networks[place];
        NetworkState {
            bssid: network.bssid,
            ssid: network.ssid.clone(),
            rates: network.rates.clone(),
            units,
            waiting: self.stations.table.told_of(place),
            stations: self.stations.kept(place),
        }
    }
}

/// What an earlier bridge has left; if it isn't used, that is told.
pub(super) fn left_state(state_files: &mut StateFiles, setting: &Setting, now: Instant) -> Option<State> {
    let chosen = match state_files.left() {
        Ok(texts) => state::choose(&texts, setting, now),
        Err(_) => Err(NotUsed::Damaged),
    };
    match chosen {
        Ok(Some((place, state))) => {
            state_files.begin_with(1 - place);
            tell_of_units(&state);
            Some(state)
        }
        Ok(None) => None,
        Err(reason) => {
            tell_not_used(reason);
            None
        }
    }
}

/// What is to be said to the program, if it is something.
fn restoring_of(state: &State, networks: &[Network]) -> Option<Replay> {
    match Replay::of(state, networks) {
        Ok(replay) => Some(replay).filter(|replay| !replay.is_empty()),
        Err(reason) => {
            tell_not_used(reason);
            None
        }
    }
}

fn tell_not_used(reason: NotUsed) {
    log::warn(format_args!("the state of stations that was left isn't used, since {reason}: they join again"));
}

fn tell_of_units(state: &State) {
    state.networks.iter().filter_map(NetworkState::lost_units).for_each(log::notice);
}

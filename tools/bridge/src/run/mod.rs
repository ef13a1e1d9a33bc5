//! The bridge while it runs: one thread that waits for what comes first, and does it. `phase` says how far it is.
//! `requests` is what `tools/live` asks for, `opening` how frames begin to go, `reading` what comes by the interfaces,
//! `wires` how wires come and go, `feeding` what the program is given, `moving` what comes of stations that doze, and
//! `answering` what it answers, and what others ask: the status above all. `sending` is when what waits is sent, `beacon_timing` what beacons go
//! before, and `wake_timing` which answers of the program they don't wait for. `radio` looks whether the radio does what
//! it has to, `staying` has stations stay from one bridge to the next, `telling` tells people, and `ending` ends.
//! `running` has what all of these change.
mod answering;
mod beacon_timing;
mod beacon_watch;
mod ending;
mod feeding;
pub mod intervals;
mod moving;
mod opening;
mod phase;
mod radio;
mod reading;
mod requests;
mod running;
mod sending;
mod staying;
mod telling;
mod tuning;
mod wake_timing;
mod wires;

use phase::Phase;
use running::{FirstBeacon, Running};

use crate::apctl::feeder::Feeder;
use crate::apctl::program::Program;
use crate::control::by::By;
use crate::control::clients::Clients;
use crate::control::faults::Fault;
use crate::control::notices::{say, Notice};
use crate::control::parent::{Handed, Requests};
use crate::control::status::Faults;
use crate::control::status_line::StatusLine;
use crate::network::Network;
use crate::os::batch::Batch;
use crate::os::clock::{earliest, now, Duration, Instant, SECOND};
use crate::os::interfaces::Interfaces;
use crate::os::poller::{Poller, Ready, Token};
use crate::os::port::OfSocket;
use crate::restart::state::Setting;
use crate::restart::state_draft::StateDraft;
use crate::restart::state_files::StateFiles;

const TO_END: Duration = Duration::from_secs(20);
const TO_READY: Duration = Duration::from_secs(20);
/// How many batches of one socket are read, and pieces of the program's output, before something else is looked at.
const IN_A_ROW: usize = 4;
/// A bridge that goes on so much later than it has to was stopped, or its machine was.
const STOPPED: Duration = Duration::from_millis(500);
/// How often `tools/live` is told at most that the program answers.
const ALIVE_EVERY: Duration = SECOND;

/// How it is asked to run.
#[derive(Debug, Clone, PartialEq, Eq)]
pub struct Manner {
    /// The radio, its channel and the beacon interval.
    pub setting: Setting,
    /// The networks, in the order of their places.
    pub networks: Vec<Network>,
    /// By which interfaces the radio acknowledges, if that is known.
    pub by: Option<By>,
    /// After how long an associated station of which nothing was heard is asked; `None` asks nobody.
    pub most_silence: Option<Duration>,
    /// Whether wires learn which stations join.
    pub tells_wires: bool,
    /// Whether `tools/live` is told that the program answers.
    pub tells_alive: bool,
    /// Whether an earlier bridge saw the radio send as it is set up.
    pub has_sent: bool,
}

/// The program, `tools/live`, and once the interfaces are there, these.
pub struct Bridge<P> {
    program: Program,
    feeder: Feeder,
    requests: Requests,
    clients: Option<Clients>,
    status_line: StatusLine,
    poller: Poller,
    manner: Manner,
    began: Instant,
    /// When the last wait ended: the time of all that is done then.
    time: Instant,
    /// What came by then.
    ready: Vec<Ready>,
    faults: Faults,
    phase: Phase<P>,
    batch: Batch,
    /// The files by which stations stay, if they do.
    state_files: Option<StateFiles>,
    state_draft: Option<StateDraft>,
    waits_for_room: bool,
}

impl<P: OfSocket> Bridge<P> {
    /// With this program, whose networks aren't open yet, requests of `tools/live`, and a socket by which others ask.
    pub fn new(
        program: Program,
        feeder: Feeder,
        requests: Requests,
        clients: Option<Clients>,
        manner: Manner,
    ) -> Result<Self, Fault> {
        let poller = Poller::new()?;
        poller.add(requests.descriptor(), Token::Control, true, false)?;
        poller.add(program.descriptor(), Token::Output, true, false)?;
        let began = now();
        let phase = Phase::Opening { until: began + TO_READY, handed: None };
        Ok(Bridge {
            program,
            feeder,
            requests,
            clients,
            status_line: StatusLine::default(),
            poller,
            manner,
            began,
            time: began,
            ready: Vec::new(),
            faults: Faults::default(),
            phase,
            batch: Batch::new(),
            state_files: None,
            state_draft: None,
            waits_for_room: false,
        })
    }

    /// Runs until `tools/live` ends it, or until a fault; `open` takes the interfaces once they are there.
    pub fn serve(&mut self, mut open: impl FnMut(Handed) -> Result<Interfaces<P>, Fault>) -> Result<(), Fault> {
        let mut outcome = Ok(());
        while outcome.is_ok() && !self.phase.is_ending() {
            outcome = self.step(&mut open);
        }
        if let (Err(fault), Phase::Opening { .. }) = (&outcome, &self.phase) {
            let _ = self.program.status(Instant::START);
            return Err(fault.clone());
        }
        let rest = self.drain();
        self.feeder.finish_record();
        let status = self.program.status(now() + TO_END).map_err(|fault| Fault::of("the program", &fault))?;
        self.keep_last();
        if let Some(running) = self.phase.still_running() {
            running.tell_counts();
        }
        say(&Notice::Status(status));
        outcome.and(rest)?;
        match status {
            0 => Ok(()),
            _ => Err(Fault::ProgramFailed(status)),
        }
    }

    /// Waits for what comes first, and does what is to be done then.
    fn step(&mut self, open: &mut impl FnMut(Handed) -> Result<Interfaces<P>, Fault>) -> Result<(), Fault> {
        self.gather()?;
        let due = self.due();
        self.poller.set_due(due)?;
        let before = self.time;
        self.wait(self.most_wait())?;
        let late = self.time.since(due.max(before));
        if late >= STOPPED {
            self.phase.running().into_iter().for_each(|running| running.was_late(late, self.time));
        }
        for place in 0..self.ready.len() {
            let ready = self.ready[place];
            match ready.token {
                Token::Control => self.take_requests()?,
                Token::Output => self.take_answers()?,
                Token::Input | Token::Clock => {}
                Token::Monitor | Token::Acknowledged | Token::Wire(_) => self.take_port(ready)?,
                Token::Listener | Token::Client(_) => self.take_client(ready)?,
            }
        }
        match &mut self.phase {
            Phase::Ending(_) => return Ok(()),
            Phase::SettingUp { handed } => {
                if let Some(handed) = handed.take() {
                    self.restore(open(handed)?)?;
                }
            }
            Phase::Replay(_) => self.end_restoring()?,
            Phase::Opening { .. } | Phase::Running(_) => {}
        }
        if let Some(running) = self.phase.running().filter(|running| running.has_backlog()) {
            running.read_backlog(&mut self.batch, self.time);
        }
        self.take_time()?;
        self.tell_alive();
        self.tell_faults();
        self.answer_clients()?;
        self.look()?;
        self.feed()?;
        self.send()?;
        self.take_acknowledged()?;
        self.tell_sending()?;
        self.watch_radio()?;
        self.keep();
        Ok(())
    }

    /// Looks at stations that are silent or may have moved, if it is time.
    fn look(&mut self) -> Result<(), Fault> {
        match self.phase.running() {
            Some(running) => running.look(&mut self.batch, self.time),
            None => Ok(()),
        }
    }

    /// Lets frames gather if many come, but never if a beacon is awaited, nor if the bridge is behind with
    /// reading. What `tools/live` asks ends that.
    fn gather(&mut self) -> Result<(), Fault> {
        let time = self.time;
        let until = self.phase.running().filter(|running| !running.reading.is_behind).and_then(|running| {
            let most = running.timing.gathers_until()?;
            Some(running.batching.until(time)?.min(most))
        });
        until.map_or(Ok(()), |until| self.poller.gather(self.requests.descriptor(), until))
    }

    /// Waits for what comes first, or for so many milliseconds at most.
    fn wait(&mut self, most: Option<u16>) -> Result<(), Fault> {
        self.poller.wait(most, &mut self.ready)?;
        // What became of frames is learned before others go.
        if let Some(place) = self.ready.iter().position(|ready| ready.token == Token::Monitor) {
            self.ready[..=place].rotate_right(1);
        }
        self.time = now();
        self.phase.still_running().into_iter().for_each(Running::begin_waking);
        Ok(())
    }

    /// When something is to be done at the latest.
    fn due(&self) -> Instant {
        match &self.phase {
            Phase::Opening { until, .. } => *until,
            Phase::Replay(replaying) => replaying.until,
            Phase::Running(running) => {
                let tells_alive = self.manner.tells_alive && running.timing.is_answered;
                let alive = tells_alive.then_some(running.alive_told + ALIVE_EVERY);
                let first = match running.first_beacon {
                    FirstBeacon::Awaited { until } => until,
                    FirstBeacon::Seen | FirstBeacon::Told => None,
                };
                let (look, sends) = (running.timing.next_look(self.time), running.sends_next(self.time));
                let (wakes, radio) = (running.next_wakes(self.time), running.radio.due(self.time));
                let (moves, ready) = (Some(running.stations.moves_due()), running.ready_due());
                let next = Some(running.timing.next(self.time));
                let times = [next, first, running.outbound.air.due(), sends, alive, look, wakes, radio, moves, ready];
                earliest(&times).unwrap_or(Instant::NEVER)
            }
            Phase::SettingUp { .. } | Phase::Ending(_) => Instant::NEVER,
        }
    }

    /// How many milliseconds to wait at most: the program doesn't say when it has read something, a client whose answer
    /// is written may have asked more before, and others wait for an answer of which a part is made. So does a state.
    fn most_wait(&self) -> Option<u16> {
        let waits = match &self.phase {
            Phase::Running(running) => running.has_to_give() || running.has_backlog(),
            Phase::Replay(_) => true,
            _ => false,
        };
        let asks = self.status_line.is_being_made() || self.clients.as_ref().map_or(false, Clients::has_questions);
        (waits && !self.waits_for_room || asks || self.keeps()).then_some(1)
    }
}

#[cfg(test)]
#[path = "bridge_test.rs"]
mod tests;

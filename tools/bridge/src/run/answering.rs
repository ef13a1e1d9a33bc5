//! What the program answers is sent, and who asks the bridge is answered: for the status, for events, or to forget a
//! station.
use super::running::Running;
use super::{Bridge, Phase, ALIVE_EVERY, IN_A_ROW};
use crate::apctl::feeder::Feeder;
use crate::apctl::protocol::{answered_mark, Answer, Event};
use crate::apctl::tables::Asker;
use crate::control::clients::Line;
use crate::control::faults::Fault;
use crate::control::log;
use crate::control::notices::{say, Notice};
use crate::formats::frames::{Address, BEACON};
use crate::os::clock::{now, Instant, SECOND};
use crate::os::poller::{Ready, Token};
use crate::os::port::{OfSocket, Port};

/// Behind a piece of the program's output with so many rows of tables something else is looked at first.
const MANY_ROWS: usize = 250;

impl<P: OfSocket> Bridge<P> {
    /// Reads what the program wrote, and sends it.
    pub(super) fn take_answers(&mut self) -> Result<(), Fault> {
        for _ in 0..IN_A_ROW {
            if !self.program.read()? {
                break;
            }
            let mut rows = 0;
            while let Some(answer) = self.program.next_answer()? {
                rows += usize::from(matches!(answer, Answer::Told(_)));
                self.take_answer(answer, self.time)?;
            }
            self.send()?;
            if rows >= MANY_ROWS {
                break;
            }
        }
        match self.phase {
            _ if !self.program.has_ended => Ok(()),
            Phase::Opening { .. } => Err(self.ended_early()),
            Phase::SettingUp { .. } | Phase::Replay(_) | Phase::Running(_) => Err(Fault::ProgramEnded),
            Phase::Ending(_) => Ok(()),
        }
    }

    fn ended_early(&mut self) -> Fault {
        match self.program.status(now() + SECOND) {
            Ok(status) => {
                Fault::NotBegun(format!("the program ended with status {status} before its networks were open"))
            }
            Err(fault) => Fault::of("the program", &fault),
        }
    }

    fn take_answer(&mut self, answer: Answer, time: Instant) -> Result<(), Fault> {
        match (answer, self.phase.at_work()) {
            (Answer::Told(line), Phase::Replay(_)) if line.starts_with("fault ") => self.take_told(&line, time),
            (answer, Phase::Replay(replaying)) => replaying.replay.take(&answer),
            (Answer::Told(line), _) => self.take_told(&line, time),
            (Answer::Ready(_), _) => self.take_ready(),
            (Answer::Air(bssid, octets), Phase::Running(running)) => {
                let is_beacon = octets.first() == Some(&BEACON);
                running.send_on_air(bssid, octets, &mut self.feeder, time)?;
                if is_beacon {
                    running.timing.take_beacon();
                    running.tell_of_dismissal();
                }
            }
            (Answer::Wire(bssid, octets), Phase::Running(running)) => running.send_on_wire(bssid, octets, time)?,
            (Answer::Air(..) | Answer::Wire(..), _) => {
                return Err(Fault::WrongAnswer("the program sent a frame before it was given one".to_owned()))
            }
        }
        Ok(())
    }

    fn take_ready(&mut self) {
        if let Phase::Opening { handed, .. } = &mut self.phase {
            self.phase = Phase::SettingUp { handed: handed.take() };
            say(&Notice::Ready);
        }
    }

    /// A line of the program for people: of a table, or a fault.
    fn take_told(&mut self, line: &str, time: Instant) {
        if let Some((mark, running)) = answered_mark(line).zip(self.phase.still_running()) {
            if running.outbound.air.answered(mark, time) {
                running.wakes.take_answer(mark, time);
                return;
            }
        }
        if line.starts_with("fault ") {
            if self.faults.push(line, time) {
                log::warn(line);
            }
        } else if self.phase.still_running().map_or(true, |running| running.take_table_line(line, time)) {
            log::write_plain(line);
        }
    }

    /// Tells how many faults of the program the log doesn't have, if there were more in a second than it takes.
    pub(super) fn tell_faults(&mut self) {
        if let Some(more) = self.faults.take_left_out(self.time) {
            log::warn(format_args!("{more} more faults of the program in one second"));
        }
    }

    /// Tells `tools/live` that the program answers: it has answered the last beginning of a beacon interval.
    pub(super) fn tell_alive(&mut self) {
        let tells = self.manner.tells_alive;
        if let Some(running) = self.phase.running().filter(|running| tells && running.timing.is_answered) {
            if self.time >= running.alive_told + ALIVE_EVERY {
                running.alive_told = self.time;
                say(&Notice::Alive);
            }
        }
    }

    /// Somebody connects, or a client wrote or reads.
    pub(super) fn take_client(&mut self, ready: Ready) -> Result<(), Fault> {
        match (ready.token, &mut self.clients) {
            (Token::Listener, Some(clients)) => clients.accept(&self.poller, self.time),
            (Token::Client(place), Some(clients)) => {
                clients.take(place, ready.can_read, ready.can_write, self.time);
                Ok(())
            }
            _ => Ok(()),
        }
    }

    /// Answers the questions of clients, of which some wait.
    pub(super) fn answer_clients(&mut self) -> Result<(), Fault> {
        let time = self.time;
        let (running, clients) = match (self.phase.running(), &mut self.clients) {
            (Some(running), Some(clients)) => (running, clients),
            (Some(running), None) => {
                running.gather_events();
                return Ok(());
            }
            _ => return Ok(()),
        };
        running.gather_events();
        if clients.are_away() && !self.status_line.is_being_made() {
            return Ok(());
        }
        while let Some((place, question)) = clients.next() {
            match running.answer(question, clients.is_root(place), time) {
                Some(answer) => clients.answer(place, Line::of(answer), time),
                None => clients.wait(place, question, time),
            }
        }
        if let Some((place, first)) = clients.waits_longest_for_events().filter(|_| running.events.may_be_told(time)) {
            clients.answer(place, Line::of(running.events.line_from(first, time)), time);
        }
        self.tell_status();
        self.clients.iter_mut().try_for_each(|clients| clients.flush(&self.poller, time))
    }

    /// Answers who waits for the status: by the last document, or a new one, of which a part is made; the program is asked
    /// for its tables before.
    fn tell_status(&mut self) {
        let time = self.time;
        let (running, clients) = match (self.phase.running(), &mut self.clients) {
            (Some(running), Some(clients)) => (running, clients),
            _ => return,
        };
        let waiting = clients.waiting_for_status();
        if waiting.is_empty() && !self.status_line.is_being_made() {
            return;
        }
        if self.status_line.line(time).is_none() {
            if running.tables.are_wanted(time) {
                self.feeder.feed(Event::Tables);
                running.tables.ask(Asker::Status, time);
                running.given.tables += 1;
            }
            let is_late = waiting.iter().any(|(_, since)| running.tables.is_late(*since, time));
            if self.status_line.is_being_made() || running.tables.are_new(time) || is_late {
                let status = running.status(&self.manner, self.began, &self.faults, &self.feeder, time);
                self.status_line.step(&status);
            }
        }
        if let Some(line) = self.status_line.line(time) {
            waiting.iter().for_each(|(place, _)| clients.answer(*place, line.clone(), time));
        }
    }
}

impl<P: Port> Running<P> {
    /// A network sends a frame on the air, and behind it what the bridge has to send.
    fn send_on_air(
        &mut self,
        bssid: Address,
        octets: Vec<u8>,
        feeder: &mut Feeder,
        time: Instant,
    ) -> Result<(), Fault> {
        if octets.first() == Some(&BEACON) {
            if self.radio.is_up() {
                self.timing.count_beacon(time);
            }
            self.radio.beacons.given(time);
        }
        let errands = self.stations.answered(bssid, &octets, time);
        self.take_moves(feeder, time);
        self.outbound.send_on_air(bssid, octets, time)?;
        self.run(errands, time);
        Ok(())
    }

    /// Tells `tools/live` that all stations were told to join again, once the last network's beacon came.
    fn tell_of_dismissal(&mut self) {
        if self.dismisses && !self.stations.dismisses() {
            self.dismisses = false;
            say(&Notice::Dismissed);
        }
    }

    /// A network sends a frame on its wire. If that has ended the frame is lost, and counted.
    fn send_on_wire(&mut self, bssid: Address, octets: Vec<u8>, time: Instant) -> Result<(), Fault> {
        match self.judge.places.of(&bssid).and_then(|place| self.ended.get_mut(&place)) {
            Some(ended) if ended.since.is_some() => ended.lost += 1,
            _ => self.put_on_wire(self.outbound.place(bssid)?, octets, time),
        }
        Ok(())
    }

    /// A frame goes to the wire of the network of this place.
    pub(super) fn put_on_wire(&mut self, place: usize, octets: Vec<u8>, time: Instant) {
        if self.networks[place].wire.is_some() {
            self.stations.put_on_wire(place, &octets, time);
        }
        self.outbound.send_on_wire(place, octets, time);
    }
}

//! The program is told when an interval begins, and is given what waits, as far as it has read what came before.
use super::running::{FirstBeacon, Running, Way, TO_BEACON};
use super::{Bridge, Phase, TO_READY};
use crate::apctl::feeder::Feeder;
use crate::apctl::protocol::Event;
use crate::apctl::tables::Asker;
use crate::control::faults::Fault;
use crate::inbound::frame::{InboundFrame, Source};
use crate::inbound::judging::LeftOut;
use crate::os::batch::Batch;
use crate::os::clock::Instant;
use crate::os::poller::Token;
use crate::os::port::{OfSocket, Port};
use crate::spare::give_back;

impl<P: OfSocket> Bridge<P> {
    /// Begins a beacon interval if it is time, and asks for the tables if that was asked for. An interval begins
    /// only once the program has read the beginning of the one before: what it doesn't read doesn't pile up.
    pub(super) fn take_time(&mut self) -> Result<(), Fault> {
        let time = self.time;
        match &mut self.phase {
            Phase::Opening { until, .. } if time >= *until => return Err(Fault::ProgramSilent(TO_READY)),
            Phase::Replay(replaying) if time >= replaying.until => return Err(Fault::ProgramSilent(TO_READY)),
            Phase::Running(running) => {
                let begins = running.timing.is_due(time) && self.feeder.has_read_tick();
                if begins && running.timing.begin(time, running.networks.len()) {
                    self.feeder.feed(Event::Tick);
                    self.feeder.flush_record();
                    running.given.ticks += 1;
                    running.receive(Token::Acknowledged, &mut self.batch, time)?;
                }
                running.outbound.expire(&running.interfaces, time);
                if running.tables_asked && running.tables.may_be_asked() {
                    running.tables_asked = false;
                    self.feeder.feed(Event::Tables);
                    running.tables.ask(Asker::People, time);
                    running.given.tables += 1;
                }
                if matches!(running.first_beacon, FirstBeacon::Awaited { until: Some(until) } if time > until) {
                    return Err(Fault::SendsNothing(TO_BEACON));
                }
            }
            _ => {}
        }
        Ok(())
    }

    /// Says to the program what waits, as far as it has read what was said before.
    pub(super) fn feed(&mut self) -> Result<(), Fault> {
        loop {
            let is_written = self.feeder.flush()?;
            self.wait_for_room(!is_written)?;
            if is_written && self.feed_replay() > 0 {
                continue;
            }
            let running = match self.phase.running() {
                Some(running) if is_written => running,
                _ => return Ok(()),
            };
            if running.give(&mut self.feeder, &mut self.batch, self.time)? == 0 {
                return Ok(());
            }
        }
    }

    /// Waits for room in the program's input, or no more.
    pub(super) fn wait_for_room(&mut self, waits: bool) -> Result<(), Fault> {
        if waits != self.waits_for_room {
            self.waits_for_room = waits;
            match self.feeder.descriptor() {
                Some(input) if waits => self.poller.add(input, Token::Input, false, true)?,
                Some(input) => self.poller.remove(input)?,
                None => {}
            }
        }
        Ok(())
    }
}

impl<P: Port> Running<P> {
    /// Says to the program what waits, as far as it has read what was said before; answers how much that was.
    pub(super) fn give(&mut self, feeder: &mut Feeder, batch: &mut Batch, time: Instant) -> Result<usize, Fault> {
        let mut said = 0;
        let room = if self.has_to_give() { feeder.room() } else { 0 };
        while said < room && self.feed_next(feeder, batch, time)? {
            said += 1;
        }
        self.end_handing_back(feeder);
        Ok(said)
    }

    /// Whether something waits for the program, be it for what goes before.
    pub(super) fn has_rest(&self) -> bool {
        self.has_to_give() || self.waiting.held.has_frames()
    }

    /// Says what is next to the program: what goes back to it before what waits. Answers whether there was something.
    fn feed_next(&mut self, feeder: &mut Feeder, batch: &mut Batch, time: Instant) -> Result<bool, Fault> {
        if self.hand_back(feeder) {
            return Ok(true);
        }
        self.end_handing_back(feeder);
        while let Some((source, frame)) = self.waiting.pop(time) {
            if self.ignores_poll(&frame, batch, time)? {
                self.leave_out(Way::Air, LeftOut::Poll);
                give_back(frame.octets);
                continue;
            }
            match self.wakes_too_late(&frame, time) {
                Some(member) => self.wait_for_beacons(member, source, frame, time),
                None => {
                    self.feed(source, frame, feeder, time);
                    return Ok(true);
                }
            }
        }
        Ok(false)
    }

    /// Says a frame to the program.
    fn feed(&mut self, source: Source, frame: InboundFrame, feeder: &mut Feeder, time: Instant) {
        match source {
            Source::AirForAll | Source::Air(_) => {
                self.given.air += 1;
                self.stations.fed(&frame.octets, time);
                feeder.feed(Event::Air(&frame.octets));
                self.take_moves(feeder, time);
            }
            Source::Wire(place) => {
                self.given.wires += 1;
                feeder.feed(Event::Wire(self.networks[place].bssid, &frame.octets))
            }
        }
        self.note_kept(source, &frame);
        give_back(frame.octets);
    }
}

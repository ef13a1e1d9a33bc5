//! What comes by the interfaces: it is read, judged, and waits for the program or is left out.
use super::running::{FirstBeacon, Running, Way};
use super::{Bridge, Phase, IN_A_ROW};
use crate::control::faults::{is_down, Fault};
use crate::control::notices::{say, Notice};
use crate::formats::frames::{Address, Frame, BEACON};
use crate::formats::radiotap::Reception;
use crate::inbound::frame::{InboundFrame, Source, LONGEST};
use crate::inbound::judging::{judge_wired, Judged, LeftOut};
use crate::os::batch::Batch;
use crate::os::clock::{now, wall_now, Duration, Instant, MILLISECOND};
use crate::os::poller::{Poller, Ready, Token};
use crate::os::port::{OfSocket, Packet, Port, AT_A_TIME};

/// For how long more than some batches are read in a waking while the bridge is behind: as long as frames gather else.
const CATCHING_UP: Duration = MILLISECOND;

impl<P: OfSocket> Bridge<P> {
    /// Reads the packets that wait at an interface, or learns that it has room.
    pub(super) fn take_port(&mut self, ready: Ready) -> Result<(), Fault> {
        let reads = matches!(self.phase, Phase::Running(_));
        let running = match self.phase.still_running() {
            Some(running) => running,
            None => return Ok(()),
        };
        if ready.can_write {
            running.unblock(ready.token);
        }
        if ready.can_read && reads {
            let outcome = running.receive(ready.token, &mut self.batch, self.time);
            match (outcome, ready.token) {
                (Err(fault), Token::Wire(place)) => {
                    running.end_wire(place, &fault, &self.poller, self.time)?;
                    say(&Notice::Down(place));
                }
                (outcome, _) => outcome?,
            }
        }
        Ok(())
    }

    /// Reads the frames that the radio shows as acknowledged, once there may be many, and sends what waited for that, some
    /// times at most; if frames wait for them still, they are waited for.
    pub(super) fn take_acknowledged(&mut self) -> Result<(), Fault> {
        let most = self.phase.running().map_or(0, |running| running.most_rounds());
        for _ in 0..most {
            match self.phase.running() {
                Some(running) if running.wants_outcomes() => running.read_outcomes(&mut self.batch, self.time)?,
                _ => break,
            }
            self.send()?;
        }
        if let Some(running) = self.phase.running() {
            let awaits = running.outbound.air.awaits_outcomes();
            match &running.interfaces.acknowledged {
                Some(port) if awaits != running.reading.awaits_acknowledged => {
                    self.poller.change(port.descriptor(), Token::Acknowledged, awaits, false)?;
                    running.reading.awaits_acknowledged = awaits;
                }
                _ => {}
            }
        }
        Ok(())
    }
}

impl<P: Port> Running<P> {
    /// Whether what the radio tells of frames is to be read.
    fn wants_outcomes(&self) -> bool {
        let given = self.outbound.air.sent - self.reading.sent_before;
        self.outbound.air.wants_outcomes(given)
    }

    /// How often in a row what the radio tells is read and what waited for that is sent. Once at most if the bridge
    /// is behind with reading: what waits in the kernel would be late before it is read.
    pub(super) fn most_rounds(&self) -> usize {
        if self.reading.is_behind {
            1
        } else {
            IN_A_ROW
        }
    }

    /// Reads what the radio tells of frames that were acknowledged, some batches of it at most, and no more once it told of
    /// all that it was given: a question for one more that isn't there costs as much as reading one.
    pub(super) fn read_outcomes(&mut self, batch: &mut Batch, time: Instant) -> Result<(), Fault> {
        self.reading.sent_before = self.outbound.air.sent;
        let mut most = match self.outbound.air.in_flight() {
            0 => AT_A_TIME,
            frames => frames.min(AT_A_TIME),
        };
        for _ in 0..IN_A_ROW {
            batch.ask_for(most);
            if self.receive_batch(Token::Acknowledged, batch, time)? < most || self.outbound.air.in_flight() == 0 {
                break;
            }
            most = AT_A_TIME;
        }
        self.outbound.air.reports_read();
        Ok(())
    }

    /// Reads what waits at an interface, some batches of it at most, and more while the bridge is behind with it.
    pub(super) fn receive(&mut self, token: Token, batch: &mut Batch, time: Instant) -> Result<(), Fault> {
        batch.ask_for(self.most_to_ask_for(token));
        let is_behind_elsewhere = std::mem::take(&mut self.reading.is_behind);
        let mut batches = 0;
        while self.receive_batch(token, batch, time)? == AT_A_TIME {
            batches += 1;
            if batches >= IN_A_ROW && !self.catches_up() {
                break;
            }
        }
        self.reading.is_behind |= is_behind_elsewhere;
        self.tell_of_drops();
        Ok(())
    }

    /// Whether more is read of an interface in this waking: the last batch had waited for long there, and no interval
    /// begins yet.
    fn catches_up(&mut self) -> bool {
        if !self.reading.is_behind {
            return false;
        }
        let time = now();
        let until = *self.reading.catches_up_until.get_or_insert(time + CATCHING_UP);
        time < until.min(self.timing.ticks.due)
    }

    /// Reads a batch of what waits at an interface, and answers how many packets that was.
    fn receive_batch(&mut self, token: Token, batch: &mut Batch, time: Instant) -> Result<usize, Fault> {
        let port = match token {
            Token::Wire(place) => self.interfaces.wire(place).map(|wire| &mut wire.port),
            Token::Acknowledged => self.interfaces.acknowledged.as_mut(),
            _ => Some(&mut self.interfaces.monitor.port),
        };
        let port = match port {
            Some(port) => port,
            None => return Ok(0),
        };
        let number = match port.receive(batch) {
            Ok(number) => number,
            Err(fault) if is_down(&fault) && !matches!(token, Token::Wire(_)) => {
                return self.went_down(time).map(|()| 0);
            }
            Err(fault) => return Err(Fault::of_interface(port.interface(), &fault)),
        };
        if token != Token::Acknowledged {
            self.batching.count(number);
        }
        let arrival = self.reading.arrivals.read(wall_now(), now());
        for packet in batch.packets() {
            let arrived = arrival(packet.arrived).min(time);
            if token != Token::Acknowledged {
                self.reading.is_behind = time.since(arrived) > LONGEST / 2;
            }
            match token {
                Token::Wire(place) => self.take_wired(place, &packet, arrived),
                _ => self.take_air(&packet, arrived),
            }
        }
        Ok(number)
    }

    /// How many packets are asked for at a time: one if an interface had nothing at the last waking, since a
    /// question for one more that isn't there costs as much as reading one.
    fn most_to_ask_for(&mut self, token: Token) -> usize {
        let way = match token {
            Token::Monitor => 0,
            Token::Wire(place) => 1 + place,
            _ => {
                self.reading.sent_before = self.outbound.air.sent;
                return AT_A_TIME;
            }
        };
        let before = std::mem::replace(&mut self.reading.read_in[way], self.reading.wakings);
        if before + 1 == self.reading.wakings || self.batching.are_many {
            AT_A_TIME
        } else {
            1
        }
    }

    fn take_air(&mut self, packet: &Packet<'_>, arrived: Instant) {
        match self.judge.judge(packet.octets, packet.is_outgoing, packet.is_cut) {
            Judged::LeftOut(reason) => self.leave_out(Way::Air, reason),
            Judged::Neighbours(reception) => {
                self.hear_on(reception, arrived);
                self.leave_out(Way::Air, LeftOut::Neighbours);
            }
            Judged::Sent(frame, outcome) => {
                self.leave_out(Way::Air, LeftOut::Sent);
                self.see_sent(frame, arrived);
                self.stations.reported(frame, outcome, arrived);
                self.outbound.reported(frame, outcome, arrived);
            }
            Judged::GoesOn(frame, reception) => {
                self.hear_on(reception, arrived);
                self.outbound.heard(frame);
                let changes_mode = self.stations.table.heard(frame, reception, arrived);
                self.take_ready(frame);
                self.wait_of_air(frame.octets(), changes_mode, arrived);
            }
        }
    }

    /// A frame of the air waits for the program, and changes the mode of its station or doesn't.
    pub(super) fn wait_of_air(&mut self, octets: &[u8], changes_mode: bool, arrived: Instant) {
        if let Some(frame) = Frame::of(octets) {
            let source = Source::of_air(self.judge.places.of(&frame.receiver()));
            self.waiting.push(source, InboundFrame::of_air(frame, changes_mode, arrived));
        }
    }

    /// The radio names the frequency on which it heard a frame, if it names one.
    fn hear_on(&mut self, reception: Reception, time: Instant) {
        reception.frequency.into_iter().for_each(|frequency| self.radio.tuning.heard(frequency, time));
    }

    /// The first frame of ours that the radio shows as sent shows that it sends what it is given, and a beacon that it
    /// still does.
    fn see_sent(&mut self, frame: &[u8], time: Instant) {
        let is_ours = Address::at(frame, 10).map_or(false, |found| self.outbound.places.of(&found).is_some());
        if is_ours && matches!(self.first_beacon, FirstBeacon::Awaited { .. }) {
            self.first_beacon = FirstBeacon::Seen;
        }
        if is_ours && frame.first() == Some(&BEACON) {
            self.radio.beacons.shown(time);
        }
    }

    fn take_wired(&mut self, place: usize, packet: &Packet<'_>, arrived: Instant) {
        match judge_wired(packet.octets, packet.is_outgoing, packet.had_tag, packet.is_cut) {
            Err(reason) => self.leave_out(Way::Wire(place), reason),
            Ok(octets) => {
                let errand = self.stations.wired(place, octets, self.outbound.air.tells_outcomes(), arrived);
                self.run(errand, arrived);
                self.waiting.push(Source::Wire(place), InboundFrame::of_wire(octets, arrived));
            }
        }
        if packet.has_no_checksum {
            self.tell_of_checksums(place);
        }
    }

    pub(super) fn leave_out(&mut self, way: Way, reason: LeftOut) {
        *self.left_out.entry((way, reason)).or_default() += 1;
    }

    /// Reads the interfaces no more.
    pub(super) fn stop_reading(&mut self, poller: &Poller) -> Result<(), Fault> {
        poller.change(self.interfaces.monitor.port.descriptor(), Token::Monitor, false, false)?;
        if let Some(port) = &self.interfaces.acknowledged {
            poller.change(port.descriptor(), Token::Acknowledged, false, false)?;
        }
        for place in (0..self.networks.len()).filter(|place| !self.is_down(*place)).collect::<Vec<_>>() {
            if let Some(wire) = self.interfaces.wire(place) {
                poller.change(wire.port.descriptor(), Token::Wire(place), false, false)?;
            }
        }
        self.interfaces.gates().for_each(|gate| {
            gate.unblock();
            gate.settle();
        });
        Ok(())
    }
}

//! Stations doze, wake, join and leave: what waits for them on the air learns of that. What goes back to the program goes
//! there right behind the frame that said it (`outbound::air::sleeping`).
use super::running::Running;
use super::wake_timing::Interval;
use crate::apctl::feeder::Feeder;
use crate::apctl::protocol::Event;
use crate::control::faults::Fault;
use crate::formats::ethernet::update;
use crate::formats::frames::{Address, Frame, FrameType};
use crate::inbound::frame::{InboundFrame, Source};
use crate::inbound::held::Holding;
use crate::os::batch::Batch;
use crate::os::clock::{Duration, Instant, MILLISECOND};
use crate::os::port::Port;
use crate::outbound::air::handing_back::Errand;
use crate::outbound::monitor::has_unsent_beacons;
use crate::stations::station::{Member, Move, Station};

/// Marks in the record around units that no wire brought: they go back to the program, which had answered them before, or
/// ask a station that dozes whether it is there.
pub(super) const HANDED_BACK_FROM: &str = "handed back: the lines from here on are units of stations that doze";
pub(super) const HANDED_BACK_TO: &str = "handed back: up to here";
/// What stands in the record if the bridge tells a wire that a station is here.
pub(super) const TOLD_WIRE: &str = "told the wire of";
/// How often a wire is told so in a second at most.
const MOST_UPDATES: u32 = 100;

/// How long a station may take from its association until it takes units. A Linux station drops those that come in the
/// first three milliseconds or so.
const TO_GET_READY: Duration = Duration::from_millis(5);

const DESTINATION_AT: usize = 16;

/// Whom a frame of a station brings a unit.
fn unit_to(octets: &[u8]) -> Option<Address> {
    Frame::of(octets).filter(Frame::is_unit).and_then(|_| Address::at(octets, DESTINATION_AT))
}

impl<P: Port> Running<P> {
    /// How modes of stations changed, by what the program was given last or answered.
    pub(super) fn take_moves(&mut self, feeder: &mut Feeder, time: Instant) {
        for ((place, station), change) in self.stations.table.take_moves() {
            let air = &mut self.outbound.air;
            match change {
                Move::Dozes => self.falls_asleep(place, station, feeder, time),
                Move::Wakes => {
                    let (units, mark) = (air.sleepers.kept_at_most(place, station), feeder.mark());
                    air.wakes(place, station, mark, time);
                    self.wakes.give((place, station), mark, units, time);
                }
                Move::Polls => air.polls(place, station, feeder.mark(), time),
                Move::Leaves => air.leaves(place, station, Some(feeder.mark()), time),
                Move::Left => air.leaves(place, station, None, time),
                Move::Joins { dozes } => {
                    if !dozes {
                        air.joins(place, station, time);
                        self.gets_ready((place, station), time);
                    } else if !air.is_asleep(place, station) {
                        self.falls_asleep(place, station, feeder, time);
                    }
                    self.tell_wire(place, station, feeder, time);
                }
            }
        }
    }

    /// A station has joined. What the wire brings for it waits until it sends data, or for some time.
    pub(super) fn gets_ready(&mut self, member: Member, time: Instant) {
        self.waiting.held.hold(member.0, member.1, Holding::OwnAndWired);
        self.getting_ready.push_back((time + TO_GET_READY, member));
    }

    /// A frame of the air was heard. If a station that has just joined sends data, it takes units too.
    pub(super) fn take_ready(&mut self, frame: Frame<'_>) {
        if !self.getting_ready.is_empty() && frame.frame_type() == FrameType::Data {
            let member = self.judge.places.of(&frame.receiver()).zip(frame.transmitter());
            member.into_iter().for_each(|member| self.is_ready(member));
        }
    }

    /// When `end_getting_ready` has something to do.
    pub(super) fn ready_due(&self) -> Option<Instant> {
        self.getting_ready.front().map(|(until, _)| *until)
    }

    /// Nothing waits any more for stations that have had some time since they joined.
    pub(super) fn end_getting_ready(&mut self, time: Instant) {
        while let Some((_, member)) = self.getting_ready.front().copied().filter(|(until, _)| *until <= time) {
            self.is_ready(member);
        }
    }

    /// Nothing waits any more for a station that has just joined.
    fn is_ready(&mut self, member: Member) {
        let before = self.getting_ready.len();
        self.getting_ready.retain(|(_, found)| *found != member);
        if self.getting_ready.len() < before {
            self.waiting.held.release(member.0, member.1);
        }
    }

    /// The station that a frame wakes, if the program would answer that for too long before the next beacon interval.
    pub(super) fn wakes_too_late(&self, frame: &InboundFrame, time: Instant) -> Option<Member> {
        let may_wait = frame.is_notice() && !self.is_ending;
        let (place, station) = may_wait.then(|| self.stations.table.woken_by(&frame.octets)).flatten()?;
        let units = self.outbound.air.sleepers.kept_at_most(place, station);
        let fits = units == 0 || self.wakes.fits((place, station), units, self.interval(time), time);
        (!fits).then_some((place, station))
    }

    /// Whether the program isn't given a frame, since it is a poll of a station that dozes and the answer to an earlier
    /// one hasn't succeeded yet, nor failed (IEEE Std 802.11-2016, 11.2.3.6). What the radio told of it is read first.
    pub(super) fn ignores_poll(
        &mut self,
        frame: &InboundFrame,
        batch: &mut Batch,
        time: Instant,
    ) -> Result<bool, Fault> {
        let (place, station) = match self.stations.table.polled_by(&frame.octets) {
            Some(member) => member,
            None => return Ok(false),
        };
        if self.outbound.air.has_out(place, station) {
            self.read_outcomes(batch, time)?;
            self.outbound.look(&self.interfaces, time);
        }
        let is_ignored = self.outbound.air.ignores_polls(place, station);
        if is_ignored {
            self.stations.table.ignored_poll((place, station));
        }
        Ok(is_ignored)
    }

    /// What comes of a station waits until the next beacons have come.
    pub(super) fn wait_for_beacons(&mut self, station: Member, source: Source, frame: InboundFrame, time: Instant) {
        self.waiting.held.hold(station.0, station.1, Holding::Own);
        self.waiting.keep(source, frame);
        self.wakes.wait(station, self.timing.interval(time));
    }

    /// The interval that began last. Its beacons are awaited until the radio has sent them: what the program answers to
    /// a wake takes the processor, and a radio may need that too.
    pub(super) fn interval(&self, time: Instant) -> Interval {
        let interval = self.timing.interval(time);
        let has_unsent = || has_unsent_beacons(&self.outbound.air, &self.interfaces);
        Interval { awaits_beacons: interval.awaits_beacons || time < self.timing.sent_by() && has_unsent(), ..interval }
    }

    /// When wakes that wait for beacons are looked at again, if the program has still to make these or the radio to
    /// send them. A radio doesn't tell that, so its socket is looked at.
    pub(super) fn next_wakes(&self, time: Instant) -> Option<Instant> {
        let interval = self.timing.interval(time);
        let until = if interval.awaits_beacons { self.timing.awaits_until() } else { Some(time + MILLISECOND) };
        until.filter(|_| self.wakes.has_untried(interval))
    }

    /// What comes of these stations waits for no beacons any more.
    pub(super) fn end_waits_for_beacons(&mut self, stations: Vec<Member>) {
        for (place, station) in stations {
            self.waiting.held.release(place, station);
        }
    }

    /// No beacon interval begins any more, since all ends: nothing waits for its beacons.
    pub(super) fn end_intervals(&mut self) {
        self.is_ending = true;
        let waiting = self.wakes.take_waiting();
        self.end_waits_for_beacons(waiting);
    }

    /// The program was given a frame: if it has a unit for a station that dozes, the program keeps that. Of the air it
    /// takes units of associated stations alone, and sends them on only if the network relays. What strangers send
    /// counts for nothing.
    pub(super) fn note_kept(&mut self, source: Source, frame: &InboundFrame) {
        let destination = match source {
            Source::Wire(place) => Some((place, frame.receiver())),
            Source::Air(place) => {
                let destination = unit_to(&frame.octets).filter(|_| self.relays_of(place, frame));
                destination.map(|station| (place, station))
            }
            Source::AirForAll => None,
        };
        destination.into_iter().for_each(|(place, station)| self.outbound.air.sleepers.was_given(place, station));
    }

    /// Whether a network sends on to its stations what the sender of a frame of the air sends.
    fn relays_of(&self, place: usize, frame: &InboundFrame) -> bool {
        let sender = self.stations.table.station(&(place, frame.sender()));
        self.networks[place].relays && sender.map_or(false, Station::is_associated)
    }

    /// The wire of a network learns that a station is here (`stations::roaming`).
    fn tell_wire(&mut self, place: usize, station: Address, feeder: &mut Feeder, time: Instant) {
        let network = &self.networks[place];
        let may = self.tells_wires && network.wire.is_some() && !self.is_down(place);
        if may && self.update_paces[place].takes(MOST_UPDATES, time) {
            self.updates[place] += 1;
            feeder.remark(&format!("{TOLD_WIRE} {}: {station} is here", network.bssid));
            self.put_on_wire(place, update(station), time);
        }
    }

    fn falls_asleep(&mut self, place: usize, station: Address, feeder: &mut Feeder, time: Instant) {
        self.waiting.held.hold(place, station, Holding::OwnAndWired);
        self.outbound.air.dozes(place, station, feeder.mark(), time);
    }

    /// Gives the program the next unit that goes back to it, and lets stations go on of which all went; then a unit that
    /// asks a station. Answers whether there was one.
    pub(super) fn hand_back(&mut self, feeder: &mut Feeder) -> bool {
        while let Some(errand) = self.outbound.air.next_errand() {
            match errand {
                Errand::GoOn { place, station } => self.waiting.held.release(place, station),
                Errand::HandBack { place, frame } => {
                    self.given.handed_back += 1;
                    self.feed_unit(place, &frame, feeder);
                    return true;
                }
            }
        }
        let question = self.questions.pop_front();
        for (place, frame) in &question {
            self.feed_unit(*place, frame, feeder);
            Address::at(frame, 0).into_iter().for_each(|station| self.outbound.air.sleepers.was_given(*place, station));
        }
        question.is_some()
    }

    /// Gives the program a unit as what came by the wire of a network.
    fn feed_unit(&mut self, place: usize, frame: &[u8], feeder: &mut Feeder) {
        if !std::mem::replace(&mut self.hands_back, true) {
            feeder.remark(HANDED_BACK_FROM);
        }
        feeder.feed(Event::Wire(self.networks[place].bssid, frame));
    }

    /// What is recorded from now on are no units that go back.
    pub(super) fn end_handing_back(&mut self, feeder: &mut Feeder) {
        if std::mem::take(&mut self.hands_back) {
            feeder.remark(HANDED_BACK_TO);
        }
    }

    /// Whether something may be given to the program.
    pub(super) fn has_to_give(&self) -> bool {
        !self.waiting.is_empty() || self.outbound.air.sleepers.has_next() || !self.questions.is_empty()
    }
}

use std::cell::Cell;
use std::io;
use std::os::unix::io::{AsFd, BorrowedFd};
use std::os::unix::net::UnixDatagram;
use std::rc::Rc;

use libc::sock_filter;

use super::*;
use crate::formats::ethernet::update;
use crate::formats::frames::Frame;
use crate::formats::radiotap::{sending_header, Reception};
use crate::inbound::frame::{InboundFrame, Source, LONGEST};
use crate::network::Network;
use crate::os::clock::{now, MILLISECOND, SECOND};
use crate::os::interfaces::Interfaces;
use crate::os::port::AT_A_TIME;
use crate::restart::replay::Restored;
use crate::restart::state::Setting;
use crate::run::{Manner, IN_A_ROW};
use crate::stations::own_frames::{association_request, departure, mode_of_station};
use crate::stations::station::KeptStation;
use crate::stations::Errand;
use crate::testing::samples::{data, network, radiotap, Unit, OTHER, OURS, STATION, STRANGER};

/// A radio's port, which shows each frame that is sent by it as acknowledged if `shown` is. It has as many octets as
/// `unsent` says, and counts how often it is asked that. Of the packets that are still to come it hears a batch each
/// time that it is read.
struct RadioPort {
    near: UnixDatagram,
    far: UnixDatagram,
    to_come: Rc<Cell<usize>>,
    shown: Option<UnixDatagram>,
    asked: Rc<Cell<usize>>,
    unsent: Rc<Cell<usize>>,
}

impl RadioPort {
    /// One with its other end.
    fn new(shown: Option<UnixDatagram>) -> (RadioPort, UnixDatagram) {
        let (near, far) = UnixDatagram::pair().unwrap();
        far.set_nonblocking(true).unwrap();
        let (to_come, asked, unsent) = (Rc::default(), Rc::default(), Rc::default());
        (RadioPort { near, far: far.try_clone().unwrap(), to_come, shown, asked, unsent }, far)
    }
}

impl Port for RadioPort {
    fn descriptor(&self) -> Option<BorrowedFd<'_>> {
        Some(self.near.as_fd())
    }

    fn interface(&self) -> &str {
        "mon0"
    }

    fn receive(&mut self, batch: &mut Batch) -> io::Result<usize> {
        // Fewer are read at a time than come, so at some time no more fit.
        let (packet, most) = (radiotap(&data(), 0, &[]), AT_A_TIME.min(self.to_come.get()));
        let come = (0..most).take_while(|_| self.far.send(&packet).is_ok()).count();
        self.to_come.set(self.to_come.get() - come);
        batch.receive(self.near.as_fd())
    }

    fn send(&mut self, frames: &[&[u8]]) -> io::Result<usize> {
        let shown = self.shown.iter().flat_map(|shown| frames.iter().map(move |frame| shown.send(frame)));
        shown.collect::<io::Result<Vec<_>>>().map(|_| frames.len())
    }

    fn set_filter(&mut self, _: &[sock_filter]) -> io::Result<()> {
        Ok(())
    }

    fn count_dropped(&mut self) -> u64 {
        0
    }

    fn unsent(&self) -> io::Result<usize> {
        self.asked.set(self.asked.get() + 1);
        Ok(self.unsent.get())
    }
}

fn manner() -> Manner {
    Manner {
        setting: Setting { phy: "phy0".into(), channel: 6, interval: 100 },
        networks: vec![Network { quota: 2000, ..network(OURS) }],
        by: None,
        most_silence: None,
        tells_wires: false,
        tells_alive: false,
        has_sent: true,
    }
}

/// Sends two units to a station, the second long after the radio is done with the first. Answers how often the radio's
/// socket was asked what it has, and of how many frames the radio hasn't told.
fn send_two(is_shown: bool) -> (usize, usize) {
    let (acknowledged, far) = RadioPort::new(None);
    let (monitor, _air) = RadioPort::new(is_shown.then_some(far));
    let (beacons, _beacons) = RadioPort::new(None);
    let (asked, manner) = (Rc::clone(&monitor.asked), manner());
    let interfaces = Interfaces::new(monitor, beacons, vec![None]).with_acknowledged(acknowledged);
    let mut running = Running::new(interfaces, &manner);
    let request = association_request(&manner.networks[0], STATION);
    running.outbound.air.restore(0, Frame::of(&request).unwrap(), now());
    let (poller, mut batch, begun) = (Poller::new().unwrap(), Batch::new(), now());
    for number in 1..=2 {
        let time = begun + 20 * MILLISECOND * number;
        let sequence = (number as u16) << 4;
        let unit = Unit { control: [0x08, 0x02], receiver: STATION, transmitter: OURS, sequence, ..Unit::default() };
        running.outbound.send_on_air(OURS, unit.octets(), time).unwrap();
        running.send(time, &poller, &mut batch, true).unwrap();
    }
    assert_eq!(running.outbound.air.sent, 2);
    (asked.get(), running.outbound.air.in_flight())
}

/// That costs one call, and asking its socket would cost one too, with another one behind the frame.
#[test]
fn what_became_of_a_frame_is_read_before_the_next_one_goes() {
    assert_eq!(send_two(true), (0, 1));
}

#[test]
fn where_nothing_is_told_of_a_frame_the_socket_is_asked() {
    assert_eq!(send_two(false), (1, 2));
}

/// An authentication response to a station of this number, and a beacon.
const RESPONSE: &str = "b000000002aa0000000N0200000001010200000001011000000002000000";
const BEACON: &str = "80000000ffffffffffff020000000101020000000101";

/// Sends nine responses that wait, and a beacon that comes behind them, at the begin of an interval of so many time
/// units. Answers the first octets of the frames that went, in their order.
fn send_nine_and_a_beacon(interval: u16) -> Vec<u8> {
    let (radio, air) = UnixDatagram::pair().unwrap();
    let [monitor, beacons] = [(); 2].map(|()| RadioPort::new(Some(radio.try_clone().unwrap())).0);
    let networks = vec![Network { rates: vec![0x80 | 12], ..network(OURS) }];
    let manner = Manner { setting: Setting { interval, ..manner().setting }, networks, ..manner() };
    let mut running = Running::new(Interfaces::new(monitor, beacons, vec![None]), &manner);
    let begun = running.timing.next(Instant::START);
    assert!(running.timing.begin(begun, 1));
    running.timing.take_beacon();
    let responses = (1..=9).map(|number| RESPONSE.replace('N', &number.to_string()));
    for frame in responses.chain([BEACON.to_owned()]) {
        running.outbound.send_on_air(OURS, hex::decode(frame).unwrap(), begun).unwrap();
    }
    std::thread::sleep(std::time::Duration::from_millis(2));
    running.send(begun, &Poller::new().unwrap(), &mut Batch::new(), true).unwrap();
    air.set_nonblocking(true).unwrap();
    let header = sending_header(2, 0).len();
    let mut packet = [0; 256];
    std::iter::from_fn(|| air.recv(&mut packet).ok().map(|_| packet[header])).collect()
}

/// Beacons go before all that waits. Once the next interval is to begin, no more goes than what was handed over at a
/// time.
#[test]
fn beacons_go_before_what_waits_and_the_rest_waits_for_the_next_ones() {
    for (interval, responses) in [(10_000, 9), (1, AT_A_TIME)] {
        let wanted = [&[0x80][..], &vec![0xb0; responses]].concat();
        assert_eq!(send_nine_and_a_beacon(interval), wanted, "{interval}");
    }
}

/// Once what is read had waited for long, the bridge goes on with reading after one round, in which what the radio told
/// is read and more is sent.
#[test]
fn where_the_bridge_is_behind_with_reading_outcomes_are_read_once() {
    for (waited, rounds) in [(LONGEST, 1), (LONGEST / 4, IN_A_ROW)] {
        let ((monitor, far), (beacons, _beacons)) = (RadioPort::new(None), RadioPort::new(None));
        let mut running = Running::new(Interfaces::new(monitor, beacons, vec![None]), &manner());
        running.begin_waking();
        far.send(&radiotap(&data(), 0, &[])).unwrap();
        // A packet without a time came when it is read.
        running.receive(Token::Monitor, &mut Batch::new(), now() + waited).unwrap();
        assert_eq!(running.most_rounds(), rounds, "{waited:?}");
        running.begin_waking();
        assert_eq!(running.most_rounds(), IN_A_ROW);
    }
}

/// While what is read had waited for long, more than some batches are read in a waking, for a while: what has to be
/// dropped is dropped before the program is given the rest.
#[test]
fn where_the_bridge_is_behind_with_reading_it_reads_on() {
    let some = AT_A_TIME * IN_A_ROW;
    for (waited, reads_on) in [(LONGEST, true), (LONGEST / 4, false)] {
        let ((monitor, _far), (beacons, _beacons)) = (RadioPort::new(None), RadioPort::new(None));
        let to_come = Rc::clone(&monitor.to_come);
        let mut running = Running::new(Interfaces::new(monitor, beacons, vec![None]), &manner());
        running.batching.are_many = true;
        assert!(running.timing.begin(now(), 1));
        to_come.set(2 * some);
        running.receive(Token::Monitor, &mut Batch::new(), now() + waited).unwrap();
        assert_eq!((to_come.get() < some, running.waiting.len()), (reads_on, some), "{waited:?}");
    }
}

/// The radio doesn't wake the bridge for an acknowledgement, so that is read before one judges by it.
#[test]
fn a_station_that_acknowledges_the_question_behind_an_update_stays_for_now() {
    for is_shown in [true, false] {
        let (acknowledged, far) = RadioPort::new(None);
        let (monitor, _air) = RadioPort::new(is_shown.then_some(far));
        let interfaces = Interfaces::new(monitor, RadioPort::new(None).0, vec![None]).with_acknowledged(acknowledged);
        let mut running = with_station(interfaces, false);
        let (poller, mut batch, time) = (Poller::new().unwrap(), Batch::new(), now());
        let null = mode_of_station(OURS, STATION, false);
        running.stations.table.heard(Frame::of(&null).unwrap(), Reception::default(), time);
        let errand = running.stations.wired(0, &update(STATION), true, time);
        assert!(matches!(errand, Some(Errand::Send { .. })));
        running.run(errand, time);
        running.send(time, &poller, &mut batch, false).unwrap();
        running.look(&mut batch, time + 30 * MILLISECOND).unwrap();
        let said = running.waiting.pop(time + 30 * MILLISECOND).map(|(_, frame)| frame.octets);
        assert_eq!(said, (!is_shown).then(|| departure(OURS, STATION)));
    }
}

/// The networks with a station that has been associated for long, and dozes or doesn't.
fn with_station(interfaces: Interfaces<RadioPort>, dozes: bool) -> Running<RadioPort> {
    let manner = manner();
    let mut running = Running::new(interfaces, &manner);
    let request = association_request(&manner.networks[0], STATION);
    running.outbound.air.restore(0, Frame::of(&request).unwrap(), now());
    let station = KeptStation { address: STATION, aid: 1, listen: 5, dozes, has_dozed: dozes, request };
    let stay = vec![((0, STATION), station)];
    running.stations.restore(&Restored { stay, again: vec![], leave: vec![], swallowed: 0 }, now() - 10 * SECOND);
    running
}

/// A station that dozes, with so many units that the program keeps, and how many octets of beacons the radio has.
fn with_kept(units: u32) -> (Running<RadioPort>, Rc<Cell<usize>>) {
    let ((monitor, _), (beacons, _)) = (RadioPort::new(None), RadioPort::new(None));
    let unsent = Rc::clone(&beacons.unsent);
    let mut running = with_station(Interfaces::new(monitor, beacons, vec![None]), true);
    running.outbound.air.has_dozed(0, STATION, now());
    (0..units).for_each(|_| running.outbound.air.sleepers.was_given(0, STATION));
    (running, unsent)
}

/// What the program answers to a wake takes the processor, which the radio may need for the beacons that it has.
#[test]
fn a_wake_with_much_kept_waits_until_the_radio_has_sent_the_beacons() {
    let (member, wake) = ((0, STATION), mode_of_station(OURS, STATION, false));
    for is_sent in [true, false] {
        let ((mut running, unsent), mut batch) = (with_kept(1500), Batch::new());
        let begun = running.timing.next(Instant::START);
        let frame = || InboundFrame::of_air(Frame::of(&wake).unwrap(), true, begun);
        let after = |milliseconds| begun + milliseconds * MILLISECOND;
        assert!(running.timing.begin(begun, 1));
        assert_eq!(running.wakes_too_late(&frame(), begun), Some(member));
        running.timing.take_beacon();
        assert_eq!(running.wakes_too_late(&frame(), begun), None);
        unsent.set(500);
        assert_eq!(running.wakes_too_late(&frame(), begun), Some(member));
        running.wait_for_beacons(member, Source::Air(0), frame(), begun);
        running.look(&mut batch, after(1)).unwrap();
        assert!(running.waiting.pop(after(1)).is_none());
        assert_eq!(running.next_wakes(after(1)), Some(after(2)));
        unsent.set(if is_sent { 0 } else { 500 });
        running.look(&mut batch, after(2)).unwrap();
        assert_eq!(running.waiting.pop(after(2)).is_some(), is_sent);
        assert_eq!(running.next_wakes(after(2)).is_none(), is_sent);
        // A radio that sends no beacons is awaited no longer than the program.
        running.look(&mut batch, after(50)).unwrap();
        assert_eq!((running.waiting.pop(after(50)).is_some(), running.next_wakes(after(50))), (!is_sent, None));
    }
}

/// Of what is sent on the air for a station that dozes the program keeps what associated stations send, and that only
/// if its network relays. What a wire brings it keeps in any case.
#[test]
fn what_strangers_send_on_the_air_is_not_taken_to_be_kept() {
    for (relays, sender, wanted) in [(true, STATION, 1), (true, STRANGER, 0), (false, STATION, 0)] {
        let (mut running, _) = with_kept(0);
        running.networks[0].relays = relays;
        let mut unit = Unit { transmitter: sender, ..Unit::default() }.octets();
        unit[16..22].copy_from_slice(STATION.octets());
        let frame = InboundFrame::of_air(Frame::of(&unit).unwrap(), false, now());
        running.note_kept(Source::Air(0), &frame);
        assert_eq!(running.outbound.air.sleepers.kept_at_most(0, STATION), wanted);
        let wired = [STATION.octets(), STRANGER.octets(), &[8, 0, 1][..]].concat();
        running.note_kept(Source::Wire(0), &InboundFrame::of_wire(&wired, now()));
        assert_eq!(running.outbound.air.sleepers.kept_at_most(0, STATION), wanted + 1);
    }
}

/// A wire that ends may have brought much before that: it is read some at a time, between all else.
#[test]
fn what_a_wire_brought_before_it_ended_is_read_some_at_a_time() {
    let ((monitor, _air), (beacons, _beacons)) = (RadioPort::new(None), RadioPort::new(None));
    let (wire, _far) = RadioPort::new(None);
    let to_come = Rc::clone(&wire.to_come);
    let mut running = Running::new(Interfaces::new(monitor, beacons, vec![Some(wire)]), &manner());
    let (poller, mut batch, most) = (Poller::new().unwrap(), Batch::new(), AT_A_TIME * IN_A_ROW);
    let descriptor = running.interfaces.wires[0].as_ref().unwrap().port.descriptor();
    poller.add(descriptor, Token::Wire(0), true, false).unwrap();
    to_come.set(1000);
    running.end_wire(0, &Fault::ProgramEnded, &poller, now()).unwrap();
    assert!(to_come.get() + most >= 1000, "{}", to_come.get());
    while running.has_backlog() {
        let before = to_come.get();
        running.read_backlog(&mut batch, now());
        assert!(before - to_come.get() <= most, "{before} {}", to_come.get());
    }
    assert_eq!((to_come.get(), running.is_down(0)), (0, true));
}

/// The answer to a wake with few units takes hardly longer than that to any other frame.
#[test]
fn a_wake_with_nothing_kept_waits_for_no_beacons() {
    let (mut running, unsent) = with_kept(0);
    let begun = running.timing.next(Instant::START);
    assert!(running.timing.begin(begun, 1));
    unsent.set(500);
    let wake = mode_of_station(OURS, STATION, false);
    let frame = InboundFrame::of_air(Frame::of(&wake).unwrap(), true, begun);
    assert_eq!(running.wakes_too_late(&frame, begun), None);
}

/// A station that has just joined would drop what comes at once.
#[test]
fn what_the_wire_brings_for_a_station_that_has_just_joined_waits_a_little() {
    let wired = [STATION.octets(), OTHER.octets(), &[8, 0, 1][..]].concat();
    let heard = |control: u8| Unit { control: [control, 0x01], ..Unit::default() }.octets();
    for sends in [None, Some(0x48), Some(0x08)] {
        let (mut running, _) = with_kept(0);
        let (mut batch, time) = (Batch::new(), now());
        running.gets_ready((0, STATION), time);
        running.gets_ready((0, STATION), time + MILLISECOND);
        running.waiting.push(Source::Wire(0), InboundFrame::of_wire(&wired, time));
        running.take_ready(Frame::of(&heard(0x00)).unwrap());
        running.look(&mut batch, time + 4 * MILLISECOND).unwrap();
        assert!(running.waiting.pop(time + 4 * MILLISECOND).is_none());
        assert_eq!(running.ready_due(), Some(time + 5 * MILLISECOND));
        match sends {
            Some(control) => running.take_ready(Frame::of(&heard(control)).unwrap()),
            None => running.look(&mut batch, time + 5 * MILLISECOND).unwrap(),
        }
        let found = running.waiting.pop(time + 5 * MILLISECOND).map(|(_, frame)| frame.octets);
        assert_eq!((found, running.ready_due()), (Some(wired.clone()), None));
    }
}

/// The radio doesn't wake the bridge for an outcome, so that is read before a poll is ignored.
#[test]
fn a_poll_behind_an_outcome_that_is_unread_counts() {
    let poll = [&[0xa4, 0x10, 1, 0xc0][..], OURS.octets(), STATION.octets()].concat();
    for is_shown in [true, false] {
        let (acknowledged, far) = RadioPort::new(None);
        let (monitor, _air) = RadioPort::new(is_shown.then_some(far));
        let interfaces = Interfaces::new(monitor, RadioPort::new(None).0, vec![None]).with_acknowledged(acknowledged);
        let (mut running, mut batch) = (with_station(interfaces, true), Batch::new());
        let time = now() + 20 * MILLISECOND;
        running.outbound.air.has_dozed(0, STATION, time);
        running.outbound.air.polls(0, STATION, 7, time);
        let frame = InboundFrame::of_air(Frame::of(&poll).unwrap(), false, time);
        assert!(running.ignores_poll(&frame, &mut batch, time).unwrap());
        let unit = Unit { control: [0x08, 0x02], receiver: STATION, transmitter: OURS, ..Unit::default() };
        running.outbound.send_on_air(OURS, unit.octets(), time).unwrap();
        assert!(running.outbound.air.answered(7, time));
        running.send(time, &Poller::new().unwrap(), &mut batch, true).unwrap();
        assert_eq!(running.outbound.air.in_flight(), 1);
        assert_eq!(running.ignores_poll(&frame, &mut batch, time).unwrap(), !is_shown);
    }
}

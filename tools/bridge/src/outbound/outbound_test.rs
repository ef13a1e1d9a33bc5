use super::*;
use crate::inbound::frame::LONGEST;
use crate::os::clock::{self, Duration};
use crate::os::port::AT_A_TIME;
use crate::outbound::wire::MOST_OCTETS;
use crate::testing::samples::{at, network, Recorder, Unit, NANOSECOND, OTHER, OURS, STATION};

fn networks() -> Vec<Network> {
    vec![
        Network { rates: vec![0x0b, 0x84, 0x82], ..network(OURS) },
        Network { rates: vec![0x16, 0x0b], wire: Some("wire2".into()), ..network(OTHER) },
    ]
}

/// What waits to be sent, and by what it goes.
struct Driver {
    outbound: Outbound,
    interfaces: Interfaces<Recorder>,
}

/// The second network alone has a wire.
fn driver(wire: Recorder) -> Driver {
    let interfaces = Interfaces::new(Recorder::default(), Recorder::default(), vec![None, Some(wire)]);
    Driver { outbound: Outbound::new(networks()), interfaces }
}

impl Driver {
    fn flush(&mut self, now: Instant, until: Instant) {
        self.outbound.flush(&mut self.interfaces, now, until);
    }

    fn on_wire(&mut self) -> &[Vec<u8>] {
        &self.interfaces.wire(1).unwrap().port.sent
    }

    fn is_idle(&self) -> bool {
        self.outbound.is_idle(&self.interfaces)
    }
}

fn unit(transmitter: Address) -> Vec<u8> {
    Unit { control: [0x08, 2], receiver: STATION, transmitter, ..Unit::default() }.octets()
}

#[test]
fn what_is_sent_is_counted() {
    let mut driver = driver(Recorder::default());
    driver.outbound.send_on_air(OTHER, unit(OTHER), Instant::START).unwrap();
    driver.outbound.send_on_wire(1, vec![0; 14], Instant::START);
    driver.flush(Instant::START, Instant::NEVER);
    assert_eq!(driver.interfaces.monitor.port.sent.len(), 1);
    assert_eq!(driver.on_wire(), [vec![0; 14]]);
    let told: Vec<_> = driver.outbound.counts().into_iter().collect();
    assert_eq!(told, [("sent on the air".to_owned(), 1), ("sent on the wires".to_owned(), 1)]);
}

#[test]
fn what_has_no_wire_or_a_tag_is_counted() {
    let mut driver = driver(Recorder::default());
    driver.outbound.send_on_wire(0, vec![0; 14], Instant::START);
    driver.outbound.send_on_wire(1, [&[0; 12][..], &[0x81, 0, 0, 7]].concat(), Instant::START);
    driver.flush(Instant::START, Instant::NEVER);
    assert!(driver.on_wire().is_empty());
    assert_eq!(driver.outbound.counts().values().sum::<u64>(), 2);
}

#[test]
fn a_network_that_is_not_there_is_the_program_s_fault() {
    let mut driver = driver(Recorder::default());
    assert!(driver.outbound.send_on_air(STATION, unit(OURS), Instant::START).is_err());
    assert!(driver.outbound.place(STATION).is_err());
}

#[test]
fn what_waits_for_room_at_a_wire_goes_later_and_what_is_late_is_dropped() {
    let mut driver = driver(Recorder { room: Some(1), ..Recorder::default() });
    for (mark, since) in [(1, Duration::ZERO), (2, Duration::ZERO), (3, LONGEST)] {
        driver.outbound.send_on_wire(1, vec![mark; 14], at(since));
    }
    driver.flush(Instant::START, Instant::NEVER);
    let wire = driver.interfaces.wire(1).unwrap();
    assert!(wire.is_blocked());
    wire.port.room = None;
    wire.unblock();
    driver.flush(at(LONGEST + NANOSECOND), Instant::NEVER);
    assert_eq!(driver.on_wire(), [vec![1; 14], vec![3; 14]]);
    assert_eq!(driver.outbound.counts()["dropped, of data that had waited too long for wire2"], 1);
    assert_eq!(driver.outbound.wires[1].octets, 0);
    assert!(driver.is_idle() && !driver.outbound.has_room(&driver.interfaces));
}

#[test]
fn what_a_wire_refuses_is_counted_and_the_next_is_sent() {
    let mut driver = driver(Recorder { longest: Some(60), ..Recorder::default() });
    [14, 61, 61, 15].into_iter().for_each(|length| driver.outbound.send_on_wire(1, vec![0; length], Instant::START));
    driver.flush(Instant::START, Instant::NEVER);
    assert_eq!(driver.on_wire(), [vec![0; 14], vec![0; 15]]);
    assert_eq!(driver.outbound.counts()["refused by mon0: Message too long"], 2);
}

#[test]
fn what_waits_for_a_wire_is_bounded_and_sent_some_at_a_time_until_a_time() {
    let mut driver = driver(Recorder::default());
    (0..2000).for_each(|_| driver.outbound.send_on_wire(1, vec![0; 4000], Instant::START));
    let waiting = MOST_OCTETS / 4000;
    assert_eq!(driver.outbound.counts()["dropped, since no more could wait for wire2"] as usize + waiting, 2000);
    driver.flush(Instant::from_nanos(5), Instant::from_nanos(5));
    assert!(driver.on_wire().is_empty() && !driver.is_idle());
    driver.flush(Instant::START, clock::now());
    assert_eq!(driver.on_wire().len(), AT_A_TIME);
    driver.flush(Instant::START, Instant::NEVER);
    assert_eq!(driver.on_wire().len(), waiting);
    assert!(driver.is_idle());
}

#[test]
fn the_lowest_basic_rate_counts_or_the_lowest() {
    let [first, second] = [0, 1].map(|place| networks()[place].lowest_basic_rate());
    assert_eq!((first, second), (2, 0x0b));
}

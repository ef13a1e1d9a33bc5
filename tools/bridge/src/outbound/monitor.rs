//! The monitor interface gives the radio what `air` says. Of the way to the air this alone writes to sockets, asks them
//! and looks at a clock.
use crate::control::faults::{is_down, tell};
use crate::os::clock::{self, Instant};
use crate::os::gate::Gate;
use crate::os::interfaces::Interfaces;
use crate::os::port::{Port, AT_A_TIME};
use crate::outbound::air::Transmitter;
use crate::outbound::counts::Refused;

/// Whether a frame waits that may go now.
pub fn has_room<P: Port>(air: &Transmitter, interfaces: &Interfaces<P>) -> bool {
    air.has_next() && !interfaces.monitor.is_blocked() || air.has_beacons() && !interfaces.beacons.is_blocked()
}

/// Whether nothing waits, for room or to be sent.
pub fn is_idle<P: Port>(air: &Transmitter, interfaces: &Interfaces<P>) -> bool {
    air.is_empty() && interfaces.monitor.is_settled()
}

/// Whether beacons wait for the radio, or it has some, as far as their socket says.
pub fn has_unsent_beacons<P: Port>(air: &Transmitter, interfaces: &Interfaces<P>) -> bool {
    air.has_beacons() || matches!(interfaces.beacons.port.unsent(), Ok(octets) if octets > 0)
}

/// Sends by the monitor interface, and counts what that refuses.
#[derive(Debug, Default)]
pub struct MonitorSender {
    pub refused: Refused,
    /// Whether it was told that a frame was dropped that the queues don't know.
    pub(super) are_strays_told: bool,
}

impl MonitorSender {
    pub fn flush_beacons<P: Port>(&mut self, air: &mut Transmitter, interfaces: &mut Interfaces<P>) {
        let gate = &mut interfaces.beacons;
        gate.unblock();
        while air.has_beacons() && !gate.is_blocked() {
            let (packets, number) = at_a_time(air.beacons());
            match gate.send(&packets[..number]) {
                Ok(number) => air.gave_beacons(number),
                Err(fault) => {
                    if is_down(&fault) {
                        air.went_down();
                    }
                    self.refused.count(gate.port.interface(), air.refused_beacon(), &fault);
                }
            }
        }
    }

    /// Sends what else waits, as far as the radio may have more and until it is that time.
    pub fn flush<P: Port>(
        &mut self,
        air: &mut Transmitter,
        interfaces: &mut Interfaces<P>,
        now: Instant,
        until: Instant,
    ) {
        let mut time = now;
        if air.is_doubtful(now) {
            air.resolve(is_empty(&interfaces.monitor));
        }
        while !interfaces.monitor.is_blocked() && time < until && air.choose(AT_A_TIME, now) {
            self.hand_over(air, &mut interfaces.monitor, time);
            if has_room(air, interfaces) {
                time = clock::now();
            }
        }
        air.set_look(now);
        if air.strays() > 0 && !std::mem::replace(&mut self.are_strays_told, true) {
            tell("a frame was dropped that is unknown to the queues; more of them are counted");
        }
    }

    /// Hands the frames that had their turn to the radio's socket.
    fn hand_over<P: Port>(&mut self, air: &mut Transmitter, gate: &mut Gate<P>, now: Instant) {
        let (packets, number) = at_a_time(air.awaiting_room());
        match gate.send(&packets[..number]) {
            Ok(number) => air.gave(number),
            Err(fault) if is_down(&fault) => air.went_down(),
            Err(fault) => self.refused.count(gate.port.interface(), air.refused(now), &fault),
        }
    }
}

/// The time is this: what `air` waited for in vain it waits for no more.
pub fn expire<P: Port>(air: &mut Transmitter, interfaces: &Interfaces<P>, now: Instant) {
    air.expire(now);
    if air.wants_look(now) {
        look(air, interfaces, now);
    }
}

/// The radio's socket is looked at.
pub fn look<P: Port>(air: &mut Transmitter, interfaces: &Interfaces<P>, now: Instant) {
    air.looked(is_empty(&interfaces.monitor), now);
}

/// Whether the radio has sent all that it was given, as far as its socket says.
fn is_empty<P: Port>(gate: &Gate<P>) -> bool {
    matches!(gate.port.unsent(), Ok(0))
}

/// The first of these packets, as many as are sent at a time, and how many they are.
fn at_a_time<'a>(packets: impl Iterator<Item = &'a [u8]>) -> ([&'a [u8]; AT_A_TIME], usize) {
    let mut first: [&[u8]; AT_A_TIME] = [&[]; AT_A_TIME];
    let mut number = 0;
    for (place, packet) in first.iter_mut().zip(packets) {
        *place = packet;
        number += 1;
    }
    (first, number)
}

//! The radio while frames go: whether its interface is up, whether it goes on sending, and on which channel it hears.
use std::{fmt, io};

use super::running::{FirstBeacon, Running};
use super::Bridge;
use crate::control::faults::Fault;
use crate::control::log;
use crate::control::notices::{say, Notice};
use crate::control::status::OfRadio;
use crate::formats::frames::Address;
use crate::inbound::filter::{acknowledged_filter, monitor_filter, Drawn, Shown};
use crate::os::clock::{earliest, Duration, Instant};
use crate::os::link::Link;
use crate::os::port::{OfSocket, Port};
use crate::run::beacon_timing::BeaconTiming;
use crate::run::beacon_watch::{BeaconWatch, Told};
use crate::run::tuning::{Found, Tuning};

/// How often an interface that is down is looked at.
const LOOK_EVERY: Duration = Duration::from_millis(20);

#[derive(Debug)]
struct Down {
    since: Instant,
    look_due: Instant,
    is_told: bool,
}

#[derive(Debug)]
pub(super) struct Radio {
    pub(super) beacons: BeaconWatch,
    pub(super) tuning: Tuning,
    down: Option<Down>,
    /// Of which beacons the outcomes are looked at, as long as there is no doubt, and at the moment.
    mostly: Drawn,
    drawn: Drawn,
    /// What comes of the frames that it shows as sent, and which frames of neighbours come.
    pub(super) shown: Shown,
    neighbours: Drawn,
}

impl Radio {
    /// It was set to this channel, for so many networks with such intervals.
    pub(super) fn new(channel: u8, networks: usize, timing: &BeaconTiming) -> Radio {
        let mostly = Drawn::one_a_second(networks, timing.ticks.length);
        let beacons = BeaconWatch::new(timing.ticks.length, networks, mostly == Drawn::Each);
        let tuning = Tuning::new(channel);
        let (shown, neighbours) = (Shown::All, Drawn::ONE_IN_HUNDRED);
        Radio { beacons, tuning, down: None, mostly, drawn: mostly, shown, neighbours }
    }

    /// Whether its interface is up, as far as is known.
    pub(super) fn is_up(&self) -> bool {
        self.down.is_none()
    }

    /// When something is to be looked at.
    pub(super) fn due(&self, time: Instant) -> Option<Instant> {
        let down = self.down.as_ref().map(|down| down.look_due);
        earliest(&[down, self.beacons.due(time), self.tuning.due()])
    }

    /// What people are told of it.
    pub(super) fn status(&self) -> OfRadio {
        OfRadio {
            down_since: self.down.as_ref().map(|down| down.since),
            unsent_since: self.beacons.unsent_since,
            elsewhere: self.tuning.elsewhere(),
            heard_elsewhere: self.tuning.heard_elsewhere,
        }
    }
}

impl<P: OfSocket> Bridge<P> {
    /// Looks at the radio, if it is time, and tells what is new.
    pub(super) fn watch_radio(&mut self) -> Result<(), Fault> {
        let time = self.time;
        let running = match self.phase.running() {
            Some(running) => running,
            None => return Ok(()),
        };
        running.look_at_link(time)?;
        if let Some(found) = running.radio.tuning.look(time) {
            tell_tuning(found, &running.radio.tuning);
        }
        running.look_at_neighbours()?;
        if running.first_beacon == FirstBeacon::Told {
            running.radio.beacons.look(time).into_iter().for_each(tell_beacons);
            let wants_each = running.radio.beacons.wants_each(time);
            running.look_at_beacons(if wants_each { Drawn::Each } else { running.radio.mostly })?;
        }
        Ok(())
    }
}

impl<P: Port> Running<P> {
    /// The bridge itself was so much too late: the radio has as much more time to show a beacon.
    pub(super) fn was_late(&mut self, late: Duration, time: Instant) {
        self.radio.beacons.was_late(late, time);
        if let FirstBeacon::Awaited { until: Some(until) } = &mut self.first_beacon {
            *until += late;
        }
    }

    /// A socket of the radio says that its interface is down. A fault if the interface is gone; else what is to be
    /// sent waits until it is up again, and what waits too long is dropped.
    pub(super) fn went_down(&mut self, time: Instant) -> Result<(), Fault> {
        self.outbound.air.went_down();
        self.look_at_link(time)
    }

    /// Looks whether an interface that is down is up again, if it is time.
    fn look_at_link(&mut self, time: Instant) -> Result<(), Fault> {
        if !self.outbound.air.is_down() {
            return Ok(());
        }
        let down = self.radio.down.get_or_insert(Down { since: time, look_due: time, is_told: false });
        if time < down.look_due {
            return Ok(());
        }
        down.look_due = time + LOOK_EVERY;
        let port = &self.interfaces.monitor.port;
        match port.link() {
            Ok(Link::Up) => {
                let after = time.since(down.since);
                log::notice(format_args!("{} went down, and is up again after {}", port.interface(), Seconds(after)));
                self.radio.down = None;
                self.outbound.air.came_up(after, time);
                self.interfaces.forget_faults();
            }
            Ok(Link::Gone) => {
                let fault = io::Error::from_raw_os_error(libc::ENETDOWN);
                return Err(Fault::of_interface(port.interface(), &fault));
            }
            Ok(Link::Down) | Err(_) => {
                if !std::mem::replace(&mut down.is_told, true) {
                    let name = port.interface();
                    log::warn(format_args!(
                        "{name} is down: what is to be sent waits, or is dropped once it is too late"
                    ));
                }
            }
        }
        Ok(())
    }

    /// From now on the outcomes of these beacons are looked at.
    fn look_at_beacons(&mut self, drawn: Drawn) -> Result<(), Fault> {
        if drawn == self.radio.drawn {
            return Ok(());
        }
        self.radio.drawn = drawn;
        self.filter_acknowledged()
    }

    /// From now on each frame of neighbours comes if it is in doubt on which channel the radio hears, and else some.
    fn look_at_neighbours(&mut self) -> Result<(), Fault> {
        let wanted = if self.radio.tuning.wants_each() { Drawn::Each } else { Drawn::ONE_IN_HUNDRED };
        if wanted == self.radio.neighbours {
            return Ok(());
        }
        self.radio.neighbours = wanted;
        self.filter_monitor()
    }

    /// By the monitor interface comes what the networks can use, and what shows how the radio does.
    pub(super) fn filter_monitor(&mut self) -> Result<(), Fault> {
        let bssids: Vec<Address> = self.networks.iter().map(|network| network.bssid).collect();
        let filter = monitor_filter(&bssids, self.radio.shown, self.radio.neighbours);
        let port = &mut self.interfaces.monitor.port;
        port.set_filter(&filter).map_err(|fault| Fault::of(format!("{}: no filter", port.interface()), &fault))
    }

    /// By the port for what was acknowledged come those frames, and the beacons that are looked at.
    pub(super) fn filter_acknowledged(&mut self) -> Result<(), Fault> {
        let filter = acknowledged_filter(self.radio.drawn);
        match &mut self.interfaces.acknowledged {
            Some(port) => {
                port.set_filter(&filter).map_err(|fault| Fault::of(format!("{}: no filter", port.interface()), &fault))
            }
            None => Ok(()),
        }
    }
}

fn tell_tuning(found: Found, tuning: &Tuning) {
    let wanted = tuning.wanted;
    match found {
        Found::Here => {
            log::notice(format_args!("the radio hears on {wanted} MHz again, which is its channel"));
            say(&Notice::Here);
        }
        Found::Elsewhere(frequency) => {
            log::warn(format_args!(
                "the radio hears on {frequency} MHz, and not on {wanted} MHz, which is its channel: something took it \
                     elsewhere (docs/OPERATING.md, 'The radio')"
            ));
            say(&Notice::Elsewhere(frequency));
        }
    }
}

fn tell_beacons(told: Told) {
    match told {
        Told::Sending(after) => {
            log::notice(format_args!("the radio shows beacons as sent again, after {}", Seconds(after)));
            say(&Notice::Sending);
        }
        Told::Unsent => {
            log::warn("the radio shows no beacon as sent any more (docs/OPERATING.md, 'The radio')");
            say(&Notice::Unsent);
        }
    }
}

struct Seconds(Duration);

impl fmt::Display for Seconds {
    fn fmt(&self, to: &mut fmt::Formatter<'_>) -> fmt::Result {
        write!(to, "{}.{:03} s", self.0.as_secs(), self.0.subsec_millis())
    }
}

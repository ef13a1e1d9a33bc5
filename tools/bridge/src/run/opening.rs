//! The interfaces are there: frames go, and the kernel's filters say which of those that were sent come back.
use std::collections::BTreeMap;

use super::running::{Ended, FirstBeacon, Running};
use super::{Bridge, Phase};
use crate::control::faults::Fault;
use crate::control::log;
use crate::control::notices::{say, Notice};
use crate::inbound::filter::{nothing_filter, Shown};
use crate::network::Network;
use crate::os::interfaces::Interfaces;
use crate::os::poller::Token;
use crate::os::port::{OfSocket, AT_A_TIME};
use crate::outbound::air::backlog::MOST_KEPT;

impl<P: OfSocket> Bridge<P> {
    /// The interfaces are there: frames go, and the first beacon interval begins.
    pub(super) fn begin(&mut self, mut interfaces: Interfaces<P>) -> Result<(), Fault> {
        let networks = &self.manner.networks;
        tell_of_quotas(networks);
        self.poller.add(interfaces.monitor.port.descriptor(), Token::Monitor, true, false)?;
        let mut ended = BTreeMap::new();
        for (place, network) in networks.iter().enumerate() {
            match interfaces.wire(place) {
                Some(wire) => self.poller.add(wire.port.descriptor(), Token::Wire(place), true, false)?,
                None if network.wire.is_some() => {
                    ended.insert(place, Ended { since: Some(self.time), has_backlog: false, lost: 0 });
                }
                None => {}
            }
        }
        if let Some(port) = &mut interfaces.acknowledged {
            // It hears nothing yet, and what waits here is of frames of an earlier bridge.
            let outcome = port.set_filter(&nothing_filter());
            outcome.map_err(|fault| Fault::of(format!("{}: no filter", port.interface()), &fault))?;
            self.batch.ask_for(AT_A_TIME);
            while matches!(port.receive(&mut self.batch), Ok(AT_A_TIME)) {}
            self.poller.add(port.descriptor(), Token::Acknowledged, false, false)?;
        }
        if let Some(clients) = &self.clients {
            self.poller.add(clients.descriptor(), Token::Listener, true, false)?;
        }
        let running = Running { ended, ..Running::new(interfaces, &self.manner) };
        self.phase = Phase::Running(Box::new(running));
        self.phase.running().map_or(Ok(()), |running| running.filter_monitor())
    }

    /// Tells `tools/live` once that the first beacon was seen as sent.
    pub(super) fn tell_sending(&mut self) -> Result<(), Fault> {
        match self.phase.running() {
            Some(running) if running.first_beacon == FirstBeacon::Seen => {
                running.first_beacon = FirstBeacon::Told;
                say(&Notice::Sending);
                self.filter_outcomes()
            }
            _ => Ok(()),
        }
    }

    /// The radio sends: from now on of the frames that it shows as sent only their outcomes come, and those that were
    /// acknowledged wake nobody if they have a port of their own.
    fn filter_outcomes(&mut self) -> Result<(), Fault> {
        let running = match self.phase.running() {
            Some(running) => running,
            None => return Ok(()),
        };
        running.filter_acknowledged()?;
        let is_apart = running.interfaces.acknowledged.is_some();
        running.radio.shown = if is_apart { Shown::Failures } else { Shown::Outcomes };
        running.filter_monitor()
    }
}

/// Tells which networks keep more units than have room on their way to a station that wakes.
fn tell_of_quotas(networks: &[Network]) {
    for network in networks.iter().filter(|network| network.quota as usize > MOST_KEPT) {
        log::warn(format_args!(
            "{} keeps {} units, and {MOST_KEPT} of 2,304 octets have room when a station wakes: it may lose the others",
            network.bssid, network.quota
        ));
    }
}

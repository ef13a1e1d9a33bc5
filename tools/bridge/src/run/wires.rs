//! Wires come and go while all else goes on.
use super::running::{Ended, Running};
use crate::control::events::Happened;
use crate::control::faults::Fault;
use crate::control::log;
use crate::inbound::filter::nothing_filter;
use crate::os::batch::Batch;
use crate::os::clock::{wall_now, Instant};
use crate::os::gate::Gate;
use crate::os::poller::{Poller, Token};
use crate::os::port::Port;

impl<P: Port> Running<P> {
    /// The wire of the network of this place is there, or there again.
    pub(super) fn take_wire(&mut self, place: usize, port: P, poller: &Poller) -> Result<(), Fault> {
        let is_down = self.is_down(place);
        if let Some(wire) = self.interfaces.wire(place).filter(|_| !is_down) {
            poller.remove(wire.port.descriptor())?;
            wire.port.close();
        }
        poller.add(port.descriptor(), Token::Wire(place), true, false)?;
        let ended = self.ended.entry(place).or_insert(Ended { since: None, has_backlog: false, lost: 0 });
        (ended.since, ended.has_backlog) = (None, false);
        log::notice(format_args!(
            "{}: there, the wire of {} from now on",
            port.interface(),
            self.networks[place].bssid
        ));
        self.events.push(place, wall_now(), Happened::WireUp { wire: port.interface().to_owned() });
        self.interfaces.wires[place] = Some(Gate::new(port));
        Ok(())
    }

    pub(super) fn wire_of(&self, place: usize) -> Result<String, Fault> {
        let wire = self.networks.get(place).and_then(|network| network.wire.clone());
        wire.ok_or_else(|| Fault::Request("tools/live handed over the wire of no network".to_owned()))
    }

    /// The interface of a wire is down, or gone: that wire ends, and nothing else does. What came by it before is still
    /// read, some at a time. What waits to be sent by it is refused and counted by the next flush, and what comes later
    /// is lost.
    pub(super) fn end_wire(
        &mut self,
        place: usize,
        fault: &Fault,
        poller: &Poller,
        time: Instant,
    ) -> Result<(), Fault> {
        let bssid = self.networks[place].bssid;
        log::warn(format_args!(
            "{fault} The wire of {bssid} has ended: what that network sends there is lost until it is back. All \
                 else goes on"
        ));
        let wire = self.networks[place].wire.clone().unwrap_or_default();
        self.events.push(place, wall_now(), Happened::WireDown { wire });
        let mut has_backlog = false;
        if let Some(wire) = self.interfaces.wire(place) {
            poller.remove(wire.port.descriptor())?;
            wire.unblock();
            wire.settle();
            has_backlog = wire.port.set_filter(&nothing_filter()).is_ok();
            if !has_backlog {
                wire.port.close();
            }
        }
        let lost = self.ended.get(&place).map_or(0, |ended| ended.lost);
        self.ended.insert(place, Ended { since: Some(time), has_backlog, lost });
        Ok(())
    }

    /// Whether something that came by wires before they ended may still be to read.
    pub(super) fn has_backlog(&self) -> bool {
        self.ended.values().any(|ended| ended.has_backlog)
    }

    /// Reads some of what came by wires before they ended, and closes those of which that was all.
    pub(super) fn read_backlog(&mut self, batch: &mut Batch, time: Instant) {
        let backlogs = self.ended.iter().filter(|(_, ended)| ended.has_backlog);
        for place in backlogs.map(|(place, _)| *place).collect::<Vec<_>>() {
            if self.receive(Token::Wire(place), batch, time).is_ok() && batch.packets().next().is_some() {
                continue;
            }
            self.interfaces.wire(place).into_iter().for_each(|wire| wire.port.close());
            self.ended.get_mut(&place).into_iter().for_each(|ended| ended.has_backlog = false);
        }
    }
}

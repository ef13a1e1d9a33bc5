//! What waits for the interfaces is sent: beacons at once, and all else between them.
use super::running::Running;
use super::{Bridge, Phase};
use crate::control::faults::Fault;
use crate::os::batch::Batch;
use crate::os::clock::Instant;
use crate::os::poller::{Poller, Token};
use crate::os::port::{OfSocket, Port};

impl<P: OfSocket> Bridge<P> {
    /// Sends what waits for the interfaces, and waits for those that have no room.
    pub(super) fn send(&mut self) -> Result<(), Fault> {
        let reads = matches!(self.phase, Phase::Running(_));
        match self.phase.still_running() {
            Some(running) if !running.outbound.is_idle(&running.interfaces) => {
                running.send(self.time, &self.poller, &mut self.batch, reads)
            }
            _ => Ok(()),
        }
    }
}

impl<P: Port> Running<P> {
    /// When what waits is sent next, if something has room.
    pub(super) fn sends_next(&self, time: Instant) -> Option<Instant> {
        self.outbound.has_room(&self.interfaces).then(|| self.timing.sends_while(time).start.max(time))
    }

    /// Sends what waits, and waits for the room of interfaces that have lost it. While they are read beacons go before
    /// all else, and what became of frames that seem to be out for long is read before others go: that costs no more than
    /// to ask the radio's socket for them.
    fn send(&mut self, time: Instant, poller: &Poller, batch: &mut Batch, reads: bool) -> Result<(), Fault> {
        self.outbound.flush_beacons(&mut self.interfaces);
        let while_it_is = if reads { self.timing.sends_while(time) } else { Instant::START..Instant::NEVER };
        if while_it_is.contains(&time) {
            if reads && self.outbound.air.is_doubtful(time) {
                self.read_outcomes(batch, time)?;
            }
            self.outbound.flush(&mut self.interfaces, time, while_it_is.end);
        }
        for token in std::iter::once(Token::Monitor).chain((0..self.networks.len()).map(Token::Wire)) {
            let gate = match token {
                // Nobody waits for one that has ended, be it still open.
                Token::Wire(place) if self.is_down(place) => None,
                Token::Wire(place) => self.interfaces.wire(place),
                _ => Some(&mut self.interfaces.monitor),
            };
            if let Some(gate) = gate.filter(|gate| !gate.is_settled()) {
                gate.settle();
                poller.change(gate.port.descriptor(), token, reads, gate.is_blocked())?;
            }
        }
        Ok(())
    }
}

#[cfg(test)]
#[path = "sending_test.rs"]
mod tests;

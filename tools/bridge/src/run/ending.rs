//! The program's input ends, and what it still writes is sent and shown.
use super::{Bridge, TO_END};
use crate::control::faults::Fault;
use crate::os::clock::{now, Duration, Instant, SECOND};
use crate::os::poller::Token;
use crate::os::port::OfSocket;

/// For how long the program is given what was read before the end.
const TO_GIVE: Duration = SECOND;
/// How many milliseconds to wait at most, while the program is given something and behind that.
const WAIT_TO_GIVE: u16 = 1;
const WAIT: u16 = 100;

impl<P: OfSocket> Bridge<P> {
    /// Gives the program what was read before, ends its input, and sends and shows what it still writes. What comes now
    /// waits in the sockets: after a reload the next program is given it.
    pub(super) fn drain(&mut self) -> Result<(), Fault> {
        let began = now();
        let until = began + TO_END;
        if self.phase.end() {
            self.poller.remove(self.requests.descriptor())?;
        }
        if let Some(running) = self.phase.still_running() {
            running.outbound.air.end();
            running.end_intervals();
            running.stop_reading(&self.poller)?;
            // The socket is tools/live's too, and would be waited for even once it was closed here.
            if let Some(clients) = self.clients.take() {
                self.poller.remove(clients.descriptor())?;
            }
        }
        while !self.program.has_ended && now() < until {
            let gives = self.give_rest(began + TO_GIVE)?;
            self.wait(Some(if gives { WAIT_TO_GIVE } else { WAIT }))?;
            for place in 0..self.ready.len() {
                let ready = self.ready[place];
                match ready.token {
                    Token::Output => self.take_answers()?,
                    Token::Monitor | Token::Wire(_) => self.take_port(ready)?,
                    _ => {}
                }
            }
            self.send()?;
        }
        self.feeder.close();
        Ok(())
    }

    /// Gives the program some of what was read before the end, and ends its input once that was all, or at this time.
    /// So a station that dozes, woke or left did so for the next program too. Answers whether there is more to give.
    fn give_rest(&mut self, until: Instant) -> Result<bool, Fault> {
        if self.feeder.descriptor().is_none() {
            return Ok(false);
        }
        let is_written = self.feeder.flush()?;
        self.wait_for_room(!is_written)?;
        let time = self.time;
        let running = self.phase.still_running().filter(|_| time < until);
        let gives = match running {
            Some(running) => {
                running.outbound.expire(&running.interfaces, time);
                is_written && running.give(&mut self.feeder, &mut self.batch, time)? > 0 || running.has_rest()
            }
            None => false,
        };
        if is_written && !gives {
            self.feeder.close();
        }
        Ok(gives)
    }
}

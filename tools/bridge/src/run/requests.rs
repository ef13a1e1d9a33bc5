//! What `tools/live` asks for is done.
use super::{Bridge, Phase};
use crate::control::faults::Fault;
use crate::control::parent::Request;
use crate::os::port::OfSocket;
use crate::restart::state_files::StateFiles;

impl<P: OfSocket> Bridge<P> {
    pub(super) fn take_requests(&mut self) -> Result<(), Fault> {
        while let Some(request) = self.requests.next()? {
            match (request, &mut self.phase) {
                (Request::End, phase) => {
                    phase.end();
                    return self.poller.remove(self.requests.descriptor());
                }
                (request, Phase::Replay(replaying)) => replaying.deferred.push(request),
                (request, _) => self.take_request(request)?,
            }
        }
        Ok(())
    }

    /// Does what `tools/live` asks for, but for the end.
    pub(super) fn take_request(&mut self, request: Request) -> Result<(), Fault> {
        match (request, &mut self.phase) {
            (Request::State(files), _) => self.state_files = Some(StateFiles::new(files)),
            (Request::Open(sockets), Phase::Opening { handed, .. } | Phase::SettingUp { handed }) => {
                *handed = Some(sockets);
            }
            (Request::Wire(place, socket), Phase::Running(running)) => {
                let port = P::of(&running.wire_of(place)?, socket);
                running.take_wire(place, port, &self.poller)?;
            }
            (Request::Tables, Phase::Running(running)) => running.tables_asked = true,
            (Request::Dismiss(places), Phase::Running(running)) => {
                running.dismisses = true;
                running.stations.dismiss(&places);
            }
            _ => {}
        }
        Ok(())
    }
}

//! A port in place of a packet socket.
use super::*;

/// What a port shares with its other end.
pub(super) struct Shared {
    sent: Mutex<Vec<Vec<u8>>>,
    /// Whether it goes down once it is read.
    pub(super) goes_down: AtomicBool,
    pub(super) link: Mutex<Link>,
    /// For how long its bridge is stopped once it reads it.
    pub(super) stops_for: Mutex<Duration>,
    /// Whether a radio's sends nothing any more, and shows nothing.
    pub(super) is_silent: AtomicBool,
}

/// The other end of a port.
pub(super) struct FarEnd {
    socket: UnixDatagram,
    pub(super) shared: Arc<Shared>,
}

impl FarEnd {
    /// What was sent by the port.
    pub(super) fn sent(&self) -> Vec<Vec<u8>> {
        self.shared.sent.lock().unwrap().clone()
    }

    /// How many packets were sent by the port, and the last one.
    pub(super) fn last_sent(&self) -> (usize, Option<Vec<u8>>) {
        let sent = self.shared.sent.lock().unwrap();
        (sent.len(), sent.last().cloned())
    }

    /// The port hears a packet.
    pub(super) fn send(&self, packet: &[u8]) {
        self.socket.send(packet).unwrap();
    }
}

/// A port in place of a packet socket. A radio's shows the frames that are sent by it, if `shows` says so.
pub(super) struct FakePort {
    interface: &'static str,
    near: UnixDatagram,
    far: UnixDatagram,
    shared: Arc<Shared>,
    pub(super) shows: bool,
    /// How long it takes for a frame.
    pub(super) takes: Duration,
    is_closed: bool,
}

impl FakePort {
    /// One with its other end.
    pub(super) fn new(interface: &'static str) -> (FakePort, FarEnd) {
        let (near, far) = UnixDatagram::pair().unwrap();
        let (sent, goes_down, is_silent) = Default::default();
        let (link, stops_for) = (Mutex::new(Link::Up), Mutex::default());
        let shared = Arc::new(Shared { sent, goes_down, link, stops_for, is_silent });
        let far_end = FarEnd { socket: far.try_clone().unwrap(), shared: Arc::clone(&shared) };
        (FakePort { interface, near, far, shared, shows: false, takes: Duration::ZERO, is_closed: false }, far_end)
    }

    /// One of the same interface.
    pub(super) fn beside(&self) -> FakePort {
        let (near, far) = (self.near.try_clone().unwrap(), self.far.try_clone().unwrap());
        FakePort { near, far, shared: Arc::clone(&self.shared), ..*self }
    }
}

impl OfSocket for FakePort {
    /// One whose other end gets what is sent by it.
    fn of(interface: &str, socket: OwnedFd) -> FakePort {
        let near = UnixDatagram::from(socket);
        let far = near.try_clone().unwrap();
        let interface = Box::leak(interface.to_owned().into_boxed_str());
        FakePort { near, far, shows: true, interface, ..FakePort::new("wire").0 }
    }
}

impl Port for FakePort {
    fn descriptor(&self) -> Option<BorrowedFd<'_>> {
        Some(self.near.as_fd())
    }

    fn interface(&self) -> &str {
        self.interface
    }

    fn receive(&mut self, batch: &mut Batch) -> io::Result<usize> {
        if self.shared.goes_down.swap(false, Ordering::SeqCst) {
            return Err(io::Error::from_raw_os_error(libc::ENETDOWN));
        }
        let stops_for = std::mem::take(&mut *self.shared.stops_for.lock().unwrap());
        thread::sleep(stops_for);
        batch.receive(self.near.as_fd())
    }

    // What it does itself is left out of what is counted (`bench/bridge`), by its name.
    #[inline(never)]
    fn send(&mut self, frames: &[&[u8]]) -> io::Result<usize> {
        assert!(!self.is_closed);
        if self.link()? != Link::Up {
            return Err(io::Error::from_raw_os_error(libc::ENETDOWN));
        }
        if self.shared.is_silent.load(Ordering::SeqCst) {
            return Ok(frames.len());
        }
        for frame in frames {
            thread::sleep(self.takes);
            self.shared.sent.lock().unwrap().push(frame.to_vec());
            if self.shows {
                self.far.send(frame)?;
            }
        }
        Ok(frames.len())
    }

    fn set_filter(&mut self, _: &[sock_filter]) -> io::Result<()> {
        Ok(())
    }

    fn count_dropped(&mut self) -> u64 {
        0
    }

    fn unsent(&self) -> io::Result<usize> {
        Ok(0)
    }

    fn link(&self) -> io::Result<Link> {
        Ok(*self.shared.link.lock().unwrap())
    }

    fn close(&mut self) {
        self.is_closed = true;
    }
}

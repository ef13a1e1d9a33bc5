//! The interfaces by which the bridge hears and sends: their sockets, and whether each has room.
use crate::os::gate::Gate;
use crate::os::port::Port;

/// The sockets of the monitor interface, and of each network's wire.
#[derive(Debug)]
pub struct Interfaces<P> {
    /// By the monitor interface all is heard, and all but beacons is sent.
    pub monitor: Gate<P>,
    /// By the same interface beacons alone are sent.
    pub beacons: Gate<P>,
    /// By which the radio shows the frames that were acknowledged, if it doesn't by the first.
    pub acknowledged: Option<P>,
    /// By the places of their networks.
    pub wires: Vec<Option<Gate<P>>>,
}

impl<P: Port> Interfaces<P> {
    /// By a monitor interface, its socket for beacons, and the wires of networks in their order. All have room.
    pub fn new(monitor: P, beacons: P, wires: Vec<Option<P>>) -> Interfaces<P> {
        Interfaces {
            monitor: Gate::new(monitor),
            beacons: Gate::new(beacons),
            acknowledged: None,
            wires: wires.into_iter().map(|wire| wire.map(Gate::new)).collect(),
        }
    }

    /// The same, with a port of its own for the frames that the radio shows as acknowledged.
    pub fn with_acknowledged(self, port: P) -> Interfaces<P> {
        Interfaces { acknowledged: Some(port), ..self }
    }

    pub fn wire(&mut self, place: usize) -> Option<&mut Gate<P>> {
        self.wires.get_mut(place).and_then(Option::as_mut)
    }

    pub fn gates(&mut self) -> impl Iterator<Item = &mut Gate<P>> {
        std::iter::once(&mut self.monitor).chain(self.wires.iter_mut().flatten())
    }

    /// The radio's interface is up again.
    pub fn forget_faults(&self) {
        self.monitor.port.forget_fault();
        self.beacons.port.forget_fault();
        self.acknowledged.iter().for_each(Port::forget_fault);
    }
}

//! What stations ask of a network, until it is answered: of an association or reassociation request the rates are kept,
//! and of a probe request who sent it.
use std::collections::VecDeque;

use crate::formats::frames::{Address, Frame, PROBE_REQUEST};
use crate::outbound::air::rate_control::RateControl;

/// The most stations of a network of which the answer to an association request is awaited, and to a probe request.
pub(super) const MOST_JOINING: usize = 256;
pub(super) const MOST_PROBING: usize = 64;

const SUPPORTED_RATES: u8 = 1;
const EXTENDED_RATES: u8 = 50;
const HEADER_LEN: usize = 24;

/// What stations ask of one network. If more ask than are kept, the oldest request is forgotten.
#[derive(Debug, Default)]
pub struct StationRequests {
    joining: VecDeque<(Address, RateControl)>,
    /// Who asked for this network alone by a probe request.
    probing: VecDeque<Address>,
}

impl StationRequests {
    /// A frame was heard that is for this network alone, which has these rates.
    pub fn hear(&mut self, frame: Frame<'_>, network_rates: &[u8]) {
        let sender = match frame.transmitter() {
            Some(sender) => sender,
            None => return,
        };
        if frame.octets()[0] == PROBE_REQUEST {
            self.probing.retain(|probing| *probing != sender);
            self.probing.truncate(MOST_PROBING - 1);
            self.probing.push_front(sender);
        }
        if let Some(rates) = requested_rates(frame).and_then(|rates| RateControl::common(&rates, network_rates)) {
            self.joining.retain(|(joining, _)| *joining != sender);
            self.joining.truncate(MOST_JOINING - 1);
            self.joining.push_front((sender, rates));
        }
    }

    /// Whether a station's probe request waits for its answer; then it is answered.
    pub fn take_probe(&mut self, address: Address) -> bool {
        let found = self.probing.iter().position(|probing| *probing == address);
        found.and_then(|found| self.probing.remove(found)).is_some()
    }

    /// The rates of a station whose association request waits for its answer; then it is answered.
    pub fn take_rates(&mut self, address: Address) -> Option<RateControl> {
        let found = self.joining.iter().position(|(joining, _)| *joining == address)?;
        self.joining.remove(found).map(|(_, rates)| rates)
    }
}

/// Whether a network accepts an association or reassociation by this frame (9.3.3.7, 9.3.3.9): its status is 0.
pub fn accepts(frame: &[u8]) -> bool {
    const STATUS_AT: usize = HEADER_LEN + 2;
    matches!(frame.first(), Some(0x10 | 0x30)) && frame.get(STATUS_AT..STATUS_AT + 2) == Some(&[0, 0])
}

/// The rates that an association or reassociation request names (9.3.3.6, 9.3.3.8), or `None` of another frame.
pub(super) fn requested_rates(frame: Frame<'_>) -> Option<Vec<u8>> {
    let octets = frame.octets();
    let fixed = match octets[0] {
        0x00 => 4,
        0x20 => 10,
        _ => return None,
    };
    let mut rest = octets.get(HEADER_LEN + fixed..)?;
    let mut rates = Vec::new();
    while let [kind, length, tail @ ..] = rest {
        let body = tail.get(..usize::from(*length))?;
        if matches!(*kind, SUPPORTED_RATES | EXTENDED_RATES) {
            rates.extend_from_slice(body);
        }
        rest = &tail[body.len()..];
    }
    Some(rates)
}

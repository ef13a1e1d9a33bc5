//! Units that the program kept for a station until it woke, and that have no room in its queue yet: they wait here, and
//! behind them what comes for their station. From here they go into that queue in their order.
use std::collections::VecDeque;

use crate::formats::frames::{Address, AddressMap};
use crate::outbound::air::frame::OutboundFrame;

/// The most octets of a network's units that were kept and wait, here or in their stations' queues.
pub(super) const MOST_KEPT_OCTETS: usize = 4 << 20;
/// The most octets of a unit as a frame: its header and its body.
const LONGEST_UNIT: usize = 24 + 2304;
/// How many units of the greatest length that were kept wait at most of a network: larger quotas don't fit.
pub const MOST_KEPT: usize = MOST_KEPT_OCTETS / LONGEST_UNIT;
/// The most frames that wait behind those of a station that were kept.
const MOST_BEHIND: usize = 64;

#[derive(Debug, Default)]
struct Backlog {
    kept: VecDeque<OutboundFrame>,
    behind: VecDeque<OutboundFrame>,
}

/// What waits for the stations of a network.
#[derive(Debug, Default)]
pub(super) struct Backlogs {
    stations: AddressMap<Backlog>,
    /// How many octets those have that were kept and wait, here or in their stations' queues.
    octets: usize,
}

impl Backlogs {
    pub fn waits(&self, station: Address) -> bool {
        !self.stations.is_empty() && self.stations.contains_key(&station)
    }

    pub fn is_empty(&self) -> bool {
        self.stations.is_empty()
    }

    /// Whether a unit of so many octets that was kept may wait, here or in its station's queue.
    pub fn has_room_for_kept(&self, octets: usize) -> bool {
        self.octets + octets <= MOST_KEPT_OCTETS
    }

    /// A unit of so many octets that was kept waits from now on.
    pub fn count_kept(&mut self, octets: usize) {
        self.octets += octets;
    }

    /// A unit of so many octets that was kept has left its station's queue.
    pub fn forget_kept(&mut self, octets: usize) {
        self.octets -= octets;
    }

    /// A unit waits here that was kept, and that is counted.
    pub fn push_kept(&mut self, station: Address, frame: OutboundFrame) {
        self.stations.entry(station).or_default().kept.push_back(frame);
    }

    /// A frame waits behind those that were kept. Gives back the oldest such one if it was one too many.
    pub fn push_behind(&mut self, station: Address, frame: OutboundFrame) -> Option<OutboundFrame> {
        let behind = &mut self.stations.entry(station).or_default().behind;
        behind.push_back(frame);
        if behind.len() > MOST_BEHIND {
            behind.pop_front()
        } else {
            None
        }
    }

    /// Takes out what is next for a station, and waits in its queue from now on.
    pub fn pop(&mut self, station: Address) -> Option<OutboundFrame> {
        if self.stations.is_empty() {
            return None;
        }
        let backlog = self.stations.get_mut(&station)?;
        let frame = backlog.kept.pop_front().or_else(|| backlog.behind.pop_front());
        if backlog.kept.is_empty() && backlog.behind.is_empty() {
            self.stations.remove(&station);
        }
        frame
    }

    /// Takes out all that waits for a station, in its order.
    pub fn take_all(&mut self, station: Address) -> Vec<OutboundFrame> {
        let Backlog { kept, behind } = self.stations.remove(&station).unwrap_or_default();
        self.octets -= kept.iter().map(|frame| frame.octets.len()).sum::<usize>();
        kept.into_iter().chain(behind).collect()
    }
}

#[cfg(test)]
mod tests {
    use std::rc::Rc;

    use super::*;
    use crate::os::clock::Instant;
    use crate::outbound::air::frame::FrameKind;
    use crate::testing::samples::{OTHER, STATION};

    fn frame(number: u64, kind: FrameKind, octets: usize) -> OutboundFrame {
        let since = Instant::from_nanos(number);
        OutboundFrame { octets: Rc::new(vec![0; octets]), address: STATION, kind, since }
    }

    fn numbers(frames: Vec<OutboundFrame>) -> Vec<u64> {
        frames.iter().map(|frame| frame.since.as_nanos()).collect()
    }

    #[test]
    fn what_comes_behind_waits_behind_and_only_its_oldest_is_dropped() {
        let mut backlogs = Backlogs::default();
        for number in 0..3 {
            backlogs.count_kept(100);
            backlogs.push_kept(STATION, frame(number, FrameKind::Kept, 100));
        }
        let dropped: Vec<OutboundFrame> =
            (3..70).filter_map(|number| backlogs.push_behind(STATION, frame(number, FrameKind::Unit, 100))).collect();
        assert_eq!(numbers(dropped), [3, 4, 5]);
        assert!(backlogs.waits(STATION) && !backlogs.waits(OTHER));
        assert_eq!(backlogs.pop(STATION).map(|frame| frame.since.as_nanos()), Some(0));
        let rest = numbers(backlogs.take_all(STATION));
        assert_eq!((rest[..4].to_vec(), rest.len()), (vec![1, 2, 6, 7], 66));
        assert!(!backlogs.waits(STATION) && backlogs.octets == 100 && backlogs.pop(STATION).is_none());
    }

    /// 1,000 units of the greatest length have room, and so have as many as `MOST_KEPT` says.
    #[test]
    fn as_many_fit_as_is_said() {
        let mut backlogs = Backlogs::default();
        assert_eq!(MOST_KEPT, 1801);
        for _ in 0..MOST_KEPT {
            assert!(backlogs.has_room_for_kept(LONGEST_UNIT));
            backlogs.count_kept(LONGEST_UNIT);
        }
        assert!(!backlogs.has_room_for_kept(LONGEST_UNIT));
        backlogs.forget_kept(LONGEST_UNIT);
        assert!(backlogs.has_room_for_kept(LONGEST_UNIT));
    }
}

//! A state that is made in steps, each of which takes less than a millisecond, so that no beacon waits for it. Each
//! network is as it is in one step; between networks stations may come and go.
use std::vec::IntoIter;

use crate::os::clock::Instant;
use crate::restart::state::{NetworkState, Setting};
use crate::restart::state_text::Lines;
use crate::stations::station::KeptStation;

/// How many stations are put in a step.
const STATIONS: usize = 256;

/// A state of which a part is made.
#[derive(Debug)]
pub struct StateDraft {
    lines: Lines,
    networks: std::ops::Range<usize>,
    stations: IntoIter<KeptStation>,
    /// After how many changes it was begun.
    changes: u64,
}

#[derive(Debug)]
pub enum Made {
    /// A part.
    Part(StateDraft),
    /// All: its text, and after how many changes it was begun.
    Whole { text: Vec<u8>, changes: u64 },
}

impl StateDraft {
    /// Nothing is made yet of so many networks, after so many changes.
    pub fn new(setting: &Setting, written: Instant, networks: usize, changes: u64) -> StateDraft {
        let lines = Lines::begin(setting, written, false);
        StateDraft { lines, networks: 0..networks, stations: Vec::new().into_iter(), changes }
    }

    /// Goes on by a step: some stations, or the network of the next place, which this gives.
    pub fn step(mut self, network: impl FnOnce(usize) -> NetworkState) -> Made {
        if self.stations.len() > 0 {
            let Self { lines, stations, .. } = &mut self;
            stations.take(STATIONS).for_each(|station| lines.put_station(&station));
        } else if let Some(place) = self.networks.next() {
            let mut network = network(place);
            self.stations = std::mem::take(&mut network.stations).into_iter();
            self.lines.put_network(&network);
        } else {
            return Made::Whole { text: self.lines.end(), changes: self.changes };
        }
        self.lines.sum_up();
        Made::Part(self)
    }
}

#[cfg(test)]
mod tests {
    use super::*;
    use crate::formats::frames::Address;
    use crate::os::clock::SECOND;
    use crate::restart::state::State;
    use crate::stations::own_frames::association_request;
    use crate::testing::samples::{at, made_up, network, OTHER, OURS};

    fn network_of(bssid: Address, stations: u16) -> NetworkState {
        let kept = |aid: u16| {
            let address = made_up(aid.into());
            let request = association_request(&network(bssid), address);
            KeptStation { address, aid, listen: 1, dozes: aid % 2 == 0, has_dozed: true, request }
        };
        let (ssid, rates) = (b"lab".to_vec(), vec![0x82]);
        NetworkState { bssid, ssid, rates, units: None, waiting: 3, stations: (1..=stations).map(kept).collect() }
    }

    /// In steps comes the text that is made at once, and no step puts many stations.
    #[test]
    fn in_steps_the_same_is_made() {
        for sizes in [[0, 0], [1, 0], [0, 700], [256, 257], [2007, 2007]] {
            let networks = vec![network_of(OURS, sizes[0]), network_of(OTHER, sizes[1])];
            let setting = Setting { phy: "phy0".to_owned(), channel: 6, interval: 100 };
            let whole = State { setting, written: at(SECOND), is_last: false, networks };
            let mut draft = StateDraft::new(&whole.setting, whole.written, 2, 7);
            let mut steps = 0;
            let (text, changes) = loop {
                let before = draft.stations.len();
                match draft.step(|place| whole.networks[place].clone()) {
                    Made::Part(more) => draft = more,
                    Made::Whole { text, changes } => break (text, changes),
                }
                assert!(before.saturating_sub(draft.stations.len()) <= STATIONS);
                steps += 1;
            };
            assert_eq!((text, changes), (whole.text(), 7));
            assert_eq!(steps, 2 + sizes.map(|size| (usize::from(size) + STATIONS - 1) / STATIONS).iter().sum::<usize>());
        }
    }
}

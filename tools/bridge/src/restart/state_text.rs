//! The state as lines of text, of which the last has a sum of those before. A bridge reads what the version before it
//! has written.
use std::fmt::Write;

use crate::formats::frames::{Address, Frame};
use crate::os::clock::Instant;
use crate::restart::state::{NetworkState, Setting, State};
use crate::stations::meaning::{from_station, FromStation};
use crate::stations::station::KeptStation;

/// The greatest identifier (9.4.1.8).
pub const MOST_AID: u16 = 2007;
const FIRST_WORDS: &str = "state 1";
const SUM: &str = "sum";
/// Of FNV-1a with 64 bits.
const SUM_OF_NOTHING: u64 = 0xcbf2_9ce4_8422_2325;
const SUM_FACTOR: u64 = 0x0100_0000_01b3;

impl State {
    /// It as lines, of which the last has the sum of those before.
    pub fn text(&self) -> Vec<u8> {
        let mut lines = Lines::begin(&self.setting, self.written, self.is_last);
        for network in &self.networks {
            lines.put_network(network);
            network.stations.iter().for_each(|station| lines.put_station(station));
        }
        lines.end()
    }

    /// Reads it; `None` if it is damaged.
    pub fn read(octets: &[u8]) -> Option<State> {
        let text = std::str::from_utf8(octets).ok()?.strip_suffix('\n')?;
        let end = text.rfind('\n')? + 1;
        let sum = text[end..].strip_prefix(SUM)?.strip_prefix(' ')?;
        if sum != format!("{:016x}", sum_of(text[..end].as_bytes())) {
            return None;
        }
        let mut lines = text[..end].lines();
        let mut state = read_first(lines.next()?)?;
        for line in lines {
            let words: Vec<&str> = line.split(' ').collect();
            match words[..] {
                ["network", ..] => state.networks.push(read_network(&words)?),
                ["station", ..] => {
                    let network = state.networks.last_mut()?;
                    network.stations.push(read_station(&words, network.bssid)?);
                }
                _ => return None,
            }
        }
        state.networks.iter().all(NetworkState::is_possible).then_some(state)
    }
}

fn sum_of(octets: &[u8]) -> u64 {
    sum_beyond(SUM_OF_NOTHING, octets)
}

fn sum_beyond(sum: u64, octets: &[u8]) -> u64 {
    octets.iter().fold(sum, |sum, octet| (sum ^ u64::from(*octet)).wrapping_mul(SUM_FACTOR))
}

/// The lines of a state, as they are put one after the other.
#[derive(Debug)]
pub(super) struct Lines {
    text: String,
    /// The sum of the text up to this place.
    sum: u64,
    summed: usize,
}

impl Lines {
    pub(super) fn begin(setting: &Setting, written: Instant, is_last: bool) -> Lines {
        let Setting { phy, channel, interval } = setting;
        let (written, is_last) = (written.as_nanos(), u8::from(is_last));
        let text =
            format!("{FIRST_WORDS} written {written} last {is_last} channel {channel} interval {interval} phy {phy}\n");
        Lines { text, sum: SUM_OF_NOTHING, summed: 0 }
    }

    /// A network, without its stations.
    pub(super) fn put_network(&mut self, network: &NetworkState) {
        let NetworkState { bssid, ssid, rates, units, waiting, stations: _ } = network;
        let units = units.map_or_else(|| "-".to_owned(), |units| units.to_string());
        let (ssid, rates) = (hex::encode(ssid), hex::encode(rates));
        let _ = writeln!(self.text, "network {bssid} {ssid} {rates} {units} {waiting}");
    }

    /// A station of the network that was put last.
    pub(super) fn put_station(&mut self, station: &KeptStation) {
        let KeptStation { address, aid, listen, dozes, has_dozed, request } = station;
        let (dozes, has_dozed, request) = (u8::from(*dozes), u8::from(*has_dozed), hex::encode(request));
        let _ = writeln!(self.text, "station {address} {aid} {listen} {dozes} {has_dozed} {request}");
    }

    /// Sums what was put, so that less is left for the end.
    pub(super) fn sum_up(&mut self) {
        self.sum = sum_beyond(self.sum, &self.text.as_bytes()[self.summed..]);
        self.summed = self.text.len();
    }

    pub(super) fn end(mut self) -> Vec<u8> {
        self.sum_up();
        let _ = writeln!(self.text, "{SUM} {:016x}", self.sum);
        self.text.into_bytes()
    }
}

fn read_flag(text: &str) -> Option<bool> {
    match text {
        "0" => Some(false),
        "1" => Some(true),
        _ => None,
    }
}

fn read_first(line: &str) -> Option<State> {
    let (numbers, phy) = line.strip_prefix(FIRST_WORDS)?.split_once(" phy ")?;
    let words: Vec<&str> = numbers.split(' ').collect();
    match words[..] {
        ["", "written", written, "last", is_last, "channel", channel, "interval", interval] => Some(State {
            setting: Setting { phy: phy.to_owned(), channel: channel.parse().ok()?, interval: interval.parse().ok()? },
            written: Instant::from_nanos(written.parse().ok()?),
            is_last: read_flag(is_last)?,
            networks: Vec::new(),
        }),
        _ => None,
    }
}

fn read_network(words: &[&str]) -> Option<NetworkState> {
    match words {
        [_, bssid, ssid, rates, units, waiting] => Some(NetworkState {
            bssid: bssid.parse().ok()?,
            ssid: hex::decode(ssid).ok()?,
            rates: hex::decode(rates).ok()?,
            units: if *units == "-" { None } else { Some(units.parse().ok()?) },
            waiting: waiting.parse().ok()?,
            stations: Vec::new(),
        }),
        _ => None,
    }
}

/// A station of the network of this address, whose association request is one of its own with its listen interval.
fn read_station(words: &[&str], bssid: Address) -> Option<KeptStation> {
    match words {
        [_, address, aid, listen, dozes, has_dozed, request] => {
            let kept = KeptStation {
                address: address.parse().ok()?,
                aid: aid.parse().ok().filter(|aid| (1..=MOST_AID).contains(aid))?,
                listen: listen.parse().ok()?,
                dozes: read_flag(dozes)?,
                has_dozed: read_flag(has_dozed)?,
                request: hex::decode(request).ok()?,
            };
            let asks = Frame::of(&kept.request)
                .filter(|frame| frame.receiver() == bssid && frame.transmitter() == Some(kept.address))
                .and_then(|frame| from_station(frame, bssid));
            (asks == Some(FromStation::Association { listen: kept.listen })).then_some(kept)
        }
        _ => None,
    }
}

//! The words of the bridge, which `tools/live` gives it.
use std::fmt;
use std::ops::RangeInclusive;
use std::os::unix::io::RawFd;
use std::str::FromStr;

use crate::control::by::By;
use crate::control::log;
use crate::formats::frames::Address;
use crate::network::Network;
use crate::outbound::air::MOST_WEIGHT;

const USAGE: &str = "bridge [--name NAME] --phy NAME --channel NUMBER --monitor NAME --interval UNITS \
                         [--by active-monitors|managed|access-points] [--idle SECONDS] [--no-update] \
                         [--socket DESCRIPTOR] [--alive] [--sends] [--record DESCRIPTOR:NAME] \
                         [--record-limit OCTETS] [--bounds OCTETS] \
                         --network BSSID/SSID/RATES/STATIONS/KNOWN/QUOTA/SHARE/RELAYS[/WIRE]... PROGRAM CONFIG";

/// What the words ask for.
#[derive(Debug, Clone, PartialEq, Eq)]
pub struct Arguments {
    /// By which name `tools/live` was called, which each line that is told begins with.
    pub name: String,
    pub phy: String,
    pub channel: u8,
    pub monitor: String,
    /// The beacon interval in time units.
    pub interval: u16,
    /// By which interfaces the radio acknowledges, if that was said.
    pub by: Option<By>,
    /// After how many seconds an associated station of which nothing was heard is asked; 0 asks nobody.
    pub idle: u32,
    /// Whether wires learn which stations join.
    pub tells_wires: bool,
    /// The listening socket by which it is asked, as a descriptor.
    pub socket: Option<RawFd>,
    /// Whether it is told that the program answers.
    pub tells_alive: bool,
    /// Whether an earlier bridge saw the radio send as it is set up.
    pub has_sent: bool,
    /// The file of the record as a descriptor, with its name for people.
    pub record: Option<(RawFd, String)>,
    /// How many octets that file has at most, if it has a limit.
    pub record_limit: Option<u64>,
    /// How many octets of address space the program has, if it runs within bounds (`sandbox::Bounds`).
    pub bounds: Option<u64>,
    /// The networks in the order of the configuration.
    pub networks: Vec<Network>,
    pub program: String,
    pub config: String,
}

/// Why the words aren't such.
#[derive(Debug, Clone, PartialEq, Eq)]
pub struct WrongArguments(String);

impl fmt::Display for WrongArguments {
    fn fmt(&self, to: &mut fmt::Formatter<'_>) -> fmt::Result {
        write!(to, "{}; usage: {USAGE}", self.0)
    }
}

/// After how many seconds a silent station is asked unless it is said.
const IDLE: u32 = 300;
/// The descriptors below are standard input, output and error.
const FIRST_DESCRIPTOR: RawFd = 3;
/// In fewer no program begins.
const LEAST_BOUNDS: u64 = 1 << 20;
const WEIGHTS: RangeInclusive<u8> = 1..=MOST_WEIGHT;

impl Arguments {
    pub fn read(words: impl IntoIterator<Item = String>) -> Result<Arguments, WrongArguments> {
        let mut words = words.into_iter();
        let (mut monitor, mut interval, mut record, mut record_limit) = (None, None, None, None);
        let (mut phy, mut channel, mut idle, mut socket) = (None, None, IDLE, None);
        let (mut tells_wires, mut tells_alive, mut has_sent) = (true, false, false);
        let (mut name, mut bounds, mut by) = (log::UNNAMED.to_owned(), None, None);
        let (mut networks, mut rest) = (Vec::new(), Vec::new());
        while let Some(word) = words.next() {
            let mut value = || words.next().ok_or_else(|| WrongArguments(format!("{word} lacks its value")));
            match word.as_str() {
                "--name" => name = value()?,
                "--phy" => phy = Some(value()?),
                "--channel" => channel = Some(read_number(&value()?, "channel", 1..=14)?),
                "--monitor" => monitor = Some(value()?),
                "--interval" => interval = Some(read_number(&value()?, "beacon interval", 1..=u16::MAX)?),
                "--by" => by = Some(read_by(&value()?)?),
                "--idle" => idle = read_number(&value()?, "number of seconds", 0..=u32::MAX)?,
                "--socket" => socket = Some(read_number(&value()?, "descriptor", FIRST_DESCRIPTOR..=RawFd::MAX)?),
                "--no-update" => tells_wires = false,
                "--alive" => tells_alive = true,
                "--sends" => has_sent = true,
                "--record" => record = Some(read_record(&value()?)?),
                "--record-limit" => record_limit = Some(read_number(&value()?, "number of octets", 1..=u64::MAX)?),
                "--bounds" => bounds = Some(read_number(&value()?, "number of octets", LEAST_BOUNDS..=u64::MAX)?),
                "--network" => networks.push(read_network(&value()?)?),
                _ => rest.push(word),
            }
        }
        let lacks = |what: &str| WrongArguments(format!("{what} is missing"));
        let [program, config]: [String; 2] = rest.try_into().map_err(|_| lacks("PROGRAM CONFIG"))?;
        if networks.is_empty() {
            return Err(lacks("--network"));
        }
        Ok(Arguments {
            name,
            phy: phy.ok_or_else(|| lacks("--phy"))?,
            channel: channel.ok_or_else(|| lacks("--channel"))?,
            monitor: monitor.ok_or_else(|| lacks("--monitor"))?,
            interval: interval.ok_or_else(|| lacks("--interval"))?,
            by,
            idle,
            tells_wires,
            socket,
            tells_alive,
            has_sent,
            record,
            record_limit,
            bounds,
            networks,
            program,
            config,
        })
    }
}

fn read_by(text: &str) -> Result<By, WrongArguments> {
    text.parse().map_err(|_| WrongArguments(format!("{text} is no kind of interfaces")))
}

fn read_number<N: FromStr + PartialOrd>(
    text: &str,
    what: &str,
    limits: RangeInclusive<N>,
) -> Result<N, WrongArguments> {
    text.parse()
        .ok()
        .filter(|number| limits.contains(number))
        .ok_or_else(|| WrongArguments(format!("{text} is no {what}")))
}

fn read_record(text: &str) -> Result<(RawFd, String), WrongArguments> {
    let (descriptor, name) =
        text.split_once(':').ok_or_else(|| WrongArguments(format!("{text} is no DESCRIPTOR:NAME")))?;
    Ok((read_number(descriptor, "descriptor", FIRST_DESCRIPTOR..=RawFd::MAX)?, name.to_owned()))
}

fn read_network(text: &str) -> Result<Network, WrongArguments> {
    let mut parts = text.split('/');
    let bssid: Option<Address> = parts.next().and_then(|part| part.parse().ok());
    let mut octets = || parts.next().and_then(|part| hex::decode(part).ok()).filter(|octets| !octets.is_empty());
    let (ssid, rates) = (octets(), octets());
    let mut number = || parts.next().and_then(|part| part.parse().ok()).filter(|number: &u16| *number > 0);
    let (max_stations, max_known) = (number(), number());
    let quota: Option<u32> = parts.next().and_then(|part| part.parse().ok());
    let weight: Option<u8> = parts.next().and_then(|part| part.parse().ok()).filter(|weight| WEIGHTS.contains(weight));
    let relays: Option<bool> = parts.next().and_then(|part| part.parse().ok());
    let wire = parts.next().map(str::to_owned);
    let read = bssid
        .zip(ssid)
        .zip(rates)
        .zip(max_stations.zip(max_known))
        .zip(quota.zip(weight).zip(relays))
        .filter(|_| parts.next().is_none());
    match read {
        Some(((((bssid, ssid), rates), (max_stations, max_known)), ((quota, weight), relays))) => {
            Ok(Network { bssid, ssid, rates, max_stations, max_known, quota, wire, relays, weight })
        }
        None => Err(WrongArguments(format!("{text} is no BSSID/SSID/RATES/STATIONS/KNOWN/QUOTA/SHARE/RELAYS[/WIRE]"))),
    }
}

#[cfg(test)]
mod tests {
    use super::*;
    use crate::testing::samples::{network, OTHER, OURS};

    const GOOD: &str = "--name waltigon-live \
                        --phy phy0 --channel 6 --monitor mon0 --interval 100 --by managed --idle 60 --no-update --socket 5 \
                        --alive --sends --record 6:r:1 --record-limit 5000 --bounds 2000000 --network \
                        02:00:00:00:01:01/6c6162/8284/64/256/500/1/true/wire1 --network \
                        02:00:00:00:01:02/20/16/2007/10000/0/16/false apctl config";

    fn read(text: &str) -> Result<Arguments, WrongArguments> {
        Arguments::read(text.split_whitespace().map(str::to_owned))
    }

    #[test]
    fn good_words_are_read() {
        let (rates, wire) = (vec![0x82, 0x84], Some("wire1".into()));
        let first = Network { rates, max_stations: 64, max_known: 256, quota: 500, wire, ..network(OURS) };
        let (ssid, rates, max_stations, max_known) = (b" ".to_vec(), vec![0x16], 2007, 10_000);
        let of_second = Network { relays: false, weight: 16, ..network(OTHER) };
        let second = Network { ssid, rates, max_stations, max_known, quota: 0, ..of_second };
        let wanted = Arguments {
            name: "waltigon-live".into(),
            phy: "phy0".into(),
            channel: 6,
            monitor: "mon0".into(),
            interval: 100,
            by: Some(By::Managed),
            idle: 60,
            tells_wires: false,
            socket: Some(5),
            tells_alive: true,
            has_sent: true,
            record: Some((6, "r:1".into())),
            record_limit: Some(5000),
            bounds: Some(2_000_000),
            networks: vec![first, second],
            program: "apctl".into(),
            config: "config".into(),
        };
        assert_eq!(read(GOOD), Ok(wanted));
        let most = "--idle 60 --no-update --socket 5 --alive --sends";
        let fewer = read(&GOOD.replace(most, "").replace("--name waltigon-live", "")).unwrap();
        assert_eq!((fewer.idle, fewer.socket, fewer.tells_alive, fewer.has_sent), (300, None, false, false));
        assert!(fewer.tells_wires);
        for (word, by) in [("active-monitors", By::ActiveMonitors), ("access-points", By::AccessPoints)] {
            assert_eq!(read(&GOOD.replace("managed", word)).unwrap().by, Some(by));
        }
        assert_eq!(read(&GOOD.replace("--by managed", "")).unwrap().by, None);
        assert_eq!(fewer.name, "bridge");
    }

    #[test]
    fn others_are_told() {
        for (old, new) in [
            ("--monitor mon0", ""),
            ("--phy phy0", ""),
            ("--channel 6", ""),
            ("--channel 6", "--channel 15"),
            ("managed", "monitors"),
            ("--idle 60", "--idle x"),
            ("--socket 5", "--socket 2"),
            ("100", "0"),
            ("100", "70000"),
            ("--interval 100", ""),
            ("8284", ""),
            ("8284", "82g4"),
            ("6c6162", ""),
            ("6c6162", "6"),
            ("/64/", "/0/"),
            ("/64/", "/"),
            ("256", "0"),
            ("256", "x"),
            ("6:r:1", "r"),
            ("2000000", "2000"),
            ("limit 5000", "limit 0"),
            ("limit 5000", "limit 5M"),
            ("6:r:1", "2:r"),
            ("64/256/500/1/true/wire1", ""),
            ("true", ""),
            ("true", "1"),
            ("/10000/0/16/false", ""),
            ("10000/0/16/", "10000/0/"),
            ("10000/0/16/", "10000/0/17/"),
            ("16/false", "16"),
            ("500/1/", "500/0/"),
            ("500/1/", "x/1/"),
            ("01:01", "01"),
            ("wire1", "a/b"),
            ("apctl config", "apctl"),
            ("config", "config more"),
            ("apctl config", "apctl config --record"),
        ] {
            assert!(read(&GOOD.replacen(old, new, 1)).is_err(), "{old} {new}");
        }
        assert!(read("--phy phy0 --channel 6 --monitor mon0 --interval 100 apctl config").is_err());
    }
}

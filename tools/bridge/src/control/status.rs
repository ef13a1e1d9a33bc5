//! What is going on, as one line of JSON.
use std::collections::{BTreeMap, VecDeque};
use std::io;
use std::vec::IntoIter;

use serde::ser::{Serialize, SerializeMap, Serializer};
use serde_json::ser::Formatter;

use crate::apctl::recording::Recording;
use crate::apctl::tables::Tables;
use crate::control::by::By;
use crate::control::log::Bounded;
use crate::control::network_part::{Listed, NetworkPart};
use crate::network::Network;
use crate::os::clock::{Duration, Instant};
use crate::outbound::air::account::Account;
use crate::outbound::air::links::Unacknowledged;
use crate::run::intervals::{BeaconDelays, LATE_UP_TO};
use crate::stations::table::StationTable;
use crate::stations::tally::Tally;

/// Which version runs.
pub const VERSION: &str = match option_env!("BRIDGE_VERSION") {
    Some(version) => version,
    None => env!("CARGO_PKG_VERSION"),
};
/// Of which kind the document is: another number if a member is gone or means something else (docs/FORMATS.md).
const FORMAT: u32 = 1;
/// What follows the last station of a network, and the last network.
pub const END: &str = "]}";
const MOST_FAULTS: usize = 32;

/// The last faults that the program told, with their times.
#[derive(Debug)]
pub struct Faults {
    last: VecDeque<(Instant, String)>,
    lines: Bounded,
}

impl Default for Faults {
    fn default() -> Faults {
        Faults { last: VecDeque::new(), lines: Bounded::of_faults() }
    }
}

impl Faults {
    /// The program told of one. Answers whether it is written to the log too.
    pub fn push(&mut self, text: &str, now: Instant) -> bool {
        self.last.truncate(MOST_FAULTS - 1);
        self.last.push_front((now, text.to_owned()));
        self.lines.takes(0)
    }

    /// How many weren't written in the second that is over, if some weren't.
    pub fn take_left_out(&mut self, now: Instant) -> Option<u64> {
        self.lines.take_left_out(now).first().map(|(_, more)| *more)
    }
}

/// Counts by what they count.
pub type Named = BTreeMap<String, u64>;

/// What is known of the radio; if all is well, nothing.
#[derive(Debug, Clone, Copy, Default)]
pub struct OfRadio {
    /// Since when its interface is down.
    pub down_since: Option<Instant>,
    /// Since when it has shown no beacon as sent.
    pub unsent_since: Option<Instant>,
    /// On which frequency it hears, in MHz, if that isn't its channel's.
    pub elsewhere: Option<u16>,
    /// How many frames were heard on other frequencies.
    pub heard_elsewhere: u64,
}

/// What is known of all.
pub struct Status<'a> {
    pub phy: &'a str,
    pub channel: u8,
    /// By which interfaces it acknowledges, if that is known.
    pub by: Option<By>,
    pub radio: OfRadio,
    /// When the program was started.
    pub began: Instant,
    pub faults: &'a Faults,
    /// What is recorded, if something is.
    pub record: Option<&'a Recording>,
    pub beacons: &'a BeaconDelays,
    pub drops: Named,
    pub left_out: Named,
    pub networks: &'a [Network],
    /// Of each network since when its wire is down, if it is.
    pub wires_down: Vec<Option<Instant>>,
    /// Of each network how often its wire was told that a station is here.
    pub updates: &'a [u64],
    pub accounts: &'a [Account],
    /// What became of units of each that nobody acknowledged.
    pub unacknowledged: &'a [Unacknowledged],
    pub table: &'a StationTable,
    /// How often stations of each came and went.
    pub tallies: &'a [Tally],
    /// What the program said of them.
    pub tables: &'a Tables,
    pub now: Instant,
}

impl Status<'_> {
    /// The line up to its networks, of which each is added then, and at last the end.
    pub fn begin(&self) -> String {
        let mut text = line_of(self);
        text.truncate(text.len() - END.len());
        text
    }

    /// Adds the network of this place up to its stations, and gives these: they are added then, and the end of the
    /// network.
    pub fn add_network(&self, place: usize, to: &mut String) -> IntoIter<Listed> {
        let part = NetworkPart { status: self, place };
        if place > 0 {
            to.push(',');
        }
        to.push_str(&line_of(&part));
        to.truncate(to.len() - END.len());
        part.listed().into_iter()
    }

    pub(super) fn ago(&self, moment: Instant) -> Decimal {
        Decimal::seconds(self.now.since(moment))
    }
}

/// Adds some stations to those of a network.
pub fn add_stations(stations: impl Iterator<Item = Listed>, to: &mut String) {
    for station in stations {
        if !to.ends_with('[') {
            to.push(',');
        }
        to.push_str(&line_of(&station));
    }
}

/// An answer that says why a question isn't answered.
pub fn error(text: &str) -> String {
    line_of(&BTreeMap::from([("error", text)]))
}

/// A document in one line of ASCII, which any reader takes.
pub(super) fn line_of(document: &impl Serialize) -> String {
    let mut line = Vec::new();
    let outcome = document.serialize(&mut serde_json::Serializer::with_formatter(&mut line, Ascii));
    debug_assert!(outcome.is_ok(), "every name is a text, and a vector takes all");
    String::from_utf8(line).unwrap_or_default()
}

/// Letters beyond ASCII are escaped, and numbers with a point have three places behind it.
struct Ascii;

impl Formatter for Ascii {
    fn write_f64<W: ?Sized + io::Write>(&mut self, to: &mut W, number: f64) -> io::Result<()> {
        write!(to, "{number:.3}")
    }

    fn write_string_fragment<W: ?Sized + io::Write>(&mut self, to: &mut W, text: &str) -> io::Result<()> {
        if text.bytes().all(|octet| (b' '..=b'~').contains(&octet)) {
            return to.write_all(text.as_bytes());
        }
        text.chars().try_for_each(|letter| match letter {
            ' '..='~' => write!(to, "{letter}"),
            _ => letter.encode_utf16(&mut [0; 2]).iter().try_for_each(|half| write!(to, "\\u{half:04x}")),
        })
    }
}

/// A number with three places behind the point.
#[derive(Debug, Clone, Copy)]
pub(super) struct Decimal {
    thousandths: u64,
}

impl Decimal {
    pub fn seconds(time: Duration) -> Decimal {
        Decimal { thousandths: time.as_millis() as u64 }
    }

    fn milliseconds(time: Duration) -> Decimal {
        Decimal { thousandths: time.as_micros() as u64 }
    }
}

impl Serialize for Decimal {
    fn serialize<S: Serializer>(&self, to: S) -> Result<S::Ok, S::Error> {
        to.serialize_f64(self.thousandths as f64 / 1000.0)
    }
}

/// Writes an object of these members, in this order.
macro_rules! object {
    ($to:expr, $($name:literal: $value:expr,)+) => {{
        let mut object = $to.serialize_map(None)?;
        $(object.serialize_entry($name, &$value)?;)+
        object.end()
    }};
}

pub(super) use object;

pub(super) struct List<I>(pub(super) I);

impl<I: Iterator + Clone> Serialize for List<I>
where
    I::Item: Serialize,
{
    fn serialize<S: Serializer>(&self, to: S) -> Result<S::Ok, S::Error> {
        to.collect_seq(self.0.clone())
    }
}

impl Serialize for Status<'_> {
    fn serialize<S: Serializer>(&self, to: S) -> Result<S::Ok, S::Error> {
        let faults = self.faults.last.iter().rev();
        let mut object = to.serialize_map(None)?;
        object.serialize_entry("version", VERSION)?;
        object.serialize_entry("format", &FORMAT)?;
        object.serialize_entry("since", &self.ago(self.began))?;
        object.serialize_entry("phy", self.phy)?;
        object.serialize_entry("channel", &self.channel)?;
        if let Some(by) = self.by {
            object.serialize_entry("by", &by.to_string())?;
        }
        object.serialize_entry("radio", &RadioPart(self))?;
        object.serialize_entry("faults", &List(faults.map(|(since, text)| FaultPart(self.ago(*since), text))))?;
        object.serialize_entry("record", &self.record.map(RecordPart))?;
        object.serialize_entry("beacons", &BeaconsPart(self.beacons))?;
        object.serialize_entry("drops", &self.drops)?;
        object.serialize_entry("left_out", &self.left_out)?;
        // They are added one by one.
        object.serialize_entry("networks", &[(); 0])?;
        object.end()
    }
}

struct RadioPart<'a>(&'a Status<'a>);

impl Serialize for RadioPart<'_> {
    fn serialize<S: Serializer>(&self, to: S) -> Result<S::Ok, S::Error> {
        let OfRadio { down_since, unsent_since, elsewhere, heard_elsewhere } = self.0.radio;
        object!(to,
            "down": down_since.map(|since| self.0.ago(since)),
            "unsent": unsent_since.map(|since| self.0.ago(since)),
            "elsewhere": elsewhere,
            "heard_elsewhere": heard_elsewhere,
        )
    }
}

struct FaultPart<'a>(Decimal, &'a str);

impl Serialize for FaultPart<'_> {
    fn serialize<S: Serializer>(&self, to: S) -> Result<S::Ok, S::Error> {
        object!(to, "seconds": self.0, "text": self.1,)
    }
}

/// How many octets were recorded, and why no more are.
struct RecordPart<'a>(&'a Recording);

impl Serialize for RecordPart<'_> {
    fn serialize<S: Serializer>(&self, to: S) -> Result<S::Ok, S::Error> {
        object!(to, "octets": self.0.written(), "fault": self.0.fault(),)
    }
}

struct BeaconsPart<'a>(&'a BeaconDelays);

impl Serialize for BeaconsPart<'_> {
    fn serialize<S: Serializer>(&self, to: S) -> Result<S::Ok, S::Error> {
        object!(to,
            "sent": self.0.sent,
            "late_ms_mean": Decimal::milliseconds(self.0.mean()),
            "late_ms_worst": Decimal::milliseconds(self.0.worst),
            "late_seconds": Decimal::seconds(self.0.total),
            "late_up_to_ms": List(LATE_UP_TO.iter().zip(self.0.up_to)),
            "missed": self.0.missed,
        )
    }
}

#[cfg(test)]
#[path = "status_test.rs"]
pub(super) mod tests;

//! What happened last to stations and wires, for whoever follows it by the bridge's socket. Each network has room of its
//! own, so nothing that happens in one pushes out what happened in another.
use std::collections::VecDeque;
use std::time::UNIX_EPOCH;

use humantime::format_rfc3339_millis;
use serde::ser::{Serialize, SerializeMap, Serializer};

use crate::control::status::{line_of, Decimal};
use crate::formats::frames::Address;
use crate::os::clock::{Duration, Instant};
use crate::stations::news::{Forgotten, News};

/// How many events of a network are kept.
const MOST_OF_NETWORK: usize = 1000;
/// How many events an answer has at most.
const MOST_TOLD: usize = 1000;
/// How long the next answer waits for each event of the last one, so that telling them takes little of the bridge's time.
const FOR_EACH: Duration = Duration::from_micros(20);

#[derive(Debug, Clone, PartialEq, Eq)]
pub enum Happened {
    /// Something happened to a station.
    Station { station: Address, news: News },
    /// A station joined, and is a station of another network of this radio too.
    Moved { station: Address, from: Address, aid: u16, listen: u16 },
    /// More happened to stations within a second than is told.
    LeftOut { count: u64 },
    /// The network's wire is lost.
    WireDown { wire: String },
    /// The network's wire is there, or there again.
    WireUp { wire: String },
}

/// An event: its number, and when it happened by the wall clock.
#[derive(Debug, Clone)]
struct Event {
    number: u64,
    time: Duration,
    happened: Happened,
}

/// The last events of one network.
#[derive(Debug, Default)]
struct OfNetwork {
    events: VecDeque<Event>,
    /// Number and time of the last one for which there was no room any more.
    dropped: Option<(u64, Duration)>,
}

/// The last events of all networks. They are numbered from 1 on, since this bridge began.
#[derive(Debug)]
pub struct Events {
    began: Duration,
    next: u64,
    bssids: Vec<Address>,
    networks: Vec<OfNetwork>,
    /// From when on events may be told.
    free: Instant,
}

impl Events {
    /// Nothing has happened yet, at this time of the wall clock.
    pub fn new(bssids: Vec<Address>, began: Duration) -> Events {
        let networks = bssids.iter().map(|_| OfNetwork::default()).collect();
        Events { began, next: 1, bssids, networks, free: Instant::START }
    }

    /// Something happened in the network of this place.
    pub fn push(&mut self, place: usize, time: Duration, happened: Happened) {
        let network = &mut self.networks[place];
        if network.events.len() == MOST_OF_NETWORK {
            network.dropped = network.events.pop_front().map(|event| (event.number, event.time));
        }
        network.events.push_back(Event { number: self.next, time, happened });
        self.next += 1;
    }

    /// Whether somebody may be told events now.
    pub fn may_be_told(&self, now: Instant) -> bool {
        now >= self.free
    }

    /// The answer to who asks for all events from this number on, as a line of JSON. It has the first ones, and the number
    /// from which on the others are.
    pub fn line_from(&mut self, first: u64, now: Instant) -> String {
        let mut events: Vec<(Address, &Event)> = Vec::new();
        for (bssid, network) in self.bssids.iter().zip(&self.networks) {
            let begin = network.events.partition_point(|event| event.number < first);
            events.extend(network.events.range(begin..).map(|event| (*bssid, event)));
        }
        events.sort_unstable_by_key(|(_, event)| event.number);
        let next = events.get(MOST_TOLD).map_or(self.next, |(_, event)| event.number);
        events.truncate(MOST_TOLD);
        self.free = now + FOR_EACH * events.len() as u32;
        let dropped = self.networks.iter().filter_map(|network| network.dropped).filter(|(number, _)| *number >= first);
        line_of(&AnswerPart { began: self.began, next, dropped: dropped.map(|(_, time)| time).max(), events })
    }
}

struct AnswerPart<'a> {
    began: Duration,
    next: u64,
    /// When the last one happened of those that were asked for and for which there was no room any more.
    dropped: Option<Duration>,
    events: Vec<(Address, &'a Event)>,
}

impl Serialize for AnswerPart<'_> {
    fn serialize<S: Serializer>(&self, to: S) -> Result<S::Ok, S::Error> {
        let mut object = to.serialize_map(None)?;
        object.serialize_entry("began", &Decimal::seconds(self.began))?;
        object.serialize_entry("next", &self.next)?;
        object.serialize_entry("dropped", &self.dropped.map(text_of))?;
        let events: Vec<EventPart<'_>> = self.events.iter().map(|(bssid, event)| EventPart(*bssid, event)).collect();
        object.serialize_entry("events", &events)?;
        object.end()
    }
}

struct EventPart<'a>(Address, &'a Event);

impl Serialize for EventPart<'_> {
    fn serialize<S: Serializer>(&self, to: S) -> Result<S::Ok, S::Error> {
        let EventPart(bssid, Event { number, time, happened }) = self;
        let mut object = to.serialize_map(None)?;
        object.serialize_entry("number", number)?;
        object.serialize_entry("time", &text_of(*time))?;
        object.serialize_entry("event", name_of(happened))?;
        object.serialize_entry("bssid", &bssid.to_string())?;
        members_of(happened, &mut object)?;
        object.end()
    }
}

/// A time of the wall clock, as `2026-11-25T22:30:51.250Z`.
fn text_of(time: Duration) -> String {
    format_rfc3339_millis(UNIX_EPOCH + std::time::Duration::from(time)).to_string()
}

fn name_of(happened: &Happened) -> &'static str {
    match happened {
        Happened::Moved { .. } => "moved",
        Happened::LeftOut { .. } => "left-out",
        Happened::WireDown { .. } => "wire-down",
        Happened::WireUp { .. } => "wire-up",
        Happened::Station { news, .. } => match news {
            News::Joins { .. } => "joined",
            News::Leaves { .. } => "left",
            News::DozesTooLong { .. } => "dozes-too-long",
            News::Refused { .. } => "refused",
            News::SentAway { .. } => "sent-away",
            News::Claimed => "claimed",
            News::Forgotten(_) => "forgotten",
        },
    }
}

fn members_of<M: SerializeMap>(happened: &Happened, object: &mut M) -> Result<(), M::Error> {
    match happened {
        Happened::LeftOut { count } => object.serialize_entry("count", count),
        Happened::WireDown { wire } | Happened::WireUp { wire } => object.serialize_entry("wire", wire),
        Happened::Moved { station, from, aid, listen } => {
            object.serialize_entry("station", &station.to_string())?;
            object.serialize_entry("from", &from.to_string())?;
            object.serialize_entry("aid", aid)?;
            object.serialize_entry("listen", listen)
        }
        Happened::Station { station, news } => {
            object.serialize_entry("station", &station.to_string())?;
            members_of_news(*news, object)
        }
    }
}

fn members_of_news<M: SerializeMap>(news: News, object: &mut M) -> Result<(), M::Error> {
    match news {
        News::Joins { aid, listen } => {
            object.serialize_entry("aid", &aid)?;
            object.serialize_entry("listen", &listen)
        }
        News::Leaves { reason } | News::SentAway { reason } => object.serialize_entry("reason", &reason),
        News::DozesTooLong { beacons, listen } => {
            object.serialize_entry("beacons", &beacons)?;
            object.serialize_entry("listen", &listen)
        }
        News::Refused { status, is_association } => {
            object.serialize_entry("request", if is_association { "association" } else { "authentication" })?;
            object.serialize_entry("status", &status)
        }
        News::Forgotten(why) => {
            let (why, seconds) = match why {
                Forgotten::Silent(time) => ("silent", Some(time.as_secs())),
                Forgotten::Unassociated(time) => ("unassociated", Some(time.as_secs())),
                Forgotten::Kicked => ("kicked", None),
                Forgotten::Moved => ("moved", None),
            };
            object.serialize_entry("why", why)?;
            seconds.map_or(Ok(()), |seconds| object.serialize_entry("seconds", &seconds))
        }
        News::Claimed => Ok(()),
    }
}

#[cfg(test)]
mod tests {
    use super::*;
    use crate::os::clock::{MILLISECOND, SECOND};
    use crate::testing::samples::{OTHER, OURS, STATION};

    fn joined(aid: u16) -> Happened {
        Happened::Station { station: STATION, news: News::Joins { aid, listen: 5 } }
    }

    fn kinds() -> Vec<(Happened, &'static str)> {
        let station = |news| Happened::Station { station: STATION, news };
        let refused = |status, is_association| station(News::Refused { status, is_association });
        let forgotten = |why| station(News::Forgotten(why));
        vec![
            (joined(3), r#""joined",B,S,"aid":3,"listen":5"#),
            (
                Happened::Moved { station: STATION, from: OTHER, aid: 3, listen: 5 },
                r#""moved",B,S,"from":"02:00:00:00:01:02","aid":3,"listen":5"#,
            ),
            (station(News::Leaves { reason: 8 }), r#""left",B,S,"reason":8"#),
            (station(News::DozesTooLong { beacons: 6, listen: 5 }), r#""dozes-too-long",B,S,"beacons":6,"listen":5"#),
            (refused(17, true), r#""refused",B,S,"request":"association","status":17"#),
            (refused(13, false), r#""refused",B,S,"request":"authentication","status":13"#),
            (station(News::SentAway { reason: 7 }), r#""sent-away",B,S,"reason":7"#),
            (forgotten(Forgotten::Silent(300 * SECOND)), r#""forgotten",B,S,"why":"silent","seconds":300"#),
            (forgotten(Forgotten::Unassociated(3 * SECOND)), r#""forgotten",B,S,"why":"unassociated","seconds":3"#),
            (forgotten(Forgotten::Kicked), r#""forgotten",B,S,"why":"kicked""#),
            (forgotten(Forgotten::Moved), r#""forgotten",B,S,"why":"moved""#),
            (station(News::Claimed), r#""claimed",B,S"#),
            (Happened::LeftOut { count: 7 }, r#""left-out",B,"count":7"#),
            (Happened::WireDown { wire: "wire1".into() }, r#""wire-down",B,"wire":"wire1""#),
            (Happened::WireUp { wire: "wire1".into() }, r#""wire-up",B,"wire":"wire1""#),
        ]
    }

    #[test]
    fn each_kind_has_its_name_and_members() {
        for (happened, wanted) in kinds() {
            let mut events = Events::new(vec![OURS], 1_795_645_850 * SECOND);
            events.push(0, 1_795_645_851 * SECOND + 250 * MILLISECOND, happened);
            let wanted = wanted.replace(",B", r#","bssid":"02:00:00:00:01:01""#);
            let wanted = wanted.replace(",S", r#","station":"02:aa:00:00:00:01""#);
            let event = format!(r#"{{"number":1,"time":"2026-11-25T22:30:51.250Z","event":{wanted}}}"#);
            let answer = format!(r#"{{"began":1795645850.000,"next":2,"dropped":null,"events":[{event}]}}"#);
            assert_eq!(events.line_from(0, Instant::START), answer);
        }
    }

    fn numbers(line: String) -> Vec<u64> {
        let pieces = line.split("\"number\":").skip(1);
        pieces.map(|piece| piece.split(',').next().unwrap().parse().unwrap()).collect()
    }

    #[test]
    fn events_come_by_their_numbers_and_from_the_one_asked_for() {
        let mut events = Events::new(vec![OURS, OTHER], Duration::ZERO);
        (1..=6).for_each(|number| events.push(number % 2, Duration::ZERO, joined(number as u16)));
        assert_eq!(numbers(events.line_from(1, Instant::START)), [1, 2, 3, 4, 5, 6]);
        assert_eq!(numbers(events.line_from(4, Instant::START)), [4, 5, 6]);
        assert_eq!(events.line_from(7, Instant::START), r#"{"began":0.000,"next":7,"dropped":null,"events":[]}"#);
    }

    /// What happens in one network pushes out nothing of another, and who asks for what has no room is told so.
    #[test]
    fn each_network_has_room_of_its_own() {
        let mut events = Events::new(vec![OURS, OTHER], Duration::ZERO);
        events.push(0, Duration::ZERO, Happened::WireDown { wire: "wire1".into() });
        (0..=MOST_OF_NETWORK as u32).for_each(|second| events.push(1, second * SECOND, joined(1)));
        let all = events.line_from(1, Instant::START);
        assert!(all.contains("wire-down") && all.contains(r#""dropped":"1970-01-01T00:00:00.000Z""#), "{all}");
        assert_eq!(all.matches("joined").count() + 1, MOST_TOLD);
        assert!(events.line_from(3, Instant::START).contains(r#""dropped":null"#));
    }

    /// However many are kept, an answer has a bounded number of them and the next one waits for as long as it took.
    #[test]
    fn an_answer_is_bounded_and_says_where_the_rest_begins() {
        const NETWORKS: usize = 16;
        let bssids = (0..NETWORKS as u8).map(|place| Address::of([2, 0, 0, 0, 2, place])).collect();
        let mut events = Events::new(bssids, Duration::ZERO);
        (0..NETWORKS * MOST_OF_NETWORK).for_each(|number| events.push(number % NETWORKS, Duration::ZERO, joined(1)));
        let (mut first, mut now, mut told) = (0, Instant::START, Vec::new());
        loop {
            assert!(events.may_be_told(now));
            let line = events.line_from(first, now);
            let next = line.split("\"next\":").nth(1).and_then(|rest| rest.split(',').next()).unwrap();
            first = next.parse().unwrap();
            let found = numbers(line);
            assert!(found.len() <= MOST_TOLD);
            assert_eq!(events.may_be_told(now), found.is_empty());
            now += 20 * MILLISECOND;
            match found.is_empty() {
                true => break,
                false => told.extend(found),
            }
        }
        assert!(told.into_iter().eq(1..=(NETWORKS * MOST_OF_NETWORK) as u64));
    }
}

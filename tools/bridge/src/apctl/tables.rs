//! The program's tables (docs/FORMATS.md, 'Lines as they come'): who asked for them, and what they say.
use std::collections::VecDeque;

use crate::formats::frames::{Address, AddressMap};
use crate::os::clock::{Duration, Instant, SECOND};
use crate::stations::station::State;

const NEW_ENOUGH: Duration = SECOND;
/// Whoever waits for tables is answered without them after so long.
const MOST_WAIT: Duration = SECOND;

/// How many questions for tables the program may have that it hasn't answered.
const MOST_ASKERS: usize = 16;
/// The most stations that a network knows, as a configuration says it.
const MOST_KNOWN: usize = 10_000;

#[derive(Debug, Clone, Copy, PartialEq, Eq)]
pub enum Asker {
    /// People, to whom they are shown.
    People,
    /// The status, into which they go.
    Status,
}

/// What a line of a table says of the stations that the network of a place knows.
#[derive(Debug, Clone, Copy, PartialEq, Eq)]
pub enum Row {
    /// Its table begins.
    Begin { place: usize },
    /// It knows this one.
    Station { place: usize, address: Address, state: State },
    /// It knows no others.
    End { place: usize },
}

#[derive(Debug, Clone, Default, PartialEq, Eq)]
pub struct Table {
    /// The name's octets in digits.
    pub ssid: String,
    /// Its counts by name, in their order.
    pub counts: Vec<(String, u64)>,
    /// The stations that it knows, with how many units are kept for each.
    pub stations: AddressMap<(State, u64)>,
    /// For which of them most units are kept, and before it how many, if some are for one.
    pub holder: Option<(u64, Address)>,
}

/// The tables that came last, and those that come.
#[derive(Debug)]
pub struct Tables {
    networks: usize,
    askers: VecDeque<Asker>,
    asked: Option<Instant>,
    coming: Vec<Table>,
    last: Option<(Instant, Vec<Table>)>,
    /// What the last line said, until it is taken.
    row: Option<Row>,
}

impl Table {
    /// It knows this station.
    fn add(&mut self, address: Address, state: State, kept: u64) {
        self.stations.insert(address, (state, kept));
        self.holder = self.holder.max((kept > 0).then_some((kept, address)));
    }

    pub fn count(&self, name: &str) -> Option<u64> {
        self.counts.iter().find(|(found, _)| found == name).map(|(_, number)| *number)
    }
}

impl Tables {
    /// None came yet of so many networks.
    pub fn new(networks: usize) -> Tables {
        Tables { networks, askers: VecDeque::new(), asked: None, coming: Vec::new(), last: None, row: None }
    }

    /// The program was asked for them.
    pub fn ask(&mut self, asker: Asker, now: Instant) {
        self.askers.push_back(asker);
        if asker == Asker::Status {
            self.asked = Some(now);
        }
    }

    /// Whether the status has to ask for them.
    pub fn are_wanted(&self, now: Instant) -> bool {
        !self.are_new(now) && self.may_be_asked() && self.asked.map_or(true, |asked| now >= asked + NEW_ENOUGH)
    }

    /// Whether the program may be asked once more: one that doesn't answer is asked no further.
    pub fn may_be_asked(&self) -> bool {
        self.askers.len() < MOST_ASKERS
    }

    /// Whether there are such that were asked for less than a second ago.
    pub fn are_new(&self, now: Instant) -> bool {
        self.last.as_ref().map_or(false, |(since, _)| now < *since + NEW_ENOUGH)
    }

    /// Whether whoever waits since then is answered without.
    pub fn is_late(&self, since: Instant, now: Instant) -> bool {
        now >= since + MOST_WAIT
    }

    /// The last tables that came whole, in the order of the networks.
    pub fn last(&self) -> Option<&[Table]> {
        self.last.as_ref().map(|(_, tables)| &tables[..])
    }

    /// What the line that was taken last said of stations: each row by itself, so that a table of many thousands takes
    /// no long time in one piece.
    pub fn take_row(&mut self) -> Option<Row> {
        self.row.take()
    }

    /// Takes a line of the program, and answers whether it is to be shown to people.
    pub fn take(&mut self, line: &str, now: Instant) -> bool {
        let is_shown = self.askers.front() != Some(&Asker::Status);
        let words: Vec<&str> = line.split(' ').collect();
        let place = self.coming.len().checked_sub(1);
        self.row = None;
        match words[..] {
            ["network", _, "ssid", ssid] if self.coming.len() < self.networks => {
                self.row = Some(Row::Begin { place: self.coming.len() });
                self.coming.push(Table { ssid: ssid.to_owned(), ..Table::default() });
            }
            ["events", ..] => {
                if let Some(table) = self.coming.last_mut() {
                    table.counts = counts_of(&words);
                }
            }
            ["station", address, ..] => {
                let table = self.coming.last_mut().filter(|table| table.stations.len() < MOST_KNOWN);
                if let (Some(table), Ok(address)) = (table, address.parse()) {
                    let (state, kept) = station_of(&words);
                    table.add(address, state, kept);
                    self.row = place.map(|place| Row::Station { place, address, state });
                }
            }
            ["end"] => {
                self.row = place.map(|place| Row::End { place });
                if self.coming.len() >= self.networks {
                    self.last = Some((now, std::mem::take(&mut self.coming)));
                    self.askers.pop_front();
                }
            }
            _ => {}
        }
        is_shown
    }
}

/// Names and numbers in turn.
fn counts_of(words: &[&str]) -> Vec<(String, u64)> {
    let pairs = words.chunks_exact(2);
    pairs.filter_map(|pair| Some((pair[0].to_owned(), pair[1].parse().ok()?))).collect()
}

/// The state of a station's line, and how many units are kept for it.
fn station_of(words: &[&str]) -> (State, u64) {
    let after = |name: &str| words.iter().position(|word| *word == name).and_then(|place| words.get(place + 1));
    let aid = after("aid").and_then(|aid| aid.parse().ok());
    let kept = after("kept").and_then(|kept| kept.parse().ok()).unwrap_or(0);
    (aid.map_or(State::Authenticated, State::Associated), kept)
}

#[cfg(test)]
mod tests {
    use super::*;
    use crate::testing::samples::{at, NANOSECOND, STATION, STRANGER};

    const LINES: [&str; 7] = [
        "network 02:00:00:00:01:01 ssid 6c6162",
        "events 84 clock 46 unread 1 lost 2 kept 3",
        "station 02:aa:00:00:00:01 associated aid 7 listen 5 doze kept 3",
        "station 02:bb:00:00:00:01 authenticated",
        "end",
        "network 02:00:00:00:01:02 ssid 6c",
        "events 0 clock 0 unread 0 lost 0 kept 0",
    ];

    fn take_all(tables: &mut Tables, now: Instant) -> Vec<bool> {
        LINES.iter().chain(&["end"]).map(|line| tables.take(line, now)).collect()
    }

    #[test]
    fn tables_are_read() {
        let mut tables = Tables::new(2);
        assert_eq!(tables.last(), None);
        tables.ask(Asker::Status, Instant::START);
        assert_eq!(take_all(&mut tables, Instant::from_nanos(5)), [false; 8]);
        let found = tables.last().unwrap();
        let counts = [("events", 84), ("clock", 46), ("unread", 1), ("lost", 2), ("kept", 3)];
        assert_eq!(found[0].counts, counts.map(|(name, number)| (name.to_owned(), number)));
        assert_eq!(found[0].ssid, "6c6162");
        assert_eq!(found[0].stations[&STATION], (State::Associated(7), 3));
        assert_eq!(found[0].stations[&STRANGER], (State::Authenticated, 0));
        assert!(found[1].stations.is_empty());
        assert_eq!((found[0].holder, found[1].holder), (Some((3, STATION)), None));
    }

    /// However many stations strangers have a network know, what one line says of them is one row.
    #[test]
    fn each_line_is_a_row_of_its_own() {
        let mut tables = Tables::new(2);
        let rows: Vec<Option<Row>> = LINES
            .iter()
            .chain(&["end"])
            .map(|line| {
                tables.take(line, Instant::START);
                tables.take_row()
            })
            .collect();
        let [first, second] = [0, 1].map(|place| [Some(Row::Begin { place }), None, Some(Row::End { place })]);
        let associated = Row::Station { place: 0, address: STATION, state: State::Associated(7) };
        let authenticated = Row::Station { place: 0, address: STRANGER, state: State::Authenticated };
        let stations = [Some(associated), Some(authenticated)];
        assert_eq!(rows, [&first[..2], &stations, &first[2..], &second].concat());
        assert_eq!(tables.take_row(), None);
    }

    #[test]
    fn only_those_for_people_are_shown() {
        let mut tables = Tables::new(2);
        tables.ask(Asker::People, Instant::START);
        tables.ask(Asker::Status, Instant::START);
        tables.ask(Asker::People, Instant::START);
        assert_eq!(take_all(&mut tables, Instant::START), [true; 8]);
        assert!(!tables.take(LINES[0], Instant::START));
        let shown: Vec<bool> =
            LINES[1..].iter().chain(&["end"]).map(|line| tables.take(line, Instant::START)).collect();
        assert_eq!(shown, [false; 7]);
        assert_eq!(take_all(&mut tables, Instant::START), [true; 8]);
        // At its end the program writes them without being asked.
        assert_eq!(take_all(&mut tables, Instant::START), [true; 8]);
    }

    #[test]
    fn they_are_asked_for_once_a_second() {
        let mut tables = Tables::new(2);
        assert!(tables.are_wanted(at(SECOND)));
        tables.ask(Asker::Status, at(SECOND));
        assert!(!tables.are_wanted(at(SECOND + NANOSECOND)));
        take_all(&mut tables, at(SECOND + Duration::from_nanos(5)));
        let then = at(SECOND + Duration::from_nanos(6));
        assert!(tables.are_new(then) && !tables.are_wanted(then));
        assert!(tables.are_wanted(at(2 * SECOND + Duration::from_nanos(6))));
        assert!(tables.is_late(at(SECOND), at(2 * SECOND)) && !tables.is_late(at(SECOND), at(2 * SECOND - NANOSECOND)));
    }

    /// A program that answers no question is asked no more, and what it writes without end isn't kept.
    #[test]
    fn what_is_kept_is_bounded() {
        let mut tables = Tables::new(1);
        (0..MOST_ASKERS as u64).for_each(|second| tables.ask(Asker::Status, Instant::from_nanos(second)));
        assert!(!tables.may_be_asked() && !tables.are_wanted(at(100 * SECOND)));
        for _ in 0..10 {
            tables.take(LINES[0], Instant::START);
        }
        for number in 0..MOST_KNOWN + 100 {
            let [.., high, low] = (number as u32).to_be_bytes();
            tables.take(&format!("station 02:aa:00:00:{high:02x}:{low:02x} authenticated"), Instant::START);
        }
        tables.take("end", Instant::START);
        let found = tables.last().unwrap();
        assert_eq!((found.len(), found[0].stations.len()), (1, MOST_KNOWN));
        assert!(tables.may_be_asked());
    }
}

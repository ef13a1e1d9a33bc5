//! The status document as a line, of which one is made a second: whoever asks meanwhile gets the same one. It is made
//! in steps, so that frames and beacons don't wait until all of it is there. A step puts a network with its first
//! stations, or some more of these. Each network is as it is in one step; between networks stations may come and go.
use std::vec::IntoIter;

use crate::control::clients::Line;
use crate::control::network_part::Listed;
use crate::control::status::{add_stations, Status, END};
use crate::os::clock::{Duration, Instant, SECOND};

/// For so long a document serves whoever asks.
const SERVES: Duration = SECOND;
/// How many stations are put in a step.
const STATIONS: usize = 250;

/// The document that was made last, and the one that is being made.
#[derive(Debug, Default)]
pub struct StatusLine {
    made: Option<(Instant, Line)>,
    begun: Option<Begun>,
}

/// As much of a document as is there.
#[derive(Debug)]
struct Begun {
    text: String,
    /// The place of the network that is added next.
    next: usize,
    /// The stations of the network before it that are still to be put, if there are such.
    stations: Option<IntoIter<Listed>>,
}

impl Begun {
    fn new(status: &Status<'_>) -> Begun {
        Begun { text: status.begin(), next: 0, stations: None }
    }

    /// Puts the next network and its first stations, or some more of the one before.
    fn step(self, status: &Status<'_>) -> Begun {
        let Begun { mut text, mut next, stations } = self;
        let mut stations = stations.unwrap_or_else(|| {
            next += 1;
            status.add_network(next - 1, &mut text)
        });
        add_stations(stations.by_ref().take(STATIONS), &mut text);
        let stations = (stations.len() > 0).then_some(stations);
        if stations.is_none() {
            text.push_str(END);
        }
        Begun { text, next, stations }
    }

    fn is_whole(&self, status: &Status<'_>) -> bool {
        self.next == status.networks.len() && self.stations.is_none()
    }
}

impl StatusLine {
    /// The last document, if it isn't too old.
    pub fn line(&self, now: Instant) -> Option<Line> {
        let (made, line) = self.made.as_ref()?;
        (now < *made + SERVES).then(|| line.clone())
    }

    /// Whether one is begun that isn't whole.
    pub fn is_being_made(&self) -> bool {
        self.begun.is_some()
    }

    /// Begins a document, or goes on with the one that is begun.
    pub fn step(&mut self, status: &Status<'_>) {
        let begun = match self.begun.take() {
            None => Begun::new(status),
            Some(begun) => begun.step(status),
        };
        if begun.is_whole(status) {
            self.made = Some((status.now, Line::of(begun.text + END)));
        } else {
            self.begun = Some(begun);
        }
    }
}

#[cfg(test)]
#[path = "status_line_test.rs"]
mod tests;

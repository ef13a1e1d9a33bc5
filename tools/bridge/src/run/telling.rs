//! What people are told of the interfaces and of what waits between them and the program: answers to questions, what is
//! said once, and the counts at the end.
use super::running::{Given, Running, Way};
use super::Manner;
use crate::apctl::feeder::Feeder;
use crate::control::clients::Question;
use crate::control::faults::tell;
use crate::control::status::{error, Faults, Named, Status};
use crate::inbound::frame::Source;
use crate::inbound::judging::LeftOut;
use crate::os::clock::Instant;
use crate::os::port::Port;

impl<P: Port> Running<P> {
    /// The answer to a question, or `None` if whoever asks waits; a station is kicked for root alone.
    pub(super) fn answer(&mut self, question: Question, is_root: bool, time: Instant) -> Option<String> {
        match question {
            Question::Status | Question::Events { .. } => None,
            Question::Unknown => {
                Some(error("no such question: there are `status`, `events NUMBER` and `kick BSSID ADDRESS`"))
            }
            Question::Kick { .. } if !is_root => Some(error("only root may kick a station")),
            Question::Kick { bssid, station } => match self.stations.kick(bssid, station, time) {
                Err(fault) => Some(error(&fault)),
                Ok(errands) => {
                    self.run(errands, time);
                    Some("{\"kicked\":true}".to_owned())
                }
            },
        }
    }

    /// What happened to stations waits for whoever follows it.
    pub(super) fn gather_events(&mut self) {
        for (place, time, happened) in self.stations.take_events() {
            self.events.push(place, time, happened);
        }
    }

    /// Takes a line of a table, and answers whether it is to be shown; the stations are those of the tables.
    pub(super) fn take_table_line(&mut self, line: &str, time: Instant) -> bool {
        let is_shown = self.tables.take(line, time);
        self.tables.take_row().into_iter().for_each(|row| self.stations.table.agree(row, time));
        is_shown
    }

    pub(super) fn status<'a>(
        &'a mut self,
        manner: &'a Manner,
        began: Instant,
        faults: &'a Faults,
        feeder: &'a Feeder,
        now: Instant,
    ) -> Status<'a> {
        let (drops, left_out) = (self.drops(), self.left_out_by(|reason| reason != LeftOut::LongForRadio));
        Status {
            phy: &manner.setting.phy,
            channel: manner.setting.channel,
            by: manner.by,
            radio: self.radio.status(),
            began,
            faults,
            record: feeder.record.as_ref(),
            beacons: self.timing.delays(),
            drops,
            left_out,
            networks: &self.networks,
            wires_down: (0..self.networks.len()).map(|place| self.ended.get(&place)?.since).collect(),
            updates: &self.updates,
            accounts: self.outbound.air.accounts(),
            unacknowledged: self.outbound.air.unacknowledged_by_network(),
            table: &self.stations.table,
            tallies: &self.stations.tallies,
            tables: &self.tables,
            now,
        }
    }

    /// What was dropped or lost, by what people call it.
    fn drops(&mut self) -> Named {
        let waiting = self.waiting.dropped();
        let mut found: Named =
            waiting.map(|(source, reason, number)| (format!("{}: {reason}", self.name_of(source)), number)).collect();
        found.extend(self.outbound.counts().into_iter().filter(|(what, _)| !what.starts_with("sent ")));
        found.extend(self.lost_on_wires());
        found.extend(self.left_out_by(|reason| reason == LeftOut::LongForRadio));
        for gate in self.interfaces.gates() {
            let number = gate.port.count_dropped();
            if number > 0 {
                found.insert(format!("{}: dropped by the kernel", gate.port.interface()), number);
            }
        }
        found
    }

    /// What was lost since wires ended, by what people call it.
    fn lost_on_wires(&self) -> Named {
        let lost = self.ended.iter().filter(|(_, ended)| ended.lost > 0);
        lost.map(|(place, ended)| (format!("lost, since {} is down", self.interface(Way::Wire(*place))), ended.lost))
            .collect()
    }

    /// What was left out for such reasons, by what people call it.
    fn left_out_by(&self, is_one: impl Fn(LeftOut) -> bool) -> Named {
        let counts = self.left_out.iter().filter(|((_, reason), _)| is_one(*reason));
        counts.map(|((way, reason), number)| (format!("{}: {reason}", self.interface(*way)), *number)).collect()
    }

    pub(super) fn interface(&self, way: Way) -> &str {
        match way {
            Way::Air => "the air",
            Way::Wire(place) => self.networks[place].wire.as_deref().unwrap_or("a wire"),
        }
    }

    /// What people call the queue of a source.
    fn name_of(&self, source: Source) -> String {
        match source {
            Source::AirForAll => "the air for all".to_owned(),
            Source::Air(place) => format!("the air for {}", self.networks[place].bssid),
            Source::Wire(place) => self.interface(Way::Wire(place)).to_owned(),
        }
    }

    /// Says once that frames come without checksums.
    pub(super) fn tell_of_checksums(&mut self, place: usize) {
        if self.given.without_checksums == 0 {
            tell(format!(
                "{}: frames come without checksums, and stations drop them: on the interface that sends them, `ethtool \
                 -K NAME tx off gso off tso off`",
                self.interface(Way::Wire(place))
            ));
        }
        self.given.without_checksums += 1;
    }

    /// Says once that more comes than goes through.
    pub(super) fn tell_of_drops(&mut self) {
        if !self.has_told_drops && self.waiting.has_dropped() {
            self.has_told_drops = true;
            tell("more comes than goes through: frames are dropped, and counted");
        }
    }

    pub(super) fn tell_counts(&mut self) {
        let Given { air, wires, ticks, tables, handed_back, without_checksums } = self.given;
        let given = [
            ("A", air),
            ("I", tables),
            ("T", ticks),
            ("W", wires),
            ("W, of units that went back", handed_back),
            ("without checksums", without_checksums),
        ];
        for (kind, number) in given.into_iter().filter(|(_, number)| *number > 0) {
            tell(format!("{number} lines given: {kind}"));
        }
        for ((way, reason), number) in &self.left_out {
            tell(format!("{number} frames {reason} left out: {}", self.interface(*way)));
        }
        let mut dropped: Vec<_> = self.waiting.dropped().collect();
        dropped.sort();
        for (source, reason, number) in dropped {
            tell(format!("{number} dropped of {}: {reason}", self.name_of(source)));
        }
        self.waiting.rest().into_iter().for_each(tell);
        for (what, number) in self.outbound.counts().into_iter().chain(self.lost_on_wires()) {
            tell(format!("{number} frames {what}"));
        }
        for gate in self.interfaces.gates() {
            let (number, interface) = (gate.port.count_dropped(), gate.port.interface());
            if number > 0 {
                tell(format!(
                    "{number} frames dropped by the kernel at {interface}: this machine was too slow for them"
                ));
            }
        }
    }
}

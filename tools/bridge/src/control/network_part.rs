//! What the status says of one network, and of its stations.
use serde::ser::{Serialize, SerializeMap, Serializer};

use crate::apctl::tables::Table;
use crate::control::status::{object, Decimal, Named, Status};
use crate::formats::frames::Address;
use crate::network::Network;
use crate::outbound::air::account::Account;
use crate::outbound::air::backlog::MOST_KEPT;
use crate::outbound::air::links::Unacknowledged;
use crate::outbound::air::MOST_OCTETS;
use crate::stations::station::{State, Station, Traffic};
use crate::stations::tally::Tally;

/// How many stations of a network are listed at most.
const MOST_LISTED: usize = 1000;

/// The network of this place, up to its stations, which are added then.
#[derive(Clone, Copy)]
pub(super) struct NetworkPart<'a> {
    pub(super) status: &'a Status<'a>,
    pub(super) place: usize,
}

impl<'a> NetworkPart<'a> {
    fn network(&self) -> &'a Network {
        &self.status.networks[self.place]
    }

    /// What the program said of it last.
    fn table(&self) -> Option<&'a Table> {
        self.status.tables.last().and_then(|tables| tables.get(self.place))
    }

    /// Its stations, as they are now.
    pub(super) fn listed(&self) -> Vec<Listed> {
        let (status, table) = (self.status, self.table());
        let kept = |address: Address| table.and_then(|table| table.stations.get(&address)).map(|(_, kept)| *kept);
        let stations = status.table.stations_of(self.place).take(MOST_LISTED);
        stations.map(|(address, station)| Listed::of(status, (address, station), kept(address))).collect()
    }
}

impl Serialize for NetworkPart<'_> {
    fn serialize<S: Serializer>(&self, to: S) -> Result<S::Ok, S::Error> {
        let (network, table, place) = (self.network(), self.table(), self.place);
        let down_since = self.status.wires_down.get(place).copied().flatten();
        let (stations, holder) = (&self.status.table, table.and_then(|table| table.holder));
        let refusals = stations.refusals[place].iter();
        let Tally { joins, moved_in, moved_out, claims, .. } = self.status.tallies[place];
        object!(to,
            "bssid": network.bssid.to_string(),
            "ssid": table.map(|table| &table.ssid),
            "wire": network.wire,
            "wire_down": down_since.map(|since| self.status.ago(since)),
            "updates": self.status.updates[place],
            "air": AirPart(*self),
            "quota": network.quota,
            "holder": holder.map(|(kept, address)| HolderPart { network: *self, address, kept }),
            "counts": table.map(|table| table.counts.iter().cloned().collect::<Named>()),
            "joins": joins,
            "leaves": LeavesPart(&self.status.tallies[place]),
            "moved_in": moved_in,
            "moved_out": moved_out,
            "claims": claims,
            "refusals": refusals.map(|(status, number)| (status.to_string(), *number)).collect::<Named>(),
            "max_stations": network.max_stations,
            "max_known": network.max_known,
            "known": stations.known(place),
            "associated": stations.associated_of(place).count(),
            "dozing": stations.associated_of(place).filter(|(_, station)| station.dozes).count(),
            "stations": [(); 0],
        )
    }
}

/// How often stations left, by why.
struct LeavesPart<'a>(&'a Tally);

impl Serialize for LeavesPart<'_> {
    fn serialize<S: Serializer>(&self, to: S) -> Result<S::Ok, S::Error> {
        let Tally { said, silent, unassociated, kicked, moved_out, .. } = self.0;
        object!(to,
            "said": said,
            "silent": silent,
            "unassociated": unassociated,
            "kicked": kicked,
            "moved": moved_out,
        )
    }
}

/// The station for which most units of a network's quota are kept.
struct HolderPart<'a> {
    network: NetworkPart<'a>,
    address: Address,
    kept: u64,
}

impl Serialize for HolderPart<'_> {
    fn serialize<S: Serializer>(&self, to: S) -> Result<S::Ok, S::Error> {
        let station = self.network.status.table.station(&(self.network.place, self.address));
        object!(to,
            "address": self.address.to_string(),
            "kept": self.kept,
            "listen": station.map(|station| station.listen),
        )
    }
}

struct AirPart<'a>(NetworkPart<'a>);

impl Serialize for AirPart<'_> {
    fn serialize<S: Serializer>(&self, to: S) -> Result<S::Ok, S::Error> {
        let Account { used, waiting, octets, unsent, handed_back } = &self.0.status.accounts[self.0.place];
        let Unacknowledged { again, lost } = self.0.status.unacknowledged[self.0.place];
        object!(to,
            "weight": self.0.network().weight,
            "seconds": Decimal::seconds(*used),
            "waiting": waiting,
            "waiting_octets": octets,
            "most_waiting_octets": MOST_OCTETS,
            "sent_again": again,
            "unacknowledged": lost,
            "unsent": unsent.iter().map(|(why, number)| (why.to_string(), *number)).collect::<Named>(),
            "most_kept": (self.0.network().quota as usize > MOST_KEPT).then_some(MOST_KEPT),
            "handed_back": handed_back.units,
            "handed_back_out_of_order": handed_back.out_of_order,
        )
    }
}

/// A station, as it is listed.
#[derive(Debug)]
pub struct Listed {
    address: Address,
    state: State,
    listen: u16,
    dozes: bool,
    /// How long ago it came into its state, and was heard.
    since: Decimal,
    heard: Decimal,
    signal: Option<i8>,
    to: Traffic,
    from: Traffic,
    /// How many units the program keeps for it, as far as that is known.
    kept: Option<u64>,
}

impl Listed {
    fn of(status: &Status<'_>, (address, station): (Address, &Station), kept: Option<u64>) -> Listed {
        let Station { state, listen, dozes, signal, to, from, .. } = *station;
        let (since, heard) = (status.ago(station.since), status.ago(station.heard));
        Listed { address, state, listen, dozes, since, heard, signal, to, from, kept }
    }
}

impl Serialize for Listed {
    fn serialize<S: Serializer>(&self, to: S) -> Result<S::Ok, S::Error> {
        let (state, aid) = match self.state {
            State::Authenticated => ("authenticated", None),
            State::Associated(aid) => ("associated", Some(aid)),
        };
        object!(to,
            "address": self.address.to_string(),
            "state": state,
            "aid": aid,
            "listen": aid.map(|_| self.listen),
            "dozes": self.dozes,
            "since": self.since,
            "heard": self.heard,
            "signal": self.signal,
            "rate_to": self.to.rate,
            "rate_from": self.from.rate,
            "octets_to": self.to.octets,
            "octets_from": self.from.octets,
            "frames_to": self.to.frames,
            "frames_from": self.from.frames,
            "kept": self.kept,
        )
    }
}

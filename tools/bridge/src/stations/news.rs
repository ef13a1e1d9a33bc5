//! What happens to stations, and how people are told of it.

use crate::control::log::Level;
use crate::formats::frames::Address;
use crate::os::clock::Duration;

#[derive(Debug, Clone, Copy, PartialEq, Eq)]
pub enum Forgotten {
    /// Nothing was heard of it for so long, and it didn't answer.
    Silent(Duration),
    /// It has been authenticated only for so long, and its network was nearly full.
    Unassociated(Duration),
    /// A person asked for it.
    Kicked,
    /// The wire of its network shows it behind another access point.
    Moved,
}

#[derive(Debug, Clone, Copy, PartialEq, Eq)]
pub enum News {
    /// It joined, with this identifier and this listen interval.
    Joins { aid: u16, listen: u16 },
    /// It left, for this reason.
    Leaves { reason: u16 },
    /// Units wait for it since so many beacons, and it polled none.
    DozesTooLong { beacons: u32, listen: u16 },
    /// Its request was refused with this status: an association, or else an authentication.
    Refused { status: u16, is_association: bool },
    /// It sent what only stations may send that have joined, and was told so, for this reason.
    SentAway { reason: u16 },
    /// It is forgotten.
    Forgotten(Forgotten),
    /// The wire of its network showed it elsewhere again, soon after it was forgotten for that; so it stays.
    Claimed,
}

/// What happened to a station of a network, for people.
pub(super) fn sentence(station: Address, bssid: Address, news: News) -> (Level, String) {
    match news {
        News::Joins { aid, listen } => {
            (Level::Info, format!("{station} joins {bssid}: association identifier {aid}, listen interval {listen}"))
        }
        News::Leaves { reason } => (Level::Info, format!("{station} leaves {bssid}: reason {reason}")),
        News::DozesTooLong { beacons, listen } => (
            Level::Notice,
            format!(
                "{station} of {bssid} dozes too long: units have waited for {beacons} beacons, and its listen interval \
                 is {listen}"
            ),
        ),
        News::Refused { status, is_association } => {
            let what = if is_association { "association" } else { "authentication" };
            (Level::Notice, format!("{station} was refused by {bssid}: {what}, status {status}"))
        }
        News::SentAway { reason } => (Level::Info, format!("{station} was sent away by {bssid}: reason {reason}")),
        News::Forgotten(Forgotten::Silent(keep_alive)) => {
            let seconds = keep_alive.as_secs();
            (Level::Info, format!("{station} was forgotten by {bssid}: silent for {seconds} seconds"))
        }
        News::Forgotten(Forgotten::Unassociated(time)) => {
            let seconds = time.as_secs();
            let text = format!(
                "{station} was forgotten by {bssid}, which is nearly full: authenticated for {seconds} seconds and not \
                 associated"
            );
            (Level::Info, text)
        }
        News::Forgotten(Forgotten::Kicked) => (Level::Info, format!("{station} was forgotten by {bssid}: kicked")),
        News::Forgotten(Forgotten::Moved) => {
            (Level::Info, format!("{station} was forgotten by {bssid}: its wire shows it behind another access point"))
        }
        News::Claimed => {
            let text = format!(
                "{station} stays with {bssid}, though its wire shows it elsewhere twice in ten seconds: two may have this \
                 address"
            );
            (Level::Notice, text)
        }
    }
}

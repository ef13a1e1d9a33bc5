//! By which interfaces the radio acknowledges what comes to its networks; `tools/live` has set them up.
use std::fmt;
use std::str::FromStr;

/// Of which kind they are.
#[derive(Debug, Clone, Copy, PartialEq, Eq)]
pub enum By {
    /// An active monitor for each network.
    ActiveMonitors,
    /// A managed interface for each network.
    Managed,
    /// An access point of the kernel for each network, which sends few beacons of its own.
    AccessPoints,
}

impl fmt::Display for By {
    fn fmt(&self, to: &mut fmt::Formatter<'_>) -> fmt::Result {
        to.write_str(match self {
            By::ActiveMonitors => "active-monitors",
            By::Managed => "managed",
            By::AccessPoints => "access-points",
        })
    }
}

/// A word that names no kind.
#[derive(Debug, Clone, PartialEq, Eq)]
pub struct NotKnown;

impl FromStr for By {
    type Err = NotKnown;

    fn from_str(word: &str) -> Result<By, NotKnown> {
        let all = [By::ActiveMonitors, By::Managed, By::AccessPoints];
        all.into_iter().find(|by| by.to_string() == word).ok_or(NotKnown)
    }
}

//! Why the bridge can't begin or go on, for a person who can act on it.
use crate::os::clock::Duration;
use std::{fmt, io};

use crate::control::log::{self, Level};

/// What has to be changed on this machine, in the configuration or in the words.
#[derive(Debug, Clone, PartialEq, Eq)]
pub enum Fault {
    /// The system refused something: what, if that is known, and why.
    System { what: Option<String>, reason: String },
    /// `tools/live` asked for what isn't known, or handed over too little.
    Request(String),
    /// The program wasn't begun, or ended before its networks were open.
    NotBegun(String),
    /// The program ended by itself while it served.
    ProgramEnded,
    /// The program ended with this status once its input had ended.
    ProgramFailed(i32),
    /// The program answered nothing for so long.
    ProgramSilent(Duration),
    /// The program answered what can't be.
    WrongAnswer(String),
    /// The radio sent no beacon within this time.
    SendsNothing(Duration),
    /// An interface is down or gone.
    InterfaceGone { interface: String, reason: String },
}

impl Fault {
    pub fn of(what: impl fmt::Display, fault: &io::Error) -> Fault {
        Fault::System { what: Some(what.to_string()), reason: reason(fault) }
    }

    /// An interface that gave this fault is down or gone.
    pub fn of_interface(interface: &str, fault: &io::Error) -> Fault {
        Fault::InterfaceGone { interface: interface.to_owned(), reason: reason(fault) }
    }

    /// The number by which `tools/live` knows what to do about it (`FaultCode` of `tools/lib/live/bridge.py`).
    pub fn code(&self) -> u8 {
        match self {
            Fault::System { .. } => 1,
            Fault::Request(_) => 2,
            Fault::NotBegun(_) => 3,
            Fault::ProgramEnded => 4,
            Fault::ProgramFailed(_) => 5,
            Fault::ProgramSilent(_) => 6,
            Fault::WrongAnswer(_) => 7,
            Fault::SendsNothing(_) => 8,
            Fault::InterfaceGone { .. } => 9,
        }
    }
}

impl fmt::Display for Fault {
    fn fmt(&self, to: &mut fmt::Formatter<'_>) -> fmt::Result {
        match self {
            Fault::System { what: Some(what), reason } => write!(to, "{what}: {reason}"),
            Fault::System { what: None, reason } => to.write_str(reason),
            Fault::Request(text) | Fault::NotBegun(text) | Fault::WrongAnswer(text) => to.write_str(text),
            Fault::ProgramEnded => to.write_str("the program ended by itself"),
            Fault::ProgramFailed(status) => write!(to, "the program ended with status {status}"),
            Fault::ProgramSilent(time) => write!(to, "the program answered nothing in {} seconds", time.as_secs()),
            Fault::SendsNothing(time) => write!(
                to,
                "this radio does not send beside its interfaces: no beacon was seen as sent within {} second \
                 (docs/OPERATING.md, 'The radio')",
                time.as_secs()
            ),
            Fault::InterfaceGone { interface, reason } => write!(to, "{interface}: {reason}: was it taken down?"),
        }
    }
}

impl std::error::Error for Fault {}

impl From<io::Error> for Fault {
    fn from(fault: io::Error) -> Fault {
        Fault::System { what: None, reason: reason(&fault) }
    }
}

/// What the system says of a fault, without its number.
pub fn reason(fault: &io::Error) -> String {
    let text = fault.to_string();
    let number = fault.raw_os_error().map(|number| format!(" (os error {number})"));
    number.and_then(|number| text.strip_suffix(&number).map(str::to_owned)).unwrap_or(text)
}

pub fn is_down(fault: &io::Error) -> bool {
    fault.raw_os_error() == Some(libc::ENETDOWN)
}

/// Says something to the person on standard error.
pub fn tell(text: impl fmt::Display) {
    log::write(Level::Notice, text);
}

#[cfg(test)]
mod tests {
    use super::*;

    #[test]
    fn a_fault_of_the_system_is_told_without_its_number() {
        let down = io::Error::from_raw_os_error(libc::ENETDOWN);
        assert_eq!((reason(&down).as_str(), is_down(&down)), ("Network is down", true));
        let other = io::Error::new(io::ErrorKind::Other, "of the bridge (os error)");
        assert_eq!((reason(&other).as_str(), is_down(&other)), ("of the bridge (os error)", false));
    }
}

//! What the air has to know of a frame (IEEE Std 802.11-2016, 9.2.4): whom it is for, and of which kind it is.

use std::fmt;
use std::str::FromStr;

const RECEIVER: std::ops::Range<usize> = 4..10;
const TRANSMITTER: std::ops::Range<usize> = 10..16;
const GROUP: u8 = 1;
const TYPE_AND_SUBTYPE: u8 = 0xfc;
const DISTRIBUTION: u8 = 0x03;
const TO_DISTRIBUTION: u8 = 0x01;
const RETRY: u8 = 0x08;
const POWER_MANAGEMENT: u8 = 0x10;
const MORE_DATA: u8 = 0x20;
const FLAGS_AT: usize = 1;
/// The octets of a PS-Poll that have the association identifier, and which bits of them.
const IDENTIFIER: std::ops::Range<usize> = 2..4;
const IDENTIFIER_BITS: u16 = 0x3fff;

/// The octets of a header of three addresses.
pub const HEADER_LEN: usize = 24;

/// An address of 48 bits.
pub type Address = [u8; 6];

/// The kinds of frame that rules tell apart.
#[derive(Clone, Copy, Debug, PartialEq, Eq, PartialOrd, Ord, Hash)]
pub enum Kind {
    Association,
    Authentication,
    Beacon,
    Data,
    /// Disassociation and deauthentication.
    Leaving,
    Null,
    Probe,
    PsPoll,
    Other,
}

const NAMES: [(Kind, &str); 9] = [
    (Kind::Association, "association"),
    (Kind::Authentication, "authentication"),
    (Kind::Beacon, "beacon"),
    (Kind::Data, "data"),
    (Kind::Leaving, "leaving"),
    (Kind::Null, "null"),
    (Kind::Probe, "probe"),
    (Kind::PsPoll, "ps-poll"),
    (Kind::Other, "other"),
];

impl Kind {
    /// The kind of a frame; requests and responses, and association and reassociation, are one kind.
    pub fn of(frame: &[u8]) -> Kind {
        match frame.first().map(|octet| octet & TYPE_AND_SUBTYPE) {
            Some(0x00 | 0x10 | 0x20 | 0x30) => Kind::Association,
            Some(0x40 | 0x50) => Kind::Probe,
            Some(0xb0) => Kind::Authentication,
            Some(0x80) => Kind::Beacon,
            Some(0x08 | 0x88) => Kind::Data,
            Some(0x48 | 0xc8) => Kind::Null,
            Some(0xa0 | 0xc0) => Kind::Leaving,
            Some(0xa4) => Kind::PsPoll,
            _ => Kind::Other,
        }
    }

    /// Whether it is a frame of type Data, a Null frame among them.
    pub fn is_data(self) -> bool {
        matches!(self, Kind::Data | Kind::Null)
    }
}

impl fmt::Display for Kind {
    fn fmt(&self, out: &mut fmt::Formatter<'_>) -> fmt::Result {
        let name = NAMES.iter().find(|(kind, _)| kind == self).map_or("other", |(_, name)| name);
        out.write_str(name)
    }
}

impl FromStr for Kind {
    type Err = String;

    fn from_str(word: &str) -> Result<Kind, String> {
        let found = NAMES.iter().find(|(_, name)| *name == word);
        found.map(|(kind, _)| *kind).ok_or_else(|| format!("no kind of frame is called {word}"))
    }
}

/// The address that is written as six pairs of digits with `:` between, or None if it isn't.
pub fn read_address(word: &str) -> Option<Address> {
    let is_pair = |pair: &&str| pair.len() == 2 && pair.bytes().all(|digit| digit.is_ascii_hexdigit());
    let read = |pair| Some(pair).filter(is_pair).and_then(|pair| u8::from_str_radix(pair, 16).ok());
    let octets: Vec<u8> = word.split(':').map(read).collect::<Option<_>>()?;
    octets.try_into().ok()
}

/// Whom a frame is for, or None if it is too short to say.
pub fn receiver(frame: &[u8]) -> Option<Address> {
    frame.get(RECEIVER)?.try_into().ok()
}

/// The address of whom a frame is from, or None if it is too short to say.
pub fn transmitter(frame: &[u8]) -> Option<Address> {
    frame.get(TRANSMITTER)?.try_into().ok()
}

/// Whether an address is that of a group.
pub fn is_group(address: Address) -> bool {
    address[0] & GROUP != 0
}

/// Whether a frame of type Data goes from a station to a network.
pub fn is_to_network(frame: &[u8]) -> bool {
    frame.get(FLAGS_AT).map_or(false, |flags| flags & DISTRIBUTION == TO_DISTRIBUTION)
}

/// Whether its sender says that it dozes.
pub fn has_power_management(frame: &[u8]) -> bool {
    frame.get(FLAGS_AT).map_or(false, |flags| flags & POWER_MANAGEMENT != 0)
}

/// Whether its sender says that it keeps more.
pub fn has_more_data(frame: &[u8]) -> bool {
    frame.get(FLAGS_AT).map_or(false, |flags| flags & MORE_DATA != 0)
}

/// The association identifier of a PS-Poll, or None if it is too short to say.
pub fn identifier(poll: &[u8]) -> Option<u16> {
    let octets = poll.get(IDENTIFIER)?.try_into().ok()?;
    Some(u16::from_le_bytes(octets) & IDENTIFIER_BITS)
}

/// The frame as it is sent again.
pub fn again(frame: &[u8]) -> Vec<u8> {
    let mut octets = frame.to_vec();
    if let Some(flags) = octets.get_mut(FLAGS_AT) {
        *flags |= RETRY;
    }
    octets
}

#[cfg(test)]
mod tests {
    use super::*;

    #[test]
    fn kinds_are_told_by_the_first_octet() {
        for (octet, kind) in [
            (0x00, Kind::Association),
            (0x10, Kind::Association),
            (0xb0, Kind::Authentication),
            (0x08, Kind::Data),
            (0x48, Kind::Null),
            (0x80, Kind::Beacon),
            (0xa4, Kind::PsPoll),
            (0x40, Kind::Probe),
            (0x50, Kind::Probe),
            (0xa0, Kind::Leaving),
            (0xc0, Kind::Leaving),
            (0xd0, Kind::Other),
        ] {
            assert_eq!(Kind::of(&[octet]), kind);
        }
        assert_eq!(Kind::of(&[]), Kind::Other);
    }

    #[test]
    fn names_of_kinds_come_back() {
        for (kind, name) in NAMES {
            assert_eq!(name.parse(), Ok(kind));
            assert_eq!(kind.to_string(), name);
        }
        assert!("poll".parse::<Kind>().is_err());
    }

    #[test]
    fn the_first_two_addresses_are_whom_it_is_for_and_whom_it_is_from() {
        let frame: Vec<u8> = (0..16).collect();
        assert_eq!(receiver(&frame), Some([4, 5, 6, 7, 8, 9]));
        assert_eq!(transmitter(&frame), Some([10, 11, 12, 13, 14, 15]));
        assert_eq!(transmitter(&frame[..15]), None);
    }

    #[test]
    fn an_address_is_read() {
        assert_eq!(read_address("02:00:00:0a:FF:10"), Some([2, 0, 0, 10, 255, 16]));
        for word in ["", "02", "02:00:00:00:00", "02:00:00:00:00:00:00", "02:00:00:00:00:0", "02:00:00:00:00:+1"] {
            assert_eq!(read_address(word), None, "{word}");
        }
    }

    #[test]
    fn flags_and_the_identifier_of_a_poll_are_read() {
        assert!(is_to_network(&[0x08, 0x11]) && !is_to_network(&[0x08, 0x02]) && !is_to_network(&[0x08, 0x03]));
        assert!(has_power_management(&[0x48, 0x11]) && !has_power_management(&[0x48, 0x21]));
        assert!(has_more_data(&[0x08, 0x22]) && !has_more_data(&[0x08, 0x12]) && !has_more_data(&[0x08]));
        assert_eq!(identifier(&[0xa4, 0x10, 0x05, 0xc1]), Some(0x105));
        assert_eq!(identifier(&[0xa4, 0x10, 0x05]), None);
    }

    #[test]
    fn only_retry_changes_in_a_frame_that_is_sent_again() {
        assert_eq!(again(&[0x08, 0x01, 7]), [0x08, 0x09, 7]);
        assert_eq!(again(&[0x08]), [0x08]);
    }
}

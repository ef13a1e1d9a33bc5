//! What frames say of the stations of a network: those that a station sends, and those that the program answers
//! (IEEE Std 802.11-2016, 9.3 and 9.4; which frames a network reads is in docs/PROTOCOL.md, 'What is read').
use crate::formats::frames::{Address, Frame, FrameType};

const HEADER_LEN: usize = 24;
const POLL_LEN: usize = 16;
const MOST_BODY: usize = 2304;
const THIRD_ADDRESS_AT: usize = 16;
const BEACON_FIXED_LEN: usize = 12;
const TIM: u8 = 5;

const VERSION: u8 = 0x03;
const BOTH_WAYS: u8 = 0x03;
const TO_NETWORK: u8 = 0x01;
const POWER_MANAGEMENT: u8 = 0x10;
/// More Fragments, Protected Frame and +HTC/Order.
const UNREAD_FLAGS: u8 = 0xc4;
const AID_BITS: u16 = 0x3fff;

/// What a station says to a network by a frame that the network reads.
#[derive(Debug, Clone, Copy, PartialEq, Eq)]
pub enum FromStation {
    /// It asks to be associated, with this listen interval in beacon intervals.
    Association { listen: u16 },
    /// It is associated no more, for this reason.
    Disassociation { reason: u16 },
    /// It leaves, for this reason.
    Deauthentication { reason: u16 },
    /// It sends a unit of data, or a Null frame, and says whether it dozes.
    Data { dozes: bool, is_unit: bool },
    /// It asks for a unit that is kept for it.
    Poll,
}

/// What a frame of a station to the network of this address says, or `None` if it changes nothing of a station.
pub fn from_station(frame: Frame<'_>, bssid: Address) -> Option<FromStation> {
    let octets = frame.octets();
    if frame.is_ps_poll() {
        let is_read = octets.len() >= POLL_LEN && octets[0] & VERSION == 0 && octets[1] & UNREAD_FLAGS == 0;
        return is_read.then_some(FromStation::Poll);
    }
    let body = octets.get(HEADER_LEN..).filter(|body| body.len() <= MOST_BODY && is_read(octets))?;
    let ways = octets[1] & BOTH_WAYS;
    match frame.frame_type() {
        FrameType::Management if ways == 0 && Address::at(octets, THIRD_ADDRESS_AT) == Some(bssid) => {
            let number = |place: usize| Some(u16::from_le_bytes([*body.get(place)?, *body.get(place + 1)?]));
            match octets[0] >> 4 {
                0 | 2 => number(2).map(|listen| FromStation::Association { listen }),
                10 => number(0).map(|reason| FromStation::Disassociation { reason }),
                12 => number(0).map(|reason| FromStation::Deauthentication { reason }),
                _ => None,
            }
        }
        FrameType::Data if ways == TO_NETWORK && matches!(octets[0] >> 4, 0 | 4) => {
            Some(FromStation::Data { dozes: octets[1] & POWER_MANAGEMENT != 0, is_unit: !frame.is_null() })
        }
        _ => None,
    }
}

/// Whether version, flags, fragment number and transmitter are such as a network reads.
fn is_read(octets: &[u8]) -> bool {
    let is_from_one = Address::at(octets, 10).map_or(false, |sender| !sender.is_group());
    octets[0] & VERSION == 0 && octets[1] & UNREAD_FLAGS == 0 && octets[22] & 0x0f == 0 && is_from_one
}

/// What a network says by a frame that the program has it send.
#[derive(Debug, Clone, PartialEq, Eq)]
pub enum FromNetwork {
    /// It answers an authentication with this status.
    Authentication { status: u16 },
    /// It answers an association with this status and identifier.
    Association { status: u16, aid: u16 },
    /// It refuses a frame of a station that would have to join first, for this reason.
    SentAway { reason: u16 },
    /// It begins a beacon interval.
    Beacon(Tim),
    /// It sends a unit of data.
    Unit,
}

/// What a beacon says of units that are kept (9.4.2.6).
#[derive(Debug, Clone, Default, PartialEq, Eq)]
pub struct Tim {
    /// After how many beacons the next comes after which units for the group are sent; 0 for this one.
    pub dtim_count: u8,
    /// Whether units for the group are kept, which follow this beacon.
    pub has_group_units: bool,
    /// The identifiers of the stations for which units are kept.
    pub aids: Vec<u16>,
}

/// What a frame of a network says, or `None` if it says nothing of a station.
pub fn from_network(frame: Frame<'_>) -> Option<FromNetwork> {
    let octets = frame.octets();
    let body = octets.get(HEADER_LEN..)?;
    let number = |place: usize| Some(u16::from_le_bytes([*body.get(place)?, *body.get(place + 1)?]));
    match (frame.frame_type(), octets[0] >> 4) {
        (FrameType::Management, 11) => number(4).map(|status| FromNetwork::Authentication { status }),
        (FrameType::Management, 1 | 3) => {
            number(2).zip(number(4)).map(|(status, aid)| FromNetwork::Association { status, aid: aid & AID_BITS })
        }
        (FrameType::Management, 10 | 12) => number(0).map(|reason| FromNetwork::SentAway { reason }),
        (FrameType::Management, 8) => Some(FromNetwork::Beacon(tim_of(body.get(BEACON_FIXED_LEN..)?))),
        (FrameType::Data, 0) => Some(FromNetwork::Unit),
        _ => None,
    }
}

/// The TIM among the elements of a beacon; without one nothing is kept.
fn tim_of(mut elements: &[u8]) -> Tim {
    while let [kind, length, rest @ ..] = elements {
        let body = match rest.get(..usize::from(*length)) {
            Some(body) => body,
            None => break,
        };
        if *kind == TIM {
            return read_tim(body).unwrap_or_default();
        }
        elements = &rest[body.len()..];
    }
    Tim::default()
}

fn read_tim(body: &[u8]) -> Option<Tim> {
    let (fixed, bitmap) = (body.get(..3)?, &body[3..]);
    let first = 8 * u16::from(fixed[2] & 0xfe);
    let aids = (0..8 * bitmap.len() as u16)
        .filter(|bit| bitmap[usize::from(bit / 8)] >> (bit % 8) & 1 != 0)
        .map(|bit| first + bit)
        .filter(|aid| *aid != 0)
        .collect();
    Some(Tim { dtim_count: fixed[0], has_group_units: fixed[2] & 1 != 0, aids })
}

#[cfg(test)]
mod tests {
    use super::*;
    use crate::testing::samples::{frame_of, OURS, STATION};

    fn frame(control: u8, flags: u8, body: &[u8]) -> Vec<u8> {
        frame_of([control, flags], OURS, STATION, OURS, body)
    }

    fn said_by(octets: &[u8]) -> Option<FromStation> {
        from_station(Frame::of(octets).unwrap(), OURS)
    }

    #[test]
    fn frames_of_a_station_are_read() {
        let numbered = |control, flags, body: &[u8]| said_by(&frame(control, flags, body));
        assert_eq!(numbered(0x00, 0, &[1, 0, 5, 0]), Some(FromStation::Association { listen: 5 }));
        assert_eq!(numbered(0x20, 8, &[1, 0, 0, 1, 0, 0]), Some(FromStation::Association { listen: 256 }));
        assert_eq!(numbered(0xa0, 0, &[8, 0]), Some(FromStation::Disassociation { reason: 8 }));
        assert_eq!(numbered(0xc0, 0, &[3, 0, 7]), Some(FromStation::Deauthentication { reason: 3 }));
        assert_eq!(numbered(0x08, 0x01, &[1]), Some(FromStation::Data { dozes: false, is_unit: true }));
        assert_eq!(numbered(0x48, 0x11, &[]), Some(FromStation::Data { dozes: true, is_unit: false }));
        let poll = [&[0xa4, 0x10, 1, 0xc0][..], OURS.octets(), STATION.octets()].concat();
        assert_eq!(said_by(&poll), Some(FromStation::Poll));
    }

    #[test]
    fn frames_that_no_network_reads_say_nothing() {
        for (control, flags, body) in [
            (0xc1, 0, &[3, 0][..]),
            (0xc0, 0x40, &[3, 0]),
            (0xc0, 0x01, &[3, 0]),
            (0xc0, 0, &[3]),
            (0x08, 0x03, &[1]),
            (0x08, 0x00, &[1]),
            (0x88, 0x01, &[0, 0, 1]),
            (0x08, 0x05, &[1]),
            (0x80, 0, &[0; 40]),
            (0x08, 0x01, &[0; 2305]),
        ] {
            assert_eq!(said_by(&frame(control, flags, body)), None, "{control:x} {flags:x}");
        }
        let mut other = frame(0xc0, 0, &[3, 0]);
        other[16] ^= 2;
        assert_eq!(said_by(&other), None);
        let mut fragment = frame(0x08, 0x01, &[1]);
        fragment[22] = 0x11;
        assert_eq!(said_by(&fragment), None);
        let mut group = frame(0x08, 0x01, &[1]);
        group[10] |= 1;
        assert_eq!(said_by(&group), None);
        assert_eq!(said_by(&[0xa4, 0, 1, 0xc0, 2, 0, 0, 0, 1, 1]), None);
    }

    fn answered_by(control: u8, body: &[u8]) -> Option<FromNetwork> {
        from_network(Frame::of(&frame(control, 0, body)).unwrap())
    }

    #[test]
    fn frames_of_a_network_are_read() {
        assert_eq!(answered_by(0xb0, &[0, 0, 2, 0, 1, 0]), Some(FromNetwork::Authentication { status: 1 }));
        assert_eq!(answered_by(0x10, &[1, 0, 0, 0, 7, 0xc0]), Some(FromNetwork::Association { status: 0, aid: 7 }));
        assert_eq!(answered_by(0x30, &[1, 0, 17, 0, 0, 0]), Some(FromNetwork::Association { status: 17, aid: 0 }));
        assert_eq!(answered_by(0xc0, &[6, 0]), Some(FromNetwork::SentAway { reason: 6 }));
        assert_eq!(answered_by(0xa0, &[7, 0]), Some(FromNetwork::SentAway { reason: 7 }));
        assert_eq!(answered_by(0x08, &[1]), Some(FromNetwork::Unit));
        assert_eq!(answered_by(0x50, &[0; 40]), None);
        assert_eq!(answered_by(0xb0, &[0, 0, 2, 0, 1]), None);
    }

    #[test]
    fn the_tim_of_a_beacon_is_read() {
        let fixed = [0; 12];
        let tim = |rest: &[u8]| match answered_by(0x80, &[&fixed, &[0, 1, b'a'][..], rest].concat()) {
            Some(FromNetwork::Beacon(tim)) => tim,
            other => panic!("{other:?}"),
        };
        let found =
            |dtim_count, has_group_units, aids: &[u16]| Tim { dtim_count, has_group_units, aids: aids.to_vec() };
        assert_eq!(tim(&[5, 4, 1, 3, 0, 0x06]), found(1, false, &[1, 2]));
        assert_eq!(tim(&[5, 5, 0, 3, 3, 0x01, 0x80]), found(0, true, &[16, 31]));
        assert_eq!(tim(&[5, 4, 2, 3, 1, 0x01]), found(2, true, &[]));
        for broken in [&[][..], &[5, 2, 0, 1], &[5, 9, 0, 1, 0, 0], &[7]] {
            assert_eq!(tim(broken), Tim::default(), "{broken:?}");
        }
    }
}

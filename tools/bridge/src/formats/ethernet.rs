//! A unit of the air as a frame of Ethernet (RFC 1042), as docs/PROTOCOL.md, "The wire", says it of the program.
use crate::formats::frames::{Address, Frame};

const HEADER_LEN: usize = 24;
const DESTINATION_AT: usize = 4;
const SOURCE_AT: usize = 16;
/// LLC and SNAP before a type.
const SNAP: [u8; 6] = [0xaa, 0xaa, 3, 0, 0, 0];
const LEAST_TYPE: u16 = 0x0600;
const LEAST_LENGTH: usize = 3;
const MOST_LENGTH: usize = 1500;

/// The wired form of a unit that a network sends to a station: its destination, its source and its body. `None` if
/// it has none.
pub fn wired_form(unit: &[u8]) -> Option<Vec<u8>> {
    Frame::of(unit).filter(Frame::is_unit)?;
    let (destination, source) = (Address::at(unit, DESTINATION_AT)?, Address::at(unit, SOURCE_AT)?);
    let body = unit.get(HEADER_LEN..)?;
    let (field, payload) = match body.strip_prefix(&SNAP) {
        Some([high, low, payload @ ..]) if u16::from_be_bytes([*high, *low]) >= LEAST_TYPE => ([*high, *low], payload),
        _ if (LEAST_LENGTH..=MOST_LENGTH).contains(&body.len()) => ((body.len() as u16).to_be_bytes(), body),
        _ => return None,
    };
    Some([&destination.octets()[..], source.octets(), &field, payload].concat())
}

/// The frame by which a network asks a station whether it is there: the TEST command of LLC (IEEE Std 802.2, 5.4.1.2).
/// It comes from the network's own address.
pub fn test_command(bssid: Address, station: Address) -> Vec<u8> {
    [&station.octets()[..], bssid.octets(), &[0, 3], &TEST_COMMAND].concat()
}

/// To and from the null SAP, with the poll bit.
const TEST_COMMAND: [u8; 3] = [0, 0, 0xf3];

/// The frame by which a wire learns that a station is behind it now: an XID response of LLC (IEEE Std 802.2, 5.4.1.1.2)
/// to all, from the station's address. Linux sends the same for the stations of hostapd.
pub fn update(station: Address) -> Vec<u8> {
    [Address::BROADCAST.octets(), &station.octets()[..], &[0, 6], &XID_RESPONSE].concat()
}

/// Whether a frame is such a one, be it filled up with zeros.
pub fn is_update(frame: &[u8], station: Address) -> bool {
    let (head, tail) = frame.split_at(frame.len().min(UPDATE_LEN));
    head == update(station) && tail.iter().all(|octet| *octet == 0)
}

/// To the null SAP, a response from it: XID, class 1 of LLC, a window of 0.
const XID_RESPONSE: [u8; 6] = [0, 1, 0xaf, 0x81, 1, 0];
const UPDATE_LEN: usize = 20;

#[cfg(test)]
mod tests {
    use super::*;
    use crate::testing::samples::{Unit, OURS, STATION, STRANGER};

    fn unit(body: &[u8]) -> Vec<u8> {
        let (receiver, transmitter, body) = (STATION, OURS, body.to_vec());
        let mut octets = Unit { control: [0x08, 0x02], receiver, transmitter, sequence: 0x70, body }.octets();
        octets[16..22].copy_from_slice(STRANGER.octets());
        octets
    }

    #[test]
    fn a_unit_with_a_type_and_one_with_a_length_have_wired_forms() {
        let to_and_from = [&STATION.octets()[..], STRANGER.octets()].concat();
        for (body, wanted) in [
            (&[0xaa, 0xaa, 3, 0, 0, 0, 8, 0, 7, 7][..], &[8, 0, 7, 7][..]),
            (&[0xaa, 0xaa, 3, 0, 0, 0, 6, 0], &[6, 0]),
            (&[0xaa, 0xaa, 3, 0, 0, 0, 5, 0xff], &[0, 8, 0xaa, 0xaa, 3, 0, 0, 0, 5, 0xff]),
            (&[0xaa, 0xaa, 3, 0, 0, 0, 8], &[0, 7, 0xaa, 0xaa, 3, 0, 0, 0, 8]),
            (&[0x42, 0x42, 3], &[0, 3, 0x42, 0x42, 3]),
        ] {
            assert_eq!(wired_form(&unit(body)), Some([&to_and_from[..], wanted].concat()), "{body:?}");
        }
        let longest = [&[0xaa, 0xaa, 3, 0, 0, 0, 8, 0][..], &[0; 2296]].concat();
        assert_eq!(wired_form(&unit(&longest)).map(|frame| frame.len()), Some(14 + 2296));
        let longest = wired_form(&unit(&[7; 1500]));
        assert_eq!(longest.map(|frame| (frame.len(), frame[12], frame[13])), Some((1514, 5, 0xdc)));
    }

    #[test]
    fn others_have_none() {
        for body in [&[][..], &[1, 2], &[7; 1501], &[0xaa; 2304]] {
            assert_eq!(wired_form(&unit(body)), None, "{}", body.len());
        }
        let mut null = unit(b"body");
        null[0] = 0x48;
        assert_eq!(wired_form(&null), None);
        assert_eq!(wired_form(&unit(b"body")[..23]), None);
    }

    #[test]
    fn an_update_is_a_response_of_llc_and_known_when_it_was_filled_up() {
        let frame = update(STATION);
        assert_eq!(hex::encode(&frame), "ffffffffffff02aa0000000100060001af810100");
        assert_eq!(frame.len(), UPDATE_LEN);
        assert!(is_update(&frame, STATION) && !is_update(&frame, STRANGER));
        let filled_up = [&frame[..], &[0; 40]].concat();
        assert!(is_update(&filled_up, STATION));
        assert!(!is_update(&[&frame[..], &[0, 1]].concat(), STATION));
        for place in 0..UPDATE_LEN {
            let mut other = filled_up.clone();
            other[place] ^= 1;
            assert!(!is_update(&other, STATION), "{place}");
        }
        assert!(!is_update(&frame[..UPDATE_LEN - 1], STATION));
    }

    #[test]
    fn a_question_is_a_command_of_llc() {
        assert_eq!(hex::encode(test_command(OURS, STATION)), "02aa0000000102000000010100030000f3");
    }
}

//! The frames that the bridge makes by itself (IEEE Std 802.11-2016, 9.3): it asks a station whether it is there, tells
//! stations that they have to join again, and tells the program that a station has left, or is there as before.

use crate::formats::frames::Address;
use crate::network::Network;

/// Disassociated or deauthenticated due to inactivity (table 9-45).
pub const INACTIVITY: u16 = 4;
/// Deauthenticated because the sending station is leaving, or has left (table 9-45).
pub(super) const LEAVING: u16 = 3;

const NULL: [u8; 2] = [0x48, 0x02];
const DISASSOCIATION: [u8; 2] = [0xa0, 0];
const DEAUTHENTICATION: [u8; 2] = [0xc0, 0];
const AUTHENTICATION: [u8; 2] = [0xb0, 0];
const ASSOCIATION_REQUEST: [u8; 2] = [0x00, 0];
/// To the network, without and with Power Management.
const AWAKE: [u8; 2] = [0x48, 0x01];
const DOZES: [u8; 2] = [0x48, 0x11];
/// Open System, the first frame of it, status 0 (9.3.3.12).
const OPEN_SYSTEM: [u8; 6] = [0, 0, 1, 0, 0, 0];
/// Capability Information that says ESS, and the shortest listen interval.
const CAPABILITY_AND_LISTEN: [u8; 4] = [1, 0, 1, 0];
const SSID: u8 = 0;
const SUPPORTED_RATES: u8 = 1;
const EXTENDED_RATES: u8 = 50;
const MOST_SUPPORTED: usize = 8;
const SEQUENCE_NUMBERS: u16 = 4096;

/// A frame of the bridge goes with a sequence number that is far from those of the program's frames, so that no
/// receiver takes one for the other sent again (10.3.2.11).
pub(super) fn number_beside(number: u16) -> u16 {
    (number + SEQUENCE_NUMBERS / 2) % SEQUENCE_NUMBERS
}

/// A Null frame of a network to a station (9.3.2.1): who hears it acknowledges it, and does nothing else.
pub fn null(bssid: Address, station: Address, number: u16) -> Vec<u8> {
    header(NULL, station, bssid, bssid, number)
}

/// Whether a frame is a Null frame of a network; the program sends none.
pub fn is_null_of_network(frame: &[u8]) -> bool {
    frame.get(..2).map_or(false, |control| control[0] == NULL[0] && control[1] & NULL[1] != 0)
}

/// A disassociation of a station by its network (9.3.3.5).
pub(super) fn disassociation(bssid: Address, station: Address, reason: u16, number: u16) -> Vec<u8> {
    with_reason(DISASSOCIATION, station, bssid, bssid, reason, number)
}

/// A deauthentication of a station, or of all, by a network (9.3.3.13).
pub fn deauthentication(bssid: Address, receiver: Address, reason: u16, number: u16) -> Vec<u8> {
    with_reason(DEAUTHENTICATION, receiver, bssid, bssid, reason, number)
}

/// The frame by which a station leaves a network: its own deauthentication.
pub fn departure(bssid: Address, station: Address) -> Vec<u8> {
    with_reason(DEAUTHENTICATION, bssid, station, bssid, INACTIVITY, 0)
}

/// The authentication of a station: all that a network accepts say the same.
pub fn authentication(bssid: Address, station: Address) -> Vec<u8> {
    let mut octets = header(AUTHENTICATION, bssid, station, bssid, 0);
    octets.extend(OPEN_SYSTEM);
    octets
}

/// The association request of a made-up station that has all rates of its network (9.3.3.6).
pub fn association_request(network: &Network, station: Address) -> Vec<u8> {
    let mut octets = header(ASSOCIATION_REQUEST, network.bssid, station, network.bssid, 0);
    octets.extend(CAPABILITY_AND_LISTEN);
    let (supported, extended) = network.rates.split_at(network.rates.len().min(MOST_SUPPORTED));
    for (kind, body) in [(SSID, &network.ssid[..]), (SUPPORTED_RATES, supported), (EXTENDED_RATES, extended)] {
        if kind != EXTENDED_RATES || !body.is_empty() {
            octets.extend([kind, body.len() as u8]);
            octets.extend(body);
        }
    }
    octets
}

/// The Null frame by which a station says whether it dozes (11.2.3.2).
pub fn mode_of_station(bssid: Address, station: Address, dozes: bool) -> Vec<u8> {
    header(if dozes { DOZES } else { AWAKE }, bssid, station, bssid, 0)
}

fn with_reason(
    control: [u8; 2],
    receiver: Address,
    sender: Address,
    bssid: Address,
    reason: u16,
    number: u16,
) -> Vec<u8> {
    let mut octets = header(control, receiver, sender, bssid, number);
    octets.extend(reason.to_le_bytes());
    octets
}

/// Frame Control, Duration, which the kernel writes, three addresses and Sequence Control.
fn header(control: [u8; 2], receiver: Address, sender: Address, bssid: Address, number: u16) -> Vec<u8> {
    let mut octets = vec![control[0], control[1], 0, 0];
    for address in [receiver, sender, bssid] {
        octets.extend(address.octets());
    }
    octets.extend((number << 4).to_le_bytes());
    octets
}

#[cfg(test)]
mod tests {
    use super::*;
    use crate::testing::samples::{network, OURS, STATION};

    #[test]
    fn frames_are_those_of_the_standard() {
        let asked = null(OURS, STATION, 0xabc);
        assert_eq!(hex::encode(&asked), "4802000002aa000000010200000001010200000001 01c0ab".replace(' ', ""));
        assert!(is_null_of_network(&asked));
        let gone = disassociation(OURS, STATION, INACTIVITY, 1);
        assert_eq!(hex::encode(gone), "a000000002aa0000000102000000010102000000010110000400");
        let all = deauthentication(OURS, Address::BROADCAST, LEAVING, 4095);
        assert_eq!(hex::encode(all), "c0000000ffffffffffff0200000001010200000001 01f0ff0300".replace(' ', ""));
        let left = departure(OURS, STATION);
        assert_eq!(hex::encode(left), "c000000002000000010102aa0000000102000000010100000400");
    }

    #[test]
    fn a_station_s_frames_are_those_of_the_standard() {
        let asks = authentication(OURS, STATION);
        assert_eq!(hex::encode(asks), "b000000002000000010102aa000000010200000001010000000001000000");
        let ours = Network { rates: (1..=10).collect(), ..network(OURS) };
        let joins = association_request(&ours, STATION);
        let wanted = "0000000002000000010102aa0000000102000000010100000100010000036c61620108010203040506070832020 90a";
        assert_eq!(hex::encode(joins), wanted.replace(' ', ""));
        let few = association_request(&network(OURS), STATION);
        assert_eq!(hex::encode(&few[24..]), "0100010000036c6162010182");
        let dozes = mode_of_station(OURS, STATION, true);
        assert_eq!(hex::encode(dozes), "4811000002000000010102aa000000010200000001010000");
        assert_eq!(mode_of_station(OURS, STATION, false)[..2], [0x48, 0x01]);
    }

    #[test]
    fn a_null_frame_of_a_station_is_none_of_a_network() {
        assert!(!is_null_of_network(&[0x48, 0x01, 0, 0]));
        assert!(!is_null_of_network(&[0x08, 0x02, 0, 0]));
        assert!(!is_null_of_network(&[0x48]));
    }

    #[test]
    fn numbers_are_far_from_those_of_the_program() {
        assert_eq!([0, 1, 2048, 4095].map(number_beside), [2048, 2049, 0, 2047]);
    }
}

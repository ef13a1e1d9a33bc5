//! Octets of the air and of Ethernet as the fields that the bridge looks at (IEEE Std 802.11-2016, 9.2). Nothing else
//! of a frame is read here.
use std::collections::HashMap;
use std::fmt;
use std::hash::{Hash, Hasher};
use std::str::FromStr;

use crate::hashing::Seeds;

/// The fewest octets of a frame on the air: the header of an acknowledgement.
pub const LEAST: usize = 10;
/// The most octets of a frame that the program takes.
pub const MOST: usize = 4096;
/// The subtype and type of a beacon, in the first octet of Frame Control.
pub const BEACON: u8 = 0x80;
/// The same of a probe request.
pub const PROBE_REQUEST: u8 = 0x40;
const HEADER_LEN: usize = 24;
const RECEIVER_AT: usize = 4;
const TRANSMITTER_AT: usize = 10;
const THIRD_ADDRESS_AT: usize = 16;
const RETRY: u8 = 0x08;
const MORE_DATA: u8 = 0x20;
const PS_POLL: u8 = 10;
const NO_DATA: u8 = 0x40;
const TYPE_AT: usize = 12;
const VLAN_TYPES: [[u8; 2]; 3] = [[0x81, 0x00], [0x88, 0xa8], [0x91, 0x00]];

pub type AddressMap<V> = HashMap<Address, V, Seeds>;

#[derive(Debug, Clone, Copy, Eq, PartialOrd, Ord)]
pub struct Address([u8; 6]);

impl PartialEq for Address {
    fn eq(&self, other: &Address) -> bool {
        self.0 == other.0
    }
}

impl Hash for Address {
    fn hash<H: Hasher>(&self, to: &mut H) {
        to.write_u64(self.number());
    }
}

impl Address {
    pub const BROADCAST: Address = Address([0xff; 6]);

    pub const fn of(octets: [u8; 6]) -> Address {
        Address(octets)
    }

    /// The address that stands at this place, or `None` if fewer than six octets follow.
    pub fn at(octets: &[u8], place: usize) -> Option<Address> {
        let six = octets.get(place..place + 6)?;
        six.try_into().ok().map(Address)
    }

    pub fn octets(&self) -> &[u8; 6] {
        &self.0
    }

    /// Its octets as one number of 48 bits.
    pub fn number(&self) -> u64 {
        let [a, b, c, d, e, f] = self.0;
        u64::from_be_bytes([0, 0, a, b, c, d, e, f])
    }

    pub fn is_group(&self) -> bool {
        self.0[0] & 1 != 0
    }
}

impl fmt::Display for Address {
    fn fmt(&self, to: &mut fmt::Formatter<'_>) -> fmt::Result {
        let [a, b, c, d, e, f] = self.0;
        write!(to, "{a:02x}:{b:02x}:{c:02x}:{d:02x}:{e:02x}:{f:02x}")
    }
}

/// A text that is no address.
#[derive(Debug, Clone, PartialEq, Eq)]
pub struct NoAddress;

impl FromStr for Address {
    type Err = NoAddress;

    fn from_str(text: &str) -> Result<Address, NoAddress> {
        let bytes = text.as_bytes();
        let mut octets = [0; 6];
        let is_parted = bytes.len() == 17 && (0..5).all(|place| bytes[3 * place + 2] == b':');
        let is_read = is_parted
            && octets.iter_mut().enumerate().all(|(place, octet)| {
                hex::decode_to_slice(&bytes[3 * place..3 * place + 2], std::slice::from_mut(octet)).is_ok()
            });
        is_read.then_some(Address(octets)).ok_or(NoAddress)
    }
}

#[derive(Debug, Clone, Copy, PartialEq, Eq)]
pub enum FrameType {
    /// Of the link itself.
    Management,
    /// Of the medium: acknowledgements, polls.
    Control,
    /// A unit of data, or a Null frame.
    Data,
    /// One that no network here uses.
    Extension,
}

/// A string of octets that was on the air, of at least ten, without its frame check sequence.
#[derive(Debug, Clone, Copy, PartialEq, Eq)]
pub struct Frame<'a>(&'a [u8]);

impl<'a> Frame<'a> {
    /// The frame, or `None` of fewer octets than any frame has.
    pub fn of(octets: &'a [u8]) -> Option<Frame<'a>> {
        (octets.len() >= LEAST).then_some(Frame(octets))
    }

    pub fn octets(&self) -> &'a [u8] {
        self.0
    }

    pub fn frame_type(&self) -> FrameType {
        match self.0[0] >> 2 & 3 {
            0 => FrameType::Management,
            1 => FrameType::Control,
            2 => FrameType::Data,
            _ => FrameType::Extension,
        }
    }

    pub fn is_ps_poll(&self) -> bool {
        self.frame_type() == FrameType::Control && self.0[0] >> 4 == PS_POLL
    }

    /// Whether it is of data, but has none: a Null frame, with or without the fields of QoS.
    pub fn is_null(&self) -> bool {
        self.frame_type() == FrameType::Data && self.0[0] & NO_DATA != 0
    }

    pub fn is_unit(&self) -> bool {
        self.frame_type() == FrameType::Data && !self.is_null()
    }

    /// Whether its sender has more for its receiver, which dozes.
    pub fn more_data(&self) -> bool {
        self.0[1] & MORE_DATA != 0
    }

    /// Whether it was sent before.
    pub fn retry(&self) -> bool {
        self.0[1] & RETRY != 0
    }

    /// Address 1.
    pub fn receiver(&self) -> Address {
        Address::at(self.0, RECEIVER_AT).unwrap_or(Address::BROADCAST)
    }

    /// Address 2, if there is one.
    pub fn transmitter(&self) -> Option<Address> {
        Address::at(self.0, TRANSMITTER_AT)
    }

    /// Address 3, if there is one: of a management frame the BSSID.
    pub fn third_address(&self) -> Option<Address> {
        Address::at(self.0, THIRD_ADDRESS_AT)
    }

    /// The fragment number and the sequence number, if it has them: in a header of three addresses.
    pub fn sequence_control(&self) -> Option<u16> {
        let is_numbered = matches!(self.frame_type(), FrameType::Management | FrameType::Data);
        (is_numbered && self.0.len() >= HEADER_LEN).then(|| u16::from_le_bytes([self.0[22], self.0[23]]))
    }
}

/// Whether a frame of Ethernet begins with a VLAN's tag.
pub fn is_tagged(octets: &[u8]) -> bool {
    octets.get(TYPE_AT..TYPE_AT + 2).map_or(false, |found| VLAN_TYPES.iter().any(|tag| tag == found))
}

#[cfg(test)]
mod tests {
    use super::*;

    #[test]
    fn an_address_is_read_as_it_is_written() {
        for text in ["02:00:00:00:01:01", "ff:ff:ff:ff:ff:ff", "0a:1b:2c:3d:4e:5f"] {
            assert_eq!(text.parse::<Address>().unwrap().to_string(), text);
        }
        assert_eq!("0A:1B:2C:3D:4E:5F".parse::<Address>().unwrap().to_string(), "0a:1b:2c:3d:4e:5f");
        for text in
            ["", "02:00:00:00:01", "02:00:00:00:01:01:", "02-00-00-00-01-01", "02:00:00:00:01:0g", "+2:00:00:00:01:01"]
        {
            assert!(text.parse::<Address>().is_err(), "{text}");
        }
    }

    #[test]
    fn a_group_s_address_has_its_first_bit_set() {
        assert!(Address::BROADCAST.is_group());
        assert!(Address::of([1, 0, 0x5e, 0, 0, 1]).is_group());
        assert!(!Address::of([2, 0, 0, 0, 1, 1]).is_group());
    }

    #[test]
    fn a_short_frame_has_fewer_fields() {
        assert_eq!(Frame::of(&[0; 9]), None);
        let acknowledgement = [0xd4, 0, 0, 0, 2, 0, 0, 0, 1, 1];
        let frame = Frame::of(&acknowledgement).unwrap();
        assert_eq!(frame.frame_type(), FrameType::Control);
        assert_eq!(frame.transmitter(), None);
        assert_eq!(frame.sequence_control(), None);
        let mut unit = [0; 24];
        unit[0] = 0x08;
        unit[22] = 0x10;
        assert_eq!(Frame::of(&unit).unwrap().sequence_control(), Some(0x10));
        assert_eq!(Frame::of(&unit[..23]).unwrap().sequence_control(), None);
    }

    #[test]
    fn tags_of_vlans_are_known() {
        let mut octets = [0; 18];
        assert!(!is_tagged(&octets));
        for tag in VLAN_TYPES {
            octets[12..14].copy_from_slice(&tag);
            assert!(is_tagged(&octets));
            assert!(!is_tagged(&octets[..13]));
        }
    }
}

//! The element of a beacon that says for whom the network keeps something, the TIM (IEEE Std 802.11-2016, 9.4.2.6).

use crate::frame::HEADER_LEN;

/// Timestamp, interval and capabilities, which stand before a beacon's elements.
const BEACON_FIXED_LEN: usize = 12;
const ELEMENT: u8 = 5;
const GROUP: u8 = 0x01;
/// The rest of the bitmap control is the number of the first octet of the bitmap that isn't left out, which is even.
const OFFSET: u8 = 0xfe;

/// The association identifier of a station.
#[derive(Clone, Copy, Debug, PartialEq, Eq)]
pub struct Aid(pub u16);

/// What a beacon's TIM says.
#[derive(Clone, Copy, Debug, PartialEq, Eq)]
pub struct Tim<'a> {
    dtim_count: u8,
    control: u8,
    bitmap: &'a [u8],
}

impl<'a> Tim<'a> {
    /// That of a beacon, or None if it has none that can be read.
    pub fn of_beacon(beacon: &'a [u8]) -> Option<Tim<'a>> {
        let mut rest = beacon.get(HEADER_LEN + BEACON_FIXED_LEN..)?;
        loop {
            let (id, length) = (*rest.first()?, usize::from(*rest.get(1)?));
            let body = rest.get(2..2 + length)?;
            match *body {
                [dtim_count, _, control, ref bitmap @ ..] if id == ELEMENT => {
                    return Some(Tim { dtim_count, control, bitmap });
                }
                _ => rest = &rest[2 + length..],
            }
        }
    }

    /// Whether units for groups follow this beacon.
    pub fn is_followed_by_groups(&self) -> bool {
        self.dtim_count == 0 && self.control & GROUP != 0
    }

    /// Whether something is kept for a station.
    pub fn has(&self, aid: Aid) -> bool {
        let place = usize::from(aid.0 / 8).checked_sub(usize::from(self.control & OFFSET));
        place.and_then(|place| self.bitmap.get(place)).map_or(false, |octet| octet >> (aid.0 % 8) & 1 == 1)
    }
}

#[cfg(test)]
mod tests {
    use super::*;

    fn beacon(elements: &[u8]) -> Vec<u8> {
        [&[0; HEADER_LEN + BEACON_FIXED_LEN][..], elements].concat()
    }

    #[test]
    fn a_station_is_found_by_its_bit_behind_the_octets_that_are_left_out() {
        let octets = beacon(&[0, 2, b'a', b'b', 5, 5, 0, 1, 2, 0x02, 0x80]);
        let tim = Tim::of_beacon(&octets).unwrap();
        let found: Vec<u16> = (0..2008).filter(|aid| tim.has(Aid(*aid))).collect();
        assert_eq!(found, [17, 31]);
        assert!(!tim.is_followed_by_groups());
    }

    #[test]
    fn groups_follow_a_dtim_beacon_with_the_bit() {
        for (count, control, follow) in [(0, 1, true), (0, 0, false), (1, 1, false), (0, 3, true), (0, 2, false)] {
            let octets = beacon(&[5, 4, count, 3, control, 0]);
            assert_eq!(Tim::of_beacon(&octets).unwrap().is_followed_by_groups(), follow, "{count} {control}");
        }
    }

    #[test]
    fn a_beacon_without_an_element_that_can_be_read_says_nothing() {
        for elements in [&[][..], &[5], &[5, 4, 0, 1], &[5, 2, 0, 1], &[0, 0]] {
            assert_eq!(Tim::of_beacon(&beacon(elements)), None, "{elements:?}");
        }
        assert_eq!(Tim::of_beacon(&[0x80; 30]), None);
    }
}

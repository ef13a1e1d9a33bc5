//! What a restart needs of the request by which a station joined: by it the next program comes to know the station, and
//! the bridge its rates. A request may have 2,304 octets behind its header, of which a stranger chooses nearly all.

const HEADER_LEN: usize = 24;
const SSID: u8 = 0;
const SUPPORTED_RATES: u8 = 1;
const EXTENDED_RATES: u8 = 50;
/// By this bit a station says that a rate is a basic one, which no network looks at.
const IS_BASIC: u8 = 0x80;

/// A request with its first SSID and each of its rates once, in one element, and without all other elements. A network
/// answers it as it does the whole one, since of several elements of one kind it reads the first (*profile*). What is no
/// whole request stays as it is.
pub(super) fn essentials(request: &[u8]) -> Vec<u8> {
    shortened(request).unwrap_or_else(|| request.to_vec())
}

fn shortened(request: &[u8]) -> Option<Vec<u8>> {
    // Capability, listen interval, and where the station comes from (9.3.3.6, 9.3.3.8).
    let fixed = match request.first()? {
        0x00 => 4,
        0x20 => 10,
        _ => return None,
    };
    let (head, mut rest) = (request.get(..HEADER_LEN + fixed)?, request.get(HEADER_LEN + fixed..)?);
    let (mut ssid, mut supported, mut extended) = (None, None, None);
    while let [kind, tail @ ..] = rest {
        let (length, tail) = tail.split_first()?;
        let body = tail.get(..usize::from(*length))?;
        rest = &tail[body.len()..];
        let first = match *kind {
            SSID => &mut ssid,
            SUPPORTED_RATES => &mut supported,
            EXTENDED_RATES => &mut extended,
            _ => continue,
        };
        first.get_or_insert(body);
    }
    let mut short = head.to_vec();
    let mut push = |kind, body: &[u8]| {
        short.extend([kind, body.len() as u8]);
        short.extend_from_slice(body);
    };
    ssid.into_iter().for_each(|ssid| push(SSID, ssid));
    if supported.or(extended).is_some() {
        push(SUPPORTED_RATES, &distinct([supported, extended].into_iter().flatten().flatten()));
    }
    Some(short)
}

/// Each rate once, in the order in which they come first.
fn distinct<'a>(rates: impl Iterator<Item = &'a u8>) -> Vec<u8> {
    let mut found: Vec<u8> = Vec::new();
    for rate in rates {
        if found.iter().all(|known| (known ^ rate) & !IS_BASIC != 0) {
            found.push(*rate);
        }
    }
    found
}

#[cfg(test)]
mod tests {
    use super::*;
    use crate::testing::samples::{Unit, OURS, STATION};

    fn request(control: u8, body: &[u8]) -> Vec<u8> {
        Unit { control: [control, 0], receiver: OURS, transmitter: STATION, body: body.to_vec(), ..Unit::default() }
            .octets()
    }

    #[test]
    fn the_network_s_name_and_the_rates_stay_and_all_else_goes() {
        let elements = [&[0, 3][..], b"lab", &[1, 3, 0x82, 0x84, 11], &[45, 2, 1, 2], &[50, 2, 12, 0x98]].concat();
        let short = [&[0, 3][..], b"lab", &[1, 5, 0x82, 0x84, 11, 12, 0x98]].concat();
        for (control, fixed) in [(0x00, &[1, 0, 5, 0][..]), (0x20, &[1, 0, 5, 0, 2, 0xaa, 0, 0, 0, 9])] {
            let whole = request(control, &[fixed, &elements].concat());
            assert_eq!(essentials(&whole), request(control, &[fixed, &short].concat()));
            assert_eq!(essentials(&essentials(&whole)), essentials(&whole));
        }
    }

    #[test]
    fn the_longest_request_is_short() {
        let padding: Vec<u8> = [1, 50, 221].iter().cycle().take(8).flat_map(|kind| pad(*kind)).collect();
        let whole = request(0x00, &[&[1, 0, 5, 0, 0, 32][..], &[b'x'; 32], &padding].concat());
        assert!(whole.len() > 2_000);
        assert_eq!(essentials(&whole).len(), HEADER_LEN + 4 + 34 + 2 + 128);
    }

    /// An element of this kind, as long as one can be, with each octet that there is.
    fn pad(kind: u8) -> Vec<u8> {
        [kind, 255].into_iter().chain(0..=254).collect()
    }

    #[test]
    fn of_several_elements_the_first_stays_and_of_none_nothing_is_made() {
        let twice = request(0x00, &[1, 0, 5, 0, 0, 1, b'a', 0, 1, b'b', 50, 1, 12, 50, 1, 24]);
        assert_eq!(essentials(&twice), request(0x00, &[1, 0, 5, 0, 0, 1, b'a', 1, 1, 12]));
        let bare = request(0x00, &[1, 0, 5, 0]);
        assert_eq!(essentials(&bare), bare);
    }

    #[test]
    fn what_is_no_whole_request_stays_as_it_is() {
        for body in [&[1, 0, 5][..], &[1, 0, 5, 0, 0], &[1, 0, 5, 0, 0, 2, b'a']] {
            assert_eq!(essentials(&request(0x00, body)), request(0x00, body));
        }
        let other = request(0x40, &[0, 1, b'a', 221, 0]);
        assert_eq!(essentials(&other), other);
    }
}

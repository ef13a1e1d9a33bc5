//! Headers of radiotap (radiotap.org): what a monitor interface says of a frame, and what is said of one to be sent.

const START_LEN: usize = 8;
const PRESENT_AT: usize = 4;
const PRESENT_LEN: usize = 4;
const FLAGS: usize = 1;
const RATE: usize = 2;
const CHANNEL: usize = 3;
const SIGNAL: usize = 5;
const RX_FLAGS: usize = 14;
/// The bit of the field that only a frame has that was sent here.
const TX_FLAGS: usize = 15;
const DATA_RETRIES: usize = 17;
const MORE_PRESENT: u32 = 1 << 31;
/// Of the fields up to the retries, in the order of their bits: their lengths and their alignments.
const LENGTHS: [usize; 18] = [8, 1, 1, 4, 2, 1, 1, 2, 2, 2, 1, 1, 1, 1, 2, 2, 1, 1];
const ALIGNMENTS: [usize; LENGTHS.len()] = [8, 1, 1, 2, 1, 1, 1, 2, 2, 2, 1, 1, 1, 1, 2, 2, 1, 1];
const HAS_FCS: u8 = 0x10;
const BAD_FCS: u8 = 0x40;
const BAD_PLCP: u16 = 0x0002;
const FAILED: u16 = 0x0001;
const KEEP_SEQUENCE_NUMBER: u16 = 0x0010;
const FCS_LEN: usize = 4;
/// How often the radio tries a frame to one station again at most, beyond the first time, if no acknowledgement
/// comes; fewer if so many tries would take too long on the air (`air`).
pub const MOST_RETRIES: u8 = 10;
/// The length of the header of a frame to be sent: the frame behind it begins at a multiple of four octets.
pub const SENDING_LEN: usize = 16;

/// What became of a frame that this radio sent.
#[derive(Debug, Clone, Copy, PartialEq, Eq)]
pub struct Outcome {
    /// Whether it was acknowledged, if it is one that is.
    pub is_acknowledged: bool,
    /// How often it was sent again.
    pub retries: u8,
    /// The rate of the last time, in units of 500 kb/s, if the radio says it.
    pub rate: Option<u8>,
}

/// A frame as a monitor interface shows it, without its frame check sequence.
#[derive(Debug, Clone, Copy, PartialEq, Eq)]
pub struct Captured<'a> {
    pub frame: &'a [u8],
    /// Whether its check sequence or its physical header was wrong.
    pub is_damaged: bool,
    /// What became of it, if this radio sent it.
    pub outcome: Option<Outcome>,
    pub reception: Reception,
}

/// What a packet of a monitor interface is, or `None` if it has no header of radiotap.
pub fn captured(packet: &[u8]) -> Option<Captured<'_>> {
    let length = usize::from(u16::from_le_bytes([*packet.get(2)?, *packet.get(3)?]));
    if packet[0] != 0 || length < START_LEN || length > packet.len() {
        return None;
    }
    let (header, frame) = packet.split_at(length);
    let fields = Fields::of(header);
    let flags = fields.octet(FLAGS).unwrap_or(0);
    let is_damaged = flags & BAD_FCS != 0 || fields.number(RX_FLAGS).map_or(false, |found| found & BAD_PLCP != 0);
    let frame = if flags & HAS_FCS != 0 { &frame[..frame.len().saturating_sub(FCS_LEN)] } else { frame };
    let outcome = fields.number(TX_FLAGS).map(|found| Outcome {
        is_acknowledged: found & FAILED == 0,
        retries: fields.octet(DATA_RETRIES).unwrap_or(0),
        rate: fields.octet(RATE),
    });
    let reception = Reception {
        signal: fields.octet(SIGNAL).map(|octet| octet as i8),
        rate: fields.octet(RATE),
        frequency: fields.number(CHANNEL),
    };
    Some(Captured { frame, is_damaged, outcome, reception })
}

/// How a frame was heard.
#[derive(Debug, Clone, Copy, Default, PartialEq, Eq)]
pub struct Reception {
    /// With which signal, in dBm.
    pub signal: Option<i8>,
    /// At which rate, in units of 500 kb/s.
    pub rate: Option<u8>,
    /// On which frequency, in MHz.
    pub frequency: Option<u16>,
}

/// Where the fields of a header stand: one that isn't there at `NOWHERE`, since each stands behind the start.
struct Fields<'a> {
    header: &'a [u8],
    places: [u16; LENGTHS.len()],
}

const NOWHERE: u16 = 0;

impl<'a> Fields<'a> {
    /// The fields that the first word names; those that don't fit the header are left out.
    fn of(header: &'a [u8]) -> Fields<'a> {
        let first = word(header, PRESENT_AT).unwrap_or(0);
        let mut place = PRESENT_AT + PRESENT_LEN;
        let mut present = first;
        while present & MORE_PRESENT != 0 {
            match word(header, place) {
                Some(next) => present = next,
                None => break,
            }
            place += PRESENT_LEN;
        }
        let mut places = [NOWHERE; LENGTHS.len()];
        let mut rest = first & ((1 << LENGTHS.len()) - 1);
        while rest != 0 {
            let number = rest.trailing_zeros() as usize;
            let (length, alignment) = (LENGTHS[number], ALIGNMENTS[number]);
            // Alignments are powers of two.
            place = (place + alignment - 1) & !(alignment - 1);
            if place + length <= header.len() {
                // A header has fewer than 65,536 octets.
                places[number] = place as u16;
            }
            place += length;
            rest &= rest - 1;
        }
        Fields { header, places }
    }

    fn place(&self, number: usize) -> Option<usize> {
        Some(self.places[number]).filter(|place| *place != NOWHERE).map(usize::from)
    }

    fn octet(&self, number: usize) -> Option<u8> {
        self.place(number).map(|place| self.header[place])
    }

    fn number(&self, number: usize) -> Option<u16> {
        self.place(number).map(|place| u16::from_le_bytes([self.header[place], self.header[place + 1]]))
    }
}

fn word(header: &[u8], place: usize) -> Option<u32> {
    let four = header.get(place..place + PRESENT_LEN)?;
    four.try_into().ok().map(u32::from_le_bytes)
}

/// The header of a frame to be sent at this rate, in units of 500 kb/s, with the sequence number that it has; if no
/// acknowledgement comes it is tried again so many times. Without that field Linux tries a frame once.
pub fn sending_header(rate: u8, retries: u8) -> [u8; SENDING_LEN] {
    let present = 1u32 << RATE | 1 << TX_FLAGS | 1 << DATA_RETRIES;
    let mut header = [0; SENDING_LEN];
    header[2] = SENDING_LEN as u8;
    header[4..8].copy_from_slice(&present.to_le_bytes());
    header[8] = rate;
    header[10..12].copy_from_slice(&KEEP_SEQUENCE_NUMBER.to_le_bytes());
    header[12] = retries;
    header
}

#[cfg(test)]
mod tests {
    use super::*;
    use crate::testing::samples::{data, radiotap};

    #[test]
    fn a_frame_is_what_follows_the_header() {
        let packet = radiotap(&data(), 1 << 1, &[0]);
        let (outcome, reception) = (None, Reception::default());
        assert_eq!(captured(&packet), Some(Captured { frame: &data(), is_damaged: false, outcome, reception }));
    }

    #[test]
    fn the_check_sequence_is_taken_off_where_the_flags_say_so() {
        let longer = [data(), vec![1, 2, 3, 4]].concat();
        assert_eq!(captured(&radiotap(&longer, 1 << 1, &[HAS_FCS])).unwrap().frame, data());
        assert_eq!(captured(&radiotap(&longer, 1 << 1, &[0])).unwrap().frame, longer);
        assert!(captured(&radiotap(&[1, 2], 1 << 1, &[HAS_FCS])).unwrap().frame.is_empty());
    }

    #[test]
    fn a_damaged_frame_is_told_by_its_flags() {
        assert!(captured(&radiotap(&data(), 1 << 1, &[BAD_FCS])).unwrap().is_damaged);
        assert!(captured(&radiotap(&data(), 1 << 1 | 1 << 14, &[0, 0, 2, 0])).unwrap().is_damaged);
    }

    #[test]
    fn fields_are_aligned_behind_all_words_that_name_fields() {
        let header = [0u8, 0, 28, 0]
            .into_iter()
            .chain((MORE_PRESENT | 1 | 1 << FLAGS | 1 << TX_FLAGS).to_le_bytes())
            .chain([0; 4])
            .chain([0; 4])
            .chain([0xff; 8])
            .chain([HAS_FCS, 0, 1, 0]);
        let packet: Vec<u8> = header.chain(data()).chain([0; 4]).collect();
        let found = captured(&packet).unwrap();
        assert_eq!(found.frame, data());
        assert_eq!(found.outcome, Some(Outcome { is_acknowledged: false, retries: 0, rate: None }));
    }

    #[test]
    fn without_a_header_it_is_none() {
        let other_version = [vec![1], radiotap(&data(), 0, &[])[1..].to_vec()].concat();
        for packet in [vec![], vec![0; 7], other_version, vec![0, 0, 99, 0, 0, 0, 0, 0], vec![0, 0, 4, 0, 0, 0, 0, 0]] {
            assert_eq!(captured(&packet), None, "{packet:?}");
        }
    }

    #[test]
    fn how_a_frame_was_heard_is_told() {
        let reception = |packet: &[u8]| captured(packet).map(|found| found.reception);
        let heard = radiotap(&data(), 1 << 2 | 1 << 3 | 1 << 5, &[22, 0, 0x85, 9, 0xa0, 0, 0xe2]);
        assert_eq!(reception(&heard), Some(Reception { signal: Some(-30), rate: Some(22), frequency: Some(2437) }));
        for packet in [&radiotap(&data(), 1 << 1, &[0])[..], &[0, 0, 8, 0, 0x24, 0, 0, 0]] {
            assert_eq!(reception(packet), Some(Reception::default()), "{packet:?}");
        }
    }

    #[test]
    fn fields_that_do_not_fit_are_not_read() {
        assert_eq!(captured(&radiotap(&data(), 0xffff, &[0, 0])).unwrap().frame, data());
    }

    #[test]
    fn a_frame_to_one_is_tried_again_and_reads_as_sent() {
        let header = sending_header(2, MOST_RETRIES);
        assert_eq!(hex::encode(header), "0000100004800200020010000a000000");
        assert_eq!(hex::encode(sending_header(22, 0)), "00001000048002001600100000000000");
        let packet = [header.to_vec(), data()].concat();
        let found = captured(&packet).unwrap();
        assert_eq!(found.outcome, Some(Outcome { is_acknowledged: true, retries: 10, rate: Some(2) }));
    }
}

//! What `mac80211_hwsim` says by generic netlink and what is said to it (Linux 6.1, `drivers/net/wireless/
//! mac80211_hwsim.h`): the commands and attributes of the family MAC80211_HWSIM, as types.

use crate::frame::Address;
use crate::netlink::{Attributes, Heard, Message};
use crate::rate::Rate;
use crate::rules::Radio;

/// The family's name.
pub const FAMILY: &str = "MAC80211_HWSIM";

mod command {
    pub const REGISTER: u8 = 1;
    pub const FRAME: u8 = 2;
    pub const TX_INFO: u8 = 3;
    pub const ADD_ADDRESS: u8 = 7;
    pub const DEL_ADDRESS: u8 = 8;
}

mod attribute {
    pub const RECEIVER: u16 = 1;
    pub const TRANSMITTER: u16 = 2;
    pub const FRAME: u16 = 3;
    pub const FLAGS: u16 = 4;
    pub const RX_RATE: u16 = 5;
    pub const SIGNAL: u16 = 6;
    pub const TX_INFO: u16 = 7;
    pub const COOKIE: u16 = 8;
    pub const FREQUENCY: u16 = 19;
}

const NO_ACKNOWLEDGEMENT: u32 = 1 << 1;
const WAS_ACKNOWLEDGED: u32 = 1 << 2;
/// The most rates that a frame is tried at.
const MOST_RATES: usize = 4;
const UNUSED: i8 = -1;
/// The kernel takes no frame of fewer octets (`hwsim_cloned_frame_received_nl`). A PS-Poll has 16, and nothing reads
/// what stands behind them.
const LEAST_LEN: usize = 24;
/// What every receiver is told, in dBm.
const SIGNAL: i32 = -50;

/// Tries at one rate: as many as are wanted, or as many as there were.
#[derive(Clone, Copy, Debug, PartialEq, Eq)]
pub struct Attempt {
    pub rate: Rate,
    pub count: u8,
}

/// A frame that a radio sends.
#[derive(Clone, Debug, PartialEq, Eq)]
pub struct Sent {
    pub from: Radio,
    pub frame: Vec<u8>,
    pub attempts: Vec<Attempt>,
    pub frequency: u32,
    pub cookie: u64,
    pub flags: u32,
}

impl Sent {
    /// Whether the sender waits for no acknowledgement of this frame.
    pub fn wants_no_acknowledgement(&self) -> bool {
        self.flags & NO_ACKNOWLEDGEMENT != 0
    }
}

/// What the kernel says.
#[derive(Debug, PartialEq, Eq)]
pub enum Said {
    Sent(Sent),
    /// From now on this radio acknowledges what comes to the address.
    Has(Radio, Address),
    HasNoMore(Radio, Address),
    /// Something that was said to it was refused, with this number of an error.
    Refused(i32),
}

/// The address by which the simulation names a radio.
fn address_of(radio: Radio) -> Address {
    let [high, low] = radio.0.to_be_bytes();
    [0x42, 0, 0, high, low, 0]
}

fn radio_of(address: Address) -> Option<Radio> {
    let radio = Radio(u16::from_be_bytes([address[3], address[4]]));
    (address_of(radio) == address).then_some(radio)
}

/// What a message says, or None if it is of no use here.
pub fn read(message: &Heard<'_>) -> Option<Said> {
    match *message {
        Heard::Answer(0) => None,
        Heard::Answer(number) => Some(Said::Refused(-number)),
        Heard::Generic { command, attributes } => {
            let from = radio_of(attributes.array(attribute::TRANSMITTER)?)?;
            match command {
                command::FRAME => read_frame(from, attributes).map(Said::Sent),
                command::ADD_ADDRESS => Some(Said::Has(from, attributes.array(attribute::RECEIVER)?)),
                command::DEL_ADDRESS => Some(Said::HasNoMore(from, attributes.array(attribute::RECEIVER)?)),
                _ => None,
            }
        }
    }
}

fn read_frame(from: Radio, attributes: Attributes<'_>) -> Option<Sent> {
    Some(Sent {
        from,
        frame: attributes.get(attribute::FRAME)?.to_vec(),
        attempts: read_attempts(attributes.get(attribute::TX_INFO)?),
        frequency: u32::from_ne_bytes(attributes.array(attribute::FREQUENCY)?),
        cookie: u64::from_ne_bytes(attributes.array(attribute::COOKIE)?),
        flags: u32::from_ne_bytes(attributes.array(attribute::FLAGS)?),
    })
}

/// The rates that a frame is to be tried at, each with its number of tries; the slowest once if none is said.
fn read_attempts(octets: &[u8]) -> Vec<Attempt> {
    let said = octets.chunks_exact(2).map(|pair| (pair[0] as i8, pair[1]));
    let used = said.take_while(|(number, _)| *number >= 0).filter(|(_, count)| *count > 0);
    let found: Vec<Attempt> =
        used.filter_map(|(number, count)| Rate::numbered(number).map(|rate| Attempt { rate, count })).collect();
    if found.is_empty() {
        return vec![Attempt { rate: Rate::slowest(), count: 1 }];
    }
    found
}

/// From now on this program carries the frames.
pub fn register(family: u16) -> Message {
    Message::new(family, command::REGISTER)
}

/// A radio hears a frame; zeros follow one that is too short for the kernel.
pub fn delivery(family: u16, to: Radio, frame: &[u8], rate: Rate, frequency: u32) -> Message {
    let missing = LEAST_LEN.saturating_sub(frame.len());
    let octets = [frame, &[0; LEAST_LEN][..missing]].concat();
    Message::new(family, command::FRAME)
        .with(attribute::RECEIVER, &address_of(to))
        .with(attribute::FRAME, &octets)
        .with(attribute::RX_RATE, &u32::from(rate.number()).to_ne_bytes())
        .with(attribute::SIGNAL, &SIGNAL.to_ne_bytes())
        .with(attribute::FREQUENCY, &frequency.to_ne_bytes())
}

/// How a frame was sent, and whether it was acknowledged.
pub fn report(family: u16, sent: &Sent, tried: &[Attempt], acknowledged: bool) -> Message {
    let mut info = [[UNUSED as u8, 0]; MOST_RATES];
    for (place, attempt) in info.iter_mut().zip(tried) {
        *place = [attempt.rate.number(), attempt.count];
    }
    let flags = sent.flags | if acknowledged { WAS_ACKNOWLEDGED } else { 0 };
    Message::new(family, command::TX_INFO)
        .with(attribute::TRANSMITTER, &address_of(sent.from))
        .with(attribute::FLAGS, &flags.to_ne_bytes())
        .with(attribute::SIGNAL, &SIGNAL.to_ne_bytes())
        .with(attribute::TX_INFO, &info.concat())
        .with(attribute::COOKIE, &sent.cookie.to_ne_bytes())
}

#[cfg(test)]
mod tests {
    use super::*;
    use crate::netlink::messages;

    fn said(message: Message) -> Option<Said> {
        let octets = message.octets();
        let found = messages(&octets).next().and_then(|message| read(&message));
        found
    }

    #[test]
    fn a_frame_is_read_with_its_rates_in_order() {
        let message = Message::new(29, command::FRAME)
            .with(attribute::TRANSMITTER, &[0x42, 0, 0, 1, 2, 0])
            .with(attribute::FRAME, &[0x08, 0x02])
            .with(attribute::TX_INFO, &[11, 2, 4, 3, 0xff, 0, 0, 9])
            .with(attribute::FREQUENCY, &2437u32.to_ne_bytes())
            .with(attribute::COOKIE, &9u64.to_ne_bytes())
            .with(attribute::FLAGS, &NO_ACKNOWLEDGEMENT.to_ne_bytes());
        let rates = [("54", 2), ("6", 3)];
        let attempts = rates.map(|(rate, count)| Attempt { rate: rate.parse().unwrap(), count }).to_vec();
        let sent = Sent { from: Radio(258), frame: vec![8, 2], attempts, frequency: 2437, cookie: 9, flags: 2 };
        assert!(sent.wants_no_acknowledgement());
        assert_eq!(said(message), Some(Said::Sent(sent)));
    }

    #[test]
    fn a_frame_without_rates_is_tried_once_at_the_slowest() {
        for octets in [&[][..], &[0xff, 0], &[0, 0], &[12, 3]] {
            assert_eq!(read_attempts(octets), [Attempt { rate: Rate::slowest(), count: 1 }]);
        }
    }

    #[test]
    fn a_radio_tells_its_addresses() {
        let message = |command| {
            Message::new(29, command)
                .with(attribute::TRANSMITTER, &address_of(Radio(3)))
                .with(attribute::RECEIVER, &[2, 0, 0, 0, 1, 1])
        };
        assert_eq!(said(message(command::ADD_ADDRESS)), Some(Said::Has(Radio(3), [2, 0, 0, 0, 1, 1])));
        assert_eq!(said(message(command::DEL_ADDRESS)), Some(Said::HasNoMore(Radio(3), [2, 0, 0, 0, 1, 1])));
        assert_eq!(said(message(9)), None);
    }

    #[test]
    fn a_frame_that_is_too_short_for_the_kernel_is_made_longer() {
        for (len, wanted) in [(16, LEAST_LEN), (23, LEAST_LEN), (24, 24), (30, 30)] {
            let octets = delivery(29, Radio(1), &vec![7; len], "1".parse().unwrap(), 2437).octets();
            let found = messages(&octets).next();
            match found {
                Some(Heard::Generic { command: command::FRAME, attributes }) => {
                    let found = attributes.get(attribute::FRAME).unwrap();
                    assert_eq!(found.len(), wanted);
                    assert!(found.iter().enumerate().all(|(place, octet)| *octet == if place < len { 7 } else { 0 }));
                }
                other => panic!("{other:?}"),
            }
        }
    }

    #[test]
    fn a_report_names_what_was_tried() {
        let sent = Sent { from: Radio(1), frame: vec![], attempts: vec![], frequency: 2437, cookie: 77, flags: 1 };
        let tried = [Attempt { rate: "54".parse().unwrap(), count: 2 }];
        let octets = report(29, &sent, &tried, true).octets();
        let found = messages(&octets).next();
        match found {
            Some(Heard::Generic { command: command::TX_INFO, attributes }) => {
                assert_eq!(attributes.get(attribute::TX_INFO), Some(&[11, 2, 0xff, 0, 0xff, 0, 0xff, 0][..]));
                assert_eq!(attributes.array(attribute::FLAGS), Some(5u32.to_ne_bytes()));
                assert_eq!(attributes.array(attribute::COOKIE), Some(77u64.to_ne_bytes()));
            }
            other => panic!("{other:?}"),
        }
    }
}

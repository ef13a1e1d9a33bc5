//! Which of the frames that a radio and the wired ports give go on to the program, and why others don't.
//!
//! A forged outcome is refused here. The kernel's header alone says that this radio sent a frame, and what became of it.
//! So a frame that was heard is never an outcome, whatever addresses it has: one in the name of these networks is left
//! out.
use std::collections::VecDeque;
use std::fmt;

use crate::formats::frames::{is_tagged, Address, AddressMap, Frame, FrameType, LEAST, MOST, PROBE_REQUEST};
use crate::formats::radiotap::{captured, Outcome, Reception, SENDING_LEN};
use crate::network::Places;

/// The most octets of a packet that a radio's monitor interface takes: its MTU, which Linux sets, and the 14 of a
/// header that the kernel allows beside it.
const MOST_OF_RADIO: usize = 2304 + ETHERNET_HEADER_LEN;
const ETHERNET_HEADER_LEN: usize = 14;
/// What stands on the air in place of the header of Ethernet (IEEE Std 802.11-2016, 9.3.2.1; RFC 1042).
const AIR_HEADER_LEN: usize = 24 + 8;
/// The most octets of a frame of a wire that fits into such a packet.
pub const MOST_WIRED: usize = MOST_OF_RADIO - SENDING_LEN - AIR_HEADER_LEN + ETHERNET_HEADER_LEN;

/// Of how many senders a network knows the last sequence control.
const MOST_SENDERS: usize = 4096;

/// Why a frame doesn't go on.
#[derive(Debug, Clone, Copy, PartialEq, Eq, Hash, PartialOrd, Ord)]
pub enum LeftOut {
    /// It has no header of radiotap.
    NoRadiotap,
    /// This machine sent it.
    Sent,
    /// Its check sequence is wrong.
    Damaged,
    /// It has fewer octets than any frame has.
    Short,
    /// It has more octets than the program takes.
    Long,
    /// A wire brought more octets than a radio takes.
    LongForRadio,
    /// It is a control frame, and no PS-Poll: those are the radio's.
    Controls,
    /// Its transmitter is one of these networks.
    Own,
    /// It is for another receiver.
    Others,
    /// It is for all, and these networks can't use it: a neighbour's beacon above all.
    Neighbours,
    /// It was sent again, and taken before.
    Repeated,
    /// It has a VLAN's tag.
    Tagged,
    /// It is a PS-Poll, and the answer to an earlier one of its station is on its way.
    Poll,
}

impl fmt::Display for LeftOut {
    fn fmt(&self, to: &mut fmt::Formatter<'_>) -> fmt::Result {
        match self {
            LeftOut::NoRadiotap => write!(to, "without a radiotap header"),
            LeftOut::Sent => write!(to, "sent by this radio"),
            LeftOut::Damaged => write!(to, "with a bad frame check sequence"),
            LeftOut::Short => write!(to, "of fewer than {LEAST} octets"),
            LeftOut::Long => write!(to, "of more than {MOST} octets"),
            LeftOut::LongForRadio => write!(to, "of more than {MOST_WIRED} octets, too long for a radio"),
            LeftOut::Controls => write!(to, "control frames other than PS-Poll"),
            LeftOut::Own => write!(to, "whose transmitter is one of these networks"),
            LeftOut::Others => write!(to, "for a receiver that is none of these networks"),
            LeftOut::Neighbours => write!(to, "for all, and of no use to these networks"),
            LeftOut::Repeated => write!(to, "sent again, and taken before"),
            LeftOut::Tagged => write!(to, "with a tag of a VLAN"),
            LeftOut::Poll => write!(to, "PS-Polls, while an earlier one was answered"),
        }
    }
}

/// What is done with a packet of the monitor interface.
#[derive(Debug, Clone, Copy, PartialEq, Eq)]
pub enum Judged<'a> {
    /// It goes on, and was heard so.
    GoesOn(Frame<'a>, Reception),
    /// It doesn't.
    LeftOut(LeftOut),
    /// It doesn't, since it is for all and these networks can't use it; it was heard so.
    Neighbours(Reception),
    /// The radio shows it as sent, with what became of it.
    Sent(&'a [u8], Outcome),
}

/// What was heard: the frames that go on, and of each sender to a network the last sequence controls, by which repeated
/// ones are known (IEEE Std 802.11-2016, 10.3.2.11). Data and management frames have one each, since a station may send
/// a management frame between two tries of a data frame. Each network has a table of its own, which others don't fill.
#[derive(Debug)]
pub struct Judge {
    /// Those of the networks, in the order in which they were given.
    pub places: Places,
    /// Of each network.
    last: Vec<LastHeard>,
}

impl Judge {
    /// Nothing was heard yet for these networks.
    pub fn new(bssids: impl IntoIterator<Item = Address>) -> Judge {
        let bssids: Vec<Address> = bssids.into_iter().collect();
        let last = bssids.iter().map(|_| LastHeard::default()).collect();
        Judge { places: Places::new(bssids), last }
    }

    /// What is done with a packet; `is_outgoing` if this machine sent it, `is_cut` if it was longer.
    pub fn judge<'a>(&mut self, packet: &'a [u8], is_outgoing: bool, is_cut: bool) -> Judged<'a> {
        if is_outgoing {
            return Judged::LeftOut(LeftOut::Sent);
        }
        match captured(packet) {
            None => Judged::LeftOut(LeftOut::NoRadiotap),
            Some(found) => match found.outcome {
                Some(outcome) => Judged::Sent(found.frame, outcome),
                None if found.is_damaged => Judged::LeftOut(LeftOut::Damaged),
                None if is_cut => Judged::LeftOut(LeftOut::Long),
                None => self.judge_frame(found.frame, found.reception),
            },
        }
    }

    /// What is done with a whole frame that was heard.
    fn judge_frame<'a>(&mut self, octets: &'a [u8], reception: Reception) -> Judged<'a> {
        let frame = match Frame::of(octets) {
            None => return Judged::LeftOut(LeftOut::Short),
            Some(_) if octets.len() > MOST => return Judged::LeftOut(LeftOut::Long),
            Some(frame) => frame,
        };
        let is_own = frame.transmitter().map_or(false, |found| self.places.of(&found).is_some());
        let network = self.places.of(&frame.receiver());
        if frame.frame_type() == FrameType::Control && !frame.is_ps_poll() {
            Judged::LeftOut(LeftOut::Controls)
        } else if is_own {
            Judged::LeftOut(LeftOut::Own)
        } else if network.is_none() && frame.receiver() != Address::BROADCAST {
            Judged::LeftOut(LeftOut::Others)
        } else if network.is_none() && !self.is_of_use(frame) {
            Judged::Neighbours(reception)
        } else if network.map_or(false, |network| self.is_repeated(network, frame)) {
            Judged::LeftOut(LeftOut::Repeated)
        } else {
            Judged::GoesOn(frame, reception)
        }
    }

    /// Whether networks can use a frame for all: it asks for networks, or names one of these as its own.
    fn is_of_use(&self, frame: Frame<'_>) -> bool {
        let bssid = frame.third_address();
        frame.octets()[0] == PROBE_REQUEST || bssid.map_or(false, |bssid| self.places.of(&bssid).is_some())
    }

    /// Whether the network of this place has taken it before; it is remembered as its sender's last.
    fn is_repeated(&mut self, network: usize, frame: Frame<'_>) -> bool {
        match (frame.transmitter(), frame.sequence_control()) {
            (Some(sender), Some(number)) => {
                let is_data = frame.frame_type() == FrameType::Data;
                let before = self.last[network].replace(sender, is_data, number);
                frame.retry() && before == Some(number)
            }
            _ => false,
        }
    }
}

/// The last sequence controls of a sender.
#[derive(Debug, Clone, Copy, Default)]
struct LastNumbers {
    data: Option<u16>,
    management: Option<u16>,
    /// When it was heard last.
    time: u64,
}

/// Of the senders to a network that were heard last, the last sequence controls.
#[derive(Debug, Default)]
struct LastHeard {
    numbers: AddressMap<LastNumbers>,
    /// When each was heard, the oldest first; an entry counts if its time is the one of `numbers`.
    order: VecDeque<(Address, u64)>,
    times: u64,
}

impl LastHeard {
    /// Remembers a number of a data frame, or of another one, and answers the one before.
    fn replace(&mut self, sender: Address, is_data: bool, number: u16) -> Option<u16> {
        self.times += 1;
        let last = self.numbers.entry(sender).or_default();
        last.time = self.times;
        let before = if is_data { last.data.replace(number) } else { last.management.replace(number) };
        match self.order.back_mut() {
            Some((latest, time)) if *latest == sender => *time = self.times,
            _ => self.order.push_back((sender, self.times)),
        }
        while self.numbers.len() > MOST_SENDERS || self.order.len() > 4 * MOST_SENDERS {
            match self.order.pop_front() {
                Some((oldest, time)) if self.is_last(&oldest, time) => self.take_oldest(oldest, time),
                Some(_) => {}
                None => break,
            }
        }
        before
    }

    fn is_last(&self, sender: &Address, time: u64) -> bool {
        self.numbers.get(sender).map_or(false, |last| last.time == time)
    }

    /// Forgets the sender heard longest ago, if there are too many; else puts it back at the begin.
    fn take_oldest(&mut self, sender: Address, time: u64) {
        if self.numbers.len() > MOST_SENDERS {
            self.numbers.remove(&sender);
        } else {
            self.drop_outdated();
            self.order.push_front((sender, time));
        }
    }

    /// Leaves out the times that are no more the last of their sender.
    fn drop_outdated(&mut self) {
        let numbers = &self.numbers;
        self.order.retain(|(sender, time)| numbers.get(sender).map_or(false, |last| last.time == *time));
    }
}

/// The frame of a wired port that goes on, or why it doesn't; `had_tag` if the kernel took a VLAN's tag off,
/// `is_cut` if it was longer.
pub fn judge_wired(octets: &[u8], is_outgoing: bool, had_tag: bool, is_cut: bool) -> Result<&[u8], LeftOut> {
    if is_outgoing {
        Err(LeftOut::Sent)
    } else if had_tag || is_tagged(octets) {
        Err(LeftOut::Tagged)
    } else if is_cut || octets.len() > MOST_WIRED {
        Err(LeftOut::LongForRadio)
    } else {
        Ok(octets)
    }
}

#[cfg(test)]
#[path = "judging_test.rs"]
mod tests;

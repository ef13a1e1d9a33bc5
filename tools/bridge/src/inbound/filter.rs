//! The filter that the kernel applies to what the monitor interface hears, before the bridge reads it (classic BPF): it
//! keeps out control frames but PS-Poll, what is for no network, and beacons that this radio sent. What it can't read
//! goes on, and is judged as ever.
//!
//! Of frames for all it lets probe requests through, and those that name one of these networks as theirs. Of others,
//! such as neighbours' beacons, the kernel draws some: they show on which channel the radio hears.
//!
//! Frames that were acknowledged come by a socket of their own, which wakes nobody: its filter lets through those alone
//! whose header is as mac80211 writes it, and these the first filter keeps out. By it come beacons too, of which the
//! kernel draws some: what became of them tells that the radio goes on sending.

use libc::sock_filter;

use crate::formats::frames::{Address, BEACON, PROBE_REQUEST};
use crate::os::clock::{Duration, SECOND};

/// What is done with the frames that the radio shows as sent.
#[derive(Debug, Clone, Copy, PartialEq, Eq)]
pub enum Shown {
    /// They come, by which it is seen that the radio sends.
    All,
    /// They come, cut after their addresses: what became of them is learned.
    Outcomes,
    /// Of these come the ones that `acknowledged_filter` doesn't let through, and no beacons.
    Failures,
}

/// Which frames of a kind come: beacons that were sent, or neighbours' frames for all.
#[derive(Debug, Clone, Copy, PartialEq, Eq)]
pub enum Drawn {
    Each,
    /// Those for which the kernel draws a smaller number, of 32 bits.
    Below(u32),
}

impl Drawn {
    pub const ONE_IN_HUNDRED: Drawn = Drawn::Below(u32::MAX / 100);

    /// Where these come, and others don't.
    fn returns(self, length: u32) -> Vec<sock_filter> {
        match self {
            Drawn::Each => vec![returned(length)],
            Drawn::Below(number) => vec![
                plain(LOAD_FOUR, NUMBER_DRAWN_AT),
                jump(IF_AT_LEAST, number, 1, 0),
                returned(length),
                returned(NONE),
            ],
        }
    }

    /// About one a second, if so many networks have such beacon intervals; of each where they are rarer.
    pub fn one_a_second(networks: usize, interval: Duration) -> Drawn {
        let all = SECOND * networks.max(1) as u32;
        if interval >= all {
            Drawn::Each
        } else {
            Drawn::Below(((interval.as_nanos() << 32) / all.as_nanos()) as u32)
        }
    }
}

// Of <linux/bpf_common.h>, and not in the crate libc yet.
const TAX: u32 = 0x00;
const TXA: u32 = 0x80;
const LOAD_LENGTH: u16 = (libc::BPF_LD | libc::BPF_W | libc::BPF_LEN) as u16;
const LOAD_FOUR: u16 = (libc::BPF_LD | libc::BPF_W | libc::BPF_ABS) as u16;
const LOAD_OCTET: u16 = (libc::BPF_LD | libc::BPF_B | libc::BPF_ABS) as u16;
const LOAD_OCTET_AT_X: u16 = (libc::BPF_LD | libc::BPF_B | libc::BPF_IND) as u16;
const LOAD_TWO_AT_X: u16 = (libc::BPF_LD | libc::BPF_H | libc::BPF_IND) as u16;
const LOAD_FOUR_AT_X: u16 = (libc::BPF_LD | libc::BPF_W | libc::BPF_IND) as u16;
const AND: u16 = (libc::BPF_ALU | libc::BPF_AND | libc::BPF_K) as u16;
const ADD: u16 = (libc::BPF_ALU | libc::BPF_ADD | libc::BPF_K) as u16;
const ADD_X: u16 = (libc::BPF_ALU | libc::BPF_ADD | libc::BPF_X) as u16;
const SHIFT_LEFT: u16 = (libc::BPF_ALU | libc::BPF_LSH | libc::BPF_K) as u16;
const INTO_X: u16 = (libc::BPF_MISC | TAX) as u16;
const FROM_X: u16 = (libc::BPF_MISC | TXA) as u16;
const IF_EQUAL: u16 = (libc::BPF_JMP | libc::BPF_JEQ | libc::BPF_K) as u16;
const IF_AT_LEAST: u16 = (libc::BPF_JMP | libc::BPF_JGE | libc::BPF_K) as u16;
const IF_AT_LEAST_X: u16 = (libc::BPF_JMP | libc::BPF_JGE | libc::BPF_X) as u16;
const IF_ANY_BIT: u16 = (libc::BPF_JMP | libc::BPF_JSET | libc::BPF_K) as u16;
const RETURN: u16 = (libc::BPF_RET | libc::BPF_K) as u16;

const ALL: u32 = 1 << 18;
const OUTCOME_LEN: u32 = 128;
const NONE: u32 = 0;
const HEADER_LEN: u32 = 8;
const FIRST_PRESENT_OCTET: u32 = 4;
const SECOND_PRESENT_OCTET: u32 = 5;
const LAST_PRESENT_OCTET: u32 = 7;
const RATE_BIT: u32 = 0x04;
const TX_FLAGS_BIT: u32 = 0x80;
const MORE_PRESENT_BIT: u32 = 0x80;
const FAILED_BIT: u32 = 0x01;
/// Where the flags of a frame that was sent stand if the rate alone is before them, and if nothing is.
const TX_FLAGS_AFTER_RATE_AT: u32 = 10;
const TX_FLAGS_AT: u32 = 8;
const LEAST: u32 = 10;
const RECEIVER_AT: u32 = 4;
const THIRD_ADDRESS_AT: u32 = 16;
const TYPE_BITS: u32 = 0x0c;
const CONTROL: u32 = 0x04;
const SUBTYPE_BITS: u32 = 0xf0;
const PS_POLL: u32 = 0xa0;
/// Where the kernel gives a number that it draws.
const NUMBER_DRAWN_AT: u32 = (libc::SKF_AD_OFF + libc::SKF_AD_RANDOM) as u32;

/// The filter of a monitor interface for these networks, by which these of the neighbours' frames come.
pub fn monitor_filter(bssids: &[Address], shown: Shown, neighbours: Drawn) -> Vec<sock_filter> {
    let mut filter = read_lengths(ALL);
    filter.extend(of_those_sent(shown));
    filter.extend(of_control_frames());
    filter.extend(bssids.iter().flat_map(|bssid| of_address(RECEIVER_AT, *bssid, vec![returned(ALL)])));
    filter.extend(of_address(RECEIVER_AT, Address::BROADCAST, of_frames_for_all(bssids, neighbours)));
    filter.push(returned(NONE));
    filter
}

/// Of frames for all, which come: what is short has no third address, and ends where that is looked at.
fn of_frames_for_all(bssids: &[Address], neighbours: Drawn) -> Vec<sock_filter> {
    let mut filter = of_frames(PROBE_REQUEST, vec![returned(ALL)]);
    let of_network = |bssid: &Address| of_address(THIRD_ADDRESS_AT, *bssid, vec![returned(ALL)]);
    filter.extend(bssids.iter().flat_map(of_network));
    filter.extend(neighbours.returns(ALL));
    filter
}

/// The filter of the socket by which frames come that were sent, and acknowledged if that was awaited, cut after
/// their addresses; of beacons those that are drawn.
pub fn acknowledged_filter(drawn: Drawn) -> Vec<sock_filter> {
    let mut filter =
        vec![plain(LOAD_OCTET, SECOND_PRESENT_OCTET), jump(IF_ANY_BIT, TX_FLAGS_BIT, 1, 0), returned(NONE)];
    filter.extend(read_lengths(NONE));
    filter.extend(of_frames(BEACON, drawn.returns(OUTCOME_LEN)));
    filter.extend(of_outcomes(OUTCOME_LEN, NONE));
    filter
}

pub fn nothing_filter() -> Vec<sock_filter> {
    vec![returned(NONE)]
}

/// What is too short, of another version or cut is `odd`; then X is where the frame begins.
fn read_lengths(odd: u32) -> Vec<sock_filter> {
    vec![
        plain(LOAD_LENGTH, 0),
        jump(IF_AT_LEAST, HEADER_LEN, 1, 0),
        returned(odd),
        plain(LOAD_OCTET, 0),
        jump(IF_EQUAL, 0, 1, 0),
        returned(odd),
        plain(LOAD_OCTET, 2),
        plain(INTO_X, 0),
        plain(LOAD_OCTET, 3),
        plain(SHIFT_LEFT, 8),
        plain(ADD_X, 0),
        jump(IF_AT_LEAST, HEADER_LEN, 1, 0),
        returned(odd),
        plain(ADD, LEAST),
        plain(INTO_X, 0),
        plain(LOAD_LENGTH, 0),
        jump(IF_AT_LEAST_X, 0, 1, 0),
        returned(odd),
        plain(FROM_X, 0),
        plain(ADD, LEAST.wrapping_neg()),
        plain(INTO_X, 0),
    ]
}

/// The frames that the radio shows as sent.
fn of_those_sent(shown: Shown) -> Vec<sock_filter> {
    let of_them = match shown {
        Shown::All => vec![returned(ALL)],
        Shown::Outcomes => vec![returned(OUTCOME_LEN)],
        Shown::Failures => [of_frames(BEACON, vec![returned(NONE)]), of_outcomes(NONE, OUTCOME_LEN)].concat(),
    };
    let mut filter =
        vec![plain(LOAD_OCTET, SECOND_PRESENT_OCTET), jump(IF_ANY_BIT, TX_FLAGS_BIT, 0, of_them.len() as u8)];
    filter.extend(of_them);
    filter
}

/// What is done with frames of this first octet.
fn of_frames(first: u8, then: Vec<sock_filter>) -> Vec<sock_filter> {
    let mut filter = vec![plain(LOAD_OCTET_AT_X, 0), jump(IF_EQUAL, u32::from(first), 0, then.len() as u8)];
    filter.extend(then);
    filter
}

/// Whether a frame that was sent was acknowledged, by a header that names no fields before the flags but the rate;
/// other headers count as ones of frames that weren't.
fn of_outcomes(acknowledged: u32, others: u32) -> Vec<sock_filter> {
    vec![
        plain(LOAD_OCTET, LAST_PRESENT_OCTET),
        jump(IF_ANY_BIT, MORE_PRESENT_BIT, 10, 0),
        plain(LOAD_OCTET, SECOND_PRESENT_OCTET),
        jump(IF_EQUAL, TX_FLAGS_BIT, 0, 8),
        plain(LOAD_OCTET, FIRST_PRESENT_OCTET),
        jump(IF_EQUAL, 0, 0, 2),
        plain(LOAD_OCTET, TX_FLAGS_AT),
        jump(IF_AT_LEAST, 0, 2, 2),
        jump(IF_EQUAL, RATE_BIT, 0, 3),
        plain(LOAD_OCTET, TX_FLAGS_AFTER_RATE_AT),
        jump(IF_ANY_BIT, FAILED_BIT, 1, 0),
        returned(acknowledged),
        returned(others),
    ]
}

/// Of control frames only PS-Polls are looked at further.
fn of_control_frames() -> Vec<sock_filter> {
    vec![
        plain(LOAD_OCTET_AT_X, 0),
        plain(AND, TYPE_BITS),
        jump(IF_EQUAL, CONTROL, 0, 4),
        plain(LOAD_OCTET_AT_X, 0),
        plain(AND, SUBTYPE_BITS),
        jump(IF_EQUAL, PS_POLL, 1, 0),
        returned(NONE),
    ]
}

/// What is done with frames that have this address there.
fn of_address(at: u32, address: Address, then: Vec<sock_filter>) -> Vec<sock_filter> {
    let [a, b, c, d, e, f] = *address.octets();
    let past = then.len() as u8;
    let mut filter = vec![
        plain(LOAD_FOUR_AT_X, at),
        jump(IF_EQUAL, u32::from_be_bytes([a, b, c, d]), 0, past + 2),
        plain(LOAD_TWO_AT_X, at + 4),
        jump(IF_EQUAL, u32::from_be_bytes([0, 0, e, f]), 0, past),
    ];
    filter.extend(then);
    filter
}

fn plain(code: u16, k: u32) -> sock_filter {
    sock_filter { code, jt: 0, jf: 0, k }
}

fn jump(code: u16, k: u32, jt: u8, jf: u8) -> sock_filter {
    sock_filter { code, jt, jf, k }
}

fn returned(length: u32) -> sock_filter {
    plain(RETURN, length)
}

#[cfg(test)]
#[path = "filter_test.rs"]
mod tests;

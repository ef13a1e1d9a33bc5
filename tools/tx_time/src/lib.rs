//! How long a frame takes on the air of the 2.4 GHz band (TXTIME of IEEE Std 802.11-2016, 16.3.4 and 18.5.3.2), with
//! long preambles and long slots.
//!
//! The bridge reckons shares of the air by it, and the air of the tests sends by it. It promises the standard's times for
//! each rate and length; how often a frame is tried, and how long a radio waits before a try, is left to both. Times are
//! in nanoseconds, rates in units of 500 kb/s, lengths in octets without the frame check sequence.

const MICROSECOND: u64 = 1000;
/// Times of tables 15-4, 16-4 and 18-5.
pub const SLOT: u64 = 20 * MICROSECOND;
pub const SIFS: u64 = 10 * MICROSECOND;
pub const DIFS: u64 = SIFS + 2 * SLOT;
const LONG_PREAMBLE: u64 = 192 * MICROSECOND;
const OFDM_PREAMBLE: u64 = 20 * MICROSECOND;
const OFDM_SYMBOL: u64 = 4 * MICROSECOND;
const SIGNAL_EXTENSION: u64 = 6 * MICROSECOND;
/// The service field and the tail, in bits.
const OFDM_BITS: u64 = 16 + 6;
const FCS_LEN: usize = 4;
const ACK_LEN: usize = 14;
/// The rates of DSSS and HR/DSSS (clauses 15 and 16); all others are of ERP-OFDM (clause 18).
const SPREAD: [u8; 4] = [2, 4, 11, 22];
/// The mandatory rates of OFDM.
const MANDATORY: [u8; 3] = [12, 24, 48];

/// Whether a rate is one of DSSS or HR/DSSS.
pub fn is_spread(rate: u8) -> bool {
    SPREAD.contains(&rate)
}

/// How long a frame is on the air.
pub fn of_frame(rate: u8, octets: usize) -> u64 {
    let bits = 8 * (octets + FCS_LEN) as u64;
    let is_spread = is_spread(rate);
    let rate = u64::from(rate.max(1));
    if is_spread {
        return LONG_PREAMBLE + bits * 2 * MICROSECOND / rate;
    }
    let bits_of_symbol = 2 * rate;
    let symbols = (OFDM_BITS + bits + bits_of_symbol - 1) / bits_of_symbol;
    OFDM_PREAMBLE + OFDM_SYMBOL * symbols + SIGNAL_EXTENSION
}

/// How long it takes from the end of a frame of this rate to that of its acknowledgement, which is sent at the fastest
/// mandatory rate that is no faster (10.7.6.5.2).
pub fn of_acknowledgement(rate: u8) -> u64 {
    let mandatory: &[u8] = if is_spread(rate) { &SPREAD } else { &MANDATORY };
    let answered = mandatory.iter().copied().filter(|one| *one <= rate).max().unwrap_or(rate);
    SIFS + of_frame(answered, ACK_LEN - FCS_LEN)
}

#[cfg(test)]
mod tests {
    use super::*;

    #[test]
    fn frames_take_as_long_as_the_standard_says() {
        // 1,500 octets with the check sequence at 1 Mb/s: 192 and 12,000 microseconds.
        assert_eq!(of_frame(2, 1496), 12_192_000);
        assert_eq!(of_frame(22, 1496), 192_000 + 1_090_909);
        // At 54 Mb/s 216 bits a symbol: 12,022 bits are 56 symbols. At 6 Mb/s 24 bits: 501.
        assert_eq!(of_frame(108, 1496), 20_000 + 56 * 4_000 + 6_000);
        assert_eq!(of_frame(12, 1496), 20_000 + 501 * 4_000 + 6_000);
    }

    #[test]
    fn acknowledgements_are_sent_at_mandatory_rates() {
        // At 24 Mb/s 134 bits are two symbols, at 6 Mb/s six.
        assert_eq!(of_acknowledgement(108), 10_000 + 20_000 + 8_000 + 6_000);
        assert_eq!(of_acknowledgement(18), 10_000 + 20_000 + 24_000 + 6_000);
        assert_eq!(of_acknowledgement(2), 10_000 + 192_000 + 112_000);
    }

    #[test]
    fn each_rate_and_length_takes_a_time() {
        for rate in 0..=u8::MAX {
            for octets in [0, 10, 1500, 4096] {
                assert!(of_frame(rate, octets) > 0 && of_acknowledgement(rate) > SIFS);
            }
        }
    }
}

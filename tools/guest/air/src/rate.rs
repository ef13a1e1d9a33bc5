//! The rates of the 2.4 GHz band, as the simulation numbers them.

use std::fmt;
use std::str::FromStr;

/// The rates in units of 500 kb/s, as `mac80211_hwsim` numbers them.
const NUMBERED: [u8; 12] = [2, 4, 11, 22, 12, 18, 24, 36, 48, 72, 96, 108];

/// A rate, in units of 500 kb/s.
#[derive(Clone, Copy, Debug, PartialEq, Eq, PartialOrd, Ord, Hash)]
pub struct Rate(u8);

impl Rate {
    /// The rate that the simulation gives this number, or None.
    pub fn numbered(number: i8) -> Option<Rate> {
        NUMBERED.get(usize::try_from(number).ok()?).copied().map(Rate)
    }

    /// The slowest, 1 Mb/s.
    pub fn slowest() -> Rate {
        Rate(NUMBERED[0])
    }

    /// The number that the simulation gives it.
    pub fn number(self) -> u8 {
        (0..).zip(NUMBERED).find_map(|(number, rate)| (rate == self.0).then_some(number)).unwrap_or(0)
    }

    /// Whether it is one of DSSS or HR/DSSS.
    pub fn is_spread(self) -> bool {
        tx_time::is_spread(self.0)
    }

    /// Nanoseconds that a frame of so many octets, without its check sequence, takes.
    pub fn airtime(self, len: usize) -> u64 {
        tx_time::of_frame(self.0, len)
    }

    /// Nanoseconds from the end of a frame to that of its acknowledgement.
    pub fn acknowledgement(self) -> u64 {
        tx_time::of_acknowledgement(self.0)
    }
}

impl fmt::Display for Rate {
    fn fmt(&self, out: &mut fmt::Formatter<'_>) -> fmt::Result {
        write!(out, "{}", f32::from(self.0) / 2.0)
    }
}

impl FromStr for Rate {
    type Err = String;

    fn from_str(word: &str) -> Result<Rate, String> {
        let rates = NUMBERED.iter().copied().map(Rate);
        let found = rates.into_iter().find(|rate| rate.to_string() == word);
        found.ok_or_else(|| format!("{word} Mb/s is no rate of the band"))
    }
}

#[cfg(test)]
mod tests {
    use super::*;

    fn rate(word: &str) -> Rate {
        word.parse().unwrap()
    }

    #[test]
    fn rates_have_the_numbers_of_the_simulation() {
        assert_eq!(Rate::numbered(0), Some(rate("1")));
        assert_eq!(Rate::numbered(2), Some(rate("5.5")));
        assert_eq!(Rate::numbered(4), Some(rate("6")));
        assert_eq!(Rate::numbered(11), Some(rate("54")));
        assert_eq!(Rate::numbered(-1), None);
        assert_eq!(Rate::numbered(12), None);
        assert_eq!(rate("54").number(), 11);
        assert!("7".parse::<Rate>().is_err());
    }
}

//! On which frequency the radio hears: it names one of each frame (the field Channel of radiotap), which is that of its
//! own channel, also if a frame of a neighbouring channel was heard. Something else on the machine may have taken it
//! elsewhere.
//!
//! One odd frame proves nothing: a driver may name the frequency on which it looked for networks a moment ago. So the
//! radio is believed to be on another frequency once frames named that one for a second, or one did, and none named the
//! frequency believed before.

use crate::os::clock::{Duration, Instant, SECOND};

/// For how long frames have to name another frequency, and none the one that is believed.
const TO_BELIEVE: Duration = SECOND;
const FIRST: u16 = 2407;
const APART: u16 = 5;
const LAST_CHANNEL: u8 = 14;
const LAST: u16 = 2484;

/// The centre frequency of a channel, in MHz (IEEE Std 802.11-2016, 15.4.4.3).
fn frequency_of(channel: u8) -> u16 {
    match channel {
        LAST_CHANNEL => LAST,
        _ => FIRST + APART * u16::from(channel),
    }
}

/// What is believed from now on.
#[derive(Debug, Clone, Copy, PartialEq, Eq)]
pub enum Found {
    /// The radio is on its channel again.
    Here,
    /// It is on this frequency, in MHz.
    Elsewhere(u16),
}

/// The frequency that frames named last if it isn't the one that is believed.
#[derive(Debug, Clone, Copy)]
struct Doubt {
    frequency: u16,
    since: Instant,
}

/// Where the radio is, by the frames that are heard.
#[derive(Debug)]
pub struct Tuning {
    /// The frequency that the channel has.
    pub wanted: u16,
    believed: u16,
    doubt: Option<Doubt>,
    /// How many frames were heard on other frequencies.
    pub heard_elsewhere: u64,
}

impl Tuning {
    pub fn new(channel: u8) -> Tuning {
        let wanted = frequency_of(channel);
        Tuning { wanted, believed: wanted, doubt: None, heard_elsewhere: 0 }
    }

    pub fn heard(&mut self, frequency: u16, now: Instant) {
        if frequency != self.wanted {
            self.heard_elsewhere += 1;
        }
        if frequency == self.believed {
            self.doubt = None;
        } else {
            let since = self.doubt.map_or(now, |doubt| doubt.since);
            self.doubt = Some(Doubt { frequency, since });
        }
    }

    /// When `look` finds something, unless a frame is heard before that.
    pub fn due(&self) -> Option<Instant> {
        self.doubt.map(|doubt| doubt.since + TO_BELIEVE)
    }

    /// What is believed from now on, if that is something else.
    pub fn look(&mut self, now: Instant) -> Option<Found> {
        let doubt = self.doubt.filter(|doubt| now >= doubt.since + TO_BELIEVE)?;
        self.doubt = None;
        self.believed = doubt.frequency;
        Some(self.elsewhere().map_or(Found::Here, Found::Elsewhere))
    }

    /// Whether each frame counts by which one sees on which frequency the radio hears: it may be elsewhere.
    pub fn wants_each(&self) -> bool {
        self.doubt.is_some() || self.elsewhere().is_some()
    }

    /// The frequency on which the radio is believed to be, if that isn't its channel's.
    pub fn elsewhere(&self) -> Option<u16> {
        Some(self.believed).filter(|believed| *believed != self.wanted)
    }
}

#[cfg(test)]
mod tests {
    use super::*;
    use crate::testing::samples::{at, NANOSECOND};

    const TENTH: Duration = Duration::from_millis(100);

    #[test]
    fn channels_have_the_frequencies_of_the_standard() {
        assert_eq!([1, 6, 13, 14].map(frequency_of), [2412, 2437, 2472, 2484]);
    }

    #[test]
    fn one_odd_frame_among_right_ones_is_counted_and_nothing_more() {
        let mut tuning = Tuning::new(6);
        for (frequency, time) in
            [(2437, Duration::ZERO), (2412, NANOSECOND), (2437, TENTH), (2412, 2 * SECOND), (2437, 2 * SECOND + TENTH)]
        {
            tuning.heard(frequency, at(time));
            assert_eq!(tuning.look(at(time)), None);
        }
        assert_eq!((tuning.look(at(9 * SECOND)), tuning.due()), (None, None));
        assert_eq!((tuning.elsewhere(), tuning.heard_elsewhere), (None, 2));
    }

    /// Also if one frame alone is heard there.
    #[test]
    fn a_radio_that_hears_elsewhere_is_told_within_a_second() {
        for frames in [1, 5] {
            let mut tuning = Tuning::new(6);
            tuning.heard(2437, Instant::START);
            (0..frames).for_each(|number| tuning.heard(2412, at(SECOND + number * TENTH)));
            assert_eq!(tuning.due(), Some(at(2 * SECOND)));
            assert_eq!(tuning.look(at(2 * SECOND - NANOSECOND)), None);
            assert!(tuning.wants_each());
            assert_eq!(tuning.look(at(2 * SECOND)), Some(Found::Elsewhere(2412)));
            assert!(tuning.wants_each());
            assert_eq!((tuning.elsewhere(), tuning.heard_elsewhere), (Some(2412), u64::from(frames)));
            assert_eq!((tuning.look(at(9 * SECOND)), tuning.due()), (None, None));
        }
    }

    #[test]
    fn a_radio_that_is_back_or_goes_on_is_told_too() {
        let mut tuning = Tuning::new(1);
        tuning.heard(2437, Instant::START);
        assert_eq!(tuning.look(at(SECOND)), Some(Found::Elsewhere(2437)));
        tuning.heard(2462, at(2 * SECOND));
        assert_eq!(tuning.look(at(3 * SECOND)), Some(Found::Elsewhere(2462)));
        tuning.heard(2412, at(4 * SECOND));
        tuning.heard(2462, at(4 * SECOND + TENTH));
        assert_eq!(tuning.look(at(6 * SECOND)), None);
        tuning.heard(2412, at(7 * SECOND));
        assert_eq!(tuning.look(at(8 * SECOND)), Some(Found::Here));
        assert!(!tuning.wants_each());
        assert_eq!((tuning.elsewhere(), tuning.heard_elsewhere, tuning.wanted), (None, 3, 2412));
    }

    /// It looks for networks: each frequency is named for a moment.
    #[test]
    fn a_radio_that_goes_from_channel_to_channel_is_elsewhere_after_a_second() {
        let mut tuning = Tuning::new(6);
        for channel in 7..=13 {
            tuning.heard(frequency_of(channel), at(u32::from(channel) * 2 * TENTH));
        }
        assert_eq!(tuning.look(at(26 * TENTH)), Some(Found::Elsewhere(2472)));
    }
}

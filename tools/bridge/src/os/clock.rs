//! Moments of the clock that nobody sets, and how long something takes.
use std::fmt;
use std::iter::Sum;
use std::ops::{Add, AddAssign, Div, Mul, Sub, SubAssign};
use std::time::SystemTime;

pub use crate::os::timer::{boot_now, now};

pub const SECOND: Duration = Duration::from_secs(1);
pub const MILLISECOND: Duration = Duration::from_millis(1);
const NANOS_PER_SECOND: u64 = 1_000_000_000;
const NANOS_PER_MILLISECOND: u64 = 1_000_000;
const NANOS_PER_MICROSECOND: u64 = 1_000;

/// How long something takes, in nanoseconds. std's has two numbers, which are carried over and divided where they are
/// added and multiplied: each frame would take some hundred instructions more.
#[derive(Clone, Copy, Default, PartialEq, Eq, PartialOrd, Ord)]
pub struct Duration(u64);

impl Duration {
    pub const ZERO: Duration = Duration(0);
    /// 584 years.
    pub const MAX: Duration = Duration(u64::MAX);

    pub const fn new(seconds: u64, nanos: u32) -> Duration {
        Duration(seconds.saturating_mul(NANOS_PER_SECOND).saturating_add(nanos as u64))
    }

    pub const fn from_secs(seconds: u64) -> Duration {
        Duration::new(seconds, 0)
    }

    pub const fn from_millis(milliseconds: u64) -> Duration {
        Duration(milliseconds.saturating_mul(NANOS_PER_MILLISECOND))
    }

    pub const fn from_micros(microseconds: u64) -> Duration {
        Duration(microseconds.saturating_mul(NANOS_PER_MICROSECOND))
    }

    pub const fn from_nanos(nanos: u64) -> Duration {
        Duration(nanos)
    }

    pub const fn as_secs(self) -> u64 {
        self.0 / NANOS_PER_SECOND
    }

    pub const fn as_millis(self) -> u64 {
        self.0 / NANOS_PER_MILLISECOND
    }

    pub const fn as_micros(self) -> u64 {
        self.0 / NANOS_PER_MICROSECOND
    }

    pub const fn as_nanos(self) -> u64 {
        self.0
    }

    /// What is beyond whole seconds, in nanoseconds.
    pub(super) const fn subsec_nanos(self) -> u32 {
        (self.0 % NANOS_PER_SECOND) as u32
    }

    /// What is beyond whole seconds, in whole milliseconds.
    pub const fn subsec_millis(self) -> u32 {
        self.subsec_nanos() / NANOS_PER_MILLISECOND as u32
    }

    pub const fn is_zero(self) -> bool {
        self.0 == 0
    }

    pub const fn saturating_sub(self, other: Duration) -> Duration {
        Duration(self.0.saturating_sub(other.0))
    }

    pub const fn saturating_mul(self, times: u32) -> Duration {
        Duration(self.0.saturating_mul(times as u64))
    }
}

impl fmt::Debug for Duration {
    fn fmt(&self, to: &mut fmt::Formatter<'_>) -> fmt::Result {
        std::time::Duration::from(*self).fmt(to)
    }
}

impl From<Duration> for std::time::Duration {
    fn from(time: Duration) -> std::time::Duration {
        std::time::Duration::from_nanos(time.0)
    }
}

impl From<std::time::Duration> for Duration {
    fn from(time: std::time::Duration) -> Duration {
        Duration::new(time.as_secs(), time.subsec_nanos())
    }
}

impl Add for Duration {
    type Output = Duration;

    fn add(self, other: Duration) -> Duration {
        Duration(self.0 + other.0)
    }
}

impl AddAssign for Duration {
    fn add_assign(&mut self, other: Duration) {
        self.0 += other.0;
    }
}

impl Sub for Duration {
    type Output = Duration;

    fn sub(self, other: Duration) -> Duration {
        Duration(self.0 - other.0)
    }
}

impl SubAssign for Duration {
    fn sub_assign(&mut self, other: Duration) {
        self.0 -= other.0;
    }
}

impl Mul<u32> for Duration {
    type Output = Duration;

    fn mul(self, times: u32) -> Duration {
        Duration(self.0 * u64::from(times))
    }
}

impl Mul<Duration> for u32 {
    type Output = Duration;

    fn mul(self, time: Duration) -> Duration {
        time * self
    }
}

impl Div<u32> for Duration {
    type Output = Duration;

    fn div(self, parts: u32) -> Duration {
        Duration(self.0 / u64::from(parts))
    }
}

impl Sum for Duration {
    fn sum<I: Iterator<Item = Duration>>(times: I) -> Duration {
        times.fold(Duration::ZERO, Duration::add)
    }
}

/// A moment of the clock that nobody sets. It is half as large as std's, and the next bridge can read it, since it
/// counts from the start of the machine. What would be before that is its start, and what would be too late is never.
#[derive(Debug, Clone, Copy, Default, PartialEq, Eq, PartialOrd, Ord)]
pub struct Instant(u64);

impl Instant {
    /// The start of the machine.
    pub const START: Instant = Instant(0);
    /// A moment that doesn't come.
    pub const NEVER: Instant = Instant(u64::MAX);

    /// So many nanoseconds after the start of the machine.
    pub const fn from_nanos(nanos: u64) -> Instant {
        Instant(nanos)
    }

    /// How many nanoseconds it is after the start of the machine.
    pub const fn as_nanos(self) -> u64 {
        self.0
    }

    /// How long it is after an earlier moment; nothing if that is later.
    pub const fn since(self, earlier: Instant) -> Duration {
        Duration::from_nanos(self.0.saturating_sub(earlier.0))
    }
}

/// The first of these moments that there are.
pub fn earliest(moments: &[Option<Instant>]) -> Option<Instant> {
    moments.iter().flatten().min().copied()
}

impl Add<Duration> for Instant {
    type Output = Instant;

    fn add(self, time: Duration) -> Instant {
        Instant(self.0.saturating_add(time.0))
    }
}

impl AddAssign<Duration> for Instant {
    fn add_assign(&mut self, time: Duration) {
        *self = *self + time;
    }
}

impl Sub<Duration> for Instant {
    type Output = Instant;

    fn sub(self, time: Duration) -> Instant {
        Instant(self.0.saturating_sub(time.0))
    }
}

pub const fn nanos(time: Duration) -> u64 {
    time.0
}

/// The time since 1970 of the clock by which the kernel says when a packet came.
pub fn wall_now() -> Duration {
    SystemTime::now().duration_since(SystemTime::UNIX_EPOCH).map_or(Duration::ZERO, Duration::from)
}

/// When packets came, by the clock that nobody sets. The kernel says it by the wall clock, which people and time servers
/// may set: then, for a second, packets count as ones that came when they were read.
#[derive(Debug, Default)]
pub struct Arrivals {
    /// By how much the wall clock was ahead when packets were read last.
    ahead: Option<Duration>,
    untrusted_until: Instant,
}

impl Arrivals {
    /// More than this is no correction of a clock that goes on, in the time between two looks.
    const STEP: Duration = Duration::from_millis(5);

    /// Packets are read while both clocks say this; answers when one came that has this time of the wall clock.
    pub fn read(&mut self, wall: Duration, now: Instant) -> impl Fn(Option<Duration>) -> Instant {
        let ahead = wall.saturating_sub(now.since(Instant::START));
        let before = self.ahead.replace(ahead).unwrap_or(ahead);
        if ahead.max(before) - ahead.min(before) > Self::STEP {
            self.untrusted_until = now + SECOND;
        }
        let is_trusted = now >= self.untrusted_until;
        move |arrived| match arrived {
            Some(arrived) if is_trusted => now - wall.saturating_sub(arrived).min(SECOND),
            _ => now,
        }
    }
}

#[cfg(test)]
mod tests {
    use super::*;

    #[test]
    fn moments_go_on_and_back_and_stop_at_both_ends() {
        let moment = Instant::START + 2 * SECOND;
        assert_eq!(moment.as_nanos(), 2_000_000_000);
        assert_eq!((moment + MILLISECOND).since(moment), MILLISECOND);
        assert_eq!(moment.since(moment + MILLISECOND), Duration::ZERO);
        assert_eq!(moment - SECOND, Instant::START + SECOND);
        assert_eq!((moment - 3 * SECOND, Instant::NEVER + SECOND), (Instant::START, Instant::NEVER));
        assert_eq!(moment + Duration::MAX, Instant::NEVER);
    }

    #[test]
    fn the_clock_that_goes_on_while_the_machine_is_suspended_is_never_behind() {
        let moment = now();
        assert!(boot_now() >= moment);
    }

    #[test]
    fn packets_are_no_older_where_somebody_sets_the_wall_clock() {
        let mut arrivals = Arrivals::default();
        let (noon, begun) = (Duration::from_secs(1_800_000_000), Instant::START + 100 * SECOND);
        let age = |arrivals: &mut Arrivals, wall: Duration, at: Duration, came: Duration| {
            (begun + at).since(arrivals.read(wall, begun + at)(Some(came)))
        };
        assert_eq!(age(&mut arrivals, noon, Duration::ZERO, noon - 3 * MILLISECOND), 3 * MILLISECOND);
        let later = noon + SECOND;
        assert_eq!(age(&mut arrivals, later, SECOND, later - 90 * MILLISECOND), 90 * MILLISECOND);
        assert_eq!(age(&mut arrivals, later, SECOND, noon - 9 * SECOND), SECOND, "none is older than a second");
        // It is set 50 ms forward: what came before looks older than it is.
        let set = later + 50 * MILLISECOND;
        assert_eq!(age(&mut arrivals, set, SECOND, later), Duration::ZERO);
        assert_eq!(age(&mut arrivals, set + MILLISECOND, SECOND + MILLISECOND, later), Duration::ZERO);
        let after = set + 2 * SECOND;
        assert_eq!(age(&mut arrivals, after, 3 * SECOND, after - 7 * MILLISECOND), 7 * MILLISECOND);
        // Backward, and a packet without a time.
        assert_eq!(age(&mut arrivals, noon, 4 * SECOND, after), Duration::ZERO);
        assert_eq!(arrivals.read(noon, begun + 9 * SECOND)(None), begun + 9 * SECOND);
    }

    #[test]
    fn durations_are_reckoned_as_those_of_std_are() {
        let (time, other) = (Duration::new(3, 200_000_007), Duration::from_micros(1_900_000));
        let of_std = std::time::Duration::from;
        assert_eq!(of_std(time + other), of_std(time) + of_std(other));
        assert_eq!(of_std(time - other), of_std(time) - of_std(other));
        assert_eq!(of_std(7 * time), 7 * of_std(time));
        // As whole nanoseconds: std of Rust 1.63 may lose one.
        assert_eq!((time / 7).as_nanos(), 3_200_000_007 / 7);
        assert_eq!((time.as_secs(), time.as_millis(), time.subsec_nanos()), (3, 3200, 200_000_007));
        assert_eq!((Duration::from(of_std(time)), format!("{time:?}")), (time, format!("{:?}", of_std(time))));
        assert_eq!([time, other, time].into_iter().sum::<Duration>(), time + time + other);
    }
}

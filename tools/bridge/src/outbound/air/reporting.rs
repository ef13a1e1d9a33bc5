//! Whether the radio reports what becomes of frames, as far as one knows.

/// After so many waits in vain, before anything was reported, the radio is taken for one that reports nothing.
const MOST_VAIN: u32 = 8;

/// Whether the radio reports what becomes of frames.
#[derive(Debug, Clone, Copy, PartialEq, Eq)]
pub(super) enum Reporting {
    /// It reported nothing yet, and so many waits for that were in vain.
    Unknown { vain: u32 },
    /// It reported something.
    Reports,
    /// Too many waits were in vain, and it reported nothing since.
    Silent,
}

impl Reporting {
    /// One waited in vain for what became of a frame.
    pub(super) fn after_vain_wait(self) -> Reporting {
        match self {
            Reporting::Unknown { vain } if vain + 1 < MOST_VAIN => Reporting::Unknown { vain: vain + 1 },
            Reporting::Unknown { .. } | Reporting::Silent => Reporting::Silent,
            Reporting::Reports => Reporting::Reports,
        }
    }

    /// It reported what became of a frame. One that was silent is believed once it reports more than that.
    pub(super) fn after_outcome(self) -> Reporting {
        match self {
            Reporting::Unknown { .. } | Reporting::Reports => Reporting::Reports,
            Reporting::Silent => Reporting::Unknown { vain: 0 },
        }
    }
}

#[cfg(test)]
mod tests {
    use super::*;

    fn after_vain_waits(number: u32) -> Reporting {
        (0..number).fold(Reporting::Unknown { vain: 0 }, |reporting, _| reporting.after_vain_wait())
    }

    #[test]
    fn a_radio_is_silent_after_eight_waits_in_vain_unless_it_reported_something_before() {
        assert_eq!(after_vain_waits(7), Reporting::Unknown { vain: 7 });
        assert_eq!(after_vain_waits(8), Reporting::Silent);
        let reports = after_vain_waits(7).after_outcome();
        assert_eq!((0..9).fold(reports, |reporting, _| reporting.after_vain_wait()), Reporting::Reports);
    }

    #[test]
    fn a_silent_radio_is_waited_for_again_once_it_reported_something() {
        let heard_again = after_vain_waits(8).after_outcome();
        assert_eq!(heard_again, Reporting::Unknown { vain: 0 });
        assert_eq!(heard_again.after_outcome(), Reporting::Reports);
        assert_eq!((0..8).fold(heard_again, |reporting, _| reporting.after_vain_wait()), Reporting::Silent);
    }
}

use super::*;
use crate::os::clock::MILLISECOND;
use crate::testing::samples::at;

const ALL: [u8; 12] = [0x82, 0x84, 0x8b, 0x96, 12, 18, 24, 36, 48, 72, 96, 108];

fn millis(number: u32) -> Instant {
    at(number * MILLISECOND)
}

/// Sends units, one each ten milliseconds, to a station that hears rates up to one; their choices.
fn send(rates: &mut RateControl, units: u32, from: u32, most: u8) -> Vec<Choice> {
    (from..from + units)
        .map(|unit| {
            let choice = rates.next(millis(10 * unit), false);
            let is_heard = choice.rate <= most;
            let tries = if is_heard { 1 } else { choice.retries + 1 };
            rates.reported(choice.rate, tries, is_heard, choice.is_sample);
            choice
        })
        .collect()
}

fn used(choices: &[Choice]) -> Vec<u8> {
    choices.iter().filter(|choice| !choice.is_sample).map(|choice| choice.rate).collect()
}

#[test]
fn common_rates_are_those_that_both_have_whether_basic_or_not() {
    let rates = |station: &[u8], network: &[u8]| {
        RateControl::common(station, network).map(|rates| rates.rates.iter().map(|rate| rate.rate).collect::<Vec<_>>())
    };
    assert_eq!(rates(&[0x02, 0x96, 108], &[0x82, 0x84, 22, 12]), Some(vec![2, 22]));
    assert_eq!(rates(&[12], &[0x82]), None);
    assert_eq!(rates(&[], &ALL), None);
    // 127 says that HT is wanted (9.4.2.3), and 3 is no rate of the band.
    assert_eq!(rates(&[0xff, 3, 2], &[0xff, 3, 2]), Some(vec![2]));
    assert_eq!(rates(&ALL, &ALL), Some(BAND.to_vec()));
}

#[test]
fn the_fastest_rate_is_reached_within_a_few_units() {
    let mut rates = RateControl::common(&ALL, &ALL).unwrap();
    let choices = send(&mut rates, 100, 0, 108);
    assert!(choices[..3].iter().all(|choice| choice.is_sample));
    assert!(used(&choices).iter().all(|rate| *rate == 108), "{choices:?}");
    assert_eq!(used(&choices).len(), 97);
}

#[test]
fn a_station_that_has_one_rate_is_sent_to_at_it() {
    let mut rates = RateControl::common(&[2], &ALL).unwrap();
    let choices = send(&mut rates, 50, 0, 108);
    assert!(choices.iter().all(|choice| *choice == Choice { rate: 2, retries: MOST_RETRIES, is_sample: false }));
}

#[test]
fn a_station_that_hears_6_and_nothing_faster_is_soon_sent_to_at_6() {
    let mut rates = RateControl::common(&ALL, &ALL).unwrap();
    send(&mut rates, 100, 0, 108);
    let after = send(&mut rates, 100, 100, 12);
    assert_eq!(after[0], Choice { rate: 108, retries: MOST_RETRIES, is_sample: false });
    assert_eq!(after[1], Choice { rate: 2, retries: MOST_RETRIES, is_sample: false });
    assert!(used(&after[10..]).iter().all(|rate| *rate == 12), "{after:?}");
    assert!(after[10..].iter().filter(|choice| choice.is_sample).count() < 8);
}

#[test]
fn and_again_at_54_once_it_hears_it() {
    let mut rates = RateControl::common(&ALL, &ALL).unwrap();
    send(&mut rates, 200, 0, 12);
    let after = send(&mut rates, 100, 200, 108);
    let reached = after.iter().position(|choice| !choice.is_sample && choice.rate == 108).unwrap();
    assert!(reached <= 20, "{reached}");
    assert!(used(&after[reached..]).iter().all(|rate| *rate == 108));
}

#[test]
fn a_station_that_is_seldom_sent_to_is_sampled_by_time() {
    let mut rates = RateControl::common(&ALL, &ALL).unwrap();
    send(&mut rates, 50, 0, 12);
    let mut samples = 0;
    for second in 1..=10 {
        for part in 0..2 {
            let choice = rates.next(millis(1000 * second + 100 * part), false);
            samples += u32::from(choice.is_sample);
            rates.reported(choice.rate, 1, choice.rate <= 12, choice.is_sample);
        }
    }
    assert_eq!(samples, 10);
}

#[test]
fn a_busy_radio_is_given_samples_less_often() {
    for (is_busy, wanted) in [(false, 1000 / 17), (true, 1000 / 65)] {
        let mut rates = RateControl::common(&ALL, &ALL).unwrap();
        send(&mut rates, 50, 0, 12);
        let samples = (0..1000).filter(|unit| {
            let choice = rates.next(millis(500) + Duration::from_nanos(*unit), is_busy);
            rates.reported(choice.rate, 1, choice.rate <= 12, choice.is_sample);
            choice.is_sample
        });
        assert!(samples.count().abs_diff(wanted) <= 2);
    }
}

#[test]
fn where_a_fifth_of_all_tries_is_lost_units_stay_at_fast_rates() {
    let mut rates = RateControl::common(&ALL, &ALL).unwrap();
    let mut draw = 1u64;
    let mut fast = 0;
    for unit in 0..2000 {
        let choice = rates.next(millis(10 * unit), false);
        let tries = (1..=choice.retries + 1).find(|_| {
            draw = draw.wrapping_mul(6_364_136_223_846_793_005).wrapping_add(1_442_695_040_888_963_407);
            (draw >> 33) % 5 != 0
        });
        rates.reported(choice.rate, tries.unwrap_or(choice.retries + 1), tries.is_some(), choice.is_sample);
        fast += u32::from(choice.rate >= 72);
    }
    assert!(fast > 1900, "{fast}");
}

#[test]
fn a_station_that_is_gone_is_tried_less() {
    let mut rates = RateControl::common(&ALL, &ALL).unwrap();
    let choices = send(&mut rates, 20, 0, 0);
    let last = choices[19];
    assert_eq!(last, Choice { rate: 2, retries: GONE_RETRIES, is_sample: false });
    rates.reported(2, 1, true, false);
    assert_eq!(rates.plainly().retries, MOST_RETRIES);
}

#[test]
fn a_lost_unit_goes_once_more_at_6_and_after_another_loss_at_1() {
    let mut rates = RateControl::common(&ALL, &ALL).unwrap();
    send(&mut rates, 100, 0, 108);
    rates.reported(108, 8, false, false);
    assert_eq!(rates.once_more(108).rate, 12);
    assert_eq!([12, 22, 2].map(|lost_at| rates.once_more(lost_at).rate), [2, 2, 2]);
    rates.reported(12, 8, false, false);
    assert_eq!(rates.once_more(108).rate, 2);
    rates.reported(2, 1, true, false);
    assert_eq!(rates.once_more(108).rate, 2);
    rates.reported(24, 2, false, true);
    assert_eq!(rates.once_more(24).rate, 2);
    let mut spread = RateControl::common(&ALL[..4], &ALL).unwrap();
    spread.reported(22, 8, false, false);
    assert_eq!(spread.once_more(22).rate, 2);
}

#[test]
fn units_come_through_surely_where_hardly_a_try_is_lost() {
    let mut rates = RateControl::common(&ALL, &ALL).unwrap();
    assert!(rates.are_sure());
    (0..40).for_each(|_| rates.reported(2, 1, true, false));
    assert!(rates.are_sure());
    rates.reported(2, 2, true, false);
    assert!(!rates.are_sure());
    (0..8).for_each(|_| rates.reported(2, 1, true, false));
    assert!(rates.are_sure());
    rates.reported(2, 7, false, false);
    assert!(!rates.are_sure());
}

/// Half of the tries are lost: some in a row that all come through don't make the air a good one.
#[test]
fn a_row_of_luck_on_an_air_that_loses_much_is_not_taken_for_sure() {
    let mut rates = RateControl::common(&ALL, &ALL).unwrap();
    (0..30).for_each(|_| rates.reported(2, 2, true, false));
    (0..20).for_each(|_| rates.reported(2, 1, true, false));
    assert!(!rates.are_sure());
    (0..40).for_each(|_| rates.reported(2, 1, true, false));
    assert!(rates.are_sure());
}

#[test]
fn what_is_told_of_a_rate_that_it_has_not_changes_nothing() {
    let mut rates = RateControl::common(&[2, 4], &ALL).unwrap();
    rates.reported(108, 8, false, false);
    assert_eq!(rates.plainly(), Choice { rate: 2, retries: MOST_RETRIES, is_sample: false });
}

#[test]
fn shares_weigh_newer_tries_more() {
    let good = Known::Share(1.0);
    assert_eq!(good.after(1, true), good);
    assert!(good.after(3, true).share() < 0.8);
    assert_eq!(good.after(8, false), Known::Share(0.0));
    assert_eq!(Known::Untried.after(2, true), Known::Share(0.5));
    assert_eq!(Known::Share(0.0).after(1, true), good);
}

use super::*;
use crate::formats::ethernet::update;
use crate::formats::frames::Frame;
use crate::formats::radiotap::{Outcome, Reception};
use crate::os::clock::MILLISECOND;
use crate::stations::own_frames::{mode_of_station, null};
use crate::testing::samples::{at, made_up, Unit, OTHER, OURS, STATION, STRANGER};

const MEMBER: Member = (1, STATION);
/// When the station was associated.
const JOINED: Duration = SECOND;

/// The stations of two networks, the second of which has one that is associated.
struct Site {
    table: StationTable,
    roaming: Roaming,
}

impl Site {
    fn new() -> Site {
        let mut table = StationTable::new(vec![OTHER, OURS]);
        table.associate(MEMBER, 1, at(JOINED));
        Site { table, roaming: Roaming::new(2) }
    }

    fn with_many(number: usize) -> (Site, Vec<Member>) {
        let mut site = Site::new();
        let members: Vec<Member> = (0..number).map(|number| (1, made_up(number))).collect();
        members.iter().zip(1..).for_each(|(member, aid)| site.table.associate(*member, aid, at(JOINED)));
        (site, members)
    }

    fn hint(&mut self, member: Member, frame: &[u8], now: Instant) -> Option<Step> {
        let station = self.table.station(&member).unwrap();
        self.roaming.hint(member, station, frame, true, now)
    }

    fn look(&mut self, now: Instant) -> Vec<Step> {
        self.roaming.look(&self.table, now)
    }

    fn is_heard(&mut self, now: Instant) {
        let null = mode_of_station(OURS, STATION, false);
        self.table.heard(Frame::of(&null).unwrap(), Reception::default(), now);
    }

    /// The station acknowledges a question.
    fn acknowledges(&mut self, now: Instant) {
        let outcome = Outcome { is_acknowledged: true, retries: 0, rate: None };
        self.table.reported(&null(OURS, STATION, 1), outcome, false, now);
    }
}

/// A frame from the station to a host.
fn frame() -> Vec<u8> {
    [STRANGER.octets(), STATION.octets(), &[8, 0, 1][..]].concat()
}

#[test]
fn by_an_update_a_quiet_station_moves_at_once() {
    let mut site = Site::new();
    assert_eq!(site.hint(MEMBER, &update(STATION), at(2 * SECOND)), Some(Step::Move(MEMBER)));
    assert_eq!(site.look(at(60 * SECOND)), []);
}

/// What was heard before the update says nothing of where the station is now.
#[test]
fn one_that_was_just_heard_is_asked_and_moves_soon_if_it_is_silent() {
    let mut site = Site::new();
    let now = at(5 * SECOND);
    site.is_heard(now);
    assert_eq!(site.hint(MEMBER, &update(STATION), now + MILLISECOND), Some(Step::Ask(MEMBER)));
    let until = now + MILLISECOND + TO_ACKNOWLEDGE;
    assert_eq!((site.roaming.look_due(), site.look(until - MILLISECOND)), (until, vec![]));
    assert_eq!(site.look(until), [Step::Move(MEMBER)]);
    assert_eq!((site.roaming.look_due(), site.look(at(60 * SECOND))), (Instant::NEVER, vec![]));
}

#[test]
fn one_that_was_just_heard_stays_if_a_frame_of_it_is_heard_again() {
    for heard_again in [TO_ACKNOWLEDGE, TO_ACKNOWLEDGE + MILLISECOND, QUIET] {
        let mut site = Site::new();
        let now = at(5 * SECOND);
        site.is_heard(now);
        assert_eq!(site.hint(MEMBER, &update(STATION), now), Some(Step::Ask(MEMBER)));
        site.acknowledges(now + MILLISECOND);
        site.look(now + TO_ACKNOWLEDGE - MILLISECOND);
        let steps = if heard_again > TO_ACKNOWLEDGE { site.look(now + TO_ACKNOWLEDGE) } else { vec![] };
        site.is_heard(now + heard_again);
        assert_eq!((steps, site.look(now + QUIET), site.look(at(60 * SECOND))), (vec![], vec![], vec![]));
    }
}

/// On one channel a station acknowledges what the old access point sends, though it has moved.
#[test]
fn one_that_was_just_heard_and_only_acknowledges_moves_a_little_later() {
    let mut site = Site::new();
    let now = at(5 * SECOND);
    site.is_heard(now);
    assert_eq!(site.hint(MEMBER, &update(STATION), now), Some(Step::Ask(MEMBER)));
    (1..9).for_each(|tenth| site.acknowledges(now + MILLISECOND * 10 * tenth));
    assert_eq!((site.look(now + TO_ACKNOWLEDGE), site.look(now + QUIET - MILLISECOND)), (vec![], vec![]));
    assert_eq!(site.look(now + QUIET), [Step::Move(MEMBER)]);
}

/// It may listen at its next beacon alone, so it has no time to answer.
#[test]
fn one_that_was_just_heard_and_dozes_is_not_asked_and_moves_once_it_was_quiet() {
    for is_heard_again in [false, true] {
        let mut site = Site::new();
        let (now, later) = (at(5 * SECOND), MILLISECOND * 10);
        site.is_heard(now);
        site.table.fed(&mode_of_station(OURS, STATION, true), now);
        assert_eq!(site.hint(MEMBER, &update(STATION), now + later), None);
        if is_heard_again {
            site.is_heard(now + later + MILLISECOND);
        }
        let wanted = if is_heard_again { vec![] } else { vec![Step::Move(MEMBER)] };
        assert_eq!((site.look(now + QUIET - MILLISECOND), site.look(now + QUIET)), (vec![], wanted));
    }
}

/// A stranger on the wire throws out no station that sends often, however often he claims it. One that sends seldom he
/// throws out at most once in ten seconds.
#[test]
fn a_stranger_throws_out_no_station_that_sends_often() {
    for (between, most) in [(50, 0), (90, 0), (1000, 6)] {
        let mut site = Site::new();
        let mut moves = 0;
        site.is_heard(at(2 * SECOND));
        for millisecond in (2000..62_000u32).step_by(5) {
            let now = at(MILLISECOND * millisecond);
            let mut steps = site.look(now);
            if millisecond % between == 0 {
                site.is_heard(now);
            }
            if millisecond % 100 == 35 {
                steps.extend(site.hint(MEMBER, &update(STATION), now));
            }
            for step in steps {
                match step {
                    Step::Ask(_) => site.acknowledges(now + MILLISECOND),
                    Step::Move(_) => {
                        moves += 1;
                        site.table.associate(MEMBER, 1, now);
                    }
                    Step::AskByUnit(_) => unreachable!("it doesn't doze"),
                    Step::Stay(_) => {}
                }
            }
        }
        assert!(moves <= most && (most == 0 || moves > 0), "{between}: {moves}");
    }
}

/// What is sent by the station that comes here may still be on its way on the wire, or come back.
#[test]
fn by_an_update_soon_after_it_joined_it_is_only_asked() {
    let mut site = Site::new();
    site.roaming.put(1, &update(STATION), at(JOINED));
    let now = JOINED + TO_SETTLE - MILLISECOND;
    assert_eq!(site.hint(MEMBER, &update(STATION), at(now)), Some(Step::Ask(MEMBER)));
    assert_eq!(site.look(at(now + TO_ANSWER - MILLISECOND)), []);
    assert_eq!(site.look(at(now + TO_ANSWER)), [Step::Move(MEMBER)]);
}

#[test]
fn by_any_other_frame_it_is_asked_once_and_moves_if_it_is_silent() {
    let mut site = Site::new();
    let now = 10 * SECOND;
    assert_eq!(site.hint(MEMBER, &frame(), at(now)), Some(Step::Ask(MEMBER)));
    assert_eq!(site.hint(MEMBER, &frame(), at(now + MILLISECOND)), None);
    assert_eq!(site.look(at(now + TO_ANSWER - MILLISECOND)), []);
    assert_eq!(site.look(at(now + TO_ANSWER)), [Step::Move(MEMBER)]);
}

#[test]
fn an_update_says_more_than_the_frame_for_which_it_was_asked() {
    let mut site = Site::new();
    assert_eq!(site.hint(MEMBER, &frame(), at(10 * SECOND)), Some(Step::Ask(MEMBER)));
    assert_eq!(site.hint(MEMBER, &update(STATION), at(10 * SECOND + MILLISECOND)), Some(Step::Move(MEMBER)));
    assert_eq!(site.look(at(60 * SECOND)), []);
}

#[test]
fn one_that_answers_stays_and_may_be_asked_again() {
    let mut site = Site::new();
    for second in [10, 20] {
        assert_eq!(site.hint(MEMBER, &frame(), at(second * SECOND)), Some(Step::Ask(MEMBER)));
        site.is_heard(at(second * SECOND + MILLISECOND));
        assert_eq!(site.look(at((second + 1) * SECOND)), []);
    }
}

#[test]
fn one_that_dozes_is_asked_by_a_unit_and_has_longer() {
    let mut site = Site::new();
    let dozes = mode_of_station(OURS, STATION, true);
    site.table.fed(&dozes, at(2 * SECOND));
    assert_eq!(site.hint(MEMBER, &frame(), at(10 * SECOND)), Some(Step::AskByUnit(MEMBER)));
    assert_eq!(site.look(at(14 * SECOND)), []);
    assert_eq!(site.look(at(15 * SECOND)), [Step::Move(MEMBER)]);
}

#[test]
fn an_echo_is_no_hint() {
    let mut site = Site::new();
    site.roaming.put(1, &frame(), at(10 * SECOND));
    assert_eq!(site.hint(MEMBER, &frame(), at(11 * SECOND)), None);
    assert_eq!(site.hint(MEMBER, &frame(), at(11 * SECOND + MILLISECOND)), Some(Step::Ask(MEMBER)));
    // On the other network's wire it is none.
    let mut site = Site::new();
    site.roaming.put(0, &frame(), at(10 * SECOND));
    assert_eq!(site.hint(MEMBER, &frame(), at(10 * SECOND)), Some(Step::Ask(MEMBER)));
}

/// A radio that tells of no acknowledgement can't show that a station is here.
#[test]
fn where_no_answer_would_be_told_nobody_is_asked() {
    let mut site = Site::new();
    let station = site.table.station(&MEMBER).unwrap();
    assert_eq!(site.roaming.hint(MEMBER, station, &frame(), false, at(10 * SECOND)), None);
    let step = site.roaming.hint(MEMBER, station, &update(STATION), false, at(10 * SECOND));
    assert_eq!(step, Some(Step::Move(MEMBER)));
    let mut site = Site::new();
    site.is_heard(at(10 * SECOND));
    let station = site.table.station(&MEMBER).unwrap();
    assert_eq!(site.roaming.hint(MEMBER, station, &update(STATION), false, at(10 * SECOND + MILLISECOND)), None);
    assert_eq!(site.look(at(10 * SECOND + QUIET)), [Step::Move(MEMBER)]);
}

#[test]
fn one_that_left_or_joined_anew_is_awaited_no_more() {
    let mut site = Site::new();
    assert_eq!(site.hint(MEMBER, &frame(), at(10 * SECOND)), Some(Step::Ask(MEMBER)));
    site.table.associate(MEMBER, 1, at(10 * SECOND + MILLISECOND));
    assert_eq!(site.look(at(60 * SECOND)), []);
    assert_eq!(site.hint(MEMBER, &frame(), at(70 * SECOND)), Some(Step::Ask(MEMBER)));
    site.table.take_out(MEMBER);
    assert_eq!(site.look(at(80 * SECOND)), []);
}

/// It came back and is shown elsewhere again: one that answers stays, however often the wire claims it.
#[test]
fn unasked_it_moves_once_in_ten_seconds_and_stays_if_it_answers_which_is_told_once() {
    let mut site = Site::new();
    assert_eq!(site.hint(MEMBER, &update(STATION), at(10 * SECOND)), Some(Step::Move(MEMBER)));
    site.table.associate(MEMBER, 1, at(11 * SECOND));
    for (second, told) in [(13, vec![Step::Stay(MEMBER)]), (15, vec![]), (17, vec![])] {
        let now = second * SECOND;
        assert_eq!(site.hint(MEMBER, &update(STATION), at(now)), Some(Step::Ask(MEMBER)));
        assert_eq!(site.hint(MEMBER, &update(STATION), at(now)), None);
        site.is_heard(at(now + MILLISECOND));
        assert_eq!(site.look(at(now + TO_ANSWER_TO_UPDATE - MILLISECOND)), []);
        assert_eq!(site.look(at(now + TO_ANSWER_TO_UPDATE)), told);
    }
    assert_eq!(site.hint(MEMBER, &update(STATION), at(20 * SECOND)), Some(Step::Move(MEMBER)));
}

/// A station that roams to and fro is let go soon after each roam away from here.
#[test]
fn one_that_roams_again_within_ten_seconds_moves_if_it_is_silent() {
    let mut site = Site::new();
    for second in [10, 16, 22, 28] {
        site.table.associate(MEMBER, 1, at((second - 3) * SECOND));
        let now = second * SECOND;
        let step = site.hint(MEMBER, &update(STATION), at(now));
        let was_asked = step == Some(Step::Ask(MEMBER));
        assert_eq!(was_asked, second > 10, "{second}");
        let steps: Vec<Step> = step.into_iter().chain(site.look(at(now + TO_ANSWER_TO_UPDATE))).collect();
        assert_eq!(steps.last(), Some(&Step::Move(MEMBER)), "{second}");
    }
}

/// If many roam to and fro at once, each is asked in its turn.
#[test]
fn many_that_roam_again_at_once_are_asked_one_after_the_other() {
    let (mut site, members) = Site::with_many(8);
    for member in &members {
        assert_eq!(site.hint(*member, &update(member.1), at(10 * SECOND)), Some(Step::Move(*member)));
        site.table.associate(*member, 1, at(11 * SECOND));
    }
    let begin = 14 * SECOND;
    let asked = members.iter().filter_map(|member| site.hint(*member, &update(member.1), at(begin))).count();
    assert_eq!(asked, 2);
    let mut steps = Vec::new();
    for milliseconds in (0..=1200).step_by(20) {
        steps.extend(site.look(at(begin + Duration::from_millis(milliseconds))));
    }
    for member in &members {
        assert_eq!(steps.iter().filter(|step| **step == Step::Move(*member)).count(), 1, "{member:?}");
    }
    assert_eq!(steps.iter().filter(|step| matches!(step, Step::Ask(_))).count(), members.len() - asked);
}

/// One that was heard before its turn came isn't asked any more.
#[test]
fn one_that_waits_to_be_asked_and_is_heard_stays() {
    let (mut site, members) = Site::with_many(2);
    for member in members.iter().chain([&MEMBER]) {
        assert_eq!(site.hint(*member, &update(member.1), at(10 * SECOND)), Some(Step::Move(*member)));
        site.table.associate(*member, 1, at(11 * SECOND));
    }
    let now = 14 * SECOND;
    for (member, wanted) in members.iter().map(|member| (*member, Some(Step::Ask(*member)))).chain([(MEMBER, None)]) {
        assert_eq!(site.hint(member, &update(member.1), at(now)), wanted);
    }
    site.is_heard(at(now + MILLISECOND));
    assert_eq!(site.look(at(now + 2 * ASKED_IN)), [Step::Stay(MEMBER)]);
}

#[test]
fn where_no_answer_would_be_told_a_second_update_is_only_told_of_once() {
    let mut site = Site::new();
    assert_eq!(site.hint(MEMBER, &update(STATION), at(10 * SECOND)), Some(Step::Move(MEMBER)));
    site.table.associate(MEMBER, 1, at(11 * SECOND));
    let station = site.table.station(&MEMBER).unwrap();
    for (second, told) in [(13, Some(Step::Stay(MEMBER))), (14, None), (20, Some(Step::Move(MEMBER)))] {
        let step = site.roaming.hint(MEMBER, station, &update(STATION), false, at(second * SECOND));
        assert_eq!(step, told, "{second}");
    }
}

#[test]
fn few_are_asked_at_a_time() {
    let (mut site, members) = Site::with_many(8);
    let from = |member: &Member| [STRANGER.octets(), member.1.octets(), &[8, 0, 1][..]].concat();
    let mut asked = |time| members.iter().filter_map(|member| site.hint(*member, &from(member), at(time))).count();
    let begin = 10 * SECOND;
    assert_eq!([begin, begin + 2 * ASKED_IN - MILLISECOND, begin + 2 * ASKED_IN].map(&mut asked), [2, 0, 2]);
}

/// How many stations each of sixteen networks asks in 3.2 seconds, if the wires of these bring frames of all of theirs.
fn asked_of_sixteen(claimed: std::ops::Range<usize>) -> Vec<usize> {
    let bssids = (0..16).map(|place| Address::of([2, 0, 0, 0, 2, place])).collect();
    let (mut table, mut roaming) = (StationTable::new(bssids), Roaming::new(16));
    let members: Vec<Member> = claimed.flat_map(|place| (0..32).map(move |number| (place, made_up(number)))).collect();
    members.iter().zip(1..).for_each(|(member, aid)| table.associate(*member, aid, at(JOINED)));
    let mut asked = vec![0; 16];
    for tenth in 0..320u32 {
        let now = at(10 * SECOND + MILLISECOND * 10 * tenth);
        roaming.look(&table, now);
        for member in &members {
            let frame = [STRANGER.octets(), member.1.octets(), &[8, 0, 1][..]].concat();
            let step = roaming.hint(*member, table.station(member).unwrap(), &frame, true, now);
            asked[member.0] += usize::from(matches!(step, Some(Step::Ask(_))));
        }
    }
    asked
}

/// However many wires bring frames of stations, no more questions are on the air than those of one network alone, and
/// those of a network hang on no other one.
#[test]
fn all_networks_together_ask_as_many_as_one() {
    let of_one_alone = MOST_ASKED as usize * 32;
    let all = asked_of_sixteen(0..16);
    assert_eq!(all.iter().sum::<usize>(), of_one_alone);
    for place in [0, 7, 15] {
        let alone = asked_of_sixteen(place..place + 1);
        assert_eq!((alone[place], alone.iter().sum::<usize>()), (all[place], all[place]), "{place}");
    }
}

#[test]
fn few_are_awaited_at_a_time() {
    let (mut site, members) = Site::with_many(2 * MOST_AWAITED);
    for (_, address) in &members {
        let null = Unit { control: [0x48, 0x01], transmitter: *address, ..Unit::default() }.octets();
        site.table.heard(Frame::of(&null).unwrap(), Reception::default(), at(10 * SECOND));
    }
    let asked = members.iter().filter(|member| site.hint(**member, &update(member.1), at(10 * SECOND)).is_some());
    assert_eq!(asked.count(), MOST_ASKED as usize);
    assert_eq!(site.look(at(10 * SECOND + TO_ACKNOWLEDGE)).len(), MOST_ASKED as usize);
    assert_eq!(site.look(at(10 * SECOND + QUIET)).len(), MOST_AWAITED - MOST_ASKED as usize);
}

/// A station of the office goes over to another access point, of which its wire is told. It is let go in time, though
/// the wire of the guests claims so many of theirs that no more can be asked or awaited.
#[test]
fn what_the_wire_of_one_network_brings_keeps_no_station_of_another() {
    let office = (0, made_up(9999));
    let (mut site, guests) = Site::with_many(MOST_AWAITED + MOST_ASKED as usize);
    site.table.associate(office, 1, at(JOINED));
    // The guests, all of them one stranger's, move and are back, and are claimed again a second later.
    for (guest, aid) in guests.iter().zip(1..) {
        assert_eq!(site.hint(*guest, &update(guest.1), at(2 * SECOND)), Some(Step::Move(*guest)));
        site.table.associate(*guest, aid, at(2 * SECOND));
    }
    let now = at(3 * SECOND + 10 * MILLISECOND);
    let asked = guests.iter().filter(|guest| site.hint(**guest, &update(guest.1), now).is_some());
    assert_eq!(asked.count(), MOST_ASKED as usize);
    let null = mode_of_station(OTHER, office.1, false);
    site.table.heard(Frame::of(&null).unwrap(), Reception::default(), now);
    assert_eq!(site.hint(office, &update(office.1), now + MILLISECOND), Some(Step::Ask(office)));
    assert!(site.look(now + MILLISECOND + TO_ACKNOWLEDGE).contains(&Step::Move(office)));
}

/// Of what moved away from one network another one's moves make none forgotten: unasked a station moves once in ten
/// seconds all the same.
#[test]
fn moves_of_one_network_make_none_of_another_forgotten() {
    let office = (0, made_up(9999));
    let (mut site, guests) = Site::with_many(MOST_MOVES);
    site.table.associate(office, 1, at(JOINED));
    assert_eq!(site.hint(office, &update(office.1), at(2 * SECOND)), Some(Step::Move(office)));
    for guest in &guests {
        assert_eq!(site.hint(*guest, &update(guest.1), at(2 * SECOND)), Some(Step::Move(*guest)));
    }
    site.table.associate(office, 1, at(2 * SECOND));
    assert_eq!(site.hint(office, &update(office.1), at(4 * SECOND)), Some(Step::Ask(office)));
}

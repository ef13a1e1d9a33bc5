//! A state is written, read and chosen.
use super::*;

#[test]
fn a_state_is_read_as_it_is_written() {
    let text = sample().text();
    assert_eq!(State::read(&text), Some(sample()));
    let lines = String::from_utf8(text).unwrap();
    assert!(lines.starts_with("state 1 written 70000000000 last 1 channel 6 interval 100 phy phy0\n"), "{lines}");
    assert!(lines.contains("\nnetwork 02:00:00:00:01:01 6c6162 82 3 2\nstation 02:aa:00:00:01:07 2 7 0 0 0000"));
    assert!(lines.contains("\nnetwork 02:00:00:00:01:02 6c6162 82 - 2\nsum "), "{lines}");
}

#[test]
fn a_state_that_was_changed_or_cut_is_damaged() {
    let text = sample().text();
    for place in 0..text.len() {
        assert_eq!(State::read(&text[..place]), None, "{place}");
        let mut changed = text.clone();
        changed[place] ^= 1;
        assert_eq!(State::read(&changed), None, "{place}");
    }
    assert_eq!(State::read(&[&text[..], b"\n"].concat()), None);
}

/// What can't be is damaged, also if the sum is right.
#[test]
fn a_state_that_says_what_can_t_be_is_damaged() {
    let good = sample();
    let mut wrong: Vec<State> = (0..9).map(|_| good.clone()).collect();
    wrong[0].networks[0].stations.swap(0, 1);
    wrong[1].networks[0].stations[1].aid = 2;
    wrong[2].networks[0].stations[1].aid = 2008;
    wrong[3].networks[0].stations[0].aid = 0;
    wrong[4].networks[0].stations[0].listen = 8;
    wrong[5].networks[0].stations[0].address = STRANGER;
    wrong[6].networks[0].stations[0].request[0] = 0xb0;
    wrong[7].networks[1].stations = good.networks[0].stations.clone();
    wrong[8].networks[0].stations[0].request[9] ^= 1;
    wrong.iter().enumerate().for_each(|(number, state)| assert_eq!(State::read(&state.text()), None, "{number}"));
    let mut twice = good;
    twice.networks[0].stations[1] = KeptStation { aid: 3, ..twice.networks[0].stations[0].clone() };
    assert_eq!(State::read(&twice.text()), None);
}

#[test]
fn the_newest_whole_state_of_this_radio_is_chosen() {
    let (old, new) = (sample(), State { written: at(75 * SECOND), is_last: false, ..sample() });
    let chosen = |texts: &[Vec<u8>], now| choose(texts, &setting(), now);
    assert_eq!(chosen(&[vec![], vec![]], Instant::START), Ok(None));
    for (place, texts) in [(1, [old.text(), new.text()]), (0, [new.text(), old.text()])] {
        assert_eq!(chosen(&texts, at(80 * SECOND)), Ok(Some((place, new.clone()))));
    }
    let cut = new.text()[..40].to_vec();
    assert_eq!(chosen(&[old.text(), cut.clone()], at(80 * SECOND)), Ok(Some((0, old.clone()))));
    assert_eq!(chosen(&[cut, vec![]], at(80 * SECOND)), Err(NotUsed::Damaged));
    assert_eq!(chosen(&[old.text(), vec![]], at(130 * SECOND)), Ok(Some((0, old.clone()))));
    for time in [130 * SECOND + NANOSECOND, 70 * SECOND - NANOSECOND] {
        assert_eq!(chosen(&[old.text(), vec![]], at(time)), Err(NotUsed::Old), "{time:?}");
    }
    for (setting, reason) in [
        (Setting { phy: "phy1".into(), ..setting() }, NotUsed::OtherRadio),
        (Setting { channel: 7, ..setting() }, NotUsed::OtherConfiguration),
        (Setting { interval: 99, ..setting() }, NotUsed::OtherConfiguration),
    ] {
        assert_eq!(choose(&[old.text()], &setting, at(80 * SECOND)), Err(reason));
    }
}

#[test]
fn units_that_were_kept_are_told_as_lost() {
    for (units, waiting, told) in [
        (Some(0), 2, None),
        (Some(3), 2, Some("3 units that 02:00:00:00:01:01 kept for stations are lost")),
        (None, 2, Some("the units that 02:00:00:00:01:01 kept for 2 stations are lost")),
        (None, 0, None),
    ] {
        let network = NetworkState { units, waiting, ..of_network(&network(OURS), Vec::new()) };
        assert_eq!(network.lost_units().as_deref(), told);
    }
}

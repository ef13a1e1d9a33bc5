use super::*;
use crate::control::status::tests::{line_of_whole, Known};
use crate::testing::samples::{at, NANOSECOND};

fn text_of(line: Option<Line>) -> String {
    line.map(|line| line.text().to_owned()).unwrap_or_default()
}

/// Each step adds a network, and what is there then is the document as a whole.
#[test]
fn it_is_made_in_steps() {
    let (known, mut line) = (Known::of_two_networks(), StatusLine::default());
    for _ in 0..2 {
        line.step(&known.status(at(SECOND)));
        assert!(line.is_being_made() && line.line(at(SECOND)).is_none());
    }
    line.step(&known.status(at(SECOND)));
    assert!(!line.is_being_made());
    assert_eq!(text_of(line.line(at(SECOND))), line_of_whole(&known.status(at(SECOND))) + "\n");
}

/// Of full tables, as strangers make them, a step lists few stations; all steps together list as many as are listed.
#[test]
fn of_full_tables_few_stations_are_put_in_a_step() {
    const KNOWN: usize = 9000;
    let (known, mut line) = (Known::with_stations(16, KNOWN, 1500), StatusLine::default());
    let (mut before, mut listed, mut steps) = (0, 0, 0);
    while line.line(at(SECOND)).is_none() {
        line.step(&known.status(at(SECOND)));
        steps += 1;
        let made = line.made.as_ref().map(|(_, made)| made.text());
        let text = line.begun.as_ref().map(|begun| &begun.text[..]).or(made).unwrap();
        let put = text[before..].matches(r#""state":"#).count();
        assert!(put <= STATIONS, "{put}");
        (before, listed) = (text.len(), listed + put);
    }
    assert_eq!((listed, steps), (16 * 1000, 1 + 16 * 1000 / STATIONS));
    assert_eq!(text_of(line.line(at(SECOND))), line_of_whole(&known.status(at(SECOND))) + "\n");
}

#[test]
fn it_serves_whoever_asks_within_a_second() {
    let (known, mut line) = (Known::of_two_networks(), StatusLine::default());
    (0..3).for_each(|_| line.step(&known.status(at(SECOND))));
    let first = text_of(line.line(at(2 * SECOND - NANOSECOND)));
    assert!(first.contains(r#""since":1.000,"#) && line.line(at(2 * SECOND)).is_none(), "{first}");
    (0..3).for_each(|_| line.step(&known.status(at(3 * SECOND))));
    assert!(text_of(line.line(at(3 * SECOND))).contains(r#""since":3.000,"#));
}

//! Which frames and acknowledgements are lost: rules, of which the last one that speaks of a frame decides.

use std::fmt;
use std::str::FromStr;

use crate::frame::Kind;
use crate::rate::Rate;

/// A radio of the simulation, by its number.
#[derive(Clone, Copy, Debug, PartialEq, Eq, PartialOrd, Ord, Hash)]
pub struct Radio(pub u16);

impl fmt::Display for Radio {
    fn fmt(&self, out: &mut fmt::Formatter<'_>) -> fmt::Result {
        self.0.fmt(out)
    }
}

impl FromStr for Radio {
    type Err = String;

    fn from_str(word: &str) -> Result<Radio, String> {
        word.parse().map(Radio).map_err(|_| format!("{word} is no number of a radio"))
    }
}

/// What is lost: a frame on its way, or the acknowledgement to it on the way back.
#[derive(Clone, Copy, Debug, PartialEq, Eq)]
pub enum Lost {
    Frames,
    Acknowledgements,
}

/// One try to send a frame, as one radio may hear it.
#[derive(Clone, Copy, Debug)]
pub struct Try {
    pub from: Radio,
    pub to: Radio,
    pub rate: Rate,
    pub kind: Kind,
}

#[derive(Clone, Copy, Debug, PartialEq)]
enum Rates {
    All,
    Only(Rate),
    Above(Rate),
}

/// A share of what is lost, of those frames that it speaks of; for an acknowledgement `from` and `to` are those of the
/// frame that it answers.
#[derive(Clone, Copy, Debug, PartialEq)]
pub struct Rule {
    lost: Lost,
    share: f64,
    kind: Option<Kind>,
    from: Option<Radio>,
    to: Option<Radio>,
    rates: Rates,
}

impl Rule {
    fn speaks_of(&self, lost: Lost, one: Try) -> bool {
        let rate = match self.rates {
            Rates::All => true,
            Rates::Only(rate) => one.rate == rate,
            Rates::Above(rate) => one.rate > rate,
        };
        self.lost == lost
            && rate
            && self.kind.map_or(true, |kind| kind == one.kind)
            && self.from.map_or(true, |from| from == one.from)
            && self.to.map_or(true, |to| to == one.to)
    }
}

/// Reads `frames|acknowledgements SHARE% [of KIND] [from RADIO] [to RADIO] [at RATE|above RATE]`.
impl FromStr for Rule {
    type Err = String;

    fn from_str(text: &str) -> Result<Rule, String> {
        let mut words = text.split_whitespace();
        let lost = match words.next() {
            Some("frames") => Lost::Frames,
            Some("acknowledgements") => Lost::Acknowledgements,
            _ => return Err("a rule begins with `frames` or `acknowledgements`".to_owned()),
        };
        let share = words.next().and_then(read_share).ok_or("then comes the share, as `20%`")?;
        let mut rule = Rule { lost, share, kind: None, from: None, to: None, rates: Rates::All };
        while let Some(word) = words.next() {
            let value = words.next().ok_or_else(|| format!("something has to follow `{word}`"))?;
            match word {
                "of" => rule.kind = Some(value.parse()?),
                "from" => rule.from = Some(value.parse()?),
                "to" => rule.to = Some(value.parse()?),
                "at" => rule.rates = Rates::Only(value.parse()?),
                "above" => rule.rates = Rates::Above(value.parse()?),
                _ => return Err(format!("no rule has the word `{word}`")),
            }
        }
        Ok(rule)
    }
}

fn read_share(word: &str) -> Option<f64> {
    let percent: f64 = word.strip_suffix('%')?.parse().ok()?;
    (0.0..=100.0).contains(&percent).then_some(percent / 100.0)
}

/// The rules in order; if none speaks of a frame it isn't lost.
#[derive(Debug, Default)]
pub struct Rules(Vec<Rule>);

impl Rules {
    pub fn add(&mut self, rule: Rule) {
        self.0.push(rule);
    }

    pub fn clear(&mut self) {
        self.0.clear();
    }

    /// The share of such tries in which this is lost, from 0 to 1.
    pub fn share(&self, lost: Lost, one: Try) -> f64 {
        self.0.iter().rev().find(|rule| rule.speaks_of(lost, one)).map_or(0.0, |rule| rule.share)
    }
}

#[cfg(test)]
mod tests {
    use super::*;

    fn rules(texts: &[&str]) -> Rules {
        Rules(texts.iter().map(|text| text.parse().unwrap()).collect())
    }

    fn one(from: u16, to: u16, rate: &str, kind: Kind) -> Try {
        Try { from: Radio(from), to: Radio(to), rate: rate.parse().unwrap(), kind }
    }

    #[test]
    fn the_last_rule_that_speaks_of_a_frame_decides() {
        let rules = rules(&["frames 20%", "frames 100% to 2 above 6", "frames 0% of beacon", "frames 5% from 3 at 54"]);
        assert_eq!(rules.share(Lost::Frames, one(0, 1, "54", Kind::Data)), 0.2);
        assert_eq!(rules.share(Lost::Frames, one(0, 2, "9", Kind::Data)), 1.0);
        assert_eq!(rules.share(Lost::Frames, one(0, 2, "6", Kind::Data)), 0.2);
        assert_eq!(rules.share(Lost::Frames, one(0, 2, "11", Kind::Beacon)), 0.0);
        assert_eq!(rules.share(Lost::Frames, one(3, 2, "54", Kind::Data)), 0.05);
        assert_eq!(rules.share(Lost::Acknowledgements, one(0, 2, "54", Kind::Data)), 0.0);
    }

    #[test]
    fn acknowledgements_have_rules_of_their_own() {
        let rules = rules(&["acknowledgements 100% of authentication from 2 to 0"]);
        let lost = one(2, 0, "1", Kind::Authentication);
        assert_eq!(rules.share(Lost::Acknowledgements, lost), 1.0);
        assert_eq!(rules.share(Lost::Frames, lost), 0.0);
        assert_eq!(rules.share(Lost::Acknowledgements, one(0, 2, "1", Kind::Authentication)), 0.0);
    }

    #[test]
    fn what_is_no_rule_is_refused() {
        for text in [
            "",
            "frames",
            "frames 20",
            "frames 120%",
            "frames x%",
            "acks 20%",
            "frames 20% to",
            "frames 20% to x",
            "frames 20% at 7",
            "frames 20% of poll",
            "frames 20% near 2",
        ] {
            assert!(text.parse::<Rule>().is_err(), "{text}");
        }
    }
}

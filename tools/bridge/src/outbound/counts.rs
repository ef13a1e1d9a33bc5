//! Counts with their names, for people.
use std::collections::BTreeMap;
use std::io::{self, ErrorKind};

use crate::control::faults::{reason, tell};

pub type Counts = BTreeMap<String, u64>;

pub fn count(counts: &mut Counts, what: &str, number: u64) {
    match counts.get_mut(what) {
        Some(found) => *found += number,
        None => {
            counts.insert(what.to_owned(), number);
        }
    }
}

/// What an interface refused, by the fault that it gave: each is put into words once.
#[derive(Debug, Default)]
pub struct Refused(Vec<Refusal>);

#[derive(Debug)]
struct Refusal {
    fault: (ErrorKind, Option<i32>),
    /// What people call it.
    what: String,
    frames: u64,
}

impl Refused {
    /// A frame of so many octets was refused: it is counted, and told if it is the first one.
    pub fn count(&mut self, interface: &str, octets: usize, fault: &io::Error) {
        let known = (fault.kind(), fault.raw_os_error());
        if let Some(found) = self.0.iter_mut().find(|refusal| refusal.fault == known) {
            found.frames += 1;
            return;
        }
        let what = format!("refused by {interface}: {}", reason(fault));
        tell(format!("a frame of {octets} octets was {what}; more of them are counted"));
        self.0.push(Refusal { fault: known, what, frames: 1 });
    }

    pub fn add_to(&self, counts: &mut Counts) {
        self.0.iter().for_each(|refusal| count(counts, &refusal.what, refusal.frames));
    }
}

#[cfg(test)]
mod tests {
    use super::*;

    #[test]
    fn frames_are_counted_by_the_fault_and_each_is_put_into_words_once() {
        let (down, long) = (io::Error::from_raw_os_error(libc::ENETDOWN), io::Error::from_raw_os_error(libc::EMSGSIZE));
        let (mut refused, mut counts) = (Refused::default(), Counts::new());
        refused.count("mon0", 40, &down);
        let words = refused.0[0].what.as_ptr();
        (0..1000).for_each(|_| refused.count("mon0", 40, &down));
        refused.count("mon0", 40, &long);
        assert_eq!((refused.0.len(), refused.0[0].what.as_ptr()), (2, words));
        refused.add_to(&mut counts);
        let wanted = [("refused by mon0: Message too long", 1), ("refused by mon0: Network is down", 1001)];
        assert_eq!(counts, wanted.map(|(what, number)| (what.to_owned(), number)).into());
    }
}

//! How often stations joined a network, left it and moved. Each time counts, also if the log and the events leave it
//! out.
use crate::control::events::Happened;
use crate::stations::news::{Forgotten, News};

/// What is counted of one network, since the bridge began.
#[derive(Debug, Clone, Copy, Default, PartialEq, Eq)]
pub struct Tally {
    /// How often a station associated.
    pub joins: u64,
    /// How often one of them was a station of another network of this radio too.
    pub moved_in: u64,
    /// How often a station said that it leaves.
    pub said: u64,
    /// How often one was forgotten that was silent and didn't answer.
    pub silent: u64,
    /// How often one was forgotten that had authenticated only, as the network was nearly full.
    pub unassociated: u64,
    /// How often one was forgotten since a person asked for it.
    pub kicked: u64,
    /// How often one was forgotten that the wire showed behind another access point.
    pub moved_out: u64,
    /// How often the wire showed one elsewhere again, so soon that it stayed.
    pub claims: u64,
}

impl Tally {
    /// Something happened in the network.
    pub(super) fn count(&mut self, happened: &Happened) {
        match happened {
            Happened::Moved { .. } => {
                self.joins += 1;
                self.moved_in += 1;
            }
            Happened::Station { news, .. } => self.count_news(*news),
            Happened::LeftOut { .. } | Happened::WireDown { .. } | Happened::WireUp { .. } => {}
        }
    }

    fn count_news(&mut self, news: News) {
        let counted = match news {
            News::Joins { .. } => &mut self.joins,
            News::Leaves { .. } => &mut self.said,
            News::Forgotten(Forgotten::Silent(_)) => &mut self.silent,
            News::Forgotten(Forgotten::Unassociated(_)) => &mut self.unassociated,
            News::Forgotten(Forgotten::Kicked) => &mut self.kicked,
            News::Forgotten(Forgotten::Moved) => &mut self.moved_out,
            News::Claimed => &mut self.claims,
            News::DozesTooLong { .. } | News::Refused { .. } | News::SentAway { .. } => return,
        };
        *counted += 1;
    }
}

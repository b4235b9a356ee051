//! Our library and the crate, given the same calls from fresh tables on.

use crate::calls::{Answer, Call};
use crate::compare::{same, Compared, Side, Tally};
use crate::crate_side::CrateSet;
use crate::library;
use crate::tables::Tables;

pub struct Pair {
    pub tables: Tables,
    crate_set: CrateSet,
    before: Tables,
    judged: Tables,
    pub tally: Tally,
}

impl Pair {
    pub fn fresh(area_words: usize, pages: usize) -> Pair {
        let tables = Tables::fresh(area_words, pages);
        Pair {
            crate_set: CrateSet::fresh(pages),
            before: tables.clone(),
            judged: tables.clone(),
            tables,
            tally: Tally::default(),
        }
    }

    /// Starts anew from fresh tables of the same size and makes calls that were compared before,
    /// so they are not counted again.
    pub fn replay(&mut self, calls: &[Call]) {
        let (area_words, pages) = (self.tables.areas.len(), self.tables.pages.len());
        self.tables = Tables::fresh(area_words, pages);
        self.crate_set = CrateSet::fresh(pages);
        for call in calls {
            library::perform(&mut self.tables, call);
            self.crate_set.perform(call);
        }
    }

    /// Makes a call on both sides and compares answer, count and every word of both tables.
    pub fn compare(&mut self, call: &Call) -> Compared<Answer> {
        self.before.copy_from(&self.tables);
        let answer = library::perform(&mut self.tables, call);
        let judged_answer = self.crate_set.perform(call);
        self.judged.copy_from(&self.before);
        self.crate_set.write_into(&mut self.judged);
        let judge = Side { name: "crate", answer: judged_answer, tables: &self.judged };
        let library = Side { name: "library", answer, tables: &self.tables };
        same(call, &self.before, judge, library)?;
        self.tally.count(call, &answer);
        Ok(answer)
    }
}

//! Our library and the model of document 01, given the same tables and the same calls.

use crate::calls::{Answer, Call};
use crate::compare::{same, Compared, Side, Tally};
use crate::tables::Tables;
use crate::{library, model};

#[derive(Default)]
pub struct Trial {
    pub tally: Tally,
}

impl Trial {
    /// Makes a call on the tables and compares answer, count and every word of both tables.
    pub fn compare(&mut self, tables: &mut Tables, call: &Call) -> Compared<Answer> {
        let before = tables.clone();
        let answer = library::perform(tables, call);
        let (judged_answer, judged) = model::perform(&before, call);
        let judge = Side { name: "model", answer: judged_answer, tables: &judged };
        let library = Side { name: "library", answer, tables };
        same(call, &before, judge, library)?;
        self.tally.count(call, &answer);
        Ok(answer)
    }
}

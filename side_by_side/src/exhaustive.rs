//! All there is to try in a very small space, on the shared ground.

use crate::calls::{number, Call, Mapping, Protection, Search};
use crate::compare::{Compared, Tally};
use crate::ground::departures;
use crate::pair::Pair;
use crate::tables::{Backend, PAGE, WORDS};
use std::collections::HashSet;

/// The frames start one page lower than the pages, so page 0 has none and a linear map of it fails.
const LINEAR: Backend = Backend::Linear(u32::MAX);

struct Explorer {
    pair: Pair,
    changes: Vec<Call>,
    questions: Vec<Call>,
}

/// All sequences of one to `length` changes, and after each of them all questions.
pub fn sequences(pages: u64, length: usize) -> Compared<Tally> {
    let mut explorer = Explorer::new(pages, &[(1, Backend::Lazy), (3, LINEAR)]);
    explorer.extend(&mut Vec::new(), length)?;
    Ok(explorer.pair.tally)
}

/// All changes and all questions in every state that any sequence of changes leads to.
pub fn states(pages: u64) -> Compared<Tally> {
    let kinds = [(1, Backend::Lazy), (3, Backend::Lazy), (1, LINEAR), (3, LINEAR)];
    let mut explorer = Explorer::new(pages, &kinds);
    explorer.visit_states()?;
    Ok(explorer.pair.tally)
}

impl Explorer {
    fn new(pages: u64, kinds: &[(u32, Backend)]) -> Explorer {
        // One slot stays unused, and the last word belongs to no slot.
        let area_words = WORDS * (pages as usize + 1) + 1;
        Explorer {
            pair: Pair::fresh(area_words, pages as usize),
            changes: changes(pages, kinds),
            questions: questions(pages),
        }
    }

    /// Tries each change after the sequence, and sequences that go on from there.
    fn extend(&mut self, sequence: &mut Vec<Call>, length: usize) -> Compared<()> {
        for change in self.changes.clone() {
            // A refusal leaves all as it was, so what follows it is tried without it.
            if !self.try_change(sequence, &change)? {
                continue;
            }
            self.ask_everything()?;
            if length > 1 {
                sequence.push(change);
                self.extend(sequence, length - 1)?;
                sequence.pop();
            }
        }
        Ok(())
    }

    /// Each state is kept with a sequence that leads to it, since the crate's set has no copies.
    fn visit_states(&mut self) -> Compared<()> {
        let mut seen = HashSet::from([self.pair.tables.clone()]);
        let mut ways: Vec<Vec<Call>> = vec![Vec::new()];
        let mut visited = 0;
        while let Some(way) = ways.get(visited).cloned() {
            self.pair.replay(&way);
            self.ask_everything()?;
            for change in self.changes.clone() {
                if self.try_change(&way, &change)? && seen.insert(self.pair.tables.clone()) {
                    ways.push([way.as_slice(), &[change]].concat());
                }
            }
            visited += 1;
        }
        Ok(())
    }

    /// Compares a change after a sequence, if it lies on the shared ground, and says whether it was
    /// accepted.
    fn try_change(&mut self, sequence: &[Call], change: &Call) -> Compared<bool> {
        self.pair.replay(sequence);
        if !departures(&self.pair.tables, change).is_empty() {
            return Ok(false);
        }
        let answer = self.pair.compare(change)?;
        Ok(answer.number == number::ACCEPTED)
    }

    fn ask_everything(&mut self) -> Compared<()> {
        for question in &self.questions {
            if departures(&self.pair.tables, question).is_empty() {
                self.pair.compare(question)?;
            }
        }
        Ok(())
    }
}

/// The starts and sizes of all ranges in the space, empty ones too.
fn ranges(pages: u64) -> impl Iterator<Item = (u64, u64)> {
    let ends = move |first| (0..=pages - first).map(move |number| (first * PAGE, number * PAGE));
    (0..=pages).flat_map(ends)
}

fn changes(pages: u64, kinds: &[(u32, Backend)]) -> Vec<Call> {
    let mut changes = vec![Call::Clear];
    for (start, size) in ranges(pages) {
        changes.push(Call::Unmap { start, size });
        for (set, clear) in [(2, 0), (0, 2)] {
            changes.push(Call::Protect(Protection { start, size, set, clear }));
        }
        for (flags, backend) in kinds {
            for replace in [false, true] {
                let mapping = Mapping::new(start, size, *flags, *backend, replace);
                changes.push(Call::Map(mapping));
            }
        }
    }
    changes
}

fn questions(pages: u64) -> Vec<Call> {
    let mut questions = vec![Call::Len, Call::IsEmpty];
    for page in 0..=pages {
        for address in [page * PAGE, page * PAGE + PAGE - 1] {
            questions.extend([Call::Find { address }, Call::Entries { address }]);
        }
    }
    for (start, size) in ranges(pages) {
        questions.push(Call::Overlaps { start, size });
        for (limit_start, limit_size) in ranges(pages) {
            questions.push(Call::FindFreeArea(Search {
                hint: start,
                size,
                limit_start,
                limit_end: limit_start + limit_size,
                align: PAGE,
            }));
        }
    }
    questions
}

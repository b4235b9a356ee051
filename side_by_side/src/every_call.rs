//! Every call in every state of a very small space with little room, held against the model.

use crate::calls::{Call, Mapping, Protection, Search};
use crate::compare::{Compared, Tally};
use crate::tables::{Tables, PAGE, WORDS};
use crate::trial::Trial;
use std::collections::HashSet;

/// Makes each of the calls in every state that they lead to from tables with no area. Gaps have
/// entries of no meaning from the start, which calls have to leave alone.
pub fn run(pages: usize, capacity: usize) -> Compared<Tally> {
    let mut start = Tables::fresh(capacity * WORDS + capacity, pages);
    start.pages.fill(0xdead_beef);
    let calls = calls(pages as u64);
    let mut trial = Trial::default();
    let mut seen = HashSet::from([start.clone()]);
    let mut to_visit = vec![start];
    while let Some(state) = to_visit.pop() {
        for call in &calls {
            let mut tables = state.clone();
            trial.compare(&mut tables, call)?;
            if seen.insert(tables.clone()) {
                to_visit.push(tables);
            }
        }
    }
    Ok(trial.tally)
}

/// The ends of pages up to one past the space, and some numbers that are none.
fn numbers(pages: u64) -> Vec<u64> {
    let mut numbers: Vec<u64> = (0..=pages + 1).map(|page| page * PAGE).collect();
    numbers.extend([1, PAGE + 1, u64::MAX - PAGE + 1, u64::MAX]);
    numbers
}

fn calls(pages: u64) -> Vec<Call> {
    let mut calls = vec![Call::Len, Call::IsEmpty, Call::Clear];
    for start in numbers(pages) {
        calls.extend([Call::Find { address: start }, Call::Entries { address: start }]);
        for size in numbers(pages) {
            calls.extend([Call::Overlaps { start, size }, Call::Unmap { start, size }]);
            for (set, clear) in [(2, 0), (0, 2), (16, 0), (0, 16)] {
                calls.push(Call::Protect(Protection { start, size, set, clear }));
            }
            calls.extend(maps(start, size));
            calls.extend(searches(pages, start, size));
        }
    }
    calls
}

/// Lazy, linear with frames that start below page 0's, and linear with the last page's too high.
fn maps(start: u64, size: u64) -> Vec<Call> {
    let mut maps = Vec::new();
    for (flags, linear, delta) in [(1, 0, 9), (3, 1, u32::MAX), (3, 1, (1 << 24) - 2), (16, 0, 0)] {
        for replace in [0, 1] {
            maps.push(Call::Map(Mapping { start, size, flags, linear, delta, replace }));
        }
    }
    maps
}

fn searches(pages: u64, hint: u64, size: u64) -> Vec<Call> {
    let mut searches = Vec::new();
    let space = pages * PAGE;
    let limits = [(0, space), (0, u64::MAX), (PAGE, space.saturating_sub(1)), (PAGE, 0)];
    for (limit_start, limit_end) in limits {
        for align in [0, 1, PAGE / 2, PAGE, 2 * PAGE, 3 * PAGE, 4 * PAGE, 1 << 63] {
            let search = Search { hint, size, limit_start, limit_end, align };
            searches.push(Call::FindFreeArea(search));
        }
    }
    searches
}

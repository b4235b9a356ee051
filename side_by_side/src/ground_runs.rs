//! Long random sequences of calls on the shared ground.

use crate::calls::{Call, Mapping, Protection, Search};
use crate::compare::{Compared, Tally};
use crate::ground::departures;
use crate::pair::Pair;
use crate::random::Random;
use crate::tables::{Backend, Tables, PAGE, WORDS};

/// The size of the tables of a run, and how long it is.
pub struct Extent {
    pub capacity: usize,
    pub pages: usize,
    pub sequences: u64,
    pub calls: u64,
}

/// Makes random calls on the shared ground, each sequence from fresh tables on.
pub fn run(seed: u64, times: u64, extent: &Extent) -> Compared<Tally> {
    // Room for the areas, and some words that belong to no area.
    let mut pair = Pair::fresh(extent.capacity * WORDS + 3, extent.pages);
    let mut calls = GroundCalls::new(seed);
    for _ in 0..extent.sequences * times {
        pair.replay(&[]);
        for _ in 0..extent.calls {
            let call = calls.next(&pair.tables);
            pair.compare(&call)?;
        }
    }
    Ok(pair.tally)
}

/// Draws calls that lie on the shared ground.
pub struct GroundCalls {
    random: Random,
}

impl GroundCalls {
    pub fn new(seed: u64) -> GroundCalls {
        GroundCalls { random: Random::new(seed) }
    }

    /// A call on tables with at least one page that started fresh.
    pub fn next(&mut self, tables: &Tables) -> Call {
        loop {
            let call = self.draw(tables);
            if departures(tables, &call).is_empty() {
                return call;
            }
        }
    }

    /// A call that mostly lies on the shared ground: what it may miss is cheaper to draw again.
    fn draw(&mut self, tables: &Tables) -> Call {
        if self.random.once_in(200 * tables.capacity() as u64) {
            return Call::Clear;
        }
        match self.random.below(1000) {
            0..20 => self.random.one_of(&[Call::Len, Call::IsEmpty]),
            20..120 => Call::Find { address: self.address(tables) },
            120..160 => Call::Entries { address: self.address(tables) },
            160..240 => {
                let (start, size) = self.range(tables);
                Call::Overlaps { start, size }
            }
            240..340 => self.search(tables),
            340..650 => self.map(tables),
            650..800 => {
                let (start, size) = self.range(tables);
                Call::Unmap { start, size }
            }
            _ => self.protect(tables),
        }
    }

    /// A page number up to the number of pages. Half of them are where an area starts or ends or a
    /// page beside it, where mistakes would be.
    fn page(&mut self, tables: &Tables) -> u64 {
        let pages = tables.pages.len() as u64;
        if tables.count == 0 || self.random.once_in(2) {
            return self.random.between(0, pages);
        }
        let area = tables.area(self.random.below(tables.count as u64) as usize);
        let edge = self.random.one_of(&[area.start, area.end]) / PAGE;
        let beside = self.random.one_of(&[edge, edge, edge + 1, edge.saturating_sub(1)]);
        beside.min(pages)
    }

    /// Any address, also past the space: only find and entries are asked for it.
    fn address(&mut self, tables: &Tables) -> u64 {
        self.page(tables) * PAGE + self.random.one_of(&[0, 0, 1, PAGE - 1])
    }

    /// A range in the space, sometimes empty. Long ones are so rare that the table fills between
    /// them.
    fn range(&mut self, tables: &Tables) -> (u64, u64) {
        let first = self.page(tables);
        let end = if self.random.once_in(2 * tables.capacity() as u64) {
            self.page(tables)
        } else {
            let longest = self.random.one_of(&[1, 4, 8, 16]);
            (first + self.random.between(0, longest)).min(tables.pages.len() as u64)
        };
        (first.min(end) * PAGE, first.abs_diff(end) * PAGE)
    }

    fn map(&mut self, tables: &Tables) -> Call {
        let (start, size) = self.range(tables);
        let backend =
            if self.random.once_in(2) { Backend::Lazy } else { Backend::Linear(self.delta(start / PAGE)) };
        let flags = self.random.below(16) as u32;
        let replace = self.random.once_in(2);
        Call::Map(Mapping::new(start, size, flags, backend, replace))
    }

    /// Mostly small or wrapping, so that the first frame is 0 or a little above; else with the
    /// frames at the upper limit, where some of them may not fit.
    fn delta(&mut self, first_page: u64) -> u32 {
        let wrapping = (first_page as u32).wrapping_neg();
        let highest = (1 << 24) - 1;
        match self.random.below(8) {
            0 => highest - first_page as u32 - self.random.below(4) as u32,
            1..4 => wrapping.wrapping_add(self.random.below(3) as u32),
            _ => self.random.below(highest.into()) as u32,
        }
    }

    fn protect(&mut self, tables: &Tables) -> Call {
        let (start, size) = self.range(tables);
        let bits = [0, 1, 2, 4, 8, self.random.below(16) as u32];
        let (set, clear) = (self.random.one_of(&bits), self.random.one_of(&bits));
        Call::Protect(Protection { start, size, set, clear })
    }

    fn search(&mut self, tables: &Tables) -> Call {
        let limits = [self.address(tables), self.address(tables), tables.space()];
        let (one, other) = (self.random.one_of(&limits), self.random.one_of(&limits));
        let last_start = tables.list().next_back().map_or(0, |area| area.start);
        Call::FindFreeArea(Search {
            hint: self.address(tables),
            size: PAGE * self.random.one_of(&[1, 1, 2, 3, 8, 20]),
            limit_start: one.min(other),
            limit_end: one.max(other).max(last_start).min(tables.space()),
            align: PAGE,
        })
    }
}

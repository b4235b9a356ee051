//! Random calls with any arguments, most of them such that the later tests are reached too.

use crate::calls::{Call, Mapping, Protection, Search};
use crate::random::Random;
use crate::tables::{Tables, PAGE};

/// Numbers at which an answer may change, whatever the tables.
const EXTREMES: [u64; 14] = [
    0,
    1,
    PAGE - 1,
    PAGE,
    PAGE + 1,
    1 << 24,
    (1 << 32) - PAGE,
    1 << 32,
    1 << 36,
    1 << 63,
    u64::MAX - 2 * PAGE + 1,
    u64::MAX - PAGE + 1,
    u64::MAX - 1,
    u64::MAX,
];

/// Any call on the tables, which need not be good.
pub fn any_call(random: &mut Random, tables: &Tables) -> Call {
    let draw = random.below(100);
    let mut arguments = Arguments { random, tables };
    match draw {
        0 => Call::Clear,
        1..5 => Call::Len,
        5..8 => Call::IsEmpty,
        8..13 => Call::Find { address: arguments.number() },
        13..18 => Call::Entries { address: arguments.number() },
        18..28 => {
            let (start, size) = arguments.range();
            Call::Overlaps { start, size }
        }
        28..45 => Call::FindFreeArea(arguments.search()),
        45..70 => Call::Map(arguments.map()),
        70..80 => {
            let (start, size) = arguments.range();
            Call::Unmap { start, size }
        }
        _ => Call::Protect(arguments.protect()),
    }
}

struct Arguments<'a> {
    random: &'a mut Random,
    tables: &'a Tables,
}

impl Arguments<'_> {
    /// Mostly the start of a page in or just past the space.
    fn number(&mut self) -> u64 {
        match self.random.below(32) {
            0 => self.random.word(),
            1 => self.random.one_of(&EXTREMES),
            2 => self.edge().wrapping_add(self.random.one_of(&[1, PAGE - 1])),
            3 => self.edge().wrapping_sub(1),
            4..8 => self.edge().wrapping_sub(PAGE),
            8..16 => self.edge(),
            _ => self.random.between(0, self.tables.pages.len() as u64 + 1) * PAGE,
        }
    }

    /// The end of the space, or where an area starts or ends.
    fn edge(&mut self) -> u64 {
        let used = self.tables.count.min(self.tables.capacity());
        if used == 0 || self.random.once_in(4) {
            return self.tables.space();
        }
        let area = self.tables.area(self.random.below(used as u64) as usize);
        self.random.one_of(&[area.start, area.end])
    }

    /// A start, and a size that often makes the range end at an edge of something.
    fn range(&mut self) -> (u64, u64) {
        let start = self.number();
        let size = match self.random.below(32) {
            0 => self.number(),
            1 => start.wrapping_neg(),
            2 => self.tables.space().wrapping_sub(start).wrapping_add(PAGE),
            3..6 => self.edge().wrapping_sub(start),
            6 => 0,
            _ => self.random.between(1, 4) * PAGE,
        };
        (start, size)
    }

    /// Mostly flags that there are.
    fn flags(&mut self) -> u32 {
        match self.random.below(64) {
            0 => self.random.one_of(&[16, 17, 32, 256, u32::MAX]),
            1 => self.random.word() as u32,
            2..32 => self.random.below(16) as u32,
            _ => self.random.one_of(&[0, 1, 2, 3]),
        }
    }

    /// Yes or no, as any word.
    fn truth(&mut self) -> u32 {
        let word = self.random.word() as u32;
        self.random.one_of(&[0, 0, 0, 1, word, 1 << 31])
    }

    fn map(&mut self) -> Mapping {
        let (start, size) = self.range();
        let first = (start / PAGE) as u32;
        let end = (start.wrapping_add(size) / PAGE) as u32;
        let last_fits = (1_u32 << 24).wrapping_sub(end);
        let first_fits = first.wrapping_neg();
        let any = self.random.word() as u32;
        let deltas = [0, 7, last_fits, last_fits.wrapping_add(1), first_fits, !first, any];
        Mapping {
            start,
            size,
            flags: self.flags(),
            linear: self.truth(),
            delta: self.random.one_of(&deltas),
            replace: self.truth(),
        }
    }

    fn protect(&mut self) -> Protection {
        let (start, size) = self.range();
        Protection { start, size, set: self.flags(), clear: self.flags() }
    }

    fn search(&mut self) -> Search {
        let align = self.align();
        let pages = self.random.between(0, 4) * PAGE;
        let multiple = self.random.between(1, 3).wrapping_mul(align);
        let any = self.number();
        let (low, high) = (self.number(), self.number());
        let (limit_start, limit_end) = match self.random.below(8) {
            0 => (low, high),
            1 => (0, u64::MAX),
            2..5 => (0, self.tables.space()),
            _ => (low.min(high), low.max(high)),
        };
        let hint = self.number();
        Search {
            hint: self.random.one_of(&[0, hint]),
            size: self.random.one_of(&[multiple, multiple, multiple, pages, any]),
            limit_start,
            limit_end,
            align,
        }
    }

    /// All powers of two, mostly the low ones that are allowed, and numbers that are none.
    fn align(&mut self) -> u64 {
        match self.random.below(24) {
            0 | 1 => 1 << self.random.below(64),
            2 => self.number(),
            3 => self.random.one_of(&[0, 3 * PAGE, PAGE + 1, 5 << 61]),
            _ => PAGE << self.random.below(4),
        }
    }
}

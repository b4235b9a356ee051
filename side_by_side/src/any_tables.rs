//! Random tables: good ones, ones that fail to be good in one way, and random words.

use crate::random::Random;
use crate::tables::{Area, Backend, Tables, MOST_AREAS, MOST_PAGES, PAGE, WORDS};

/// Good tables of the given size with so many areas, or as many as the pages are enough for. Page
/// entries are any words, and so are the area words that belong to no area.
pub fn good(random: &mut Random, area_words: usize, pages: usize, areas: usize) -> Tables {
    let mut tables = words(random, area_words, pages);
    tables.count = 0;
    let lengths = if areas < 8 { [1, 2, 3, pages as u64 / 2 + 1] } else { [1, 2, 3, 8] };
    let mut page = gap(random);
    while tables.count < areas && page < pages as u64 {
        let end = (page + random.one_of(&lengths)).min(pages as u64);
        let area = Area {
            start: page * PAGE,
            end: end * PAGE,
            flags: random.below(16),
            backend: fitting(random, page, end).word(),
        };
        tables.put_area(tables.count, area);
        tables.count += 1;
        page = end + gap(random);
    }
    tables
}

/// How many pages stay free before an area.
fn gap(random: &mut Random) -> u64 {
    random.one_of(&[0, 0, 0, 1, 2, 5])
}

/// A backend whose frames all fit, as often as not with one of them the first or last there is.
fn fitting(random: &mut Random, first: u64, end: u64) -> Backend {
    let lowest = (first as u32).wrapping_neg();
    let highest = (1 << 24) - end as u32;
    match random.below(4) {
        0 | 1 => Backend::Lazy,
        2 => Backend::Linear(random.one_of(&[lowest, highest])),
        _ => Backend::Linear(random.below(highest.into()) as u32),
    }
}

/// Tables of any words, with a count near their capacity or any at all.
pub fn words(random: &mut Random, area_words: usize, pages: usize) -> Tables {
    let mut tables = Tables::fresh(area_words, pages);
    let tame = random.once_in(2);
    for word in &mut tables.areas {
        *word = if tame { plausible(random, pages) } else { random.word() };
    }
    let blank = random.once_in(2);
    for entry in &mut tables.pages {
        *entry = if blank { 0 } else { random.word() as u32 };
    }
    let counts = [0, 1, tables.capacity(), tables.capacity() + 1, random.word() as usize];
    tables.count = random.one_of(&counts);
    tables
}

/// A word that may well stand in a good table.
fn plausible(random: &mut Random, pages: usize) -> u64 {
    match random.below(4) {
        0 => random.below(16),
        1 => Backend::Linear(random.below(1 << 24) as u32).word(),
        _ => random.between(0, pages as u64) * PAGE,
    }
}

/// A way to make good tables with at least two areas fail to be good in one respect.
pub type Damage = fn(&mut Random, &mut Tables);

/// Each condition of document 01's *good*, broken in every way.
pub const DAMAGES: [Damage; 17] = [
    |_, tables| tables.count = tables.capacity() + 1,
    |random, tables| tables.count = tables.capacity() + random.word() as usize / 2 + 1,
    |_, tables| tables.count = usize::MAX,
    |_, tables| tables.areas.truncate(tables.count * WORDS - 1),
    |_, tables| tables.pages.resize(MOST_PAGES + 1, 0),
    |_, tables| {
        let last_page = tables.area(tables.count - 1).end / PAGE;
        tables.pages.truncate(last_page as usize - 1);
    },
    |random, tables| change(random, tables, |_, area| area.start = area.end),
    |random, tables| change(random, tables, |_, area| (area.start, area.end) = (area.end, area.start)),
    |random, tables| change(random, tables, |random, area| area.start += random.between(1, PAGE - 1)),
    |random, tables| change(random, tables, |random, area| area.end -= random.between(1, PAGE - 1)),
    |random, tables| change(random, tables, |random, area| area.end = random.word() | 1 << 40),
    |random, tables| change(random, tables, |random, area| area.flags = random.word().max(16)),
    |random, tables| change(random, tables, |_, area| area.flags += 16),
    |random, tables| change(random, tables, |random, area| area.backend = illegal(random)),
    |random, tables| change(random, tables, |random, area| area.backend = not_fitting(random, area)),
    |_, tables| {
        let mut second = tables.area(1);
        second.start = tables.area(0).end - PAGE;
        tables.put_area(1, second);
    },
    |_, tables| {
        let (first, second) = (tables.area(0), tables.area(1));
        tables.put_area(0, second);
        tables.put_area(1, first);
    },
];

/// Changes one of the areas in use.
fn change(random: &mut Random, tables: &mut Tables, edit: fn(&mut Random, &mut Area)) {
    let slot = random.below(tables.count as u64) as usize;
    let mut area = tables.area(slot);
    edit(random, &mut area);
    tables.put_area(slot, area);
}

/// A word that stands for no backend.
fn illegal(random: &mut Random) -> u64 {
    let low = random.word() >> 32;
    random.one_of(&[low.max(1), 2 << 32, (2 << 32) + low, u64::MAX, 1 << 63])
}

/// The word of a backend with one frame that does not fit: the last page's, the first page's, or
/// all of them.
fn not_fitting(random: &mut Random, area: &Area) -> u64 {
    let (first, end) = (area.start / PAGE, area.end / PAGE);
    let last_too_high = (1 << 24) - (end as u32 - 1);
    let first_too_low = (first as u32 + 1).wrapping_neg();
    let all_too_high = 1 << random.between(24, 31);
    let delta = random.one_of(&[last_too_high, first_too_low, all_too_high]);
    Backend::Linear(delta).word()
}

/// The lengths of area tables that hold `capacity` areas: from none to three words left over, and
/// more where the capacity is the largest.
pub fn area_words(random: &mut Random, capacity: usize) -> usize {
    let more = if capacity == MOST_AREAS { 3 * WORDS } else { WORDS };
    capacity * WORDS + random.below(more as u64) as usize
}

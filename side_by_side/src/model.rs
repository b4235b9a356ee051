//! Document 01 once more, as a model that is slow on purpose: it looks at each page by itself.
//!
//! A page in an area knows which area it belongs to. Areas are never kept as a list: they are read
//! off the pages, as the longest runs of pages that belong together. Splitting, shrinking and
//! removing therefore need no code, and the only thing shared with the proved code is the document.

use crate::calls::{number, Answer, Call, Mapping, Protection, Search};
use crate::tables::{Area, Backend, Tables, MOST_PAGES, PAGE};
use std::ops::Range;

/// What the model says of a page that lies in an area.
#[derive(Clone, Copy)]
struct Page {
    /// Equal for the pages that belong together, and different from those of a neighbour.
    area: usize,
    flags: u32,
    backend: Backend,
}

/// For each page, what is said of it if it lies in an area, and its entry.
struct Pages {
    said: Vec<Option<Page>>,
    entries: Vec<u32>,
}

/// What a call answers on tables, and the tables afterwards.
pub fn perform(before: &Tables, call: &Call) -> (Answer, Tables) {
    let mut after = before.clone();
    match answer(&mut after, call) {
        Ok(answer) => (answer, after),
        Err(number) => (Answer::refused(number), before.clone()),
    }
}

/// The tests in document 01's order, then the call's work; the number of the first test that refuses.
fn answer(tables: &mut Tables, call: &Call) -> Result<Answer, u32> {
    refuse(!good(tables), number::BAD_TABLES)?;
    match *call {
        Call::Len => Ok(Answer::told(tables.count as u64)),
        Call::IsEmpty => Ok(Answer::told((tables.count == 0).into())),
        Call::Overlaps { start, size } => overlaps(tables, start, size),
        Call::Find { address } => find(tables, address),
        Call::Entries { address } => entries(tables, address),
        Call::FindFreeArea(search) => find_free_area(tables, search),
        Call::Map(mapping) => map(tables, mapping),
        Call::Unmap { start, size } => unmap(tables, start, size),
        Call::Clear => clear(tables),
        Call::Protect(protection) => protect(tables, protection),
    }
}

fn refuse(when: bool, number: u32) -> Result<(), u32> {
    if when {
        Err(number)
    } else {
        Ok(())
    }
}

fn good(tables: &Tables) -> bool {
    if tables.pages.len() > MOST_PAGES || tables.count > tables.capacity() {
        return false;
    }
    let mut area_before_ends = 0;
    for area in tables.list() {
        if area.start < area_before_ends || !good_area(area, tables.space()) {
            return false;
        }
        area_before_ends = area.end;
    }
    true
}

fn good_area(area: Area, space: u64) -> bool {
    area.start < area.end
        && area.end <= space
        && area.start.is_multiple_of(PAGE)
        && area.end.is_multiple_of(PAGE)
        && area.flags <= 15
        && backend_of(area.backend)
            .is_some_and(|backend| frames_fit(backend, &page_numbers(area.start, area.end)))
}

/// The backend that a word stands for, if it is a legal one.
fn backend_of(word: u64) -> Option<Backend> {
    match (word >> 32, word as u32) {
        (0, 0) => Some(Backend::Lazy),
        (1, delta) => Some(Backend::Linear(delta)),
        _ => None,
    }
}

/// The frame of a page, 0 if it is lazy, and none where it is not below 2^24.
fn frame(backend: Backend, page: usize) -> Option<u32> {
    let Backend::Linear(delta) = backend else {
        return Some(0);
    };
    let sum = (page as u64 + u64::from(delta)) % (1 << 32);
    (sum < 1 << 24).then_some(sum as u32)
}

fn frames_fit(backend: Backend, pages: &Range<usize>) -> bool {
    pages.clone().all(|page| frame(backend, page).is_some())
}

fn page_numbers(start: u64, end: u64) -> Range<usize> {
    (start / PAGE) as usize..(end / PAGE) as usize
}

/// The pages of a range that passes the tests that every call on a range makes.
fn range(tables: &Tables, start: u64, size: u64) -> Result<Range<usize>, u32> {
    refuse(!start.is_multiple_of(PAGE) || !size.is_multiple_of(PAGE), number::NOT_ALIGNED)?;
    let end = u128::from(start) + u128::from(size);
    refuse(end > tables.space().into(), number::INVALID_PARAM)?;
    Ok(page_numbers(start, end as u64))
}

fn overlaps(tables: &Tables, start: u64, size: u64) -> Result<Answer, u32> {
    let range = range(tables, start, size)?;
    Ok(Answer::told(Pages::read(tables).meet(range).into()))
}

fn find(tables: &Tables, address: u64) -> Result<Answer, u32> {
    let area = Pages::read(tables).area_with(address)?;
    Ok(Answer::accepted([area.start, area.end, area.flags, area.backend]))
}

fn entries(tables: &Tables, address: u64) -> Result<Answer, u32> {
    let area = Pages::read(tables).area_with(address)?;
    let pages = page_numbers(area.start, area.end);
    Ok(Answer::accepted([pages.start as u64, pages.len() as u64, 0, 0]))
}

fn find_free_area(tables: &Tables, search: Search) -> Result<Answer, u32> {
    let Search { hint, size, limit_start, limit_end, align } = search;
    let senseless = align.count_ones() != 1 || align < PAGE || size == 0 || limit_start > limit_end;
    refuse(senseless, number::INVALID_PARAM)?;
    refuse(!size.is_multiple_of(align), number::NOT_ALIGNED)?;
    let free_bytes = Pages::read(tables).free_bytes();
    let mut at = 0;
    while at < tables.space() {
        let end = u128::from(at) + u128::from(size);
        let high_enough = at >= hint && at >= limit_start;
        let low_enough = end <= limit_end.into() && end <= tables.space().into();
        if high_enough && low_enough && free_bytes[(at / PAGE) as usize] >= size {
            return Ok(Answer::told(at));
        }
        at = at.saturating_add(align);
    }
    Err(number::NOT_FOUND)
}

fn map(tables: &mut Tables, mapping: Mapping) -> Result<Answer, u32> {
    let range = range(tables, mapping.start, mapping.size)?;
    refuse(mapping.size == 0 || mapping.flags > 15, number::INVALID_PARAM)?;
    let mut pages = Pages::read(tables);
    refuse(!mapping.replaces() && pages.meet(range.clone()), number::ALREADY_EXISTS)?;
    refuse(!frames_fit(mapping.backend(), &range), number::BAD_STATE)?;
    let new = Page { area: usize::MAX, flags: mapping.flags, backend: mapping.backend() };
    for page in range {
        pages.write(page, new);
    }
    pages.store(tables)
}

fn unmap(tables: &mut Tables, start: u64, size: u64) -> Result<Answer, u32> {
    let range = range(tables, start, size)?;
    let mut pages = Pages::read(tables);
    pages.wipe(range);
    pages.store(tables)
}

fn clear(tables: &mut Tables) -> Result<Answer, u32> {
    let mut pages = Pages::read(tables);
    pages.wipe(0..tables.pages.len());
    pages.store(tables)
}

fn protect(tables: &mut Tables, protection: Protection) -> Result<Answer, u32> {
    let Protection { start, size, set, clear } = protection;
    let range = range(tables, start, size)?;
    refuse(set > 15 || clear > 15, number::INVALID_PARAM)?;
    let mut pages = Pages::read(tables);
    for page in range {
        let Some(old) = pages.said[page] else {
            continue;
        };
        let flags = (old.flags & !clear) | set;
        if flags != old.flags {
            // Areas are numbered from 0 as read, so the part inside gets a number of its own.
            let area = tables.count + old.area;
            pages.write(page, Page { area, flags, ..old });
        }
    }
    pages.store(tables)
}

impl Pages {
    /// What good tables say.
    fn read(tables: &Tables) -> Pages {
        let mut said = vec![None; tables.pages.len()];
        for (number, area) in tables.list().enumerate() {
            let page = Page {
                area: number,
                flags: area.flags as u32,
                backend: backend_of(area.backend).expect("tables that were found good"),
            };
            said[page_numbers(area.start, area.end)].fill(Some(page));
        }
        let entries = tables.pages.clone();
        Pages { said, entries }
    }

    /// Whether some page of the range lies in an area.
    fn meet(&self, range: Range<usize>) -> bool {
        self.said[range].iter().any(Option::is_some)
    }

    /// The page belongs to the area from now on, and has the entry that the area gives it.
    fn write(&mut self, page: usize, new: Page) {
        let lazy = u32::from(new.backend == Backend::Lazy);
        let frame = frame(new.backend, page).expect("a frame that was found to fit");
        self.said[page] = Some(new);
        self.entries[page] = new.flags + 16 + 32 * lazy + 256 * frame;
    }

    /// The pages of the range that lie in areas lie in none from now on, and have entry 0.
    fn wipe(&mut self, range: Range<usize>) {
        for page in range {
            if self.said[page].take().is_some() {
                self.entries[page] = 0;
            }
        }
    }

    /// The areas: the longest runs of pages that belong together.
    fn areas(&self) -> Vec<Area> {
        let mut areas: Vec<Area> = Vec::new();
        let mut run = None;
        for (number, said) in self.said.iter().enumerate() {
            let start = number as u64 * PAGE;
            if let Some(page) = said {
                if run != Some(page.area) {
                    areas.push(Area {
                        start,
                        end: start,
                        flags: page.flags.into(),
                        backend: page.backend.word(),
                    });
                }
                areas.last_mut().expect("the run's area").end += PAGE;
            }
            run = said.map(|page| page.area);
        }
        areas
    }

    fn area_with(&self, address: u64) -> Result<Area, u32> {
        let holds = |area: &Area| area.start <= address && address < area.end;
        self.areas().into_iter().find(holds).ok_or(number::NOT_FOUND)
    }

    /// For each page, how many bytes from its start on lie in no area.
    fn free_bytes(&self) -> Vec<u64> {
        let mut free = 0;
        let mut from_the_end = Vec::new();
        for said in self.said.iter().rev() {
            free = if said.is_some() { 0 } else { free + PAGE };
            from_the_end.push(free);
        }
        from_the_end.reverse();
        from_the_end
    }

    /// Writes the areas and the entries into the tables, if there is room.
    fn store(self, tables: &mut Tables) -> Result<Answer, u32> {
        let areas = self.areas();
        refuse(areas.len() > tables.capacity(), number::NO_ROOM)?;
        tables.store(areas.into_iter());
        tables.pages = self.entries;
        Ok(Answer::done())
    }
}

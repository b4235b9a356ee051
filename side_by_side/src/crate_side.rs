//! The other side: the Rust crate memory_set, with a test backend that writes document 01's entries.

use crate::calls::{number, Answer, Call, Mapping, Protection, Search};
use crate::tables::{Area, Backend, Tables, PAGE};
use memory_addr::AddrRange;
use memory_set::{MappingBackend, MappingError, MappingResult, MemoryArea, MemorySet};
use std::ops::Range;

/// The crate's set and the page table that its backend writes.
pub struct CrateSet {
    set: MemorySet<Backend>,
    pages: Vec<u32>,
}

impl CrateSet {
    /// A set with no area over a page table with no page mapped.
    pub fn fresh(pages: usize) -> CrateSet {
        CrateSet { set: MemorySet::new(), pages: vec![0; pages] }
    }

    /// Makes a call, with the crate's answer under document 01's number.
    pub fn perform(&mut self, call: &Call) -> Answer {
        match *call {
            Call::Len => Answer::told(self.set.len() as u64),
            Call::IsEmpty => Answer::told(self.set.is_empty().into()),
            Call::Overlaps { start, size } => {
                let range = AddrRange::from_start_size(start as usize, size as usize);
                Answer::told(self.set.overlaps(range).into())
            }
            Call::Find { address } => self.find(address),
            Call::Entries { address } => self.pages_of_area(address),
            Call::FindFreeArea(search) => self.find_free_area(search),
            Call::Map(mapping) => changed(self.map(mapping)),
            Call::Unmap { start, size } => {
                let (start, size) = (start as usize, size as usize);
                changed(self.set.unmap(start, size, &mut self.pages))
            }
            Call::Clear => changed(self.set.clear(&mut self.pages)),
            Call::Protect(protection) => changed(self.protect(protection)),
        }
    }

    /// Makes the tables what they have to be after the calls so far, from those before the last of
    /// them: the crate says count, areas and entries, document 01 what becomes of the other slots.
    pub fn write_into(&self, tables: &mut Tables) {
        tables.store(self.set.iter().map(as_words));
        tables.pages.copy_from_slice(&self.pages);
    }

    /// The areas, in order.
    pub fn list(&self) -> Vec<Area> {
        self.set.iter().map(as_words).collect()
    }

    /// The page entries.
    pub fn entries(&self) -> &[u32] {
        &self.pages
    }

    fn find(&self, address: u64) -> Answer {
        let Some(area) = self.set.find(address as usize).map(as_words) else {
            return Answer::refused(number::NOT_FOUND);
        };
        Answer::accepted([area.start, area.end, area.flags, area.backend])
    }

    /// The crate has no such call; its find says which pages they are.
    fn pages_of_area(&self, address: u64) -> Answer {
        let Some(area) = self.set.find(address as usize) else {
            return Answer::refused(number::NOT_FOUND);
        };
        let first = area.start() as u64 / PAGE;
        Answer::accepted([first, area.size() as u64 / PAGE, 0, 0])
    }

    fn find_free_area(&self, search: Search) -> Answer {
        let limit = AddrRange { start: search.limit_start as usize, end: search.limit_end as usize };
        let (hint, size) = (search.hint as usize, search.size as usize);
        match self.set.find_free_area(hint, size, limit, search.align as usize) {
            Some(at) => Answer::told(at as u64),
            None => Answer::refused(number::NOT_FOUND),
        }
    }

    fn map(&mut self, mapping: Mapping) -> MappingResult {
        let (start, size) = (mapping.start as usize, mapping.size as usize);
        let area = MemoryArea::new(start, size, mapping.flags, mapping.backend());
        self.set.map(area, &mut self.pages, mapping.replaces())
    }

    fn protect(&mut self, protection: Protection) -> MappingResult {
        let new_flags = |old: u32| {
            let new = (old & !protection.clear) | protection.set;
            (new != old).then_some(new)
        };
        let (start, size) = (protection.start as usize, protection.size as usize);
        self.set.protect(start, size, new_flags, &mut self.pages)
    }
}

/// A change's answer under document 01's number.
fn changed(result: MappingResult) -> Answer {
    match result {
        Ok(()) => Answer::done(),
        Err(MappingError::InvalidParam) => Answer::refused(number::INVALID_PARAM),
        Err(MappingError::AlreadyExists) => Answer::refused(number::ALREADY_EXISTS),
        Err(MappingError::BadState) => Answer::refused(number::BAD_STATE),
    }
}

fn as_words(area: &MemoryArea<Backend>) -> Area {
    Area {
        start: area.start() as u64,
        end: area.end() as u64,
        flags: area.flags().into(),
        backend: area.backend().word(),
    }
}

/// The test backend. It fails, writing nothing, where a page has no entry or no frame.
impl MappingBackend for Backend {
    type Addr = usize;
    type Flags = u32;
    type PageTable = Vec<u32>;

    fn map(&self, start: usize, size: usize, flags: u32, pages: &mut Vec<u32>) -> bool {
        let numbers = page_numbers(start, size);
        if numbers.end > pages.len() || !numbers.clone().all(|page| self.has_frame(page)) {
            return false;
        }
        for page in numbers {
            pages[page] = self.entry(page, flags);
        }
        true
    }

    fn unmap(&self, start: usize, size: usize, pages: &mut Vec<u32>) -> bool {
        pages[page_numbers(start, size)].fill(0);
        true
    }

    fn protect(&self, start: usize, size: usize, flags: u32, pages: &mut Vec<u32>) -> bool {
        self.map(start, size, flags, pages)
    }
}

impl Backend {
    fn frame(self, page: usize) -> u32 {
        match self {
            Backend::Lazy => 0,
            Backend::Linear(delta) => (page as u32).wrapping_add(delta),
        }
    }

    /// Whether the page's frame fits the 24 bits that an entry has for it.
    pub fn has_frame(self, page: usize) -> bool {
        self.frame(page) < 1 << 24
    }

    fn entry(self, page: usize, flags: u32) -> u32 {
        let lazy = u32::from(self == Backend::Lazy) << 5;
        flags | 1 << 4 | lazy | self.frame(page) << 8
    }
}

/// The pages that the range meets.
fn page_numbers(start: usize, size: usize) -> Range<usize> {
    let page = PAGE as usize;
    start / page..(start + size).div_ceil(page)
}

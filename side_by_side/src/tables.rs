//! The two lent tables and the count, as document 01 lays them out, and the words in them.

/// The bytes of a page.
pub const PAGE: u64 = 4096;
/// The words of an area in the area table.
pub const WORDS: usize = 4;
/// The largest capacity, whatever the length of the area table.
pub const MOST_AREAS: usize = 256;
/// The largest number of pages of good tables.
pub const MOST_PAGES: usize = 65_536;

/// Where the frames of an area's pages come from.
#[derive(Clone, Copy, Debug, PartialEq, Eq)]
pub enum Backend {
    Lazy,
    /// The frame of a page is its number plus this, wrapping.
    Linear(u32),
}

impl Backend {
    /// The word that stands for the backend in the area table.
    pub fn word(self) -> u64 {
        match self {
            Backend::Lazy => 0,
            Backend::Linear(delta) => (1 << 32) + u64::from(delta),
        }
    }
}

/// An area as the four words of its slot say it, whether or not they make sense.
#[derive(Clone, Copy, Debug, PartialEq, Eq)]
pub struct Area {
    pub start: u64,
    pub end: u64,
    pub flags: u64,
    pub backend: u64,
}

#[derive(Clone, Debug, PartialEq, Eq, Hash)]
pub struct Tables {
    pub areas: Vec<u64>,
    pub pages: Vec<u32>,
    pub count: usize,
}

impl Tables {
    /// Tables with no area and no page mapped. The area words are no zeros but a pattern, so that
    /// a word that is written or wiped where it should stay is seen.
    pub fn fresh(area_words: usize, pages: usize) -> Tables {
        Tables {
            areas: (0..area_words as u64).map(|at| 0xa5a5_0000 + at).collect(),
            pages: vec![0; pages],
            count: 0,
        }
    }

    /// The first address past the space.
    pub fn space(&self) -> u64 {
        PAGE * self.pages.len() as u64
    }

    pub fn capacity(&self) -> usize {
        MOST_AREAS.min(self.areas.len() / WORDS)
    }

    /// What the slot holds. It has to be a whole slot of the table.
    pub fn area(&self, slot: usize) -> Area {
        let words = &self.areas[slot * WORDS..][..WORDS];
        Area { start: words[0], end: words[1], flags: words[2], backend: words[3] }
    }

    pub fn put_area(&mut self, slot: usize, area: Area) {
        let words = [area.start, area.end, area.flags, area.backend];
        self.areas[slot * WORDS..][..WORDS].copy_from_slice(&words);
    }

    /// The areas in use, of tables whose count is within the capacity.
    pub fn list(&self) -> impl DoubleEndedIterator<Item = Area> + '_ {
        (0..self.count).map(|slot| self.area(slot))
    }

    /// Takes over a new list of areas: slots from its end to the old count become 0, and slots past
    /// both keep their words. The list has to fit.
    pub fn store(&mut self, list: impl Iterator<Item = Area>) {
        let old_count = self.count;
        self.count = 0;
        for area in list {
            self.put_area(self.count, area);
            self.count += 1;
        }
        if self.count < old_count {
            self.areas[self.count * WORDS..old_count * WORDS].fill(0);
        }
    }

    /// Becomes a copy of other tables, in the memory that is already held: it happens at each call.
    pub fn copy_from(&mut self, other: &Tables) {
        self.areas.clone_from(&other.areas);
        self.pages.clone_from(&other.pages);
        self.count = other.count;
    }
}

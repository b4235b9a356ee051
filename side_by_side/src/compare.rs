//! Holding two sides against each other, counting what was compared, and reporting a mismatch.

use crate::calls::{Answer, Call};
use crate::tables::{Tables, WORDS};
use std::fmt::Write;

/// The first mismatch ends a run, and this is what is printed of it.
pub type Compared<T> = Result<T, String>;

/// The calls by name, and the numbers with which document 01 lets each answer.
const CALLS: [(&str, &[u32]); 10] = [
    ("len", &[0, 1]),
    ("is_empty", &[0, 1]),
    ("overlaps", &[0, 1, 2, 3]),
    ("find", &[0, 1, 7]),
    ("entries", &[0, 1, 7]),
    ("find_free_area", &[0, 1, 2, 3, 7]),
    ("map", &[0, 1, 2, 3, 4, 5, 6]),
    ("unmap", &[0, 1, 2, 3, 6]),
    ("clear", &[0, 1]),
    ("protect", &[0, 1, 2, 3, 6]),
];

/// How many answers of each number each call gave.
#[derive(Default)]
pub struct Tally {
    answers: [[u64; 8]; CALLS.len()],
}

impl Tally {
    pub fn count(&mut self, call: &Call, answer: &Answer) {
        self.answers[place(call)][answer.number as usize] += 1;
    }

    pub fn add(&mut self, other: &Tally) {
        for (mine, theirs) in self.answers.iter_mut().zip(other.answers) {
            for (number, count) in mine.iter_mut().zip(theirs) {
                *number += count;
            }
        }
    }

    pub fn calls(&self) -> u64 {
        self.answers.as_flattened().iter().sum()
    }

    /// How many answers there were of each number, those that never came left out.
    pub fn by_number(&self) -> String {
        let mut line = String::new();
        for number in 0..8 {
            let sum: u64 = self.answers.iter().map(|of_call| of_call[number]).sum();
            if sum > 0 {
                write!(line, " {number}:{sum}").expect("writing to a string");
            }
        }
        line
    }

    /// Fails if a call never gave one of the answers that it can give: then the runs were too tame.
    pub fn saw_everything(&self) -> Compared<()> {
        for ((name, numbers), seen) in CALLS.iter().zip(self.answers) {
            if let Some(never) = numbers.iter().find(|number| seen[**number as usize] == 0) {
                return Err(format!("the runs made no call of {name} that answers {never}"));
            }
        }
        Ok(())
    }
}

/// The place of a call in `CALLS`.
fn place(call: &Call) -> usize {
    match call {
        Call::Len => 0,
        Call::IsEmpty => 1,
        Call::Overlaps { .. } => 2,
        Call::Find { .. } => 3,
        Call::Entries { .. } => 4,
        Call::FindFreeArea(_) => 5,
        Call::Map(_) => 6,
        Call::Unmap { .. } => 7,
        Call::Clear => 8,
        Call::Protect(_) => 9,
    }
}

/// One side's answer to a call and the tables afterwards.
pub struct Side<'a> {
    pub name: &'static str,
    pub answer: Answer,
    pub tables: &'a Tables,
}

/// Passes if both sides answer the same and leave the same count and the same words.
pub fn same(call: &Call, before: &Tables, judge: Side, library: Side) -> Compared<()> {
    if judge.answer == library.answer && judge.tables == library.tables {
        return Ok(());
    }
    let mut text = format!("{} and {} differ (all numbers in hex)\n", judge.name, library.name);
    text += &format!("call: {call:x?}\nbefore: {}", listing(before));
    for side in [&judge, &library] {
        let Answer { number, values } = side.answer;
        text += &format!("{}: answer {number}, numbers {values:x?}, ", side.name);
        text += &format!("count {:x}\n", side.tables.count);
    }
    text += &first_words_apart("area word", &judge, &library, |tables| &tables.areas);
    text += &first_words_apart("entry of page", &judge, &library, |tables| &tables.pages);
    Err(text)
}

/// How many things of a kind a listing shows: enough for the small tables of most runs.
const SHOWN: usize = 16;

/// The areas and the entries other than 0, shortened.
fn listing(tables: &Tables) -> String {
    let (words, pages) = (tables.areas.len(), tables.pages.len());
    let mut text = format!("{words:x} area words, {pages:x} pages, count {:x}\n", tables.count);
    let slots = tables.count.min(words / WORDS);
    for slot in 0..slots.min(SHOWN) {
        let words = &tables.areas[slot * WORDS..][..WORDS];
        text += &format!("  area {slot:x}: {words:x?}\n");
    }
    let mapped = tables.pages.iter().enumerate().filter(|(_, entry)| **entry != 0);
    for (page, entry) in mapped.clone().take(SHOWN) {
        text += &format!("  entry of page {page:x}: {entry:x}\n");
    }
    let hidden = slots.saturating_sub(SHOWN) + mapped.count().saturating_sub(SHOWN);
    if hidden > 0 {
        text += &format!("  and {hidden:x} more\n");
    }
    text
}

/// The first word that the two sides left different in one of the tables, if there is one.
fn first_words_apart<Word: PartialEq + std::fmt::LowerHex>(
    what: &str,
    judge: &Side,
    library: &Side,
    table: impl Fn(&Tables) -> &Vec<Word>,
) -> String {
    let words = table(judge.tables).iter().zip(table(library.tables));
    match words.enumerate().find(|(_, (judged, left))| judged != left) {
        None => String::new(),
        Some((at, (judged, left))) => {
            format!("{what} {at:x}: {} {judged:x}, {} {left:x}\n", judge.name, library.name)
        }
    }
}

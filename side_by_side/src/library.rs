//! Our side: the calls of the static library that is made from the proved code, as the declarations
//! for its users have them.

use crate::calls::{Answer, Call, Mapping, Protection, Search};
use crate::tables::Tables;
use declared::*;

#[path = "../../include/memory_set.rs"]
#[rustfmt::skip]
mod declared;

/// What each place for a result holds before a call. A call has to write all of them, refused or
/// not, so no answer may still have it.
const UNWRITTEN: u64 = 0x5a5a_5a5a_5a5a_5a5a;

/// Lends the tables to a question.
// SAFETY: pointers and lengths are those of the tables' own vectors, which are held over the call; a
// question only reads them, and writes the places for its results, each once.
macro_rules! ask {
    ($question:ident, $tables:expr $(, $argument:expr)*) => {
        unsafe {
            $question(
                $tables.areas.as_ptr(),
                $tables.areas.len(),
                $tables.pages.as_ptr(),
                $tables.pages.len(),
                $tables.count
                $(, $argument)*
            )
        }
    };
}

/// Lends the tables to a change.
// SAFETY: pointers and lengths are those of the tables' own vectors, which are held over the call, by
// nobody else.
macro_rules! change {
    ($change:ident, $tables:expr $(, $argument:expr)*) => {
        unsafe {
            $change(
                $tables.areas.as_mut_ptr(),
                $tables.areas.len(),
                $tables.pages.as_mut_ptr(),
                $tables.pages.len(),
                &mut $tables.count
                $(, $argument)*
            )
        }
    };
}

/// Makes a call on the tables where they lie.
#[rustfmt::skip]
pub fn perform(tables: &mut Tables, call: &Call) -> Answer {
    let [mut a, mut b, mut c, mut d] = [UNWRITTEN; 4];
    let (number, results) = match *call {
        Call::Len => (ask!(memory_set_len, tables, &mut a), 1),
        Call::IsEmpty => (ask!(memory_set_is_empty, tables, &mut a), 1),
        Call::Overlaps { start, size } => (ask!(memory_set_overlaps, tables, start, size, &mut a), 1),
        Call::Find { address } => (ask!(memory_set_find, tables, address, &mut a, &mut b, &mut c, &mut d), 4),
        Call::Entries { address } => (ask!(memory_set_entries, tables, address, &mut a, &mut b), 2),
        Call::FindFreeArea(Search { hint, size, limit_start, limit_end, align }) =>
            (ask!(memory_set_find_free_area, tables, hint, size, limit_start, limit_end, align, &mut a), 1),
        Call::Map(Mapping { start, size, flags, linear, delta, replace }) =>
            (change!(memory_set_map, tables, start, size, flags, linear, delta, replace), 0),
        Call::Unmap { start, size } => (change!(memory_set_unmap, tables, start, size), 0),
        Call::Clear => (change!(memory_set_clear, tables), 0),
        Call::Protect(Protection { start, size, set, clear }) =>
            (change!(memory_set_protect, tables, start, size, set, clear), 0),
    };
    let mut values = [a, b, c, d];
    values[results..].fill(0);
    Answer { number, values }
}

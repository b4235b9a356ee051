//! The calls of the set and their answers, as data, so that each side can be given the same ones.

use crate::tables::Backend;

/// A call with its arguments as the static library takes them.
#[derive(Clone, Copy, Debug)]
pub enum Call {
    Len,
    IsEmpty,
    Overlaps { start: u64, size: u64 },
    Find { address: u64 },
    Entries { address: u64 },
    FindFreeArea(Search),
    Map(Mapping),
    Unmap { start: u64, size: u64 },
    Clear,
    Protect(Protection),
}

impl Call {
    /// Whether the call may change the tables.
    pub fn is_change(&self) -> bool {
        matches!(self, Call::Map(_) | Call::Unmap { .. } | Call::Clear | Call::Protect(_))
    }
}

#[derive(Clone, Copy, Debug)]
pub struct Search {
    pub hint: u64,
    pub size: u64,
    pub limit_start: u64,
    pub limit_end: u64,
    pub align: u64,
}

/// The arguments of map. Any `linear` or `replace` but 0 is yes, and a lazy map has any delta.
#[derive(Clone, Copy, Debug)]
pub struct Mapping {
    pub start: u64,
    pub size: u64,
    pub flags: u32,
    pub linear: u32,
    pub delta: u32,
    pub replace: u32,
}

#[derive(Clone, Copy, Debug)]
pub struct Protection {
    pub start: u64,
    pub size: u64,
    pub set: u32,
    pub clear: u32,
}

impl Mapping {
    pub fn new(start: u64, size: u64, flags: u32, backend: Backend, replace: bool) -> Mapping {
        let (linear, delta) = match backend {
            Backend::Lazy => (0, 0),
            Backend::Linear(delta) => (1, delta),
        };
        Mapping { start, size, flags, linear, delta, replace: replace.into() }
    }

    pub fn backend(&self) -> Backend {
        if self.linear == 0 {
            Backend::Lazy
        } else {
            Backend::Linear(self.delta)
        }
    }

    pub fn replaces(&self) -> bool {
        self.replace != 0
    }
}

/// The numbers of the answers, by document 01's names.
pub mod number {
    pub const ACCEPTED: u32 = 0;
    pub const BAD_TABLES: u32 = 1;
    pub const NOT_ALIGNED: u32 = 2;
    pub const INVALID_PARAM: u32 = 3;
    pub const ALREADY_EXISTS: u32 = 4;
    pub const BAD_STATE: u32 = 5;
    pub const NO_ROOM: u32 = 6;
    pub const NOT_FOUND: u32 = 7;
}

/// What a call answers beside the tables: document 01's number, and the other numbers of the
/// answer in the order in which the static library hands them out, with 0 for those it has not.
#[derive(Clone, Copy, Debug, PartialEq, Eq)]
pub struct Answer {
    pub number: u32,
    pub values: [u64; 4],
}

impl Answer {
    pub fn accepted(values: [u64; 4]) -> Answer {
        Answer { number: number::ACCEPTED, values }
    }

    /// An accepted call that answers with one number.
    pub fn told(value: u64) -> Answer {
        Answer::accepted([value, 0, 0, 0])
    }

    /// An accepted change.
    pub fn done() -> Answer {
        Answer::told(0)
    }

    pub fn refused(number: u32) -> Answer {
        Answer { number, values: [0; 4] }
    }
}

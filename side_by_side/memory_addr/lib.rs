//! A stand-in for the crate `memory_addr`, on which memory_set rests and which is not with its source.
//!
//! It has the names that memory_set 0.4.1 uses and no others, written from how `set.rs` and `area.rs` use
//! them. On the shared ground of document 01 each of them can mean only one thing. Off it three choices
//! were made here, and what memory_set does there says nothing about the real `memory_addr`:
//! - `AddrRange::overlaps` compares ends only, so an empty range strictly inside another overlaps it;
//! - `MemoryAddr::align_up` wraps past the last address, and means something only for powers of two;
//! - `AddrRange::from_start_size` panics where the sum does not fit, as the doc comment of
//!   `MemoryArea::new` says.
#![no_std]

/// An address: any ordered number that goes to `usize` and back.
pub trait MemoryAddr: Copy + Ord + From<usize> + Into<usize> {
    /// The lowest multiple of `align`, a power of two, that is not below the address.
    fn align_up(self, align: usize) -> Self {
        let last_bits = align - 1;
        (self.into().wrapping_add(last_bits) & !last_bits).into()
    }

    /// The address `size` bytes up, if there is one.
    fn checked_add(self, size: usize) -> Option<Self> {
        self.into().checked_add(size).map(Self::from)
    }

    /// The address `size` bytes up, from 0 again past the last one.
    fn wrapping_add(self, size: usize) -> Self {
        self.into().wrapping_add(size).into()
    }

    /// The address `size` bytes down, from the last one again below 0.
    fn wrapping_sub(self, size: usize) -> Self {
        self.into().wrapping_sub(size).into()
    }

    /// How many bytes lie from `lower` to the address; the caller knows that it is not above.
    fn wrapping_sub_addr(self, lower: Self) -> usize {
        self.into().wrapping_sub(lower.into())
    }

    /// How many bytes lie from `lower` to the address. Panics if `lower` is above it.
    fn sub_addr(self, lower: Self) -> usize {
        self.into().checked_sub(lower.into()).expect("an address above the one it is taken from")
    }
}

impl<A: Copy + Ord + From<usize> + Into<usize>> MemoryAddr for A {}

/// The addresses from `start` up to but not including `end`.
#[derive(Clone, Copy, Debug, PartialEq, Eq)]
pub struct AddrRange<A: MemoryAddr> {
    pub start: A,
    pub end: A,
}

impl<A: MemoryAddr> AddrRange<A> {
    /// The range of `size` bytes from `start`. Panics if its end does not fit an address.
    pub fn from_start_size(start: A, size: usize) -> Self {
        Self::try_from_start_size(start, size).expect("a range that passes the last address")
    }

    /// The range of `size` bytes from `start`, if its end fits an address.
    pub fn try_from_start_size(start: A, size: usize) -> Option<Self> {
        let end = start.checked_add(size)?;
        Some(Self { start, end })
    }

    /// The number of bytes.
    pub fn size(self) -> usize {
        self.end.wrapping_sub_addr(self.start)
    }

    /// Whether no address is in the range.
    pub fn is_empty(self) -> bool {
        self.end <= self.start
    }

    /// Whether the address is in the range.
    pub fn contains(self, address: A) -> bool {
        self.start <= address && address < self.end
    }

    /// Whether the range lies in `other`.
    pub fn contained_in(self, other: Self) -> bool {
        other.start <= self.start && self.end <= other.end
    }

    /// Whether each range starts before the other ends.
    pub fn overlaps(self, other: Self) -> bool {
        self.start < other.end && other.start < self.end
    }
}

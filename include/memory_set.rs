//! The memory set for Rust: the areas of a plug-in's space, and the page table that goes with them.
//!
//! Link `crates/exports/out/libexports.a`, which `rt lib` in crates/exports proves and writes. C has the same calls in
//! `memory_set.h`, and that file says more of each. This one needs Rust 1.82 or newer.
//!
//! The caller lends both tables at every call. `areas` has four words an area (start, end, flags, backend) and room for
//! `areas_len / 4` of them, 256 at most; `pages` has one entry for each page of 4,096 bytes, 65,536 at most; `count` is
//! how many areas there are. Fresh tables are all 0, and so is the count.
//!
//! Every call returns one of the numbers below, the first that applies. A refusal, any number but 0, changes no table
//! and no count, and each result it writes is 0.
//!
//! # Safety
//!
//! A slice is passed as its pointer and its length, `s.as_ptr()` and `s.len()`; an empty slice's pointer will do. Each
//! result is a `&mut` to a number of the caller's. The two tables, the count and the results must not overlap, as
//! `&mut` demands anyway.
#![allow(dead_code)]

/// The call did what it was asked.
pub const ACCEPTED: u32 = 0;
/// The tables are not good.
pub const BAD_TABLES: u32 = 1;
/// Start or size no multiple of 4,096; in a search, size no multiple of align.
pub const NOT_ALIGNED: u32 = 2;
/// Start + size above the space; a map of size 0; flags, set or clear above 15. In a search, which tests this before
/// `NOT_ALIGNED`: align no power of two or below 4,096, size 0, or limit start above limit end.
pub const INVALID_PARAM: u32 = 3;
/// A map without replacing meets an area.
pub const ALREADY_EXISTS: u32 = 4;
/// A linear map with a frame at or above 2^24.
pub const BAD_STATE: u32 = 5;
/// The area table has no room for the resulting list.
pub const NO_ROOM: u32 = 6;
/// An address in no area; no free address.
pub const NOT_FOUND: u32 = 7;

unsafe extern "C" {
    /// `len`: the number of areas.
    pub fn memory_set_len(
        areas: *const u64,
        areas_len: usize,
        pages: *const u32,
        pages_len: usize,
        count: usize,
        len: &mut u64,
    ) -> u32;

    /// `yes`: 1 where there is no area, else 0.
    pub fn memory_set_is_empty(
        areas: *const u64,
        areas_len: usize,
        pages: *const u32,
        pages_len: usize,
        count: usize,
        yes: &mut u64,
    ) -> u32;

    /// `yes`: 1 where some address is both in the range and in an area, else 0.
    pub fn memory_set_overlaps(
        areas: *const u64,
        areas_len: usize,
        pages: *const u32,
        pages_len: usize,
        count: usize,
        start: u64,
        size: u64,
        yes: &mut u64,
    ) -> u32;

    /// The area that holds an address, its backend as a word: 0 for lazy, 2^32 + delta for linear.
    pub fn memory_set_find(
        areas: *const u64,
        areas_len: usize,
        pages: *const u32,
        pages_len: usize,
        count: usize,
        address: u64,
        start: &mut u64,
        end: &mut u64,
        flags: &mut u64,
        backend: &mut u64,
    ) -> u32;

    /// The entries of that area's pages: `pages[first..first + number]`.
    pub fn memory_set_entries(
        areas: *const u64,
        areas_len: usize,
        pages: *const u32,
        pages_len: usize,
        count: usize,
        address: u64,
        first: &mut u64,
        number: &mut u64,
    ) -> u32;

    /// `at`: the lowest address that is a multiple of `align`, at least `hint` and `limit_start`, with `at + size`
    /// within `limit_end` and the space, meeting no area.
    pub fn memory_set_find_free_area(
        areas: *const u64,
        areas_len: usize,
        pages: *const u32,
        pages_len: usize,
        count: usize,
        hint: u64,
        size: u64,
        limit_start: u64,
        limit_end: u64,
        align: u64,
        at: &mut u64,
    ) -> u32;

    /// Adds an area. Where `linear` is 0 it is lazy and `delta` is not looked at; where `replace` is not 0 what is
    /// mapped in its range is unmapped first.
    pub fn memory_set_map(
        areas: *mut u64,
        areas_len: usize,
        pages: *mut u32,
        pages_len: usize,
        count: &mut usize,
        start: u64,
        size: u64,
        flags: u32,
        linear: u32,
        delta: u32,
        replace: u32,
    ) -> u32;

    /// Removes all mappings in a range.
    pub fn memory_set_unmap(
        areas: *mut u64,
        areas_len: usize,
        pages: *mut u32,
        pages_len: usize,
        count: &mut usize,
        start: u64,
        size: u64,
    ) -> u32;

    /// Removes all areas; their pages become unmapped.
    pub fn memory_set_clear(
        areas: *mut u64,
        areas_len: usize,
        pages: *mut u32,
        pages_len: usize,
        count: &mut usize,
    ) -> u32;

    /// Changes the flags of all mappings in a range: without the `clear` bits, then with the `set` bits.
    pub fn memory_set_protect(
        areas: *mut u64,
        areas_len: usize,
        pages: *mut u32,
        pages_len: usize,
        count: &mut usize,
        start: u64,
        size: u64,
        set: u32,
        clear: u32,
    ) -> u32;
}

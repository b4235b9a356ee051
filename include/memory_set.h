/* The memory set for C: the areas of a plug-in's space, and the page table that goes with them.

   Link crates/exports/out/libexports.a, which `rt lib` in crates/exports proves and writes. Rust has the same calls in memory_set.rs.

   The tables. The caller lends both at every call; nothing is kept between calls, and nothing is allocated.
     areas   uint64_t words, four an area: start, end, flags, backend. There is room for areas_len / 4 areas, 256 at most.
     pages   uint32_t entries, one for each page of 4,096 bytes: pages_len of them, 65,536 at most. The space is the addresses
             below 4,096 * pages_len. An entry is 0, or has the flags in bits 0 to 3, bit 4 set, bit 5 set for lazy, and the
             frame in bits 8 to 31.
     count   how many areas there are. A change takes it by address and leaves the new one there.
   Fresh tables are all 0, and so is the count. Any words may be lent: a call tests before anything else that the areas are good, and
   refuses with 1 if they are not. The page entries may be anything.

   Pointers. A table is a pointer and then its length, in words or entries and not in bytes. The two tables, the count and the
   numbers that a call writes must not overlap each other. No pointer may be null, that of a table of length 0 included, and each is
   aligned for its type. The number that a result pointer leads to is written at every call, whatever it was before.

   Answers. Every call returns one of these numbers. The first that applies is given, in this order (a search tests 3 before 2).
   A refusal, any number but 0, changes no table and no count, and each result it writes is 0. */
#ifndef MEMORY_SET_H
#define MEMORY_SET_H

#include <stddef.h>
#include <stdint.h>

#define MEMORY_SET_ACCEPTED 0
#define MEMORY_SET_BAD_TABLES 1     /* the tables are not good */
#define MEMORY_SET_NOT_ALIGNED 2    /* start or size no multiple of 4,096; in a search, size no multiple of align */
#define MEMORY_SET_INVALID_PARAM 3  /* start + size above the space; a map of size 0; flags, set or clear above 15; in a search,
                                       align no power of two or below 4,096, size 0, or limit_start above limit_end */
#define MEMORY_SET_ALREADY_EXISTS 4 /* a map without replacing meets an area */
#define MEMORY_SET_BAD_STATE 5      /* a linear map with a frame at or above 2^24 */
#define MEMORY_SET_NO_ROOM 6        /* the area table has no room for the resulting list */
#define MEMORY_SET_NOT_FOUND 7      /* an address in no area; no free address */

/* Flags, in any sum. */
#define MEMORY_SET_READ 1
#define MEMORY_SET_WRITE 2
#define MEMORY_SET_EXECUTE 4
#define MEMORY_SET_USER 8

#ifdef __cplusplus
extern "C" {
#endif

/* Questions: the tables stay as they are. */

/* len: the number of areas. */
uint32_t memory_set_len(const uint64_t *areas, size_t areas_len, const uint32_t *pages, size_t pages_len, size_t count,
                        uint64_t *len);

/* yes: 1 where there is no area, else 0. */
uint32_t memory_set_is_empty(const uint64_t *areas, size_t areas_len, const uint32_t *pages, size_t pages_len, size_t count,
                             uint64_t *yes);

/* yes: 1 where some address is both in start .. start + size and in an area, else 0. */
uint32_t memory_set_overlaps(const uint64_t *areas, size_t areas_len, const uint32_t *pages, size_t pages_len, size_t count,
                             uint64_t start, uint64_t size, uint64_t *yes);

/* The area that holds an address, which may be any number: its start, its end (the first address past it), its flags, and its
   backend as a word: 0 for lazy, 2^32 + delta for linear. */
uint32_t memory_set_find(const uint64_t *areas, size_t areas_len, const uint32_t *pages, size_t pages_len, size_t count,
                         uint64_t address, uint64_t *start, uint64_t *end, uint64_t *flags, uint64_t *backend);

/* The entries of the pages of that area: pages[first] up to pages[first + number - 1]. */
uint32_t memory_set_entries(const uint64_t *areas, size_t areas_len, const uint32_t *pages, size_t pages_len, size_t count,
                            uint64_t address, uint64_t *first, uint64_t *number);

/* at: the lowest address that is a multiple of align, at least hint and limit_start, with at + size within limit_end and the
   space, meeting no area. Hint and limits may be any numbers, aligned or not. */
uint32_t memory_set_find_free_area(const uint64_t *areas, size_t areas_len, const uint32_t *pages, size_t pages_len, size_t count,
                                   uint64_t hint, uint64_t size, uint64_t limit_start, uint64_t limit_end,
                                   uint64_t align, uint64_t *at);

/* Changes: the tables and the count are written, or none of them. */

/* Adds an area start .. start + size and writes its pages' entries.
     flags    0 to 15
     linear   0: the pages are lazy, with no frame yet, and delta is not looked at; else page p gets the frame p + delta, wrapping
              at 2^32
     replace  0: an area in the range is refused with 4; else what is mapped in the range is unmapped first */
uint32_t memory_set_map(uint64_t *areas, size_t areas_len, uint32_t *pages, size_t pages_len, size_t *count,
                        uint64_t start, uint64_t size, uint32_t flags, uint32_t linear, uint32_t delta,
                        uint32_t replace);

/* Removes all mappings in start .. start + size. Areas inside vanish, others lose the part inside, and one that surrounds the
   range becomes two. Size 0 is accepted and does nothing. */
uint32_t memory_set_unmap(uint64_t *areas, size_t areas_len, uint32_t *pages, size_t pages_len, size_t *count,
                          uint64_t start, uint64_t size);

/* Removes all areas; their pages become unmapped. */
uint32_t memory_set_clear(uint64_t *areas, size_t areas_len, uint32_t *pages, size_t pages_len, size_t *count);

/* Gives what is mapped in start .. start + size new flags: the old ones without the clear bits, then with the set bits, each 0 to
   15. An area whose flags change is split where the range ends inside it. Size 0 is accepted and does nothing. */
uint32_t memory_set_protect(uint64_t *areas, size_t areas_len, uint32_t *pages, size_t pages_len, size_t *count,
                            uint64_t start, uint64_t size, uint32_t set, uint32_t clear);

#ifdef __cplusplus
}
#endif

#endif

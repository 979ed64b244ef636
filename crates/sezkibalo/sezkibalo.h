/* Sezkibalo's static library. A slice is a pointer to its first word and its length in words.
   Each call but sezkibalo_text answers 0, or the number of its refusal and has then written nothing.

   What is in the slices, and how long they are, is up to the caller: no call asks anything of it. But they must be slices:
   - each pointer is aligned for its words and not null, also where the length is 0;
   - all of its words can be read, and written where the pointer is not to const, until the call is over;
   - no slice that a call may write overlaps another slice of that call. Those that are only read may overlap each other.
   A call keeps no pointer, has no state of its own, and may be made on several threads at once with slices of their own.

   How much stack a call needs is not proved. The deepest and the largest trees are tried on 256 KiB. Of a machine larger than a tree's,
   sezkibalo_combine keeps up to 721 KB in tables of its own; the largest is tried on 2 MiB. */
#ifndef SEZKIBALO_H
#define SEZKIBALO_H

#include <stddef.h>
#include <stdint.h>

/* The sizes of a tree file: lines, names, statements, nodes, strings, characters, into the first six of counts. */
uint64_t sezkibalo_size(const uint8_t *tree, size_t tree_len, uint64_t *counts, size_t counts_len);

/* A tree file is made into a machine in the lent tables; each of these is refused as sezkibalo_size is, then 11 where a table is shorter
   than its estimate. Bit 0 of options protects the local names, bit 1 the global ones (2 is the default), the other bits are ignored.
   The first eight of counts are written, in the order below. Fewer than eight are 11 before all else. */

/* The tree is lowered. */
uint64_t sezkibalo_lower(const uint8_t *tree, size_t tree_len, uint64_t options, uint64_t *sections, size_t sections_len,
                         uint64_t *instructions, size_t instructions_len, int64_t *numbers, size_t numbers_len,
                         uint32_t *strings, size_t strings_len, uint8_t *pool, size_t pool_len,
                         uint16_t *names, size_t names_len, uint64_t *counts, size_t counts_len);

/* The tree is lowered, its machine cleaned and combined. */
uint64_t sezkibalo_finish(const uint8_t *tree, size_t tree_len, uint64_t options, uint64_t *sections, size_t sections_len,
                          uint64_t *instructions, size_t instructions_len, int64_t *numbers, size_t numbers_len,
                          uint32_t *strings, size_t strings_len, uint8_t *pool, size_t pool_len,
                          uint16_t *names, size_t names_len, uint64_t *counts, size_t counts_len);

/* Calls on a machine in lent tables. The first eight of counts are lines, sections, instructions, numbers, strings, characters of the pool,
   values, names; they are read, and written where the call is not refused. Fewer than eight are 11 before all else. */

/* Duplicate operands are replaced: 12, then 11. */
uint64_t sezkibalo_replace(uint64_t *counts, size_t counts_len, uint64_t *sections, size_t sections_len,
                           uint64_t *instructions, size_t instructions_len, int64_t *numbers, size_t numbers_len,
                           uint32_t *strings, size_t strings_len, const uint8_t *pool, size_t pool_len,
                           const uint16_t *names, size_t names_len);

/* Unfixed sections are removed: 12, then 13. */
uint64_t sezkibalo_clean(uint64_t *counts, size_t counts_len, uint64_t *sections, size_t sections_len,
                         uint64_t *instructions, size_t instructions_len, int64_t *numbers, size_t numbers_len,
                         uint32_t *strings, size_t strings_len, const uint8_t *pool, size_t pool_len,
                         const uint16_t *names, size_t names_len);

/* Sections are joined until no pair is left: 12, then 14, then 15. */
uint64_t sezkibalo_combine(uint64_t *counts, size_t counts_len, uint64_t *sections, size_t sections_len,
                           uint64_t *instructions, size_t instructions_len, int64_t *numbers, size_t numbers_len,
                           uint32_t *strings, size_t strings_len, const uint8_t *pool, size_t pool_len,
                           const uint16_t *names, size_t names_len);

/* The place of a string register's text in the pool: start * 2^32 + length; empty, at the pool's end, where register or word is bad.
   No register has the number 65,535 or more. The end of a pool of more than 2^32 - 1 characters is said as 2^32 - 1. */
uint64_t sezkibalo_text(const uint32_t *strings, size_t strings_len, const uint8_t *pool, size_t pool_len, uint64_t reg);

#endif

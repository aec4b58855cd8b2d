/* The C functions of libmom_c.a: rows and the check and lookup of maps that come as rows, which an
 * ingest process calls; then cells of multi-order maps, their zuniqs, the mergers, the check and
 * lookup of a map's zuniqs, building from counts and from densities, and combining maps; then
 * narrow maps, which dome boxes keep, and moving maps between the two widths; then rows laid out by
 * byte column, for disks; last, the area that observers can reach: the coverage of a map, and a map
 * clipped to a coverage.
 *
 * A cell is a depth d, 0 to 29, and a hash h below N(d) = 12 * 4^d (HEALPix, nested). Its zuniq is
 * (2h + 1) * 4^(29 - d), a u64; no other u64 is a valid zuniq. The four cells that it consists of
 * one depth further down are its children.
 *
 * A cell of depth 0 to 13 has a narrow zuniq too, (2h + 1) * 4^(13 - d), a u32; no other u32 is a
 * valid narrow zuniq. The functions on narrow zuniqs are named mom32_ and do what those named mom_
 * do; depth 13 is their largest.
 *
 * Every function answers one word. Its high byte is the code:
 *
 *     0          accepted; the low 56 bits hold the answer, where the function says one
 *     1 to 64    refused: the code is the refusal's number, the low 56 bits its place, from 0
 *     MOM_NONE   there is no such cell, entry or density
 *     MOM_KEPT   the four children are kept, not merged
 *     67 to 70   the map is faulty: the code is the fault, the low 56 bits its place, from 0
 *
 * A map of depth D is given by its zuniqs. It is valid where each is a valid zuniq, none is of a
 * cell deeper than D, they rise strictly and no two of their cells overlap. A narrow map is one of
 * narrow zuniqs.
 *
 * A coverage is a part of the sky as ranges of hashes of depth 29, in two paired buffers (MOC 2.0): a
 * range holds the hashes from its start to below its end. It is valid where no range is empty or ends
 * past N(29), and each starts above the end of the one before, so that no two touch. A cell lies inside
 * a coverage where all its cells of depth 29 do.
 *
 * A protected parent is a cell that may never swallow its children. Every function that merges takes a
 * list of them, protected_parents: their zuniqs, narrow ones for a narrow map. It is valid where each
 * is a valid zuniq and above the one before; its cells may lie inside one another. Four children whose
 * parent is listed are kept, whatever their chi-square, and blank sky, four counts of 0, too. A list
 * that is empty changes nothing. Batches that are added to one map, in however many calls, come under
 * the same list.
 *
 * As bytes a map is rows, one for each entry: the zuniq in 8 bytes, then the count in 4 or the
 * density in 8, each little-endian, with nothing between rows. A density is handed over as its
 * 64-bit pattern, so that every pattern comes back, those of NaNs too. A row of a narrow map is the
 * zuniq in 4 bytes, then the count in 4.
 *
 * What doesn't fit into the word goes through a pointer. A function says when it writes such a
 * number: by a refusal, and by MOM_NONE, it is left as it was. A slice is its pointer and then its
 * length in elements. No function keeps a pointer or has a state, so any number of threads may call;
 * none takes memory but the stack, where its own frames are less than 16 KiB. A double is the 64-bit
 * one of IEEE 754.
 *
 * What a caller has to see to, since no function can look at it:
 *
 *   - A length is true: so many elements stand behind the pointer and may be read, and written too
 *     where the pointer isn't const. A pointer to a single number reaches one such number.
 *   - A pointer is aligned as its type asks for: to 8 bytes for uint64_t, double and size_t, to 4 for
 *     uint32_t. A uint8_t may stand anywhere, so that rows may begin at any byte of a file in memory.
 *   - No pointer is null, not even that of an empty slice.
 *   - What one pointer of a call reaches overlaps nothing that another does, unless both are const.
 *
 * Everything else, numbers of any value and buffers with any content, is answered or refused.
 *
 * Link with -lmom_c. The archive is made by `rt lib` in crates/mom_c, for x86-64.
 */
#ifndef MOM_H
#define MOM_H

#include <stddef.h>
#include <stdint.h>

#ifdef __cplusplus
extern "C" {
#endif

/* The codes of an answer that are no refusal. */
#define MOM_ACCEPTED 0
#define MOM_NONE 65
#define MOM_KEPT 66
#define MOM_FAULT_NOT_A_ZUNIQ 67
#define MOM_FAULT_TOO_DEEP 68
#define MOM_FAULT_NOT_ABOVE 69
#define MOM_FAULT_OVERLAPPING 70

/* The numbers of the refusals that these functions give. */
#define MOM_DEPTH_OUT_OF_RANGE 1
#define MOM_DEPTH_THRESHOLD_OUT_OF_RANGE 2
#define MOM_CHI2_THRESHOLD_IS_NAN 3
#define MOM_INVALID_FACTOR 3
#define MOM_LENGTHS_DIFFER 4
#define MOM_INVALID_MAP 5
#define MOM_INVALID_MAP_DENSITY 6
#define MOM_HASH_OUT_OF_RANGE 7
#define MOM_CELL_NOT_ABOVE 8
#define MOM_INVALID_DENSITY 9
#define MOM_COUNT_OVERFLOW 10
#define MOM_PRODUCT_NOT_FINITE 10
#define MOM_NO_SPACE 11
#define MOM_NOT_A_ZUNIQ 12
#define MOM_ENTRY_TOO_DEEP 13
#define MOM_INVALID_RANGE 14
#define MOM_INVALID_PROTECTED 15
#define MOM_FIGURES_DIFFER 16

/* The code of an answer: MOM_ACCEPTED, a refusal's number, MOM_NONE, MOM_KEPT or a fault. */
static inline uint8_t mom_code(uint64_t word) { return (uint8_t)(word >> 56); }

/* The low 56 bits of an answer: the value of an accepted call or the place of a refusal or
 * a fault. */
static inline uint64_t mom_value(uint64_t word) { return word & UINT64_C(0x00ffffffffffffff); }

/* The bytes of a row, and how many rows a map may have in the check and lookup. */
#define MOM_COUNT_ROW 12
#define MOM_DENSITY_ROW 16
#define MOM_NARROW_ROW 8
#define MOM_MAX_ROWS 4096

/* ---- The ingest process */

/* Reads count rows into two buffers. The value is the number of rows; places past them stay. Rows
 * are not checked as maps. By a refusal both buffers are left as they were.
 * Refuses by 4: zl isn't cl, or bl is no multiple of 12; then by 11: there are more rows than zl. */
uint64_t mom_read_count_rows(const uint8_t *bytes, size_t bl, uint64_t *zuniqs, size_t zl,
                             uint32_t *counts, size_t cl);

/* The same for density rows: the densities' patterns.
 * Refuses by 4: zl isn't pl, or bl is no multiple of 16; then by 11: there are more rows than zl. */
uint64_t mom_read_density_rows(const uint8_t *bytes, size_t bl, uint64_t *zuniqs, size_t zl,
                               uint64_t *patterns, size_t pl);

/* Writes count rows to the front of bytes. The value is the number of rows; bytes past them stay. By
 * a refusal the bytes are left as they were.
 * Refuses by 4: zl isn't cl; then by 11: bl is below 12 * zl. */
uint64_t mom_write_count_rows(const uint64_t *zuniqs, size_t zl, const uint32_t *counts, size_t cl,
                              uint8_t *bytes, size_t bl);

/* The same for density rows, from the densities' patterns.
 * Refuses by 4: zl isn't pl; then by 11: bl is below 16 * zl. */
uint64_t mom_write_density_rows(const uint64_t *zuniqs, size_t zl, const uint64_t *patterns,
                                size_t pl, uint8_t *bytes, size_t bl);

/* *density = the density of a count in a cell of that depth, count / ((4 pi) / N(depth)).
 * Refuses by 1: the depth is over 29. */
uint64_t mom_density_of_count(uint8_t depth, uint32_t count, double *density);

/* *density = the density that the pattern stands for; MOM_NONE where that is NaN, infinite or below 0
 * (-0 is none of these). Refuses nothing. */
uint64_t mom_density_of_pattern(uint64_t pattern, double *density);

/* *pattern = the pattern of the density; MOM_NONE as above. Refuses nothing. */
uint64_t mom_pattern_of_density(double density, uint64_t *pattern);

/* The three functions below read the rows where they stand, and copy none.
 *
 * Whether count rows are a valid map of that depth: MOM_ACCEPTED, or the first faulty row and the
 * first fault there of: not a zuniq, too deep, not above its predecessor, overlapping it.
 * Refuses by 1: the depth is over 29; then by 4: bl is no multiple of 12; then by 11: there are more
 * than 4096 rows. */
uint64_t mom_check_is_mom(uint8_t depth, const uint8_t *bytes, size_t bl);

/* The value is the row of the map's entry over the cell of the zuniq; MOM_NONE where no entry is.
 * The map isn't checked: where it isn't valid, the answer may be any entry that is a valid zuniq
 * and overlaps the cell, or MOM_NONE.
 * Refuses by 1, 4 and 11 as the check; then by 12: zuniq isn't a valid zuniq of that depth. */
uint64_t mom_get_cell_containing(uint8_t depth, const uint8_t *bytes, size_t bl, uint64_t zuniq);

/* The entries of the map that overlap the cell of the zuniq, which stand one after the other: the
 * value is the row of the first and *number = how many they are; both 0 where there are none. The
 * map isn't checked: where it isn't valid, they may be any that are valid zuniqs and overlap it.
 * Refuses by 4 and 11 as the check; then by 12: zuniq isn't a valid zuniq. */
uint64_t mom_get_overlapped_cells(const uint8_t *bytes, size_t bl, uint64_t zuniq, size_t *number);

/* ---- Cells, mergers, zuniqs of maps, building */

/* *n_hash = N(depth), the number of cells at that depth.
 * Refuses by 1: the depth is over 29. */
uint64_t mom_n_hash(uint8_t depth, uint64_t *n_hash);

/* *zuniq = the zuniq of the cell (depth, hash).
 * Refuses by 1: the depth is over 29; then by 7: the hash is N(depth) or more. */
uint64_t mom_to_zuniq(uint8_t depth, uint64_t hash, uint64_t *zuniq);

/* *depth and *hash = the cell of the zuniq; MOM_NONE where the number isn't a valid zuniq.
 * Refuses nothing. */
uint64_t mom_from_zuniq(uint64_t zuniq, uint8_t *depth, uint64_t *hash);

/* The value is 1 where the two cells are equal or one lies inside the other, else 0.
 * Refuses by 12: one of the two isn't a valid zuniq; place 0 is the left one, 1 the right one. */
uint64_t mom_are_overlapping(uint64_t zuniq_l, uint64_t zuniq_r);

/* The counts of the four children of the cell (parent_depth, parent_hash) are merged where
 * parent_depth is at least depth_threshold, their chi-square is below chi2_threshold and the cell is
 * no protected parent. Four counts of 0, blank sky, are merged at any chi2_threshold, from
 * depth_threshold on, where the cell is no protected parent. The value is then their sum, the
 * parent's count, and *chi2 is left as it was. Otherwise the answer is MOM_KEPT, and *chi2 = their
 * chi-square: with a zero among the four it is exactly their sum, and else within sum / 2^50 of the
 * exact number.
 * Refuses by 1: parent_depth is over 28; then by 2: depth_threshold is over 29; then by 3:
 * chi2_threshold is a NaN; then by 15: a protected parent isn't a valid zuniq, or isn't above the one
 * before, the place is its index; then by 7: parent_hash is N(parent_depth) or more; then by 10: the
 * sum of the four is over 2^32 - 1. */
uint64_t mom_chi2_count_merger(uint8_t parent_depth, uint64_t parent_hash, uint8_t depth_threshold,
                               double chi2_threshold, const uint64_t *protected_parents, size_t pl,
                               uint32_t n0, uint32_t n1, uint32_t n2, uint32_t n3, double *chi2);

/* The densities of the four children are merged where parent_depth is at least depth_threshold, their
 * chi-square is below chi2_threshold and the cell is no protected parent; four of 0 are judged like
 * others. *answer = a quarter of their sum, the parent's density, or with MOM_KEPT their chi-square,
 * which may be NaN or infinite where the sum is near the largest double or past it.
 * Refuses by 1, 2, 3, 15 and 7 as for counts; then by 9: a density is NaN, infinite or below 0 (-0 is
 * none of these); the place is the first such child, 0 to 3. */
uint64_t mom_chi2_density_merger(uint8_t parent_depth, uint64_t parent_hash,
                                 uint8_t depth_threshold, double chi2_threshold,
                                 const uint64_t *protected_parents, size_t pl, double m0, double m1,
                                 double m2, double m3, double *answer);

/* Whether the len zuniqs are a valid map of that depth: MOM_ACCEPTED, or the first faulty place and
 * the first fault there of: not a zuniq, too deep, not above its predecessor, overlapping it.
 * Refuses by 1: the depth is over 29. */
uint64_t mom_check_is_mom_zuniqs(uint8_t depth, const uint64_t *zuniqs, size_t len);

/* The value is the place of the map's entry over the cell of the zuniq; MOM_NONE where no entry is.
 * The map isn't checked: where it isn't valid, the answer may be any entry that is a valid zuniq
 * and overlaps the cell, or MOM_NONE.
 * Refuses by 1: the depth is over 29; then by 12: zuniq isn't a valid zuniq of that depth. */
uint64_t mom_get_cell_containing_zuniqs(uint8_t depth, const uint64_t *zuniqs, size_t len,
                                        uint64_t zuniq);

/* The entries of the map that overlap the cell of the zuniq, which stand one after the other: the
 * value is the place of the first and *number = how many they are; both 0 where there are none. The
 * map isn't checked: where it isn't valid, they may be any that are valid zuniqs and overlap it.
 * Refuses by 12: zuniq isn't a valid zuniq. */
uint64_t mom_get_overlapped_cells_zuniqs(const uint64_t *zuniqs, size_t len, uint64_t zuniq,
                                         size_t *number);

/* Adds cells of that depth, given by hashes and their counts in batch, to the map in the first held
 * places of zuniqs and counts. Each cell is appended; while the last four entries are the children
 * of one parent and the count merger accepts them under depth_threshold, chi2_threshold and
 * protected_parents, they are replaced by the parent: blank sky at any chi2_threshold, but into no
 * protected parent. Cells of depth 0 have no parent, and stay as they are. The value is the new number
 * of entries and *total = the sum of their counts; every place after the entries is 0. By a refusal
 * both buffers and *total are left as they were.
 * Refuses by 1: the depth is over 29; then by 2: depth_threshold is over 29; then by 3:
 * chi2_threshold is a NaN; then by 15: a protected parent isn't a valid zuniq, or isn't above the one
 * before, the place is its index; then by 4: zl isn't cl, hl isn't bl, or held is over zl; then by 5:
 * the held entries are no valid map of that depth, the place is the faulty entry; then, cell by cell,
 * by 7: its hash is N(depth) or more, and by 8: it isn't above the one before it, or the first
 * starts before the last held entry ends, the place is the cell; then by 10: held counts and batch
 * together are over 2^32 - 1, the place is the cell that passes it, 0 where the held ones alone do;
 * then by 11: held + hl is over zl. */
uint64_t mom_add_counts(uint8_t depth, uint8_t depth_threshold, double chi2_threshold,
                        const uint64_t *protected_parents, size_t pl, size_t held,
                        uint64_t *zuniqs, size_t zl, uint32_t *counts, size_t cl,
                        const uint64_t *hashes, size_t hl, const uint32_t *batch, size_t bl,
                        uint32_t *total);

/* Adds cells of that depth, given by hashes and their densities in batch, to the map in the first
 * held places of zuniqs and densities, as mom_add_counts does, by the density merger. The value is
 * the new number of entries; every place after the entries is 0. By a refusal both buffers are left
 * as they were.
 * Refuses by 1, 2, 3, 15, 4 and 5 as for counts, dl standing for cl; then by 6: a held density is
 * NaN, infinite or below 0 (-0 is none of these), the place is the entry; then, cell by cell, by 7 and
 * 8 as for counts, and by 9: its density is NaN, infinite or below 0, the place is the cell; then by
 * 11: held + hl is over zl. */
uint64_t mom_add_densities(uint8_t depth, uint8_t depth_threshold, double chi2_threshold,
                           const uint64_t *protected_parents, size_t pl, size_t held,
                           uint64_t *zuniqs, size_t zl, double *densities, size_t dl,
                           const uint64_t *hashes, size_t hl, const double *batch, size_t bl);

/* Pools two count maps, each with a depth of its own, into zuniqs and counts, which may hold
 * anything. A cell that one map has keeps its count, a cell that both have gets the sum. An
 * entry of one map that has entries of the other in it is split: each of its children gets a
 * quarter of its count, and what is left over goes to them one each, from child h mod 4 on, h being
 * the hash of the cell that is split, and after child 3 from child 0 on; so on, level by level. The
 * cells are then merged by the count merger under depth_threshold, chi2_threshold and
 * protected_parents, as mom_add_counts does: blank sky at any chi2_threshold, but into no protected
 * parent. The value is the number of entries and *total = the sum of their counts; every place after
 * the entries is 0. By a refusal both buffers and *total are left as they were.
 * Refuses by 1: a map's depth is over 29; then by 2: depth_threshold is over 29; then by 3:
 * chi2_threshold is a NaN; then by 15: a protected parent isn't a valid zuniq, or isn't above the one
 * before, the place is its index; then by 4: lzl isn't lcl, rzl isn't rcl, or zl isn't cl; then by 5:
 * a map is no valid map of its depth, the place is its first faulty entry, and the left map goes
 * before the right one; then by 10: all counts together are over 2^32 - 1; then by 11: zl is
 * less than the number of cells before they are merged. */
uint64_t mom_pool(uint8_t left_depth, const uint64_t *left_zuniqs, size_t lzl,
                  const uint32_t *left_counts, size_t lcl, uint8_t right_depth,
                  const uint64_t *right_zuniqs, size_t rzl, const uint32_t *right_counts,
                  size_t rcl, uint8_t depth_threshold, double chi2_threshold,
                  const uint64_t *protected_parents, size_t pl, uint64_t *zuniqs, size_t zl,
                  uint32_t *counts, size_t cl, uint32_t *total);

/* Answers what mom_pool would cost and come to, before a buffer is given up for it: *cells = the number
 * of cells before they are merged, which is how many places the output has to have, *entries = the
 * number of entries after that, and *total = the sum of their counts. The value is 0. Nothing else is
 * written, and by a refusal the three are left as they were.
 * Refuses by 1, 2, 3 and 15 as mom_pool does; then by 4: lzl isn't lcl, or rzl isn't rcl; then by 5 and
 * 10 as mom_pool does. There is no output, and so no 11. */
uint64_t mom_ask(uint8_t left_depth, const uint64_t *left_zuniqs, size_t lzl,
                 const uint32_t *left_counts, size_t lcl, uint8_t right_depth,
                 const uint64_t *right_zuniqs, size_t rzl, const uint32_t *right_counts, size_t rcl,
                 uint8_t depth_threshold, double chi2_threshold, const uint64_t *protected_parents,
                 size_t pl, size_t *cells, size_t *entries, uint32_t *total);

/* Pools two count maps as mom_pool does, where cells, entries and asked_total are what mom_ask answers
 * for the same maps, thresholds and protected parents. They are worked out anew, so that inputs which
 * have other figures by now are noticed. The value is the number of entries and *total = the sum of
 * their counts; every place after the entries is 0. By a refusal both buffers and *total are left as
 * they were. Where zl is cl, mom_pool is an ask followed by its commit, in its refusals too.
 * Refuses by 1, 2, 3, 15, 4, 5 and 10 as mom_pool does; then by 16: one of the three figures isn't the
 * one that mom_ask would answer; then by 11: zl is less than cells. */
uint64_t mom_commit(uint8_t left_depth, const uint64_t *left_zuniqs, size_t lzl,
                    const uint32_t *left_counts, size_t lcl, uint8_t right_depth,
                    const uint64_t *right_zuniqs, size_t rzl, const uint32_t *right_counts,
                    size_t rcl, uint8_t depth_threshold, double chi2_threshold,
                    const uint64_t *protected_parents, size_t pl, size_t cells, size_t entries,
                    uint32_t asked_total, uint64_t *zuniqs, size_t zl, uint32_t *counts, size_t cl,
                    uint32_t *total);

/* Multiplies two density maps, each with a depth of its own, into zuniqs and densities, which may
 * hold anything. A cell that both maps have gets (k * left) * right, a cell that one map has is
 * dropped. An entry of one map that has entries of the other in it is split: a child has its
 * parent's density. The products are then merged by the density merger under depth_threshold,
 * chi2_threshold and protected_parents. The value is the number of entries; every place after the
 * entries is 0. By a refusal both buffers are left as they were.
 * Refuses by 1 and 2 as mom_pool does; then by 3: chi2_threshold is a NaN, or k is NaN, infinite
 * or below 0 (-0 is none of these); then by 15, 4 and 5 as mom_pool does, with ldl, rdl and dl for
 * lcl, rcl and cl; then by 6: a density is NaN, infinite or below 0, the place is its entry, and
 * the left map goes before the right one; then by 10: the product of a cell before merging is not
 * finite; then by 11: zl is less than the number of products before they are merged. */
uint64_t mom_product(uint8_t left_depth, const uint64_t *left_zuniqs, size_t lzl,
                     const double *left_densities, size_t ldl, uint8_t right_depth,
                     const uint64_t *right_zuniqs, size_t rzl, const double *right_densities,
                     size_t rdl, uint8_t depth_threshold, double chi2_threshold, double k,
                     const uint64_t *protected_parents, size_t pl, uint64_t *zuniqs, size_t zl,
                     double *densities, size_t dl);

/* ---- Narrow maps */

/* *zuniq = the narrow zuniq of the cell (depth, hash).
 * Refuses by 1: the depth is over 13; then by 7: the hash is N(depth) or more. */
uint64_t mom32_to_zuniq(uint8_t depth, uint32_t hash, uint32_t *zuniq);

/* *depth and *hash = the cell of the narrow zuniq; MOM_NONE where the number isn't a valid one.
 * Refuses nothing. */
uint64_t mom32_from_zuniq(uint32_t zuniq, uint8_t *depth, uint32_t *hash);

/* The value is 1 where the two cells are equal or one lies inside the other, else 0.
 * Refuses by 12: one of the two isn't a valid narrow zuniq; place 0 is the left one, 1 the right
 * one. */
uint64_t mom32_are_overlapping(uint32_t zuniq_l, uint32_t zuniq_r);

/* Reads narrow rows into two buffers. The value is the number of rows; places past them stay. Rows
 * are not checked as maps. By a refusal both buffers are left as they were.
 * Refuses by 4: zl isn't cl, or bl is no multiple of 8; then by 11: there are more rows than zl. */
uint64_t mom32_read_count_rows(const uint8_t *bytes, size_t bl, uint32_t *zuniqs, size_t zl,
                               uint32_t *counts, size_t cl);

/* Writes narrow rows to the front of bytes. The value is the number of rows; bytes past them stay.
 * By a refusal the bytes are left as they were.
 * Refuses by 4: zl isn't cl; then by 11: bl is below 8 * zl. */
uint64_t mom32_write_count_rows(const uint32_t *zuniqs, size_t zl, const uint32_t *counts, size_t cl,
                                uint8_t *bytes, size_t bl);

/* The three functions below read the rows where they stand, and copy none.
 *
 * Whether narrow rows are a valid narrow map of that depth: MOM_ACCEPTED, or the first faulty row and
 * the first fault there of: not a narrow zuniq, too deep, not above its predecessor, overlapping it.
 * Refuses by 1: the depth is over 13; then by 4: bl is no multiple of 8; then by 11: there are more
 * than 4096 rows. */
uint64_t mom32_check_is_mom(uint8_t depth, const uint8_t *bytes, size_t bl);

/* The value is the row of the map's entry over the cell of the narrow zuniq; MOM_NONE where no entry
 * is. The map isn't checked: where it isn't valid, the answer may be any entry that is a valid narrow
 * zuniq and overlaps the cell, or MOM_NONE.
 * Refuses by 1, 4 and 11 as the check; then by 12: zuniq isn't a valid narrow zuniq of that depth. */
uint64_t mom32_get_cell_containing(uint8_t depth, const uint8_t *bytes, size_t bl, uint32_t zuniq);

/* The entries of the map that overlap the cell of the narrow zuniq, which stand one after the other:
 * the value is the row of the first and *number = how many they are; both 0 where there are none. The
 * map isn't checked: where it isn't valid, they may be any that are valid narrow zuniqs and overlap
 * it.
 * Refuses by 4 and 11 as the check; then by 12: zuniq isn't a valid narrow zuniq. */
uint64_t mom32_get_overlapped_cells(const uint8_t *bytes, size_t bl, uint32_t zuniq, size_t *number);

/* Whether the len narrow zuniqs are a valid narrow map of that depth: MOM_ACCEPTED, or the first
 * faulty place and the first fault there of: not a narrow zuniq, too deep, not above its predecessor,
 * overlapping it.
 * Refuses by 1: the depth is over 13. */
uint64_t mom32_check_is_mom_zuniqs(uint8_t depth, const uint32_t *zuniqs, size_t len);

/* The value is the place of the map's entry over the cell of the narrow zuniq; MOM_NONE where no
 * entry is. The map isn't checked: where it isn't valid, the answer may be any entry that is a valid
 * narrow zuniq and overlaps the cell, or MOM_NONE.
 * Refuses by 1: the depth is over 13; then by 12: zuniq isn't a valid narrow zuniq of that depth. */
uint64_t mom32_get_cell_containing_zuniqs(uint8_t depth, const uint32_t *zuniqs, size_t len,
                                          uint32_t zuniq);

/* The entries of the map that overlap the cell of the narrow zuniq, which stand one after the other:
 * the value is the place of the first and *number = how many they are; both 0 where there are none.
 * The map isn't checked: where it isn't valid, they may be any that are valid narrow zuniqs and
 * overlap it.
 * Refuses by 12: zuniq isn't a valid narrow zuniq. */
uint64_t mom32_get_overlapped_cells_zuniqs(const uint32_t *zuniqs, size_t len, uint32_t zuniq,
                                           size_t *number);

/* Adds cells of that depth, given by hashes and their counts in batch, to the narrow map in the first
 * held places of zuniqs and counts, as mom_add_counts does, by the same merger: blank sky is merged at
 * any chi2_threshold, but into no protected parent. The value is the new number of entries and *total =
 * the sum of their counts; every place after the entries is 0. By a refusal both buffers and *total are
 * left as they were.
 * Refuses by 1: the depth is over 13; then by 2: depth_threshold is over 29 (from 13 on nothing is
 * merged); then by 3, 15, 4, 5, 7, 8, 10 and 11 as mom_add_counts does, the protected parents being
 * narrow zuniqs and the held entries a narrow map. */
uint64_t mom32_add_counts(uint8_t depth, uint8_t depth_threshold, double chi2_threshold,
                          const uint32_t *protected_parents, size_t pl, size_t held,
                          uint32_t *zuniqs, size_t zl, uint32_t *counts, size_t cl,
                          const uint32_t *hashes, size_t hl, const uint32_t *batch, size_t bl,
                          uint32_t *total);

/* ---- Moving between the widths */

/* Moves a count map of that depth into the narrow buffers out_zuniqs and out_counts, which may hold
 * anything: each entry keeps its cell and its count. The value is the number of entries and
 * *out_depth = the depth of the narrow map, the smaller of depth and 13; every place after the
 * entries is 0. By a refusal both buffers and *out_depth are left as they were.
 * Refuses by 1: the depth is over 29; then by 4: zl isn't cl, or ozl isn't ocl; then by 5: the zuniqs
 * are no valid map of that depth, the place is the faulty entry; then by 13: an entry is deeper than
 * 13, the place is the first such entry; then by 11: ozl is below zl. */
uint64_t mom_narrow(uint8_t depth, const uint64_t *zuniqs, size_t zl, const uint32_t *counts,
                    size_t cl, uint32_t *out_zuniqs, size_t ozl, uint32_t *out_counts, size_t ocl,
                    uint8_t *out_depth);

/* Moves a narrow count map of that depth into out_zuniqs and out_counts in the same way. *out_depth =
 * depth. A map that was narrowed has its entries again.
 * Refuses by 1: the depth is over 13; then by 4: zl isn't cl, or ozl isn't ocl; then by 5: the zuniqs
 * are no valid narrow map of that depth, the place is the faulty entry; then by 11: ozl is below
 * zl. */
uint64_t mom_widen(uint8_t depth, const uint32_t *zuniqs, size_t zl, const uint32_t *counts,
                   size_t cl, uint64_t *out_zuniqs, size_t ozl, uint32_t *out_counts, size_t ocl,
                   uint8_t *out_depth);

/* ---- Rows laid out by byte column */

/* Lays rows of row_size bytes, which is 8, 12 or 16, out by byte column at the front of columns: all
 * first bytes stand together, then all second bytes, and so on through the row. Byte j of row i, both
 * from 0, stands at j * the number of rows + i. The value is the number of rows; bytes past them stay.
 * Rows are not checked as maps. By a refusal the columns are left as they were.
 * Refuses by 4: row_size is none of these, or rl is no multiple of it; then by 11: cl is below rl. */
uint64_t mom_rows_to_columns(size_t row_size, const uint8_t *rows, size_t rl, uint8_t *columns,
                             size_t cl);

/* The way back, from byte columns to rows at the front of rows: what was laid out is there again. The
 * value is the number of rows; bytes past them stay. By a refusal the rows are left as they were.
 * Refuses by 4: row_size is none of these, or cl is no multiple of it; then by 11: rl is below cl. */
uint64_t mom_columns_to_rows(size_t row_size, const uint8_t *columns, size_t cl, uint8_t *rows,
                             size_t rl);

/* ---- The area that observers can reach */

/* Writes the coverage of a map of that depth into starts and ends, which may hold anything: exactly the
 * cells of depth 29 that lie in an entry, as rising ranges of which none touches the next, so that
 * neighbouring entries share a range. The value is the number of ranges, which is at most zl; every
 * place after them is 0. By a refusal both buffers are left as they were.
 * Refuses by 1: the depth is over 29; then by 4: sl isn't el; then by 5: the zuniqs are no valid map of
 * that depth, the place is the faulty entry; then by 11: sl is below the number of ranges. */
uint64_t mom_coverage(uint8_t depth, const uint64_t *zuniqs, size_t zl, uint64_t *starts, size_t sl,
                      uint64_t *ends, size_t el);

/* Clips a density map of that depth to the coverage in starts and ends, into zuniqs and densities,
 * which may hold anything: every cell that lies inside an entry and inside the coverage while its
 * parent, if any, doesn't lie inside both, with the entry's density. Nothing is merged, and the clipped
 * map is of depth 29. Clipped to its own coverage a map has its entries again: sl and el are then the
 * number of ranges, since the zeros that mom_coverage leaves behind them would be an empty range. The
 * value is the number of cells; every place after them is 0. By a refusal both buffers are left as they
 * were.
 * Refuses by 1: the depth is over 29; then by 4: mzl isn't mdl, sl isn't el, or zl isn't dl; then by 5:
 * the map is no valid map of that depth, the place is the faulty entry; then by 6: a density is NaN,
 * infinite or below 0 (-0 is none of these), the place is its entry; then by 14: a range is empty, ends
 * past N(29), or doesn't start above the end of the one before, the place is the range; then by 11: zl
 * is below the number of cells. */
uint64_t mom_clip(uint8_t depth, const uint64_t *map_zuniqs, size_t mzl, const double *map_densities,
                  size_t mdl, const uint64_t *starts, size_t sl, const uint64_t *ends, size_t el,
                  uint64_t *zuniqs, size_t zl, double *densities, size_t dl);

#ifdef __cplusplus
}
#endif

#endif

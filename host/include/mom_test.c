/* Calls every function of mom.h from C: what it writes and answers, and that a refusal, or that
 * there is no cell, leaves the caller's numbers alone. Prints `N passed, M failed`. */
#include <math.h>
#include <stdio.h>
#include <string.h>

#include "mom.h"

static int passed, failed;

static void expect(int holds, const char *what) {
    if (holds) {
        passed++;
    } else {
        failed++;
        printf("failed: %s\n", what);
    }
}

static int answers(uint64_t word, uint8_t code, uint64_t value) {
    return mom_code(word) == code && mom_value(word) == value;
}

/* Empty lists of protected parents. What stands behind the pointer is no zuniq, and isn't read. */
static const uint64_t unlisted[1] = {0};
static const uint32_t unlisted32[1] = {0};

/* Two rows, then a byte more: the zuniqs 1 and 3 with the counts 258 and 4. */
static const uint8_t count_rows[25] = {1, 0, 0, 0, 0, 0, 0, 0, 2, 1, 0, 0,
                                       3, 0, 0, 0, 0, 0, 0, 0, 4, 0, 0, 0, 9};

static void rows(void) {
    uint64_t zuniqs[3] = {5, 5, 5}, patterns[3] = {5, 5, 5}, pattern = 5;
    uint32_t counts[3] = {5, 5, 5};
    uint8_t bytes[34];
    double density = 5.5;
    const uint64_t nan = UINT64_C(0xfff8000000000001);

    expect(answers(mom_read_count_rows(count_rows, 25, zuniqs, 3, counts, 3),
                   MOM_LENGTHS_DIFFER, 0),
           "reading a byte more than two rows");
    expect(answers(mom_read_count_rows(count_rows, 24, zuniqs, 3, counts, 2),
                   MOM_LENGTHS_DIFFER, 0),
           "reading into two lengths");
    expect(answers(mom_read_count_rows(count_rows, 24, zuniqs, 1, counts, 1), MOM_NO_SPACE, 0) &&
           zuniqs[0] == 5 && counts[0] == 5, "reading into too few places");
    expect(answers(mom_read_count_rows(count_rows, 24, zuniqs, 3, counts, 3), MOM_ACCEPTED, 2) &&
           zuniqs[0] == 1 && zuniqs[1] == 3 && zuniqs[2] == 5 && counts[0] == 258 &&
           counts[1] == 4 && counts[2] == 5, "reading two rows into three places");

    memset(bytes, 7, sizeof bytes);
    expect(answers(mom_write_count_rows(zuniqs, 2, counts, 3, bytes, 34), MOM_LENGTHS_DIFFER, 0),
           "writing from two lengths");
    expect(answers(mom_write_count_rows(zuniqs, 2, counts, 2, bytes, 23), MOM_NO_SPACE, 0) &&
           bytes[0] == 7, "writing to too few bytes");
    expect(answers(mom_write_count_rows(zuniqs, 2, counts, 2, bytes, 34), MOM_ACCEPTED, 2) &&
           memcmp(bytes, count_rows, 24) == 0 && bytes[24] == 7, "writing two rows");

    patterns[0] = nan;
    expect(answers(mom_write_density_rows(zuniqs, 2, patterns, 3, bytes, 34),
                   MOM_LENGTHS_DIFFER, 0),
           "writing densities from two lengths");
    expect(answers(mom_write_density_rows(zuniqs, 2, patterns, 2, bytes, 31), MOM_NO_SPACE, 0) &&
           memcmp(bytes, count_rows, 24) == 0, "writing densities to too few bytes");
    expect(answers(mom_write_density_rows(zuniqs, 2, patterns, 2, bytes, 34), MOM_ACCEPTED, 2) &&
           bytes[8] == 1 && bytes[15] == 255 && bytes[16] == 3 && bytes[24] == 5 && bytes[32] == 7,
           "writing two density rows");
    patterns[0] = patterns[1] = 6;
    expect(answers(mom_read_density_rows(bytes, 33, zuniqs, 3, patterns, 3), MOM_LENGTHS_DIFFER, 0),
           "reading a byte more than two density rows");
    expect(answers(mom_read_density_rows(bytes, 32, zuniqs, 1, patterns, 1), MOM_NO_SPACE, 0) &&
           patterns[0] == 6, "reading densities into too few places");
    expect(answers(mom_read_density_rows(bytes, 32, zuniqs, 3, patterns, 3), MOM_ACCEPTED, 2) &&
           patterns[0] == nan && patterns[1] == 5 && patterns[2] == 5 && zuniqs[1] == 3,
           "reading two density rows, a NaN among them");

    expect(answers(mom_density_of_count(30, 1, &density), MOM_DEPTH_OUT_OF_RANGE, 0) &&
           density == 5.5, "a density at depth 30");
    expect(answers(mom_density_of_count(0, 0, &density), MOM_ACCEPTED, 0) && density == 0,
           "the density of 0");
    expect(answers(mom_density_of_count(0, 1, &density), MOM_ACCEPTED, 0) &&
           density == 1.0 / (4.0 * 3.141592653589793 / 12.0), "the density of 1");
    density = 5.5;
    expect(answers(mom_density_of_pattern(nan, &density), MOM_NONE, 0) && density == 5.5,
           "the density of a NaN's pattern");
    expect(answers(mom_density_of_pattern(UINT64_C(1) << 62, &density), MOM_ACCEPTED, 0) &&
           density == 2, "the density of 2's pattern");
    expect(answers(mom_pattern_of_density(-1, &pattern), MOM_NONE, 0) && pattern == 5,
           "the pattern of -1");
    expect(answers(mom_pattern_of_density(-0.0, &pattern), MOM_ACCEPTED, 0) &&
           pattern == UINT64_C(1) << 63, "the pattern of -0");
}

static void maps_of_rows(void) {
    static uint8_t many[12 * (MOM_MAX_ROWS + 1)];
    const uint64_t base = UINT64_C(1) << 58;
    size_t number = 5, row;
    uint64_t last;

    for (row = 0; row <= MOM_MAX_ROWS; row++) {
        many[12 * row] = (uint8_t)(2 * row + 1);
        many[12 * row + 1] = (uint8_t)((2 * row + 1) >> 8);
    }
    last = 2 * MOM_MAX_ROWS - 1;
    expect(answers(mom_check_is_mom(30, count_rows, 25), MOM_DEPTH_OUT_OF_RANGE, 0) &&
           answers(mom_check_is_mom(29, count_rows, 25), MOM_LENGTHS_DIFFER, 0) &&
           answers(mom_check_is_mom(29, many, sizeof many), MOM_NO_SPACE, 0),
           "refused checks of rows");
    expect(answers(mom_check_is_mom(29, many, sizeof many - 12), MOM_ACCEPTED, 0) &&
           answers(mom_check_is_mom(29, many, 0), MOM_ACCEPTED, 0) &&
           answers(mom_check_is_mom(28, many, 24), MOM_FAULT_TOO_DEEP, 0),
           "checks of 4096, no and two rows");

    expect(answers(mom_get_cell_containing(30, count_rows, 25, 0), MOM_DEPTH_OUT_OF_RANGE, 0) &&
           answers(mom_get_cell_containing(29, count_rows, 25, 0), MOM_LENGTHS_DIFFER, 0) &&
           answers(mom_get_cell_containing(29, many, sizeof many, 0), MOM_NO_SPACE, 0) &&
           answers(mom_get_cell_containing(29, count_rows, 24, base), MOM_NOT_A_ZUNIQ, 0),
           "refused containing in rows");
    expect(answers(mom_get_cell_containing(29, many, sizeof many - 12, last), MOM_ACCEPTED, 4095) &&
           answers(mom_get_cell_containing(29, many, sizeof many - 12, last + 2), MOM_NONE, 0),
           "containing in 4096 rows");

    expect(answers(mom_get_overlapped_cells(count_rows, 25, 0, &number), MOM_LENGTHS_DIFFER, 0) &&
           answers(mom_get_overlapped_cells(many, sizeof many, 0, &number), MOM_NO_SPACE, 0) &&
           answers(mom_get_overlapped_cells(count_rows, 24, 0, &number), MOM_NOT_A_ZUNIQ, 0) &&
           number == 5, "refused overlapped in rows");
    expect(answers(mom_get_overlapped_cells(many, sizeof many - 12, base, &number),
                   MOM_ACCEPTED, 0) && number == MOM_MAX_ROWS, "overlapped in 4096 rows");
    expect(answers(mom_get_overlapped_cells(count_rows, 24, 3, &number), MOM_ACCEPTED, 1) &&
           number == 1, "the entry 3 of two rows");
}

/* Pooling (0,0) of 10 and (1,1) of 3 into two buffers of so many places, which hold 5s before. */
struct pooled {
    uint64_t word, zuniqs[5];
    uint32_t counts[5], total;
};

static struct pooled pool(uint8_t left_depth, size_t right_len, uint8_t m, double t, size_t zl,
                          size_t cl) {
    const uint64_t left[1] = {UINT64_C(1) << 58}, right[1] = {UINT64_C(3) << 56};
    const uint32_t ten[1] = {10}, three[1] = {3};
    struct pooled p = {0, {5, 5, 5, 5, 5}, {5, 5, 5, 5, 5}, 5};
    p.word = mom_pool(left_depth, left, 1, ten, 1, 1, right, right_len, three, 1, m, t, unlisted, 0,
                      p.zuniqs, zl, p.counts, cl, &p.total);
    return p;
}

static int untouched(struct pooled p, uint8_t number, uint64_t place) {
    int all = answers(p.word, number, place) && p.total == 5;
    for (int i = 0; i < 5; i++) {
        all = all && p.zuniqs[i] == 5 && p.counts[i] == 5;
    }
    return all;
}

static void pooling(void) {
    const uint64_t first = UINT64_C(1) << 56, base = UINT64_C(1) << 58, faulty[2] = {first, 2};
    const uint32_t largest[2] = {UINT32_MAX, 1};
    struct pooled p;

    expect(untouched(pool(30, 1, 30, NAN, 5, 4), MOM_DEPTH_OUT_OF_RANGE, 0), "a pool at depth 30");
    expect(untouched(pool(0, 1, 30, NAN, 5, 4), MOM_DEPTH_THRESHOLD_OUT_OF_RANGE, 0),
           "a pool, M = 30");
    expect(untouched(pool(0, 1, 0, NAN, 5, 4), MOM_CHI2_THRESHOLD_IS_NAN, 0), "a pool, T a NaN");
    expect(untouched(pool(0, 0, 0, 2, 5, 5), MOM_LENGTHS_DIFFER, 0), "a pool of two lengths");
    expect(untouched(pool(0, 1, 0, 2, 5, 4), MOM_LENGTHS_DIFFER, 0), "a pool into two lengths");
    expect(untouched(pool(0, 1, 0, 3.5, 3, 3), MOM_NO_SPACE, 0), "a pool into three places");

    p = pool(0, 1, 0, 2, 5, 5);
    expect(answers(p.word, MOM_ACCEPTED, 4) && p.total == 13 && p.zuniqs[0] == first &&
           p.zuniqs[1] == 3 * first && p.zuniqs[2] == 5 * first && p.zuniqs[3] == 7 * first &&
           p.counts[0] == 3 && p.counts[1] == 6 && p.counts[2] == 2 && p.counts[3] == 2 &&
           p.zuniqs[4] == 0 && p.counts[4] == 0, "a pool of 3, 6, 2, 2");
    p = pool(0, 1, 0, 3.5, 4, 4);
    expect(answers(p.word, MOM_ACCEPTED, 1) && p.total == 13 && p.zuniqs[0] == base &&
           p.counts[0] == 13 && p.zuniqs[1] == 0 && p.counts[3] == 0 && p.zuniqs[4] == 5 &&
           p.counts[4] == 5, "a pool of 13");

    /* Both maps the same memory. */
    expect(answers(mom_pool(1, faulty, 2, largest, 2, 1, faulty, 2, largest, 2, 0, 2, unlisted, 0,
                            p.zuniqs, 5, p.counts, 5, &p.total),
                   MOM_INVALID_MAP, 1) && p.total == 13, "a pool of what is no map");
    expect(answers(mom_pool(1, faulty, 1, largest, 1, 1, faulty, 1, largest + 1, 1, 0, 2, unlisted,
                            0, p.zuniqs, 5, p.counts, 5, &p.total),
                   MOM_COUNT_OVERFLOW, 0) && p.total == 13 && p.zuniqs[0] == base,
           "a pool of 2^32");
    expect(answers(mom_pool(1, faulty, 1, largest + 1, 1, 1, faulty, 1, largest + 1, 1, 0, 2,
                            unlisted, 0, p.zuniqs, 5, p.counts, 5, &p.total),
                   MOM_ACCEPTED, 1) && p.total == 2 && p.zuniqs[0] == first && p.counts[0] == 2 &&
           p.zuniqs[4] == 0 && p.counts[4] == 0, "a pool of a map with itself");
    expect(answers(mom_pool(0, faulty, 0, largest, 0, 29, faulty, 0, largest, 0, 0, 2, unlisted, 0,
                            p.zuniqs, 5, p.counts, 5, &p.total),
                   MOM_ACCEPTED, 0) && p.total == 0 && p.zuniqs[0] == 0 && p.counts[0] == 0,
           "a pool of no entries");
}

/* Whether these are the children's counts where a base cell is split over its first child, which has
 * none. Nothing is merged, by M = 1. */
static int shared(uint64_t hash, uint32_t count, uint32_t n0, uint32_t n1, uint32_t n2,
                  uint32_t n3) {
    const uint64_t base[1] = {(2 * hash + 1) << 58}, first[1] = {(8 * hash + 1) << 56};
    const uint32_t whole[1] = {count}, none[1] = {0};
    uint64_t zuniqs[4];
    uint32_t counts[4], total;
    return answers(mom_pool(0, base, 1, whole, 1, 1, first, 1, none, 1, 1, 0, unlisted, 0, zuniqs, 4,
                            counts, 4, &total), MOM_ACCEPTED, 4) &&
           total == count && zuniqs[0] == first[0] && counts[0] == n0 && counts[1] == n1 &&
           counts[2] == n2 && counts[3] == n3;
}

static void sharing(void) {
    /* (0,1) and (2,29), which lies in (1,7). */
    const uint64_t base[1] = {UINT64_C(3) << 58}, last[1] = {UINT64_C(59) << 54};
    const uint32_t seven[1] = {7}, none[1] = {0};
    uint64_t zuniqs[7];
    uint32_t counts[7], total;

    expect(shared(0, 1, 1, 0, 0, 0) && shared(0, 6, 2, 2, 1, 1) && shared(0, 7, 2, 2, 2, 1),
           "remainders under hash 0");
    expect(shared(1, 1, 0, 1, 0, 0) && shared(1, 6, 1, 2, 2, 1) && shared(1, 7, 1, 2, 2, 2),
           "remainders under hash 1");
    expect(shared(2, 1, 0, 0, 1, 0) && shared(2, 6, 1, 1, 2, 2) && shared(2, 7, 2, 1, 2, 2),
           "remainders under hash 2");
    expect(shared(3, 1, 0, 0, 0, 1) && shared(3, 6, 2, 1, 1, 2) && shared(3, 7, 2, 2, 1, 2),
           "remainders under hash 3");
    expect(shared(4, 1, 1, 0, 0, 0) && shared(11, 1, 0, 0, 0, 1), "one source under 4 and 11");
    expect(shared(3, 8, 2, 2, 2, 2) && shared(3, 0, 0, 0, 0, 0), "no remainder under hash 3");
    expect(shared(2, UINT32_MAX, UINT32_C(1) << 30, (UINT32_C(1) << 30) - 1, UINT32_C(1) << 30,
                  UINT32_C(1) << 30), "the largest count under hash 2");
    expect(answers(mom_pool(0, base, 1, seven, 1, 2, last, 1, none, 1, 2, 0, unlisted, 0, zuniqs, 7,
                            counts, 7, &total), MOM_ACCEPTED, 7) && total == 7 &&
           counts[0] == 1 && counts[1] == 2 && counts[2] == 2 && counts[3] == 1 &&
           counts[4] == 0 && zuniqs[4] == last[0] && counts[5] == 0 && counts[6] == 1,
           "two levels, each by its own parent");
}

/* Asking for the pool of (0,0) of 10 and (1,1) of 3, with numbers before, between and behind the three
 * figures, all of them 5. */
struct asked {
    uint64_t word;
    size_t before, cells, between, entries, behind;
    uint32_t first, total, last;
};

static struct asked ask(uint8_t left_depth, size_t right_len, uint8_t m, double t,
                        const uint64_t *list, size_t pl) {
    const uint64_t left[1] = {UINT64_C(1) << 58}, right[1] = {UINT64_C(3) << 56};
    const uint32_t ten[1] = {10}, three[1] = {3};
    struct asked a = {0, 5, 5, 5, 5, 5, 5, 5, 5};
    a.word = mom_ask(left_depth, left, 1, ten, 1, 1, right, right_len, three, 1, m, t, list, pl,
                     &a.cells, &a.entries, &a.total);
    return a;
}

/* Whether these are the figures, and nothing else was written. */
static int figures(struct asked a, size_t cells, size_t entries, uint32_t total) {
    return a.cells == cells && a.entries == entries && a.total == total && a.before == 5 &&
           a.between == 5 && a.behind == 5 && a.first == 5 && a.last == 5;
}

static int not_asked(struct asked a, uint8_t number, uint64_t place) {
    return answers(a.word, number, place) && figures(a, 5, 5, 5);
}

static int asks(struct asked a, size_t cells, size_t entries, uint32_t total) {
    return answers(a.word, MOM_ACCEPTED, 0) && figures(a, cells, entries, total);
}

static void asking(void) {
    const uint64_t base[1] = {UINT64_C(1) << 58}, falling[3] = {1, 5, 3};

    expect(asks(ask(0, 1, 0, 2, unlisted, 0), 4, 4, 13), "asking for 3, 6, 2, 2");
    expect(asks(ask(0, 1, 0, 3.5, unlisted, 0), 4, 1, 13), "asking for 13");
    expect(asks(ask(0, 1, 1, 3.5, unlisted, 0), 4, 4, 13), "asking, M = 1");
    expect(asks(ask(0, 1, 0, 3.5, base, 1), 4, 4, 13), "asking under a protected parent");

    /* What is refused has everything behind it in the table wrong too. */
    expect(not_asked(ask(30, 0, 30, NAN, falling, 3), MOM_DEPTH_OUT_OF_RANGE, 0),
           "asking at depth 30");
    expect(not_asked(ask(0, 0, 30, NAN, falling, 3), MOM_DEPTH_THRESHOLD_OUT_OF_RANGE, 0),
           "asking, M = 30");
    expect(not_asked(ask(0, 0, 0, NAN, falling, 3), MOM_CHI2_THRESHOLD_IS_NAN, 0),
           "asking, T a NaN");
    expect(not_asked(ask(0, 0, 0, 2, falling, 3), MOM_INVALID_PROTECTED, 2),
           "asking under a list that doesn't rise");
    expect(not_asked(ask(0, 0, 0, 2, unlisted, 0), MOM_LENGTHS_DIFFER, 0),
           "asking for a map of two lengths");
}

/* Asking for two maps whose zuniqs are the same memory, so many of each: (1,0) and what is no zuniq. */
static struct asked ask_both(size_t left_len, size_t right_len, const uint32_t *right_counts) {
    const uint64_t zuniqs[2] = {UINT64_C(1) << 56, 2};
    const uint32_t largest[2] = {UINT32_MAX, 1};
    struct asked a = {0, 5, 5, 5, 5, 5, 5, 5, 5};
    a.word = mom_ask(1, zuniqs, left_len, largest, left_len, 1, zuniqs, right_len, right_counts,
                     right_len, 0, 2, unlisted, 0, &a.cells, &a.entries, &a.total);
    return a;
}

static void asking_for_much_and_nothing(void) {
    const uint32_t counts[2] = {1, 1}, none[1] = {0};

    expect(not_asked(ask_both(2, 2, counts), MOM_INVALID_MAP, 1), "asking for what is no map");
    expect(not_asked(ask_both(1, 2, counts), MOM_INVALID_MAP, 1), "asking for one map that is none");
    expect(not_asked(ask_both(1, 1, counts), MOM_COUNT_OVERFLOW, 0), "asking for 2^32");
    expect(asks(ask_both(1, 1, none), 1, 1, UINT32_MAX), "asking for 2^32 - 1");
    expect(asks(ask_both(0, 1, counts), 1, 1, 1), "asking for one map alone");
    expect(asks(ask_both(0, 0, counts), 0, 0, 0), "asking for no entries");
}

/* Committing the same pool at T = 3.5, of which the figures are 4, 1 and 13, into two buffers of so
 * many places, which hold 5s before. */
static struct pooled commit(uint32_t ten, size_t cells, size_t entries, uint32_t total, size_t zl,
                            size_t cl) {
    const uint64_t left[1] = {UINT64_C(1) << 58}, right[1] = {UINT64_C(3) << 56};
    const uint32_t three[1] = {3};
    struct pooled p = {0, {5, 5, 5, 5, 5}, {5, 5, 5, 5, 5}, 5};
    p.word = mom_commit(0, left, 1, &ten, 1, 1, right, 1, three, 1, 0, 3.5, unlisted, 0, cells,
                        entries, total, p.zuniqs, zl, p.counts, cl, &p.total);
    return p;
}

static int differs(struct pooled p) { return untouched(p, MOM_FIGURES_DIFFER, 0); }

static void committing(void) {
    const uint64_t base = UINT64_C(1) << 58;
    struct pooled p = commit(10, 4, 1, 13, 5, 5);

    expect(answers(p.word, MOM_ACCEPTED, 1) && p.total == 13 && p.zuniqs[0] == base &&
           p.counts[0] == 13 && p.zuniqs[1] == 0 && p.counts[4] == 0, "a commit of 13");
    p = commit(10, 4, 1, 13, 4, 4);
    expect(answers(p.word, MOM_ACCEPTED, 1) && p.total == 13 && p.zuniqs[0] == base &&
           p.counts[3] == 0 && p.zuniqs[4] == 5 && p.counts[4] == 5, "a commit into four places");
    expect(untouched(commit(10, 4, 1, 13, 3, 3), MOM_NO_SPACE, 0), "a commit into three places");

    expect(differs(commit(10, 3, 1, 13, 5, 5)) && differs(commit(10, 5, 1, 13, 5, 5)) &&
           differs(commit(10, 0, 1, 13, 5, 5)) && differs(commit(10, SIZE_MAX, 1, 13, 5, 5)),
           "a commit of other cells");
    expect(differs(commit(10, 4, 0, 13, 5, 5)) && differs(commit(10, 4, 2, 13, 5, 5)) &&
           differs(commit(10, 4, 4, 13, 5, 5)) && differs(commit(10, 4, SIZE_MAX, 13, 5, 5)),
           "a commit of other entries");
    expect(differs(commit(10, 4, 1, 12, 5, 5)) && differs(commit(10, 4, 1, 14, 5, 5)) &&
           differs(commit(10, 4, 1, 0, 5, 5)) && differs(commit(10, 4, 1, UINT32_MAX, 5, 5)),
           "a commit of another total");
    expect(differs(commit(11, 4, 1, 13, 5, 5)), "a commit of a map that has changed");
    expect(differs(commit(10, 3, 1, 13, 3, 3)) && differs(commit(10, 4, 0, 13, 0, 0)),
           "other figures before too few places");
    expect(untouched(commit(UINT32_MAX, 4, 1, 13, 0, 0), MOM_COUNT_OVERFLOW, 0),
           "2^32 before other figures");
    expect(untouched(commit(UINT32_MAX, 4, 1, 13, 0, 1), MOM_LENGTHS_DIFFER, 0),
           "a commit into two lengths");
}

/* Two maps whose first entry is no zuniq, the right one of so many counts, committed by other figures
 * into no place. */
static struct pooled commit_none(uint8_t depth, uint8_t m, double t, size_t pl, size_t rcl) {
    const uint64_t falling[3] = {1, 5, 3}, two[1] = {2};
    const uint32_t one[1] = {1};
    struct pooled p = {0, {5, 5, 5, 5, 5}, {5, 5, 5, 5, 5}, 5};
    p.word = mom_commit(1, two, 1, one, 1, depth, two, 1, one, rcl, m, t, falling, pl, 9, 9, 9,
                        p.zuniqs, 0, p.counts, 0, &p.total);
    return p;
}

/* What is refused has everything behind it in the table wrong too. */
static void refused_commits(void) {
    const uint64_t none[1] = {2};
    const uint32_t one[1] = {1};
    struct pooled p = commit_none(30, 30, NAN, 3, 0);

    expect(untouched(p, MOM_DEPTH_OUT_OF_RANGE, 0), "a commit at depth 30");
    expect(untouched(commit_none(1, 30, NAN, 3, 0), MOM_DEPTH_THRESHOLD_OUT_OF_RANGE, 0),
           "a commit, M = 30");
    expect(untouched(commit_none(1, 0, NAN, 3, 0), MOM_CHI2_THRESHOLD_IS_NAN, 0),
           "a commit, T a NaN");
    expect(untouched(commit_none(1, 0, 2, 3, 0), MOM_INVALID_PROTECTED, 2),
           "a commit under a list that doesn't rise");
    expect(untouched(commit_none(1, 0, 2, 2, 0), MOM_LENGTHS_DIFFER, 0),
           "a commit of a map of two lengths");
    expect(untouched(commit_none(1, 0, 2, 2, 1), MOM_INVALID_MAP, 0), "a commit of what is no map");
    p.word = mom_commit(0, none, 0, one, 0, 29, none, 0, one, 0, 0, 2, unlisted, 0, 0, 0, 1, p.zuniqs,
                        5, p.counts, 5, &p.total);
    expect(differs(p), "a commit of no entries and a total");
    p.word = mom_commit(0, none, 0, one, 0, 29, none, 0, one, 0, 0, 2, unlisted, 0, 0, 0, 0, p.zuniqs,
                        5, p.counts, 5, &p.total);
    expect(answers(p.word, MOM_ACCEPTED, 0) && p.total == 0 && p.zuniqs[0] == 0 && p.counts[0] == 0,
           "a commit of no entries");
}

/* The figures of an ask, and the commit by them under the same list. */
static void asking_and_committing(void) {
    const uint64_t base[1] = {UINT64_C(1) << 58}, last[1] = {(UINT64_C(1) << 59) - 1};
    const uint32_t one[1] = {1}, seven[1] = {7};
    uint64_t zuniqs[89] = {5}, word;
    uint32_t counts[89] = {5}, asked_total = 5, total = 5;
    size_t cells = 5, entries = 5;

    /* (0,0) is split down to its last cell of depth 29, and merged again up to its children. */
    word = mom_ask(0, base, 1, one, 1, 29, last, 1, seven, 1, 0, INFINITY, base, 1, &cells, &entries,
                   &asked_total);
    expect(answers(word, MOM_ACCEPTED, 0) && cells == 88 && entries == 4 && asked_total == 8,
           "asking for a split through 29 depths");
    zuniqs[88] = 5;
    word = mom_commit(0, base, 1, one, 1, 29, last, 1, seven, 1, 0, INFINITY, base, 1, cells, entries,
                      asked_total, zuniqs, 88, counts, 88, &total);
    expect(answers(word, MOM_ACCEPTED, 4) && total == 8 && zuniqs[3] == UINT64_C(7) << 56 &&
           counts[0] == 1 && counts[1] == 0 && counts[3] == 7 && zuniqs[4] == 0 && zuniqs[88] == 5,
           "the commit of it");
    word = mom_commit(0, base, 1, one, 1, 29, last, 1, seven, 1, 0, INFINITY, unlisted, 0, cells,
                      entries, asked_total, zuniqs, 88, counts, 88, &total);
    expect(answers(word, MOM_FIGURES_DIFFER, 0) && total == 8 && counts[3] == 7,
           "the commit of it under another list");
}

/* Whether four counts are merged to 0, with the chi-square left alone. */
static int merges_to_0(uint8_t p, uint8_t m, double t) {
    double chi2 = 5.5;
    return answers(mom_chi2_count_merger(p, 0, m, t, unlisted, 0, 0, 0, 0, 0, &chi2),
                   MOM_ACCEPTED, 0) && chi2 == 5.5;
}

/* Whether they are kept by M, with a chi-square of +0. */
static int keeps_blanks(uint8_t p, uint8_t m, double t) {
    double chi2 = 5.5;
    return answers(mom_chi2_count_merger(p, 0, m, t, unlisted, 0, 0, 0, 0, 0, &chi2),
                   MOM_KEPT, 0) && chi2 == 0 && !signbit(chi2);
}

/* Adding sixteen blank cells of depth 2 in two calls, cut behind so many; then whether so many
 * entries of one depth are there, and 0 behind them. */
static int adds_blanks(uint8_t m, double t, size_t cut, size_t entries, uint8_t depth) {
    const uint64_t hashes[16] = {0, 1, 2, 3, 4, 5, 6, 7, 8, 9, 10, 11, 12, 13, 14, 15};
    const uint32_t blank[16] = {0};
    uint64_t zuniqs[16] = {5}, word;
    uint32_t counts[16] = {5}, total = 5;
    int all;

    word = mom_add_counts(2, m, t, unlisted, 0, 0, zuniqs, 16, counts, 16, hashes, cut, blank, cut,
                          &total);
    all = mom_code(word) == MOM_ACCEPTED && total == 0;
    word = mom_add_counts(2, m, t, unlisted, 0, (size_t)mom_value(word), zuniqs, 16, counts, 16,
                          hashes + cut, 16 - cut, blank, 16 - cut, &total);
    all = all && answers(word, MOM_ACCEPTED, entries) && total == 0;
    for (size_t i = 0; i < 16; i++) {
        uint64_t zuniq = i < entries ? (2 * i + 1) << (2 * (29 - depth)) : 0;
        all = all && zuniqs[i] == zuniq && counts[i] == 0;
    }
    return all;
}

/* Blank sky: from M on, four counts of 0 are merged at any T. */
static void merging_blank_sky(void) {
    const double thresholds[5] = {0, -0.0, -1, -INFINITY, INFINITY};
    double chi2 = 5.5;
    int merged = 1, kept = 1, added = 1;

    for (int i = 0; i < 5; i++) {
        double t = thresholds[i];
        merged = merged && merges_to_0(0, 0, t) && merges_to_0(28, 28, t);
        kept = kept && keeps_blanks(0, 1, t) && keeps_blanks(28, 29, t);
        for (size_t cut = 0; cut <= 16; cut++) {
            added = added && adds_blanks(0, t, cut, 1, 0) && adds_blanks(1, t, cut, 4, 1) &&
                    adds_blanks(2, t, cut, 16, 2);
        }
    }
    expect(merged, "blank sky merged at any T");
    expect(kept, "blank sky kept below M");
    expect(added, "sixteen blank cells, cut anywhere");
    expect(answers(mom_chi2_count_merger(0, 0, 0, NAN, unlisted, 0, 0, 0, 0, 0, &chi2),
                   MOM_CHI2_THRESHOLD_IS_NAN, 0) && chi2 == 5.5, "blank sky, T a NaN");
    expect(answers(mom_chi2_count_merger(0, 0, 0, 0, unlisted, 0, 0, 0, 0, 1, &chi2),
                   MOM_KEPT, 0) && chi2 == 1, "three blanks and a source at T = 0");
    expect(answers(mom_chi2_count_merger(0, 0, 0, 0, unlisted, 0, 4, 4, 4, 4, &chi2),
                   MOM_KEPT, 0) && chi2 == 0, "counts of 4 at T = 0");
}

/* The chi-square of four counts, which M = 29 keeps. */
static double chi2_of(uint32_t n0, uint32_t n1, uint32_t n2, uint32_t n3) {
    double chi2 = 5.5;
    uint64_t word = mom_chi2_count_merger(28, 0, 29, 0, unlisted, 0, n0, n1, n2, n3, &chi2);
    return answers(word, MOM_KEPT, 0) ? chi2 : NAN;
}

/* How near it is: of four equal counts, whose exact chi-square is 0, it is its own error. */
static void chi2_near(void) {
    int near = 1;

    for (uint32_t n = 1; n < 1000000; n += 7) {
        double chi2 = chi2_of(n, n, n, n), most = 4 * n * 0x1p-50;
        near = near && -most <= chi2 && chi2 <= most;
    }
    expect(near, "the chi-square of equal counts, within sum / 2^50 of 0");
    expect(chi2_of(49, 49, 49, 49) == -0x1p-45, "the chi-square of four times 49");
    expect(chi2_of(1, 2, 4, 4) == 3, "the chi-square of 1, 2, 4 and 4 is 3");
    expect(chi2_of(0, 2, 4, 4) == 10 && chi2_of(5, 0, 0, 7) == 12 &&
           chi2_of(0, 0, 0, 4294967295u) == 4294967295.0, "with a zero the chi-square is the sum");
}

/* The same in a pool, of (0,0) and (1,1), and in a narrow map. */
static void blank_maps(void) {
    const uint64_t base[1] = {UINT64_C(1) << 58}, second[1] = {UINT64_C(3) << 56};
    const uint32_t none[1] = {0}, hashes[4] = {0, 1, 2, 3}, blank[4] = {0, 0, 0, 0};
    uint64_t zuniqs[4] = {5, 5, 5, 5};
    uint32_t narrow[4] = {5, 5, 5, 5}, counts[4] = {5, 5, 5, 5}, total = 5;

    expect(answers(mom_pool(0, base, 1, none, 1, 1, second, 1, none, 1, 0, 0, unlisted, 0, zuniqs,
                            4, counts, 4, &total),
                   MOM_ACCEPTED, 1) && total == 0 && zuniqs[0] == base[0] && zuniqs[1] == 0 &&
           counts[0] == 0 && counts[3] == 0, "a pool of blank sky at T = 0");
    expect(answers(mom_pool(0, base, 1, none, 1, 1, second, 1, none, 1, 1, 0, unlisted, 0, zuniqs,
                            4, counts, 4, &total),
                   MOM_ACCEPTED, 4) && total == 0 && zuniqs[1] == second[0],
           "a pool of blank sky, M = 1");
    expect(answers(mom32_add_counts(1, 0, -1, unlisted32, 0, 0, narrow, 4, counts, 4, hashes, 4,
                                    blank, 4, &total),
                   MOM_ACCEPTED, 1) && total == 0 && narrow[0] == UINT32_C(1) << 26 &&
           narrow[1] == 0, "narrow adding of blank sky at T = -1");
    expect(answers(mom32_add_counts(1, 1, -1, unlisted32, 0, 0, narrow, 4, counts, 4, hashes, 4,
                                    blank, 4, &total),
                   MOM_ACCEPTED, 4) && narrow[3] == UINT32_C(7) << 24,
           "narrow adding of blank sky, M = 1");
}

static void multiplying(void) {
    const uint64_t base[1] = {UINT64_C(1) << 58}, third[1] = {UINT64_C(5) << 56};
    const double two[1] = {2}, three[1] = {3}, huge[1] = {1e308}, nan[1] = {NAN};
    uint64_t zuniqs[2] = {5, 5};
    double densities[2] = {5.5, 5.5};

    expect(answers(mom_product(0, base, 1, two, 1, 30, third, 1, three, 1, 30, NAN, -1, unlisted, 0,
                               zuniqs, 2, densities, 2),
                   MOM_DEPTH_OUT_OF_RANGE, 0), "a product at depth 30");
    expect(answers(mom_product(0, base, 1, two, 1, 1, third, 1, three, 1, 30, NAN, -1, unlisted, 0,
                               zuniqs, 2, densities, 2),
                   MOM_DEPTH_THRESHOLD_OUT_OF_RANGE, 0), "a product, M = 30");
    expect(answers(mom_product(0, base, 1, two, 1, 1, third, 1, three, 1, 0, NAN, 1, unlisted, 0,
                               zuniqs, 2, densities, 2),
                   MOM_CHI2_THRESHOLD_IS_NAN, 0), "a product, T a NaN");
    expect(answers(mom_product(0, base, 1, two, 1, 1, third, 1, three, 1, 0, 0, -1, unlisted, 0,
                               zuniqs, 2, densities, 1),
                   MOM_INVALID_FACTOR, 0), "a product, k = -1");
    expect(answers(mom_product(0, base, 1, two, 1, 1, third, 1, three, 1, 0, 0, 1, unlisted, 0,
                               zuniqs, 2, densities, 1),
                   MOM_LENGTHS_DIFFER, 0), "a product into two lengths");
    expect(answers(mom_product(0, base, 1, nan, 1, 0, third, 1, three, 1, 0, 0, 1, unlisted, 0,
                               zuniqs, 2, densities, 2),
                   MOM_INVALID_MAP, 0), "a product of what is no map");
    expect(answers(mom_product(0, base, 1, nan, 1, 1, third, 1, three, 1, 0, 0, 1, unlisted, 0,
                               zuniqs, 2, densities, 2),
                   MOM_INVALID_MAP_DENSITY, 0), "a product of a NaN");
    expect(answers(mom_product(0, base, 1, huge, 1, 1, third, 1, three, 1, 0, 0, 1, unlisted, 0,
                               zuniqs, 0, densities, 0),
                   MOM_PRODUCT_NOT_FINITE, 0), "a product that is infinite");
    expect(answers(mom_product(0, base, 1, two, 1, 1, third, 1, three, 1, 0, 0, 1, unlisted, 0,
                               zuniqs, 0, densities, 0),
                   MOM_NO_SPACE, 0) && zuniqs[0] == 5 && densities[0] == 5.5,
           "a product into no place");
    expect(answers(mom_product(0, base, 1, two, 1, 1, third, 1, three, 1, 0, 0, 1, unlisted, 0,
                               zuniqs, 2, densities, 2),
                   MOM_ACCEPTED, 1) && zuniqs[0] == third[0] && densities[0] == 6 &&
           zuniqs[1] == 0 && densities[1] == 0, "a product of 6");
}

/* Protected parents: (1,0), (0,0), in which it lies, and (1,3). */
static const uint64_t parents[3] = {UINT64_C(1) << 56, UINT64_C(1) << 58, UINT64_C(7) << 56};

/* Whether 1, 2, 4, 4 are merged at T = 3.5, where the chi-square is left alone. */
static int merges_under(uint8_t depth, uint64_t hash, size_t pl) {
    double chi2 = 5.5;
    return answers(mom_chi2_count_merger(depth, hash, 0, 3.5, parents, pl, 1, 2, 4, 4, &chi2),
                   MOM_ACCEPTED, 11) && chi2 == 5.5;
}

/* Whether they are kept, with their chi-square. */
static int keeps_under(uint8_t depth, uint64_t hash, size_t pl) {
    double chi2 = 5.5;
    return answers(mom_chi2_count_merger(depth, hash, 0, 3.5, parents, pl, 1, 2, 4, 4, &chi2),
                   MOM_KEPT, 0) && chi2 == 3;
}

/* Whether blank sky is kept under (0,0), with a chi-square of 0, and merged under (0,1). */
static int keeps_blanks_under(double t) {
    double kept = 5.5, merged = 5.5;
    return answers(mom_chi2_count_merger(0, 0, 0, t, parents, 3, 0, 0, 0, 0, &kept), MOM_KEPT, 0) &&
           kept == 0 && !signbit(kept) &&
           answers(mom_chi2_count_merger(0, 1, 0, t, parents, 3, 0, 0, 0, 0, &merged), MOM_ACCEPTED,
                   0) && merged == 5.5;
}

/* Whether both mergers refuse by this number, and leave the caller's number alone. */
static int refuses_parent(uint8_t depth, uint64_t hash, double t, const uint64_t *list, size_t pl,
                          uint8_t number, uint64_t place) {
    double chi2 = 5.5;
    return answers(mom_chi2_count_merger(depth, hash, 0, t, list, pl, UINT32_MAX, 1, 0, 0, &chi2),
                   number, place) &&
           answers(mom_chi2_density_merger(depth, hash, 0, t, list, pl, NAN, -1, 0, 0, &chi2),
                   number, place) && chi2 == 5.5;
}

static void protected_mergers(void) {
    const uint64_t last = UINT64_C(12) << 56, none[2] = {parents[0], 2};
    const uint64_t twice[2] = {parents[1], parents[1]}, falling[2] = {parents[2], parents[1]};
    double chi2 = 5.5, answer = 5.5;

    expect(keeps_under(1, 0, 3) && keeps_under(0, 0, 3) && keeps_under(1, 3, 3),
           "each parent of a list");
    expect(merges_under(1, 3, 2) && merges_under(0, 0, 0), "a parent behind a list");
    expect(merges_under(1, 1, 3) && merges_under(2, 0, 3) && merges_under(0, 3, 3),
           "cells in and beside protected ones, and one of the same hash");
    expect(keeps_blanks_under(-INFINITY) && keeps_blanks_under(-1) && keeps_blanks_under(0) &&
           keeps_blanks_under(3.5) && keeps_blanks_under(INFINITY),
           "blank sky under a protected parent and beside it");
    expect(answers(mom_chi2_count_merger(0, 0, 1, 3.5, parents, 3, 0, 0, 0, 0, &chi2),
                   MOM_KEPT, 0) && chi2 == 0, "blank sky under a protected parent below M");
    expect(answers(mom_chi2_density_merger(0, 0, 0, 3.5, parents, 3, 16, 16, 16, 16, &answer),
                   MOM_KEPT, 0) && answer == 0, "densities under a protected parent");
    expect(answers(mom_chi2_density_merger(0, 0, 0, INFINITY, parents, 3, 0, 0, 0, 0, &answer),
                   MOM_KEPT, 0) && answer < 0, "densities of 0 under a protected parent");

    expect(refuses_parent(0, 12, 3.5, none + 1, 1, MOM_INVALID_PROTECTED, 0) &&
           refuses_parent(0, 12, 3.5, none, 2, MOM_INVALID_PROTECTED, 1),
           "a list with what is no zuniq");
    expect(refuses_parent(0, 12, 3.5, twice, 2, MOM_INVALID_PROTECTED, 1) &&
           refuses_parent(0, 12, 3.5, falling, 2, MOM_INVALID_PROTECTED, 1),
           "a list that doesn't rise");
    expect(refuses_parent(0, 12, NAN, twice, 2, MOM_CHI2_THRESHOLD_IS_NAN, 0),
           "T a NaN and a list that doesn't rise");
    expect(refuses_parent(0, 12, 3.5, parents, 3, MOM_HASH_OUT_OF_RANGE, 0) &&
           refuses_parent(28, last, 3.5, unlisted, 0, MOM_HASH_OUT_OF_RANGE, 0) &&
           refuses_parent(1, UINT64_MAX, 3.5, unlisted, 0, MOM_HASH_OUT_OF_RANGE, 0),
           "a parent's hash out of range");
    expect(refuses_parent(29, last, NAN, twice, 2, MOM_DEPTH_OUT_OF_RANGE, 0),
           "a parent's depth before all else");
}

/* Sixteen cells of one count at depth 2 and T in two calls under one list, cut behind so many; then
 * whether the entries are these zuniqs, and 0 behind them. */
static int adds_under(uint32_t count, double t, const uint64_t *list, size_t pl, size_t cut,
                      const uint64_t *entries, size_t number) {
    uint64_t hashes[16], zuniqs[16] = {5}, word;
    uint32_t batch[16], counts[16] = {5}, total = 5;
    int all;

    for (size_t i = 0; i < 16; i++) {
        hashes[i] = i;
        batch[i] = count;
    }
    word = mom_add_counts(2, 0, t, list, pl, 0, zuniqs, 16, counts, 16, hashes, cut, batch, cut,
                          &total);
    all = mom_code(word) == MOM_ACCEPTED;
    word = mom_add_counts(2, 0, t, list, pl, (size_t)mom_value(word), zuniqs, 16, counts, 16,
                          hashes + cut, 16 - cut, batch + cut, 16 - cut, &total);
    all = all && answers(word, MOM_ACCEPTED, number) && total == 16 * count;
    for (size_t i = 0; i < 16; i++) {
        all = all && zuniqs[i] == (i < number ? entries[i] : 0);
    }
    return all;
}

static void protected_adding(void) {
    const uint64_t cell = UINT64_C(1) << 54, base[1] = {UINT64_C(1) << 58}, child[1] = {11 * cell};
    const uint64_t apart[10] = {cell,      3 * cell,  5 * cell,  7 * cell,  12 * cell,
                                20 * cell, 25 * cell, 27 * cell, 29 * cell, 31 * cell};
    const uint64_t four[4] = {4 * cell, 12 * cell, 20 * cell, 28 * cell};
    const double thresholds[3] = {INFINITY, 0, -INFINITY};
    int added = 1, blank = 1;

    for (size_t cut = 0; cut <= 16; cut++) {
        added = added && adds_under(1, INFINITY, parents, 3, cut, apart, 10) &&
                adds_under(1, INFINITY, base, 1, cut, four, 4) &&
                adds_under(1, INFINITY, child, 1, cut, base, 1) &&
                adds_under(1, INFINITY, unlisted, 0, cut, base, 1);
        for (size_t i = 0; i < 3; i++) {
            blank = blank && adds_under(0, thresholds[i], parents, 3, cut, apart, 10) &&
                    adds_under(0, thresholds[i], base, 1, cut, four, 4) &&
                    adds_under(0, thresholds[i], child, 1, cut, base, 1);
        }
    }
    expect(added, "sixteen cells under protected parents, cut anywhere");
    expect(blank, "sixteen blank cells under protected parents, cut anywhere");
}

/* The other calls that merge: (0,0) is protected, and its four children stay. */
static void protected_maps(void) {
    const uint64_t first = UINT64_C(1) << 56, base[1] = {UINT64_C(1) << 58}, one[1] = {3 * first};
    const uint64_t quad[4] = {first, 3 * first, 5 * first, 7 * first}, hashes[4] = {0, 1, 2, 3};
    const uint32_t narrow_base[1] = {UINT32_C(1) << 26}, cells[4] = {0, 1, 2, 3};
    const uint32_t ten[1] = {10}, three[1] = {3}, ones[4] = {1, 1, 1, 1};
    const double unit[1] = {1}, sixteens[4] = {16, 16, 16, 16}, blank[4] = {0, 0, 0, 0};
    uint64_t zuniqs[4] = {5, 5, 5, 5};
    uint32_t narrow[4] = {5, 5, 5, 5}, counts[4] = {5, 5, 5, 5}, total = 5;
    double densities[4] = {5.5, 5.5, 5.5, 5.5};

    expect(answers(mom_pool(0, base, 1, ten, 1, 1, one, 1, three, 1, 0, 3.5, base, 1, zuniqs, 4,
                            counts, 4, &total),
                   MOM_ACCEPTED, 4) && total == 13 && memcmp(zuniqs, quad, sizeof quad) == 0 &&
           counts[0] == 3 && counts[1] == 6, "a pool under a protected parent");
    expect(answers(mom_product(0, base, 1, unit, 1, 1, quad, 4, sixteens, 4, 0, 3.5, 1, base, 1,
                               zuniqs, 4, densities, 4),
                   MOM_ACCEPTED, 4) && memcmp(zuniqs, quad, sizeof quad) == 0 &&
           densities[3] == 16, "a product under a protected parent");
    expect(answers(mom_add_densities(1, 0, 3.5, base, 1, 0, zuniqs, 4, densities, 4, hashes, 4,
                                     sixteens, 4),
                   MOM_ACCEPTED, 4) && memcmp(zuniqs, quad, sizeof quad) == 0,
           "adding densities under a protected parent");
    expect(answers(mom_add_densities(1, 0, INFINITY, base, 1, 0, zuniqs, 4, densities, 4, hashes, 4,
                                     blank, 4),
                   MOM_ACCEPTED, 4) && zuniqs[3] == quad[3] && densities[3] == 0,
           "adding densities of 0 under a protected parent");
    expect(answers(mom32_add_counts(1, 0, 3.5, narrow_base, 1, 0, narrow, 4, counts, 4, cells, 4,
                                    ones, 4, &total),
                   MOM_ACCEPTED, 4) && total == 4 && narrow[0] == UINT32_C(1) << 24 &&
           narrow[3] == UINT32_C(7) << 24, "narrow adding under a protected parent");
    expect(answers(mom32_add_counts(1, 0, 3.5, narrow_base, 1, 0, narrow, 4, counts, 4, cells, 4,
                                    unlisted32, 0, &total),
                   MOM_LENGTHS_DIFFER, 0) && total == 4, "a list and a batch of two lengths");
}

/* Blank sky under (0,0), which is protected: asked for, committed, where the former figures are
 * refused, and pooled; and added, where it takes up the space of a fifth cell. */
static void protected_blank_maps(void) {
    const uint64_t first = UINT64_C(1) << 56, base[1] = {UINT64_C(1) << 58}, one[1] = {3 * first};
    const uint64_t quad[4] = {first, 3 * first, 5 * first, 7 * first}, hashes[5] = {0, 1, 2, 3, 4};
    const uint32_t narrow_base[1] = {UINT32_C(1) << 26}, cells[5] = {0, 1, 2, 3, 4}, none[5] = {0};
    uint64_t zuniqs[4] = {5, 5, 5, 5};
    uint32_t narrow[4] = {5, 5, 5, 5}, counts[4] = {5, 5, 5, 5}, total = 5;
    struct asked a = {0, 5, 5, 5, 5, 5, 5, 5, 5};

    a.word = mom_ask(0, base, 1, none, 1, 1, one, 1, none, 1, 0, 0, base, 1, &a.cells, &a.entries,
                     &a.total);
    expect(asks(a, 4, 4, 0), "asking for blank sky under a protected parent");
    expect(answers(mom_commit(0, base, 1, none, 1, 1, one, 1, none, 1, 0, 0, base, 1, 4, 1, 0, zuniqs,
                              4, counts, 4, &total),
                   MOM_FIGURES_DIFFER, 0) && zuniqs[0] == 5 && counts[3] == 5 && total == 5,
           "committing the former figures of blank sky");
    expect(answers(mom_commit(0, base, 1, none, 1, 1, one, 1, none, 1, 0, 0, base, 1, 4, 4, 0, zuniqs,
                              4, counts, 4, &total),
                   MOM_ACCEPTED, 4) && total == 0 && memcmp(zuniqs, quad, sizeof quad) == 0,
           "committing blank sky under a protected parent");
    expect(answers(mom_pool(0, base, 1, none, 1, 1, one, 1, none, 1, 0, 0, base, 1, zuniqs, 4, counts,
                            4, &total),
                   MOM_ACCEPTED, 4) && memcmp(zuniqs, quad, sizeof quad) == 0 && counts[3] == 0,
           "a pool of blank sky under a protected parent");
    expect(answers(mom_add_counts(1, 0, 0, base, 1, 4, zuniqs, 4, counts, 4, hashes + 4, 1, none, 1,
                                  &total),
                   MOM_NO_SPACE, 0) && memcmp(zuniqs, quad, sizeof quad) == 0,
           "no space behind protected blank sky");
    expect(answers(mom32_add_counts(1, 0, -1, narrow_base, 1, 0, narrow, 4, counts, 4, cells, 4, none,
                                    4, &total),
                   MOM_ACCEPTED, 4) && narrow[3] == UINT32_C(7) << 24 &&
           answers(mom32_add_counts(1, 0, -1, narrow_base, 1, 4, narrow, 4, counts, 4, cells + 4, 1,
                                    none, 1, &total),
                   MOM_NO_SPACE, 0), "narrow adding of blank sky under a protected parent");
    expect(answers(mom32_add_counts(1, 0, -1, unlisted32, 0, 0, narrow, 4, counts, 4, cells, 4, none,
                                    4, &total),
                   MOM_ACCEPTED, 1) &&
           answers(mom32_add_counts(1, 0, -1, unlisted32, 0, 1, narrow, 4, counts, 4, cells + 4, 1,
                                    none, 1, &total),
                   MOM_ACCEPTED, 2), "narrow adding of blank sky under no list");
}

/* A list is looked at after T, and refused before lengths are looked at, by its index; and nothing is
 * written. */
static void refused_lists(void) {
    const uint64_t falling[3] = {1, 5, 3}, hashes[1] = {48};
    const uint32_t narrow_falling[3] = {1, 5, 3}, cells[1] = {48}, ones[1] = {1};
    /* 2^28 is a zuniq, but no narrow one. */
    const uint32_t wide[2] = {1, UINT32_C(1) << 28};
    const double unit[1] = {1};
    uint64_t zuniqs[2] = {5, 5};
    uint32_t narrow[2] = {5, 5}, counts[2] = {5, 5}, total = 5;
    double densities[2] = {5.5, 5.5};

    expect(answers(mom_add_counts(1, 0, 3.5, falling, 3, 3, zuniqs, 2, counts, 1, hashes, 1, ones, 1,
                                  &total),
                   MOM_INVALID_PROTECTED, 2) &&
           answers(mom_add_densities(1, 0, 3.5, falling, 3, 3, zuniqs, 2, densities, 1, hashes, 1,
                                     unit, 1),
                   MOM_INVALID_PROTECTED, 2), "adding under a list that doesn't rise");
    expect(answers(mom32_add_counts(1, 0, 3.5, narrow_falling, 3, 3, narrow, 2, counts, 1, cells, 1,
                                    ones, 1, &total),
                   MOM_INVALID_PROTECTED, 2) &&
           answers(mom32_add_counts(1, 0, 3.5, wide, 2, 3, narrow, 2, counts, 1, cells, 1, ones, 1,
                                    &total),
                   MOM_INVALID_PROTECTED, 1), "narrow adding under a list that is none");
    expect(answers(mom_add_counts(1, 0, NAN, falling, 3, 3, zuniqs, 2, counts, 1, hashes, 1, ones, 1,
                                  &total),
                   MOM_CHI2_THRESHOLD_IS_NAN, 0) &&
           answers(mom32_add_counts(1, 0, NAN, wide, 2, 3, narrow, 2, counts, 1, cells, 1, ones, 1,
                                    &total),
                   MOM_CHI2_THRESHOLD_IS_NAN, 0), "adding under such lists, T a NaN");
    expect(answers(mom_pool(1, falling, 3, ones, 1, 1, falling, 3, ones, 1, 0, 3.5, falling, 3,
                            zuniqs, 2, counts, 1, &total),
                   MOM_INVALID_PROTECTED, 2), "a pool under a list that doesn't rise");
    expect(answers(mom_product(1, falling, 3, unit, 1, 1, falling, 3, unit, 1, 0, 3.5, 1, falling, 3,
                               zuniqs, 2, densities, 1),
                   MOM_INVALID_PROTECTED, 2) &&
           answers(mom_product(1, falling, 3, unit, 1, 1, falling, 3, unit, 1, 0, 3.5, -1, falling,
                               3, zuniqs, 2, densities, 1),
                   MOM_INVALID_FACTOR, 0), "a product under a list that doesn't rise");
    expect(zuniqs[0] == 5 && zuniqs[1] == 5 && narrow[0] == 5 && narrow[1] == 5 && counts[0] == 5 &&
           counts[1] == 5 && densities[0] == 5.5 && densities[1] == 5.5 && total == 5,
           "what refused lists leave");
}

/* The twelve base cells have no parent: nothing is merged at an infinite T, in one call or two. */
static void base_cells(void) {
    uint64_t zuniqs[13] = {5}, hashes[13];
    uint32_t counts[13] = {5}, batch[13], total = 5;
    double densities[13] = {5.5}, ones[13];
    int kept = 1;

    for (int i = 0; i < 13; i++) {
        hashes[i] = (uint64_t)i;
        batch[i] = 1;
        ones[i] = 1;
    }
    expect(answers(mom_add_counts(0, 0, INFINITY, unlisted, 0, 0, zuniqs, 13, counts, 13, hashes,
                                  13, batch, 13, &total),
                   MOM_HASH_OUT_OF_RANGE, 12) && total == 5 && zuniqs[0] == 5 && counts[0] == 5,
           "adding a thirteenth base cell");
    expect(answers(mom_add_counts(0, 0, INFINITY, unlisted, 0, 0, zuniqs, 13, counts, 13, hashes, 3,
                                  batch, 3, &total),
                   MOM_ACCEPTED, 3) && total == 3, "adding three base cells");
    expect(answers(mom_add_counts(0, 0, INFINITY, unlisted, 0, 3, zuniqs, 13, counts, 13,
                                  hashes + 3, 9, batch, 9, &total),
                   MOM_ACCEPTED, 12) && total == 12, "adding nine more");
    for (int i = 0; i < 12; i++) {
        kept = kept && zuniqs[i] == (2 * hashes[i] + 1) << 58 && counts[i] == 1;
    }
    expect(kept && zuniqs[12] == 0 && counts[12] == 0, "twelve base cells that stay");
    expect(answers(mom_add_densities(0, 0, INFINITY, unlisted, 0, 0, zuniqs, 13, densities, 13,
                                     hashes, 12, ones, 12),
                   MOM_ACCEPTED, 12) && zuniqs[3] == UINT64_C(7) << 58 && densities[11] == 1 &&
           zuniqs[12] == 0 && densities[12] == 0, "adding the densities of twelve base cells");
}

static void narrow_cells(void) {
    uint32_t zuniq = 5, hash = 5;
    uint8_t depth = 5;

    expect(answers(mom32_to_zuniq(14, 0, &zuniq), MOM_DEPTH_OUT_OF_RANGE, 0) && zuniq == 5,
           "narrow to_zuniq(14, 0)");
    expect(answers(mom32_to_zuniq(1, 48, &zuniq), MOM_HASH_OUT_OF_RANGE, 0) && zuniq == 5,
           "narrow to_zuniq(1, 48)");
    expect(answers(mom32_to_zuniq(0, 0, &zuniq), MOM_ACCEPTED, 0) && zuniq == UINT32_C(1) << 26,
           "narrow to_zuniq(0, 0)");
    expect(answers(mom32_to_zuniq(13, (UINT32_C(12) << 26) - 1, &zuniq), MOM_ACCEPTED, 0) &&
           zuniq == UINT32_C(1610612735), "the last narrow zuniq");

    expect(answers(mom32_from_zuniq(0, &depth, &hash), MOM_NONE, 0) &&
           answers(mom32_from_zuniq(2, &depth, &hash), MOM_NONE, 0) &&
           answers(mom32_from_zuniq(UINT32_C(1) << 28, &depth, &hash), MOM_NONE, 0) &&
           answers(mom32_from_zuniq(UINT32_C(1610612737), &depth, &hash), MOM_NONE, 0) &&
           depth == 5 && hash == 5, "numbers that are no narrow zuniq");
    expect(answers(mom32_from_zuniq(3, &depth, &hash), MOM_ACCEPTED, 0) && depth == 13 && hash == 1,
           "narrow from_zuniq(3)");

    expect(answers(mom32_are_overlapping(UINT32_C(1) << 26, 1), MOM_ACCEPTED, 1),
           "narrow are_overlapping(2^26, 1)");
    expect(answers(mom32_are_overlapping(1, 3), MOM_ACCEPTED, 0), "narrow are_overlapping(1, 3)");
    expect(answers(mom32_are_overlapping(0, 0), MOM_NOT_A_ZUNIQ, 0),
           "narrow are_overlapping(0, 0)");
    expect(answers(mom32_are_overlapping(1, 0), MOM_NOT_A_ZUNIQ, 1),
           "narrow are_overlapping(1, 0)");
}

/* Two rows, then a byte more: the zuniqs 1 and 3 with the counts 258 and 4. */
static const uint8_t narrow_count_rows[17] = {1, 0, 0, 0, 2, 1, 0, 0, 3, 0, 0, 0, 4, 0, 0, 0, 9};

static void narrow_rows(void) {
    uint32_t zuniqs[3] = {5, 5, 5}, counts[3] = {5, 5, 5};
    uint8_t bytes[20];

    expect(answers(mom32_read_count_rows(narrow_count_rows, 17, zuniqs, 3, counts, 3),
                   MOM_LENGTHS_DIFFER, 0),
           "reading a byte more than two narrow rows");
    expect(answers(mom32_read_count_rows(narrow_count_rows, 16, zuniqs, 3, counts, 2),
                   MOM_LENGTHS_DIFFER, 0),
           "reading narrow rows into two lengths");
    expect(answers(mom32_read_count_rows(narrow_count_rows, 16, zuniqs, 1, counts, 1),
                   MOM_NO_SPACE, 0) && zuniqs[0] == 5 && counts[0] == 5,
           "reading narrow rows into too few places");
    expect(answers(mom32_read_count_rows(narrow_count_rows, 16, zuniqs, 3, counts, 3),
                   MOM_ACCEPTED, 2) && zuniqs[0] == 1 && zuniqs[1] == 3 && zuniqs[2] == 5 &&
           counts[0] == 258 && counts[1] == 4 && counts[2] == 5,
           "reading two narrow rows into three places");

    memset(bytes, 7, sizeof bytes);
    expect(answers(mom32_write_count_rows(zuniqs, 2, counts, 3, bytes, 20), MOM_LENGTHS_DIFFER, 0),
           "writing narrow rows from two lengths");
    expect(answers(mom32_write_count_rows(zuniqs, 2, counts, 2, bytes, 15), MOM_NO_SPACE, 0) &&
           bytes[0] == 7, "writing narrow rows to too few bytes");
    expect(answers(mom32_write_count_rows(zuniqs, 2, counts, 2, bytes, 20), MOM_ACCEPTED, 2) &&
           memcmp(bytes, narrow_count_rows, 16) == 0 && bytes[16] == 7, "writing two narrow rows");
}

static void narrow_maps_of_rows(void) {
    static uint8_t many[MOM_NARROW_ROW * (MOM_MAX_ROWS + 1)];
    const size_t most = MOM_NARROW_ROW * MOM_MAX_ROWS;
    const uint32_t base = UINT32_C(1) << 26, last = 2 * MOM_MAX_ROWS - 1;
    size_t number = 5, row;

    for (row = 0; row <= MOM_MAX_ROWS; row++) {
        many[8 * row] = (uint8_t)(2 * row + 1);
        many[8 * row + 1] = (uint8_t)((2 * row + 1) >> 8);
    }
    expect(answers(mom32_check_is_mom(14, narrow_count_rows, 17), MOM_DEPTH_OUT_OF_RANGE, 0) &&
           answers(mom32_check_is_mom(13, narrow_count_rows, 17), MOM_LENGTHS_DIFFER, 0) &&
           answers(mom32_check_is_mom(13, many, sizeof many), MOM_NO_SPACE, 0),
           "refused checks of narrow rows");
    expect(answers(mom32_check_is_mom(13, many, most), MOM_ACCEPTED, 0) &&
           answers(mom32_check_is_mom(13, many, 0), MOM_ACCEPTED, 0) &&
           answers(mom32_check_is_mom(12, many, 16), MOM_FAULT_TOO_DEEP, 0),
           "checks of 4096, no and two narrow rows");

    expect(answers(mom32_get_cell_containing(14, narrow_count_rows, 17, 0),
                   MOM_DEPTH_OUT_OF_RANGE, 0) &&
           answers(mom32_get_cell_containing(13, narrow_count_rows, 17, 0),
                   MOM_LENGTHS_DIFFER, 0) &&
           answers(mom32_get_cell_containing(13, many, sizeof many, 0), MOM_NO_SPACE, 0) &&
           answers(mom32_get_cell_containing(13, narrow_count_rows, 16, base), MOM_NOT_A_ZUNIQ, 0),
           "refused containing in narrow rows");
    expect(answers(mom32_get_cell_containing(13, many, most, last), MOM_ACCEPTED, 4095) &&
           answers(mom32_get_cell_containing(13, many, most, last + 2), MOM_NONE, 0),
           "containing in 4096 narrow rows");

    expect(answers(mom32_get_overlapped_cells(narrow_count_rows, 17, 0, &number),
                   MOM_LENGTHS_DIFFER, 0) &&
           answers(mom32_get_overlapped_cells(many, sizeof many, 0, &number), MOM_NO_SPACE, 0) &&
           answers(mom32_get_overlapped_cells(narrow_count_rows, 16, 0, &number),
                   MOM_NOT_A_ZUNIQ, 0) && number == 5, "refused overlapped in narrow rows");
    expect(answers(mom32_get_overlapped_cells(many, most, base, &number), MOM_ACCEPTED, 0) &&
           number == MOM_MAX_ROWS, "overlapped in 4096 narrow rows");
    expect(answers(mom32_get_overlapped_cells(narrow_count_rows, 16, 3, &number), MOM_ACCEPTED, 1) &&
           number == 1, "the entry 3 of two narrow rows");
}

static void narrow_maps(void) {
    /* (1,0), (1,1), (0,1) and the cell (1,0) again. */
    const uint32_t first = UINT32_C(1) << 24, base = UINT32_C(1) << 26;
    const uint32_t map[4] = {first, 3 * first, 3 * base, first};
    const uint32_t faulty[2] = {first, base}, none = 2;
    size_t number = 5;

    expect(answers(mom32_check_is_mom_zuniqs(14, map, 4), MOM_DEPTH_OUT_OF_RANGE, 0),
           "a narrow check at depth 14");
    expect(answers(mom32_check_is_mom_zuniqs(13, map, 0), MOM_ACCEPTED, 0) &&
           answers(mom32_check_is_mom_zuniqs(1, map, 3), MOM_ACCEPTED, 0),
           "narrow checks of no entries and of three");
    expect(answers(mom32_check_is_mom_zuniqs(1, &none, 1), MOM_FAULT_NOT_A_ZUNIQ, 0) &&
           answers(mom32_check_is_mom_zuniqs(0, map, 4), MOM_FAULT_TOO_DEEP, 0) &&
           answers(mom32_check_is_mom_zuniqs(1, map, 4), MOM_FAULT_NOT_ABOVE, 3) &&
           answers(mom32_check_is_mom_zuniqs(1, faulty, 2), MOM_FAULT_OVERLAPPING, 1),
           "the four faults of a narrow map");

    expect(answers(mom32_get_cell_containing_zuniqs(14, map, 3, 0), MOM_DEPTH_OUT_OF_RANGE, 0),
           "narrow containing at depth 14");
    expect(answers(mom32_get_cell_containing_zuniqs(1, map, 3, base), MOM_NOT_A_ZUNIQ, 0),
           "narrow containing, asked another depth");
    expect(answers(mom32_get_cell_containing_zuniqs(1, map, 3, 11 * first), MOM_ACCEPTED, 2),
           "the narrow entry over (1, 5)");
    expect(answers(mom32_get_cell_containing_zuniqs(1, map, 3, 5 * first), MOM_NONE, 0),
           "the narrow entry over (1, 2)");

    expect(answers(mom32_get_overlapped_cells_zuniqs(map, 3, 2, &number), MOM_NOT_A_ZUNIQ, 0) &&
           number == 5, "narrow overlapped, asked 2");
    expect(answers(mom32_get_overlapped_cells_zuniqs(map, 3, base, &number), MOM_ACCEPTED, 0) &&
           number == 2, "the narrow entries in (0, 0)");
    expect(answers(mom32_get_overlapped_cells_zuniqs(map, 3, 9 * first, &number),
                   MOM_ACCEPTED, 2) && number == 1, "the narrow entry over (1, 4)");
    expect(answers(mom32_get_overlapped_cells_zuniqs(map, 3, 5 * base, &number), MOM_ACCEPTED, 0) &&
           number == 0, "the narrow entries in (0, 2)");
}

/* Adding to two buffers of 5s that hold nothing: what is wrong leaves them. */
static int not_added(uint8_t depth, uint8_t m, double t, size_t held, size_t cl, uint32_t hash,
                     uint8_t number) {
    const uint32_t hashes[2] = {hash, 2}, batch[2] = {1, 2};
    uint32_t zuniqs[2] = {5, 5}, counts[2] = {5, 5}, total = 5;
    uint64_t word = mom32_add_counts(depth, m, t, unlisted32, 0, held, zuniqs, 2, counts, cl,
                                     hashes, 2, batch, 2, &total);
    return answers(word, number, 0) && total == 5 && zuniqs[0] == 5 && zuniqs[1] == 5 &&
           counts[0] == 5 && counts[1] == 5;
}

static void narrow_adding(void) {
    const uint32_t first = UINT32_C(1) << 24, base = UINT32_C(1) << 26;
    const uint32_t hashes[4] = {0, 1, 2, 3}, batch[4] = {1, 2, 4, 4}, largest[2] = {UINT32_MAX, 1};
    uint32_t zuniqs[5] = {5, 5, 5, 5, 5}, counts[5] = {5, 5, 5, 5, 5}, total = 5;
    uint32_t cells[12], ones[12], base_zuniqs[12], base_counts[12];
    int kept = 1;

    expect(not_added(14, 30, NAN, 3, 1, 48, MOM_DEPTH_OUT_OF_RANGE), "narrow adding at depth 14");
    expect(not_added(1, 30, NAN, 3, 1, 48, MOM_DEPTH_THRESHOLD_OUT_OF_RANGE),
           "narrow adding, M = 30");
    expect(not_added(1, 29, NAN, 3, 1, 48, MOM_CHI2_THRESHOLD_IS_NAN), "narrow adding, T a NaN");
    expect(not_added(1, 29, 0, 0, 1, 48, MOM_LENGTHS_DIFFER), "narrow adding to two lengths");
    expect(not_added(1, 29, 0, 3, 2, 48, MOM_LENGTHS_DIFFER), "narrow adding, too many held");
    expect(not_added(1, 29, 0, 2, 2, 48, MOM_INVALID_MAP), "narrow adding to what is no map");
    expect(not_added(1, 29, 0, 0, 2, 48, MOM_HASH_OUT_OF_RANGE), "narrow adding of hash 48");

    expect(answers(mom32_add_counts(1, 0, 3.5, unlisted32, 0, 0, zuniqs, 3, counts, 3, hashes, 4,
                                    batch, 4, &total),
                   MOM_NO_SPACE, 0) &&
           answers(mom32_add_counts(1, 0, 3.5, unlisted32, 0, 0, zuniqs, 5, counts, 5, hashes, 2,
                                    largest, 2, &total),
                   MOM_COUNT_OVERFLOW, 1) && total == 5 && zuniqs[0] == 5 && counts[0] == 5,
           "narrow adding to too few places, and of 2^32");
    expect(answers(mom32_add_counts(1, 0, 3.5, unlisted32, 0, 0, zuniqs, 5, counts, 5, hashes, 3,
                                    batch, 3, &total),
                   MOM_ACCEPTED, 3) && total == 7 && zuniqs[2] == 5 * first && counts[2] == 4 &&
           zuniqs[3] == 0 && counts[4] == 0, "narrow adding of three");
    expect(answers(mom32_add_counts(1, 0, 3.5, unlisted32, 0, 3, zuniqs, 5, counts, 5, hashes + 2,
                                    2, batch + 2, 2, &total),
                   MOM_CELL_NOT_ABOVE, 0) && total == 7, "narrow adding of one again");
    expect(answers(mom32_add_counts(1, 13, INFINITY, unlisted32, 0, 3, zuniqs, 5, counts, 5,
                                    hashes + 3, 1, batch + 3, 1, &total),
                   MOM_ACCEPTED, 4) && total == 11 && zuniqs[3] == 7 * first && zuniqs[4] == 0,
           "narrow adding of the fourth, M = 13");
    zuniqs[3] = 0;
    expect(answers(mom32_add_counts(1, 0, 3.5, unlisted32, 0, 3, zuniqs, 4, counts, 4, hashes + 3,
                                    1, batch + 3, 1, &total),
                   MOM_ACCEPTED, 1) && total == 11 && zuniqs[0] == base && counts[0] == 11 &&
           zuniqs[1] == 0 && counts[3] == 0, "narrow adding of the fourth");

    for (uint32_t i = 0; i < 12; i++) {
        cells[i] = i;
        ones[i] = 1;
    }
    expect(answers(mom32_add_counts(0, 0, INFINITY, unlisted32, 0, 0, base_zuniqs, 12, base_counts,
                                    12, cells, 12, ones, 12, &total),
                   MOM_ACCEPTED, 12) && total == 12, "narrow adding of twelve base cells");
    for (uint32_t i = 0; i < 12; i++) {
        kept = kept && base_zuniqs[i] == (2 * i + 1) << 26 && base_counts[i] == 1;
    }
    expect(kept, "twelve narrow base cells that stay");
}

/* Narrowing (0,0) of 10 and, in base cell 1, the first cell of a depth, of UINT32_MAX; into two
 * buffers of so many places, which hold 5s before. */
struct narrowed {
    uint64_t word;
    uint32_t zuniqs[3], counts[3];
    uint8_t depth;
};

static struct narrowed narrow(uint8_t depth, uint8_t deep, size_t cl, size_t ozl, size_t ocl) {
    const uint64_t scale = UINT64_C(1) << 2 * (29 - deep);
    const uint64_t zuniqs[2] = {UINT64_C(1) << 58, (UINT64_C(2) << 58) + scale};
    const uint32_t counts[2] = {10, UINT32_MAX};
    struct narrowed n = {0, {5, 5, 5}, {5, 5, 5}, 5};
    n.word = mom_narrow(depth, zuniqs, 2, counts, cl, n.zuniqs, ozl, n.counts, ocl, &n.depth);
    return n;
}

static int not_narrowed(struct narrowed n, uint8_t number, uint64_t place) {
    int all = answers(n.word, number, place) && n.depth == 5;
    for (int i = 0; i < 3; i++) {
        all = all && n.zuniqs[i] == 5 && n.counts[i] == 5;
    }
    return all;
}

static void narrowing(void) {
    const uint32_t base = UINT32_C(1) << 26;
    const uint64_t wide = UINT64_C(1) << 58, twice[2] = {1, 1};
    const uint32_t counts[2] = {1, 1};
    struct narrowed n;

    expect(not_narrowed(narrow(30, 14, 1, 1, 0), MOM_DEPTH_OUT_OF_RANGE, 0),
           "narrowing at depth 30");
    expect(not_narrowed(narrow(13, 14, 1, 1, 1), MOM_LENGTHS_DIFFER, 0),
           "narrowing of two lengths");
    expect(not_narrowed(narrow(13, 14, 2, 1, 0), MOM_LENGTHS_DIFFER, 0),
           "narrowing into two lengths");
    expect(not_narrowed(narrow(13, 14, 2, 1, 1), MOM_INVALID_MAP, 1),
           "narrowing of an entry deeper than the map");
    expect(not_narrowed(narrow(29, 14, 2, 1, 1), MOM_ENTRY_TOO_DEEP, 1),
           "narrowing of an entry of depth 14");
    expect(not_narrowed(narrow(29, 13, 2, 1, 1), MOM_NO_SPACE, 0), "narrowing into one place");

    n = narrow(29, 13, 2, 3, 3);
    expect(answers(n.word, MOM_ACCEPTED, 2) && n.depth == 13 && n.zuniqs[0] == base &&
           n.zuniqs[1] == 2 * base + 1 && n.zuniqs[2] == 0 && n.counts[0] == 10 &&
           n.counts[1] == UINT32_MAX && n.counts[2] == 0, "narrowing from depth 29");
    n = narrow(5, 0, 2, 2, 2);
    expect(answers(n.word, MOM_ACCEPTED, 2) && n.depth == 5 && n.zuniqs[1] == 3 * base &&
           n.zuniqs[2] == 5 && n.counts[2] == 5, "narrowing from depth 5");

    expect(answers(mom_narrow(29, twice, 2, counts, 2, n.zuniqs, 3, n.counts, 3, &n.depth),
                   MOM_INVALID_MAP, 1) && n.depth == 5 && n.zuniqs[0] == base,
           "narrowing of a deep entry and one that isn't above it");
    expect(answers(mom_narrow(29, &wide, 0, counts, 0, n.zuniqs, 3, n.counts, 3, &n.depth),
                   MOM_ACCEPTED, 0) && n.depth == 13 && n.zuniqs[0] == 0 && n.counts[2] == 0,
           "narrowing of no entries");
}

static void widening(void) {
    const uint32_t map[2] = {UINT32_C(1) << 26, (UINT32_C(2) << 26) + 1}, counts[2] = {10, 3};
    const uint32_t twice[2] = {1, 1};
    uint64_t zuniqs[3] = {5, 5, 5};
    uint32_t out[3] = {5, 5, 5};
    uint8_t depth = 5;

    expect(answers(mom_widen(14, twice, 2, counts, 1, zuniqs, 1, out, 0, &depth),
                   MOM_DEPTH_OUT_OF_RANGE, 0), "widening at depth 14");
    expect(answers(mom_widen(13, twice, 2, counts, 1, zuniqs, 1, out, 1, &depth),
                   MOM_LENGTHS_DIFFER, 0), "widening of two lengths");
    expect(answers(mom_widen(13, twice, 2, counts, 2, zuniqs, 1, out, 0, &depth),
                   MOM_LENGTHS_DIFFER, 0), "widening into two lengths");
    expect(answers(mom_widen(13, twice, 2, counts, 2, zuniqs, 1, out, 1, &depth),
                   MOM_INVALID_MAP, 1), "widening of what is no map");
    expect(answers(mom_widen(12, map, 2, counts, 2, zuniqs, 1, out, 1, &depth),
                   MOM_INVALID_MAP, 1), "widening of an entry deeper than the map");
    expect(answers(mom_widen(13, map, 2, counts, 2, zuniqs, 1, out, 1, &depth), MOM_NO_SPACE, 0) &&
           depth == 5 && zuniqs[0] == 5 && zuniqs[2] == 5 && out[0] == 5 && out[2] == 5,
           "widening into one place, and what refusals leave");
    expect(answers(mom_widen(13, map, 2, counts, 2, zuniqs, 3, out, 3, &depth), MOM_ACCEPTED, 2) &&
           depth == 13 && zuniqs[0] == UINT64_C(1) << 58 &&
           zuniqs[1] == (UINT64_C(2) << 58) + (UINT64_C(1) << 32) && zuniqs[2] == 0 &&
           out[0] == 10 && out[1] == 3 && out[2] == 0, "widening from depth 13");
    expect(answers(mom_widen(0, map, 1, counts, 1, zuniqs, 1, out, 1, &depth), MOM_ACCEPTED, 1) &&
           depth == 0 && zuniqs[0] == UINT64_C(1) << 58, "widening from depth 0");
}

/* Byte j of row i is 16 * i + j, in three rows of so many bytes and in the columns of them. */
static void lay_out(size_t row_size, uint8_t *rows, uint8_t *columns) {
    for (size_t i = 0; i < 3; i++) {
        for (size_t j = 0; j < row_size; j++) {
            rows[row_size * i + j] = columns[3 * j + i] = (uint8_t)(16 * i + j);
        }
    }
}

/* Both ways between three rows and their columns, into buffers of 77s that are two bytes longer. */
static void there_and_back(size_t row_size, const char *what) {
    const size_t len = 3 * row_size;
    uint8_t rows[48], columns[48], out[50], back[50];

    lay_out(row_size, rows, columns);
    memset(out, 77, sizeof out);
    memset(back, 77, sizeof back);
    expect(answers(mom_rows_to_columns(row_size, rows, len, out, len + 2), MOM_ACCEPTED, 3) &&
           memcmp(out, columns, len) == 0 && out[len] == 77 && out[len + 1] == 77, what);
    expect(answers(mom_columns_to_rows(row_size, out, len, back, len + 2), MOM_ACCEPTED, 3) &&
           memcmp(back, rows, len) == 0 && back[len] == 77 && back[len + 1] == 77, what);
}

/* Neither way is taken from len bytes into outlen, and the output stays. */
static int not_laid_out(size_t row_size, size_t len, size_t outlen, uint8_t number) {
    const uint8_t in[48] = {0};
    uint8_t out[48], before[48];

    memset(out, 77, sizeof out);
    memset(before, 77, sizeof before);
    return answers(mom_rows_to_columns(row_size, in, len, out, outlen), number, 0) &&
           answers(mom_columns_to_rows(row_size, in, len, out, outlen), number, 0) &&
           memcmp(out, before, sizeof out) == 0;
}

static void byte_columns(void) {
    /* Two rows, and the columns of them: first bytes, second bytes, and so on. */
    const uint8_t rows[16] = {1, 2, 3, 4, 5, 6, 7, 8, 11, 12, 13, 14, 15, 16, 17, 18};
    const uint8_t columns[16] = {1, 11, 2, 12, 3, 13, 4, 14, 5, 15, 6, 16, 7, 17, 8, 18};
    uint8_t out[16];

    expect(answers(mom_rows_to_columns(8, rows, 16, out, 16), MOM_ACCEPTED, 2) &&
           memcmp(out, columns, 16) == 0, "the columns of two rows");
    expect(answers(mom_columns_to_rows(8, columns, 16, out, 16), MOM_ACCEPTED, 2) &&
           memcmp(out, rows, 16) == 0, "the rows of their columns");
    there_and_back(MOM_NARROW_ROW, "three rows of 8 bytes and their columns");
    there_and_back(MOM_COUNT_ROW, "three rows of 12 bytes and their columns");
    there_and_back(MOM_DENSITY_ROW, "three rows of 16 bytes and their columns");
    expect(answers(mom_rows_to_columns(12, rows, 0, out, 16), MOM_ACCEPTED, 0) &&
           answers(mom_columns_to_rows(12, columns, 0, out, 0), MOM_ACCEPTED, 0) &&
           memcmp(out, rows, 16) == 0, "the columns of no rows");

    expect(not_laid_out(0, 0, 48, MOM_LENGTHS_DIFFER) && not_laid_out(0, 48, 48, MOM_LENGTHS_DIFFER),
           "columns of rows of no bytes");
    expect(not_laid_out(4, 48, 48, MOM_LENGTHS_DIFFER), "columns of rows of 4 bytes");
    expect(not_laid_out(13, 39, 48, MOM_LENGTHS_DIFFER), "columns of rows of 13 bytes");
    expect(not_laid_out(SIZE_MAX, 0, 48, MOM_LENGTHS_DIFFER), "columns of rows of SIZE_MAX bytes");
    expect(not_laid_out(8, 47, 48, MOM_LENGTHS_DIFFER) &&
           not_laid_out(12, 40, 48, MOM_LENGTHS_DIFFER) &&
           not_laid_out(16, 24, 48, MOM_LENGTHS_DIFFER), "columns of an uneven length");
    expect(not_laid_out(8, 48, 47, MOM_NO_SPACE) && not_laid_out(12, 48, 47, MOM_NO_SPACE) &&
           not_laid_out(16, 48, 0, MOM_NO_SPACE), "columns into too few bytes");
    expect(not_laid_out(4, 48, 0, MOM_LENGTHS_DIFFER) && not_laid_out(8, 47, 0, MOM_LENGTHS_DIFFER),
           "columns of what is no whole rows into too few bytes");
}

/* (28, 0) and (29, 4), which touch, (29, 6), (28, 2) and (0, 11): the hashes 0 to 4, 6, 8 to 11, and
 * the last twelfth of the sky. Behind them stands one that isn't above. */
static const uint64_t reached[6] = {4, 9, 13, 20, UINT64_C(23) << 58, 9};
static const uint64_t sky = UINT64_C(12) << 58;

/* The coverage of the first zl of them into two buffers of 5s. */
struct covered {
    uint64_t word, starts[6], ends[6];
};

static struct covered cover(uint8_t depth, size_t zl, size_t sl, size_t el) {
    struct covered c = {0, {5, 5, 5, 5, 5, 5}, {5, 5, 5, 5, 5, 5}};
    c.word = mom_coverage(depth, reached, zl, c.starts, sl, c.ends, el);
    return c;
}

static int not_covered(struct covered c, uint8_t number, uint64_t place) {
    int same = answers(c.word, number, place);
    for (size_t i = 0; i < 6; i++) {
        same = same && c.starts[i] == 5 && c.ends[i] == 5;
    }
    return same;
}

static void covering(void) {
    const uint64_t starts[4] = {0, 6, 8, UINT64_C(11) << 58}, ends[4] = {5, 7, 12, sky};
    struct covered c = cover(29, 5, 6, 6);

    expect(answers(c.word, MOM_ACCEPTED, 4) && memcmp(c.starts, starts, sizeof starts) == 0 &&
           memcmp(c.ends, ends, sizeof ends) == 0, "four ranges of five entries");
    expect(c.starts[4] == 0 && c.starts[5] == 0 && c.ends[4] == 0 && c.ends[5] == 0,
           "zeros behind four ranges");
    c = cover(29, 5, 4, 4);
    expect(answers(c.word, MOM_ACCEPTED, 4) && c.ends[3] == sky && c.starts[4] == 5 && c.ends[4] == 5,
           "four ranges into four places");
    c = cover(28, 1, 1, 1);
    expect(answers(c.word, MOM_ACCEPTED, 1) && c.starts[0] == 0 && c.ends[0] == 4,
           "the range of one entry");
    c = cover(0, 0, 1, 1);
    expect(answers(c.word, MOM_ACCEPTED, 0) && c.starts[0] == 0 && c.ends[0] == 0 && c.starts[1] == 5,
           "the coverage of no entries");

    expect(not_covered(cover(30, 6, 1, 0), MOM_DEPTH_OUT_OF_RANGE, 0), "coverage at depth 30");
    expect(not_covered(cover(29, 6, 1, 0), MOM_LENGTHS_DIFFER, 0) &&
           not_covered(cover(29, 6, 5, 6), MOM_LENGTHS_DIFFER, 0), "coverage into two lengths");
    expect(not_covered(cover(29, 6, 0, 0), MOM_INVALID_MAP, 5), "coverage of what is no map");
    expect(not_covered(cover(28, 5, 0, 0), MOM_INVALID_MAP, 1),
           "coverage of an entry deeper than the map");
    expect(not_covered(cover(29, 5, 3, 3), MOM_NO_SPACE, 0), "four ranges into three places");
}

/* The map of the five, clipped to so many ranges into buffers of 5s. */
struct clipped {
    uint64_t word, zuniqs[10];
    double densities[10];
};

static const double halves[5] = {0.5, 1.5, 2.5, 3.5, 4.5};

static struct clipped clip(const double *densities, const uint64_t *starts, const uint64_t *ends,
                           size_t ranges, size_t places) {
    struct clipped c = {0, {5, 5, 5, 5, 5, 5, 5, 5, 5, 5}, {5, 5, 5, 5, 5, 5, 5, 5, 5, 5}};
    c.word = mom_clip(29, reached, 5, densities, 5, starts, ranges, ends, ranges, c.zuniqs, places,
                      c.densities, places);
    return c;
}

static int not_clipped(struct clipped c, uint8_t number, uint64_t place) {
    int same = answers(c.word, number, place);
    for (size_t i = 0; i < 10; i++) {
        same = same && c.zuniqs[i] == 5 && c.densities[i] == 5;
    }
    return same;
}

/* Of two ranges the one at this place is refused. */
static int no_range(uint64_t start, uint64_t end, uint64_t next_start, uint64_t next_end,
                    uint64_t place) {
    const uint64_t starts[2] = {start, next_start}, ends[2] = {end, next_end};
    return not_clipped(clip(halves, starts, ends, 2, 0), MOM_INVALID_RANGE, place);
}

static void refused_clips(void) {
    const uint64_t starts[2] = {1, 0}, ends[2] = {9, 0};
    const double below_0[5] = {0.5, -0.0, -1, NAN, 4.5};
    struct clipped c = clip(halves, starts, ends, 1, 0);

    /* What is refused has everything behind it in the table wrong too. */
    c.word = mom_clip(30, reached, 6, below_0, 5, starts, 2, ends, 1, c.zuniqs, 1, c.densities, 0);
    expect(not_clipped(c, MOM_DEPTH_OUT_OF_RANGE, 0), "a clip at depth 30");
    c.word = mom_clip(29, reached, 6, below_0, 5, starts, 2, ends, 2, c.zuniqs, 0, c.densities, 0);
    expect(not_clipped(c, MOM_LENGTHS_DIFFER, 0), "a clip of a map of two lengths");
    c.word = mom_clip(29, reached, 5, below_0, 5, starts, 2, ends, 1, c.zuniqs, 0, c.densities, 0);
    expect(not_clipped(c, MOM_LENGTHS_DIFFER, 0), "a clip to a coverage of two lengths");
    c.word = mom_clip(29, reached, 5, below_0, 5, starts, 2, ends, 2, c.zuniqs, 0, c.densities, 1);
    expect(not_clipped(c, MOM_LENGTHS_DIFFER, 0), "a clip into two lengths");
    c.word = mom_clip(28, reached, 5, below_0, 5, starts, 2, ends, 2, c.zuniqs, 0, c.densities, 0);
    expect(not_clipped(c, MOM_INVALID_MAP, 1), "a clip of what is no map");
    expect(not_clipped(clip(below_0, starts, ends, 2, 0), MOM_INVALID_MAP_DENSITY, 2),
           "a clip of a density below 0");

    expect(no_range(4, 4, 5, 6, 0) && no_range(4, 3, 5, 6, 0) && no_range(1, 2, 4, 4, 1),
           "a clip to an empty range");
    expect(no_range(0, sky + 1, 5, 6, 0) && no_range(0, UINT64_MAX, 5, 6, 0) &&
           no_range(0, 1, sky - 1, sky + 1, 1), "a clip to a range past the sky");
    expect(no_range(1, 9, 9, 10, 1) && no_range(1, 9, 8, 10, 1) && no_range(1, 9, 0, 1, 1),
           "a clip to a range that isn't above the one before");
    expect(not_clipped(clip(halves, starts, ends, 1, 5), MOM_NO_SPACE, 0),
           "six cells into five places");
}

static void clipping(void) {
    const uint64_t starts[3] = {1, 10, sky - 5}, ends[3] = {9, 11, sky};
    /* (29, 1) to (29, 3) of the first entry, both next ones whole, (29, 8) and (29, 10) of the fourth,
     * and at the end of the last one (29, N - 5) and the last cell of depth 28. */
    const uint64_t cells[9] = {3, 5, 7, 9, 13, 17, 21, 2 * sky - 9, 2 * sky - 4};
    const double densities[9] = {0.5, 0.5, 0.5, 1.5, 2.5, 3.5, 3.5, 4.5, 4.5};
    struct covered own = cover(29, 5, 6, 6);
    struct clipped c = clip(halves, starts, ends, 3, 10);

    expect(answers(c.word, MOM_ACCEPTED, 9) && memcmp(c.zuniqs, cells, sizeof cells) == 0 &&
           memcmp(c.densities, densities, sizeof densities) == 0, "nine cells of three ranges");
    expect(c.zuniqs[9] == 0 && c.densities[9] == 0, "zeros behind nine cells");
    c = clip(halves, starts, ends, 3, 9);
    expect(answers(c.word, MOM_ACCEPTED, 9) && c.zuniqs[8] == cells[8] && c.zuniqs[9] == 5,
           "nine cells into nine places");
    c = clip(halves, own.starts, own.ends, 4, 10);
    expect(answers(c.word, MOM_ACCEPTED, 5) && memcmp(c.zuniqs, reached, 5 * sizeof *reached) == 0 &&
           memcmp(c.densities, halves, sizeof halves) == 0 && c.zuniqs[5] == 0 && c.densities[9] == 0,
           "a clip to the map's own coverage");
    expect(not_clipped(clip(halves, own.starts, own.ends, 5, 10), MOM_INVALID_RANGE, 4),
           "a clip to a coverage with a zero behind it");
    c = clip(halves, starts, ends, 0, 1);
    expect(answers(c.word, MOM_ACCEPTED, 0) && c.zuniqs[0] == 0 && c.densities[0] == 0 &&
           c.zuniqs[1] == 5, "a clip to an empty coverage");
    refused_clips();
}

int main(void) {
    uint64_t n_hash = 5, zuniq = 5, hash = 5;
    uint8_t depth = 5;
    double chi2 = 5.5, answer = 5.5;
    size_t number = 5;
    /* (1,0), (1,1), (0,1) and the cell (1,0) again. */
    const uint64_t first = UINT64_C(1) << 56, base = UINT64_C(1) << 58;
    const uint64_t map[4] = {first, 3 * first, 3 * base, first};
    const uint64_t hashes[4] = {0, 1, 2, 3};
    const uint32_t batch[4] = {1, 2, 4, 4};
    uint64_t zuniqs[5] = {5, 5, 5, 5, 5};
    uint32_t counts[5] = {5, 5, 5, 5, 5}, total = 5;
    const double sixteens[4] = {16, 16, 16, 16}, nans[1] = {NAN};
    double densities[5] = {5.5, 5.5, 5.5, 5.5, 5.5};
    const uint64_t faulty[2] = {first, base}, none = 2;

    expect(answers(mom_n_hash(30, &n_hash), MOM_DEPTH_OUT_OF_RANGE, 0) && n_hash == 5,
           "n_hash(30)");
    expect(answers(mom_n_hash(0, &n_hash), MOM_ACCEPTED, 0) && n_hash == 12, "n_hash(0)");
    expect(answers(mom_n_hash(1, &n_hash), MOM_ACCEPTED, 0) && n_hash == 48, "n_hash(1)");
    expect(answers(mom_n_hash(29, &n_hash), MOM_ACCEPTED, 0) && n_hash == 3458764513820540928,
           "n_hash(29)");

    expect(answers(mom_to_zuniq(1, 48, &zuniq), MOM_HASH_OUT_OF_RANGE, 0) && zuniq == 5,
           "to_zuniq(1, 48)");
    expect(answers(mom_to_zuniq(0, 0, &zuniq), MOM_ACCEPTED, 0) && zuniq == UINT64_C(1) << 58,
           "to_zuniq(0, 0)");

    expect(answers(mom_from_zuniq(2, &depth, &hash), MOM_NONE, 0) && depth == 5 && hash == 5,
           "from_zuniq(2)");
    expect(answers(mom_from_zuniq(3, &depth, &hash), MOM_ACCEPTED, 0) && depth == 29 && hash == 1,
           "from_zuniq(3)");

    expect(answers(mom_are_overlapping(zuniq, 1), MOM_ACCEPTED, 1), "are_overlapping(2^58, 1)");
    expect(answers(mom_are_overlapping(1, 3), MOM_ACCEPTED, 0), "are_overlapping(1, 3)");
    expect(answers(mom_are_overlapping(0, 0), MOM_NOT_A_ZUNIQ, 0), "are_overlapping(0, 0)");
    expect(answers(mom_are_overlapping(1, 0), MOM_NOT_A_ZUNIQ, 1), "are_overlapping(1, 0)");

    expect(answers(mom_chi2_count_merger(29, 0, 30, NAN, unlisted, 0, UINT32_MAX, 1, 0, 0, &chi2),
                   MOM_DEPTH_OUT_OF_RANGE, 0) && chi2 == 5.5, "count merger at depth 29");
    expect(answers(mom_chi2_count_merger(28, 0, 30, NAN, unlisted, 0, UINT32_MAX, 1, 0, 0, &chi2),
                   MOM_DEPTH_THRESHOLD_OUT_OF_RANGE, 0) && chi2 == 5.5, "count merger, M = 30");
    expect(answers(mom_chi2_count_merger(28, 0, 29, NAN, unlisted, 0, UINT32_MAX, 1, 0, 0, &chi2),
                   MOM_CHI2_THRESHOLD_IS_NAN, 0) && chi2 == 5.5, "count merger, T a NaN");
    expect(answers(mom_chi2_count_merger(28, 0, 29, 3.5, unlisted, 0, UINT32_MAX, 1, 0, 0, &chi2),
                   MOM_COUNT_OVERFLOW, 0) && chi2 == 5.5, "count merger, a sum of 2^32");
    expect(answers(mom_chi2_count_merger(0, 0, 0, 3.5, unlisted, 0, 1, 2, 4, 4, &chi2),
                   MOM_ACCEPTED, 11) && chi2 == 5.5, "counts 1, 2, 4, 4 at T = 3.5");
    expect(answers(mom_chi2_count_merger(0, 0, 0, 3, unlisted, 0, 1, 2, 4, 4, &chi2),
                   MOM_KEPT, 0) && chi2 == 3, "counts 1, 2, 4, 4 at T = 3");
    expect(answers(mom_chi2_count_merger(0, 0, 1, 3.5, unlisted, 0, 0, 0, 0, 5, &chi2),
                   MOM_KEPT, 0) && chi2 == 5, "counts 0, 0, 0, 5 at M = 1");

    expect(answers(mom_chi2_density_merger(29, 0, 30, NAN, unlisted, 0, -1, -1, -1, -1, &answer),
                   MOM_DEPTH_OUT_OF_RANGE, 0) && answer == 5.5, "density merger at depth 29");
    expect(answers(mom_chi2_density_merger(28, 0, 30, NAN, unlisted, 0, -1, -1, -1, -1, &answer),
                   MOM_DEPTH_THRESHOLD_OUT_OF_RANGE, 0) && answer == 5.5, "density merger, M = 30");
    expect(answers(mom_chi2_density_merger(28, 0, 29, NAN, unlisted, 0, -1, -1, -1, -1, &answer),
                   MOM_CHI2_THRESHOLD_IS_NAN, 0) && answer == 5.5, "density merger, T a NaN");
    expect(answers(mom_chi2_density_merger(28, 0, 29, 3.5, unlisted, 0, 0, -0.0, NAN, INFINITY,
                                           &answer),
                   MOM_INVALID_DENSITY, 2) && answer == 5.5, "density merger, m2 a NaN");
    expect(answers(mom_chi2_density_merger(0, 0, 0, 0, unlisted, 0, 16, 16, 16, 16, &answer),
                   MOM_KEPT, 0) && answer == 0, "densities of 16 at T = 0");
    expect(answers(mom_chi2_density_merger(0, 0, 0, 3.5, unlisted, 0, 16, 16, 16, 16, &answer),
                   MOM_ACCEPTED, 0) && answer == 16, "densities of 16 at T = 3.5");
    expect(answers(mom_chi2_density_merger(0, 0, 0, 0, unlisted, 0, 0, -0.0, 0, 2, &answer),
                   MOM_ACCEPTED, 0) && answer == 0.5, "densities 0, -0, 0, 2 at T = 0");

    expect(answers(mom_check_is_mom_zuniqs(30, map, 4), MOM_DEPTH_OUT_OF_RANGE, 0),
           "a check at depth 30");
    expect(answers(mom_check_is_mom_zuniqs(1, map, 0), MOM_ACCEPTED, 0), "a check of no entries");
    expect(answers(mom_check_is_mom_zuniqs(1, map, 3), MOM_ACCEPTED, 0),
           "a check of three entries");
    expect(answers(mom_check_is_mom_zuniqs(1, map, 4), MOM_FAULT_NOT_ABOVE, 3), "a check of four");
    expect(answers(mom_check_is_mom_zuniqs(0, map, 4), MOM_FAULT_TOO_DEEP, 0),
           "a check at depth 0");
    expect(answers(mom_check_is_mom_zuniqs(1, faulty, 2), MOM_FAULT_OVERLAPPING, 1), "an overlap");
    expect(answers(mom_check_is_mom_zuniqs(1, &none, 1), MOM_FAULT_NOT_A_ZUNIQ, 0), "a check of 2");

    expect(answers(mom_get_cell_containing_zuniqs(30, map, 3, 0), MOM_DEPTH_OUT_OF_RANGE, 0),
           "containing at depth 30");
    expect(answers(mom_get_cell_containing_zuniqs(1, map, 3, base), MOM_NOT_A_ZUNIQ, 0),
           "containing, asked another depth");
    expect(answers(mom_get_cell_containing_zuniqs(1, map, 3, 11 * first), MOM_ACCEPTED, 2),
           "the entry over (1, 5)");
    expect(answers(mom_get_cell_containing_zuniqs(1, map, 3, 5 * first), MOM_NONE, 0),
           "the entry over (1, 2)");

    expect(answers(mom_get_overlapped_cells_zuniqs(map, 3, 2, &number), MOM_NOT_A_ZUNIQ, 0) &&
           number == 5, "overlapped, asked 2");
    expect(answers(mom_get_overlapped_cells_zuniqs(map, 3, base, &number), MOM_ACCEPTED, 0) &&
           number == 2, "the entries in (0, 0)");
    expect(answers(mom_get_overlapped_cells_zuniqs(map, 3, 9 * first, &number), MOM_ACCEPTED, 2) &&
           number == 1, "the entry over (1, 4)");
    expect(answers(mom_get_overlapped_cells_zuniqs(map, 3, 5 * base, &number), MOM_ACCEPTED, 0) &&
           number == 0, "the entries in (0, 2)");

    expect(answers(mom_add_counts(30, 0, 3.5, unlisted, 0, 0, zuniqs, 5, counts, 5, hashes, 4,
                                  batch, 4, &total),
                   MOM_DEPTH_OUT_OF_RANGE, 0) && total == 5, "adding at depth 30");
    expect(answers(mom_add_counts(1, 0, 3.5, unlisted, 0, 0, zuniqs, 5, counts, 4, hashes, 4, batch,
                                  4, &total),
                   MOM_LENGTHS_DIFFER, 0) && total == 5, "adding to two lengths");
    expect(answers(mom_add_counts(1, 0, 3.5, unlisted, 0, 0, zuniqs, 3, counts, 3, hashes, 4, batch,
                                  4, &total),
                   MOM_NO_SPACE, 0) && total == 5 && zuniqs[0] == 5 && counts[0] == 5,
           "adding to too few places");
    expect(answers(mom_add_counts(1, 0, 3.5, unlisted, 0, 0, zuniqs, 5, counts, 5, hashes, 3, batch,
                                  3, &total),
                   MOM_ACCEPTED, 3) && total == 7 && zuniqs[2] == 5 * first && counts[2] == 4 &&
           zuniqs[3] == 0 && counts[4] == 0, "adding three");
    expect(answers(mom_add_counts(1, 0, 3.5, unlisted, 0, 4, zuniqs, 5, counts, 5, hashes, 0, batch,
                                  0, &total),
                   MOM_INVALID_MAP, 3) && total == 7, "adding to more than are held");
    expect(answers(mom_add_counts(1, 0, 3.5, unlisted, 0, 3, zuniqs, 5, counts, 5, hashes + 2, 2,
                                  batch + 2, 2, &total),
                   MOM_CELL_NOT_ABOVE, 0) && total == 7, "adding one again");
    expect(answers(mom_add_counts(1, 0, 3.5, unlisted, 0, 3, zuniqs, 4, counts, 4, hashes + 3, 1,
                                  batch + 3, 1, &total),
                   MOM_ACCEPTED, 1) && total == 11 && zuniqs[0] == base && counts[0] == 11 &&
           zuniqs[1] == 0 && counts[3] == 0, "adding the fourth");

    /* Densities, to the entry that the counts left and then to none. */
    expect(answers(mom_add_densities(1, 30, 3.5, unlisted, 0, 0, zuniqs, 5, densities, 5, hashes, 4,
                                     sixteens, 4),
                   MOM_DEPTH_THRESHOLD_OUT_OF_RANGE, 0), "adding densities, M = 30");
    expect(answers(mom_add_densities(1, 0, NAN, unlisted, 0, 0, zuniqs, 5, densities, 5, hashes, 4,
                                     sixteens, 4),
                   MOM_CHI2_THRESHOLD_IS_NAN, 0), "adding densities, T a NaN");
    expect(answers(mom_add_densities(1, 0, 3.5, unlisted, 0, 0, zuniqs, 5, densities, 5, hashes, 4,
                                     sixteens, 3),
                   MOM_LENGTHS_DIFFER, 0), "adding a batch of two lengths");
    expect(answers(mom_add_densities(1, 0, 3.5, unlisted, 0, 1, zuniqs, 5, densities, 5, hashes, 4,
                                     sixteens, 4),
                   MOM_CELL_NOT_ABOVE, 0), "adding densities of cells that are covered");
    expect(answers(mom_add_densities(1, 0, 3.5, unlisted, 0, 0, zuniqs, 5, densities, 5, hashes, 1,
                                     nans, 1),
                   MOM_INVALID_DENSITY, 0), "adding a NaN");
    expect(answers(mom_add_densities(1, 0, 3.5, unlisted, 0, 0, zuniqs, 3, densities, 3, hashes, 4,
                                     sixteens, 4),
                   MOM_NO_SPACE, 0) && zuniqs[0] == base && densities[0] == 5.5,
           "adding densities to too few places");
    expect(answers(mom_add_densities(1, 0, 3.5, unlisted, 0, 0, zuniqs, 5, densities, 5, hashes, 3,
                                     sixteens, 3),
                   MOM_ACCEPTED, 3) && zuniqs[2] == 5 * first && densities[2] == 16 &&
           zuniqs[3] == 0 && densities[4] == 0, "adding three densities");
    densities[1] = -1;
    expect(answers(mom_add_densities(1, 0, 3.5, unlisted, 0, 3, zuniqs, 5, densities, 5, hashes + 3,
                                     1, sixteens, 1),
                   MOM_INVALID_MAP_DENSITY, 1) && densities[1] == -1 && zuniqs[3] == 0,
           "adding to a density below 0");
    densities[1] = 16;
    expect(answers(mom_add_densities(1, 0, 3.5, unlisted, 0, 3, zuniqs, 4, densities, 4, hashes + 3,
                                     1, sixteens, 1),
                   MOM_ACCEPTED, 1) && zuniqs[0] == base && densities[0] == 16 && zuniqs[1] == 0 &&
           densities[3] == 0, "adding the fourth density");

    base_cells();
    rows();
    maps_of_rows();
    pooling();
    sharing();
    asking();
    asking_for_much_and_nothing();
    committing();
    refused_commits();
    asking_and_committing();
    merging_blank_sky();
    chi2_near();
    blank_maps();
    multiplying();
    protected_mergers();
    protected_adding();
    protected_maps();
    protected_blank_maps();
    refused_lists();
    narrow_cells();
    narrow_rows();
    narrow_maps_of_rows();
    narrow_maps();
    narrow_adding();
    narrowing();
    widening();
    byte_columns();
    covering();
    clipping();

    printf("%d passed, %d failed\n", passed, failed);
    return failed > 0;
}

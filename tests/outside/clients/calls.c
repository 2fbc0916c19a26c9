/* Calls each exported function on the sheets A and C of document 01, on their like with lot 0, and on calls that are refused, and compares answers and
   buffers. Its exit status is 0 where all agree. */
#include <stdio.h>
#include <string.h>

#include "lihumbay.h"

static const uint8_t sheet_c[] = {
    3, 0, 2, 0, 3, 0,       1, 0, 3, 0,             1, 0, 1, 0, 2, 0, 2, 0,
    1, 0, 1, 0, 3, 0, 0, 0, 2, 0, 1, 0, 2, 0, 0, 0,
};

/* split 1 2 3; ground 2; split 1 3 0; met */
static const uint8_t nodes_c[] = {
    1, 0, 1, 0, 2, 0, 3, 0, 2, 0, 2, 0, 0, 0, 0, 0,
    1, 0, 1, 0, 3, 0, 0, 0, 3, 0, 0, 0, 0, 0, 0, 0,
};

/* same 1 2; same 2 3; apart 1 3 */
static const uint8_t sheet_a[] = {
    3, 0, 3, 0, 3, 0,       1, 0, 2, 0, 3, 0,       1, 0, 1, 0, 2, 0, 0, 0,
    1, 0, 2, 0, 3, 0, 0, 0, 2, 0, 1, 0, 3, 0, 0, 0,
};

/* split 1 2 5; split 2 3 4; ground 3; ground 2; ground 1 */
static const uint8_t nodes_a[] = {
    1, 0, 1, 0, 2, 0, 5, 0, 1, 0, 2, 0, 3, 0, 4, 0, 2, 0, 3, 0, 0, 0, 0, 0,
    2, 0, 2, 0, 0, 0, 0, 0, 2, 0, 1, 0, 0, 0, 0, 0,
};

static int failed = 0;

static void expect(const char *what, int agrees) {
    if (!agrees) {
        printf("FAILED %s\n", what);
        failed = 1;
    }
}

static int is(lihumbay_numbers r, uint32_t check, uint32_t first, uint32_t second, uint32_t third) {
    return r.check == check && r.first == first && r.second == second && r.third == third;
}

static int all(const uint8_t *bytes, size_t from, size_t to, uint8_t value) {
    while (from < to && bytes[from] == value) from++;
    return from == to;
}

static void reader(void) {
    expect("read", is(lihumbay_read(sheet_c, sizeof sheet_c), 0, 3, 2, 3));
    expect("read 5 bytes", is(lihumbay_read(sheet_c, 5), 1, 0, 0, 0));
    expect("read a wrong length", is(lihumbay_read(sheet_c, sizeof sheet_c - 1), 3, 0, 0, 0));
}

static void search_met(void) {
    uint8_t grouping[5], store[48];
    memset(grouping, 170, sizeof grouping);
    memset(store, 170, sizeof store);
    lihumbay_numbers r = lihumbay_search(sheet_c, sizeof sheet_c, grouping, sizeof grouping, store, sizeof store);
    expect("search", is(r, 0, 1, 4, 0));
    expect("its grouping", memcmp(grouping, "\1\2\1", 3) == 0 && all(grouping, 3, 5, 170));
    expect("its nodes", memcmp(store, nodes_c, sizeof nodes_c) == 0 && all(store, 32, 48, 170));
    expect("its grouping evaluated", is(lihumbay_evaluate(sheet_c, sizeof sheet_c, grouping, 3), 0, 0, 0, 0));
}

static void search_refused(void) {
    uint8_t grouping[5], store[31];
    memset(grouping, 170, sizeof grouping);
    memset(store, 170, sizeof store);
    expect("search, grouping short", is(lihumbay_search(sheet_c, sizeof sheet_c, grouping, 2, store, sizeof store), 8, 3, 0, 0));
    expect("nothing written", all(grouping, 0, 5, 170) && all(store, 0, 31, 170));
    expect("search, store full", is(lihumbay_search(sheet_c, sizeof sheet_c, grouping, 5, store, sizeof store), 9, 3, 0, 0));
    expect("whole records zeroed", all(grouping, 0, 5, 170) && all(store, 0, 24, 0) && all(store, 24, 31, 170));
}

static void search_cannot(void) {
    static const uint8_t apart_1_1[] = {1, 0, 1, 0, 1, 0, 1, 0, 2, 0, 1, 0, 1, 0, 0, 0};
    static const uint8_t ground_1[] = {2, 0, 1, 0, 0, 0, 0, 0};
    uint8_t grouping[1] = {170}, store[8];
    expect("search, cannot", is(lihumbay_search(apart_1_1, sizeof apart_1_1, grouping, 1, store, sizeof store), 0, 2, 1, 0));
    expect("its ground", grouping[0] == 170 && memcmp(store, ground_1, 8) == 0);
}

static void evaluator(void) {
    expect("evaluate 7 8 9", is(lihumbay_evaluate(sheet_c, sizeof sheet_c, (const uint8_t *)"\7\10\11", 3), 0, 1, 0, 0));
    expect("evaluate 7 7 9", is(lihumbay_evaluate(sheet_c, sizeof sheet_c, (const uint8_t *)"\7\7\11", 3), 0, 2, 0, 0));
    expect("evaluate, grouping short", is(lihumbay_evaluate(sheet_c, sizeof sheet_c, (const uint8_t *)"\7\7", 2), 8, 3, 0, 0));
}

/* The list of sheet A with one byte changed is refused by a check, at a place. */
static void changed(const char *what, size_t at, uint8_t value, uint32_t check, uint32_t place) {
    uint8_t list[sizeof nodes_a];
    memcpy(list, nodes_a, sizeof list);
    list[at] = value;
    expect(what, is(lihumbay_check(sheet_a, sizeof sheet_a, list, sizeof list), check, place, 0, 0));
}

static void checker(void) {
    uint8_t grouping[3], store[48];
    memset(store, 0, sizeof store);
    expect("search A", is(lihumbay_search(sheet_a, sizeof sheet_a, grouping, 3, store, sizeof store), 0, 2, 5, 0));
    expect("its refutation", memcmp(store, nodes_a, sizeof nodes_a) == 0);
    expect("check A", is(lihumbay_check(sheet_a, sizeof sheet_a, store, 40), 0, 0, 0, 0));
    expect("check, a record left over", is(lihumbay_check(sheet_a, sizeof sheet_a, store, 48), 14, 6, 0, 0));
    expect("check, the next one missing", is(lihumbay_check(sheet_a, sizeof sheet_a, store, 32), 14, 5, 0, 0));
    expect("check, no whole records", is(lihumbay_check(sheet_a, sizeof sheet_a, store, 39), 10, 0, 0, 0));
    expect("check, no record", is(lihumbay_check(sheet_a, sizeof sheet_a, store, 0), 10, 0, 0, 0));
    expect("check, a sheet refused", is(lihumbay_check(sheet_a, 5, store, 40), 1, 0, 0, 0));
    expect("check, a met record", is(lihumbay_check(sheet_c, sizeof sheet_c, nodes_c, sizeof nodes_c), 11, 4, 0, 0));
    changed("check, a kind", 0, 3, 11, 1);
    changed("check, a spare byte", 17, 1, 11, 3);
    changed("check, a lot", 10, 4, 11, 2);
    changed("check, a ground's second", 20, 1, 11, 3);
    changed("check, a term that is not false", 18, 1, 12, 3);
    changed("check, an open term", 10, 3, 12, 3);
    changed("check, next of the first split", 6, 4, 13, 1);
    changed("check, next of the second split", 14, 5, 13, 2);
}

/* Sheet C with its records in another order. */
static const uint8_t reordered_c[] = {
    3, 0, 2, 0, 3, 0,       3, 0, 2, 0,             1, 0, 1, 0, 3, 0, 0, 0,
    2, 0, 1, 0, 2, 0, 0, 0, 1, 0, 1, 0, 2, 0, 1, 0,
};

static void repacker(void) {
    uint8_t out[40];
    memset(out, 170, sizeof out);
    expect("repack, no room", is(lihumbay_repack(reordered_c, sizeof reordered_c, out, 0), 16, 34, 0, 0));
    expect("repack, a byte too short", is(lihumbay_repack(reordered_c, sizeof reordered_c, out, 33), 16, 34, 0, 0));
    expect("repack, a sheet refused", is(lihumbay_repack(reordered_c, 33, out, sizeof out), 3, 0, 0, 0));
    expect("nothing written", all(out, 0, 40, 170));
    expect("repack", is(lihumbay_repack(reordered_c, sizeof reordered_c, out, 34), 0, 34, 0, 0));
    expect("its sheet", memcmp(out, sheet_c, sizeof sheet_c) == 0 && all(out, 34, 40, 170));
    memset(out, 170, sizeof out);
    expect("repack a packed sheet", is(lihumbay_repack(sheet_c, sizeof sheet_c, out, sizeof out), 0, 34, 0, 0));
    expect("no byte changed", memcmp(out, sheet_c, sizeof sheet_c) == 0 && all(out, 34, 40, 170));
}

/* Sheet C with condition 1 withdrawn: its head is zero, and records 1 and 2 are vacant. */
static const uint8_t withdrawn_c[] = {
    3, 0, 2, 0, 3, 0,       0, 0, 3, 0,             0, 0, 0, 0, 0, 0, 0, 0,
    0, 0, 0, 0, 0, 0, 0, 0, 2, 0, 1, 0, 2, 0, 0, 0,
};

/* The same, packed. */
static const uint8_t packed_c[] = {3, 0, 2, 0, 1, 0, 0, 0, 1, 0, 2, 0, 1, 0, 2, 0, 0, 0};

static void withdrawn(void) {
    static const uint8_t ground_1[] = {2, 0, 1, 0, 0, 0, 0, 0};
    static const uint8_t met[] = {3, 0, 0, 0, 0, 0, 0, 0};
    uint8_t grouping[3], store[8], out[20], vacant[sizeof sheet_c];
    memset(out, 170, sizeof out);
    expect("read, vacant records counted", is(lihumbay_read(withdrawn_c, sizeof withdrawn_c), 0, 3, 2, 3));
    expect("search, a withdrawn condition", is(lihumbay_search(withdrawn_c, sizeof withdrawn_c, grouping, 3, store, sizeof store), 0, 1, 1, 0));
    expect("its grouping", memcmp(grouping, "\1\2\3", 3) == 0 && memcmp(store, met, 8) == 0);
    expect("evaluate, a withdrawn condition", is(lihumbay_evaluate(withdrawn_c, sizeof withdrawn_c, grouping, 3), 0, 0, 0, 0));
    expect("check, a ground on it", is(lihumbay_check(withdrawn_c, sizeof withdrawn_c, ground_1, sizeof ground_1), 12, 1, 0, 0));
    expect("repack, a byte too short", is(lihumbay_repack(withdrawn_c, sizeof withdrawn_c, out, 17), 16, 18, 0, 0));
    expect("repack, vacant records dropped", is(lihumbay_repack(withdrawn_c, sizeof withdrawn_c, out, 18), 0, 18, 0, 0));
    expect("its sheet", memcmp(out, packed_c, sizeof packed_c) == 0 && all(out, 18, 20, 170));
    memcpy(vacant, sheet_c, sizeof vacant);
    memset(vacant + 18, 0, 8);
    expect("read, a chain into a vacant record", is(lihumbay_read(vacant, sizeof vacant), 17, 2, 0, 0));
}

/* apart 1 2; same 1 3 or same 1 2; same 3 4. The first condition repeats one of sheet C, the second has the terms of another in another order. */
static const uint8_t sheet_e[] = {
    4, 0, 3, 0, 4, 0,       2, 0, 4, 0, 3, 0,       1, 0, 1, 0, 2, 0, 0, 0,
    2, 0, 1, 0, 2, 0, 0, 0, 1, 0, 3, 0, 4, 0, 0, 0, 1, 0, 1, 0, 3, 0, 1, 0,
};

static const uint8_t merged_c_e[] = {
    4, 0, 4, 0, 6, 0,       1, 0, 3, 0, 4, 0, 6, 0, 1, 0, 1, 0, 2, 0, 2, 0, 1, 0, 1, 0, 3, 0, 0, 0,
    2, 0, 1, 0, 2, 0, 0, 0, 1, 0, 1, 0, 3, 0, 5, 0, 1, 0, 1, 0, 2, 0, 0, 0, 1, 0, 3, 0, 4, 0, 0, 0,
};

static lihumbay_numbers merged(size_t first_length, size_t second_length, uint8_t *out, size_t out_length) {
    return lihumbay_merge(sheet_c, first_length, sheet_e, second_length, out, out_length);
}

static void merge(void) {
    uint8_t out[64];
    memset(out, 170, sizeof out);
    expect("merge, no room", is(merged(34, 44, out, 0), 19, 62, 0, 0));
    expect("merge, a byte too short", is(merged(34, 44, out, 61), 19, 62, 0, 0));
    expect("merge, the first sheet refused", is(merged(33, 44, out, 64), 3, 0, 1, 0));
    expect("merge, the second sheet refused", is(merged(34, 5, out, 64), 1, 0, 2, 0));
    expect("merge, both sheets refused", is(merged(33, 5, out, 64), 3, 0, 1, 0));
    expect("nothing written", all(out, 0, 64, 170));
    expect("merge", is(merged(34, 44, out, 62), 0, 62, 0, 0));
    expect("its sheet", memcmp(out, merged_c_e, sizeof merged_c_e) == 0 && all(out, 62, 64, 170));
    memset(out, 170, sizeof out);
    expect("merge a sheet with itself", is(lihumbay_merge(sheet_c, 34, sheet_c, 34, out, 34), 0, 34, 0, 0));
    expect("no byte changed", memcmp(out, sheet_c, sizeof sheet_c) == 0 && all(out, 34, 64, 170));
}

/* Sheet C with condition 1 withdrawn, merged with itself: condition 2 is a repeat, and the withdrawn one stays both times. */
static const uint8_t withdrawn_twice[] = {3, 0, 3, 0, 1, 0, 0, 0, 1, 0, 0, 0, 2, 0, 1, 0, 2, 0, 0, 0};

static void merge_withdrawn(void) {
    static const uint8_t most[6 + 2 * 256] = {0, 0, 0, 1}, empty[6] = {0};
    uint8_t out[22], again[sizeof most];
    memset(out, 170, sizeof out);
    expect("merge, a withdrawn place too short", is(lihumbay_merge(withdrawn_c, 34, withdrawn_c, 34, out, 19), 19, 20, 0, 0));
    expect("merge, a withdrawn place too many", is(lihumbay_merge(most, sizeof most, withdrawn_c, 34, out, sizeof out), 18, 2, 0, 0));
    expect("nothing written", all(out, 0, 22, 170));
    expect("merge withdrawn conditions", is(lihumbay_merge(withdrawn_c, 34, withdrawn_c, 34, out, 20), 0, 20, 0, 0));
    expect("its sheet", memcmp(out, withdrawn_twice, sizeof withdrawn_twice) == 0 && all(out, 20, 22, 170));
    expect("merge 256 of them", is(lihumbay_merge(most, sizeof most, empty, sizeof empty, again, sizeof again), 0, sizeof most, 0, 0));
    expect("no byte changed", memcmp(again, most, sizeof most) == 0);
}

/* A sheet of 256 conditions, merged with another condition, and one of 1,024 terms in one condition, merged with another term. */
static void merge_limits(void) {
    static uint8_t conditions[6 + 2 * 256 + 8 * 256], terms[6 + 2 + 8 * 1024], out[sizeof terms];
    static const uint8_t header_conditions[] = {128, 0, 0, 1, 0, 1}, header_terms[] = {1, 0, 1, 0, 0, 4, 1, 0};
    memcpy(conditions, header_conditions, sizeof header_conditions);
    for (size_t i = 0; i < 256; i++) {
        uint8_t record[] = {i < 128 ? 1 : 2, 0, 1, 0, (uint8_t)(i % 128 + 1), 0, 0, 0};
        conditions[6 + 2 * i] = (uint8_t)(i + 1);
        conditions[7 + 2 * i] = (uint8_t)((i + 1) >> 8);
        memcpy(conditions + 6 + 2 * 256 + 8 * i, record, sizeof record);
    }
    memcpy(terms, header_terms, sizeof header_terms);
    for (size_t i = 0; i < 1024; i++) {
        size_t next = i < 1023 ? i + 2 : 0;
        uint8_t record[] = {1, 0, 1, 0, 1, 0, (uint8_t)next, (uint8_t)(next >> 8)};
        memcpy(terms + 8 + 8 * i, record, sizeof record);
    }
    memset(out, 170, sizeof out);
    expect("merge, too many conditions", is(lihumbay_merge(conditions, sizeof conditions, sheet_c, 34, out, sizeof out), 18, 2, 0, 0));
    expect("merge, too many terms", is(lihumbay_merge(terms, sizeof terms, sheet_e, 44, out, sizeof out), 18, 3, 0, 0));
    expect("merge, both", is(lihumbay_merge(conditions, sizeof conditions, terms, sizeof terms, out, 0), 18, 2, 0, 0));
    expect("nothing written", all(out, 0, sizeof out, 170));
    expect("merge, repeats alone", is(lihumbay_merge(terms, sizeof terms, terms, sizeof terms, out, sizeof out), 0, sizeof terms, 0, 0));
    expect("its sheet", memcmp(out, terms, sizeof terms) == 0);
}

/* Sheet C with each lot one lower: same 0 1 or same 0 2; apart 0 1. Lot 0 has the number 0 and no byte of the grouping. */
static const uint8_t lower_c[] = {
    2, 0, 2, 0, 3, 0,       1, 0, 3, 0,             1, 0, 0, 0, 1, 0, 2, 0,
    1, 0, 0, 0, 2, 0, 0, 0, 2, 0, 0, 0, 1, 0, 0, 0,
};

/* split 0 1 3; ground 2; split 0 2 0; met */
static const uint8_t lower_nodes_c[] = {
    1, 0, 0, 0, 1, 0, 3, 0, 2, 0, 2, 0, 0, 0, 0, 0,
    1, 0, 0, 0, 2, 0, 0, 0, 3, 0, 0, 0, 0, 0, 0, 0,
};

static void zero_lot(void) {
    uint8_t grouping[4], store[40], out[34];
    memset(grouping, 170, sizeof grouping);
    memset(store, 170, sizeof store);
    expect("read, lot 0", is(lihumbay_read(lower_c, sizeof lower_c), 0, 2, 2, 3));
    expect("search, lot 0", is(lihumbay_search(lower_c, sizeof lower_c, grouping, 4, store, sizeof store), 0, 1, 4, 0));
    expect("its grouping", memcmp(grouping, "\1\0", 2) == 0 && all(grouping, 2, 4, 170));
    expect("its nodes", memcmp(store, lower_nodes_c, sizeof lower_nodes_c) == 0 && all(store, 32, 40, 170));
    expect("evaluate 1 0", is(lihumbay_evaluate(lower_c, sizeof lower_c, grouping, 2), 0, 0, 0, 0));
    expect("evaluate 7 7", is(lihumbay_evaluate(lower_c, sizeof lower_c, (const uint8_t *)"\7\7", 2), 0, 1, 0, 0));
    expect("evaluate 0 7", is(lihumbay_evaluate(lower_c, sizeof lower_c, (const uint8_t *)"\0\7", 2), 0, 2, 0, 0));
    expect("repack, lot 0", is(lihumbay_repack(lower_c, sizeof lower_c, out, sizeof out), 0, 34, 0, 0));
    expect("no byte changed", memcmp(out, lower_c, sizeof lower_c) == 0);
    expect("merge, lot 0", is(lihumbay_merge(lower_c, sizeof lower_c, lower_c, sizeof lower_c, out, sizeof out), 0, 34, 0, 0));
    expect("no byte changed", memcmp(out, lower_c, sizeof lower_c) == 0);
}

/* No lots: lot 0 is there. The record of the term same 0 0 has one byte that isn't zero, and the one of apart 0 0. */
static void zero_lot_alone(void) {
    uint8_t sheet[] = {0, 0, 1, 0, 1, 0, 1, 0, 1, 0, 0, 0, 0, 0, 0, 0}, grouping[1], store[8];
    static const uint8_t list[] = {1, 0, 0, 0, 0, 0, 3, 0, 2, 0, 1, 0, 0, 0, 0, 0, 2, 0, 1, 0, 0, 0, 0, 0};
    static const uint8_t ground_0[] = {2, 0, 0, 0, 0, 0, 0, 0};
    expect("read same 0 0", is(lihumbay_read(sheet, sizeof sheet), 0, 0, 1, 1));
    expect("search same 0 0", is(lihumbay_search(sheet, sizeof sheet, grouping, 0, store, sizeof store), 0, 1, 1, 0));
    expect("check, same 0 0 is true", is(lihumbay_check(sheet, sizeof sheet, list, sizeof list), 12, 2, 0, 0));
    sheet[8] = 2;
    expect("search apart 0 0", is(lihumbay_search(sheet, sizeof sheet, grouping, 0, store, sizeof store), 0, 2, 1, 0));
    expect("evaluate apart 0 0", is(lihumbay_evaluate(sheet, sizeof sheet, grouping, 0), 0, 1, 0, 0));
    expect("check, a split on 0 0", is(lihumbay_check(sheet, sizeof sheet, list, sizeof list), 0, 0, 0, 0));
    expect("check, a ground's condition 0", is(lihumbay_check(sheet, sizeof sheet, ground_0, sizeof ground_0), 11, 1, 0, 0));
    sheet[8] = 0;
    expect("read, a chain into a vacant record", is(lihumbay_read(sheet, sizeof sheet), 17, 1, 0, 0));
}

/* Two lots that are apart, with a limit on the number of classes, lot 0's among them: two are enough, one is not. */
static const uint8_t apart_1_2[] = {2, 0, 1, 0, 1, 0, 1, 0, 2, 0, 1, 0, 2, 0, 0, 0};

/* With one: split 0 1 5; split 0 2 4; ground 1; clique; clique */
static const uint8_t within_1[] = {
    1, 0, 0, 0, 1, 0, 5, 0, 1, 0, 0, 0, 2, 0, 4, 0, 2, 0, 1, 0, 0, 0, 0, 0,
    4, 0, 0, 0, 0, 0, 0, 0, 4, 0, 0, 0, 0, 0, 0, 0,
};

/* With two: split 0 1 0; met */
static const uint8_t within_2[] = {1, 0, 0, 0, 1, 0, 0, 0, 3, 0, 0, 0, 0, 0, 0, 0};

static void search_limited(void) {
    uint8_t grouping[3], store[48];
    memset(grouping, 170, sizeof grouping);
    memset(store, 170, sizeof store);
    const uint32_t refused[] = {0, 130, 256, 257, 65793, UINT32_MAX};
    for (size_t i = 0; i < sizeof refused / sizeof *refused; i++) {
        expect("search, a limit refused", is(lihumbay_search_limited(apart_1_2, 16, refused[i], grouping, 0, store, 48), 20, refused[i], 0, 0));
    }
    expect("search, a sheet before the limit", is(lihumbay_search_limited(apart_1_2, 15, 0, grouping, 3, store, 48), 3, 0, 0, 0));
    expect("search, grouping short", is(lihumbay_search_limited(apart_1_2, 16, 1, grouping, 1, store, 48), 8, 2, 0, 0));
    expect("nothing written", all(grouping, 0, 3, 170) && all(store, 0, 48, 170));
    expect("search within one", is(lihumbay_search_limited(apart_1_2, 16, 1, grouping, 3, store, 48), 0, 2, 5, 0));
    expect("its nodes", memcmp(store, within_1, sizeof within_1) == 0 && all(store, 40, 48, 170) && all(grouping, 0, 3, 170));
    memset(store, 170, sizeof store);
    expect("search within two", is(lihumbay_search_limited(apart_1_2, 16, 2, grouping, 3, store, 16), 0, 1, 2, 0));
    expect("its nodes", memcmp(store, within_2, sizeof within_2) == 0 && all(store, 16, 48, 170));
    expect("its grouping", memcmp(grouping, "\0\2", 2) == 0 && grouping[2] == 170);
    expect("search within three", is(lihumbay_search_limited(apart_1_2, 16, 3, grouping, 3, store, 48), 0, 1, 1, 0));
    expect("search, store full", is(lihumbay_search_limited(apart_1_2, 16, 1, grouping, 3, store, 39), 9, 4, 0, 0));
    expect("whole records zeroed", all(store, 0, 32, 0) && all(store, 32, 48, 170));
}

static void check_limited(void) {
    uint8_t list[sizeof within_1];
    memcpy(list, within_1, sizeof list);
    expect("check within one", is(lihumbay_check_limited(apart_1_2, 16, 1, list, 40), 0, 0, 0, 0));
    expect("check, no clique of three", is(lihumbay_check_limited(apart_1_2, 16, 2, list, 40), 12, 4, 0, 0));
    expect("check, a limit refused", is(lihumbay_check_limited(apart_1_2, 16, 257, list, 0), 20, 257, 0, 0));
    expect("check, no whole records", is(lihumbay_check_limited(apart_1_2, 16, 1, list, 39), 10, 0, 0, 0));
    expect("check, the next one missing", is(lihumbay_check_limited(apart_1_2, 16, 1, list, 32), 14, 5, 0, 0));
    expect("check, a clique without a limit", is(lihumbay_check(apart_1_2, 16, list, 40), 11, 4, 0, 0));
    list[30] = 5;
    expect("check, a clique's next", is(lihumbay_check_limited(apart_1_2, 16, 1, list, 40), 11, 4, 0, 0));
}

static void count_unmet(void) {
    expect("count 7 8 9", is(lihumbay_count_unmet(sheet_c, sizeof sheet_c, (const uint8_t *)"\7\10\11", 3), 0, 1, 0, 0));
    expect("count 1 2 1", is(lihumbay_count_unmet(sheet_c, sizeof sheet_c, (const uint8_t *)"\1\2\1\7", 4), 0, 0, 0, 0));
    expect("count on sheet A", is(lihumbay_count_unmet(sheet_a, sizeof sheet_a, (const uint8_t *)"\1\2\1", 3), 0, 3, 0, 0));
    expect("count, a withdrawn condition", is(lihumbay_count_unmet(withdrawn_c, sizeof withdrawn_c, (const uint8_t *)"\1\2\3", 3), 0, 0, 0, 0));
    expect("count, lot 0", is(lihumbay_count_unmet(lower_c, sizeof lower_c, (const uint8_t *)"\0\7", 2), 0, 1, 0, 0));
    expect("count, grouping short", is(lihumbay_count_unmet(sheet_c, sizeof sheet_c, (const uint8_t *)"\7\7", 2), 8, 3, 0, 0));
    expect("count, a sheet refused", is(lihumbay_count_unmet(sheet_c, 33, (const uint8_t *)"\7\7", 2), 3, 0, 0, 0));
}

/* A reassignment on sheet A. */
static lihumbay_numbers reassigned(uint8_t *grouping, size_t grouping_length, uint32_t count, uint32_t lot, uint8_t value) {
    return lihumbay_reassign(sheet_a, sizeof sheet_a, grouping, grouping_length, count, lot, value);
}

static void reassign(void) {
    uint8_t grouping[5] = {1, 2, 1, 170, 170};
    expect("reassign lot 2", is(reassigned(grouping, 5, 3, 2, 1), 0, 1, 0, 0) && memcmp(grouping, "\1\1\1", 3) == 0);
    expect("reassign lot 3", is(reassigned(grouping, 5, 1, 3, 255), 0, 1, 0, 0) && memcmp(grouping, "\1\1\377", 3) == 0);
    expect("reassign lot 1, a wrong count", is(reassigned(grouping, 3, 3, 1, 255), 0, 5, 0, 0) && memcmp(grouping, "\377\1\377", 3) == 0);
    expect("reassign, the byte that it is", is(reassigned(grouping, 3, 3, 2, 1), 0, 3, 0, 0) && memcmp(grouping, "\377\1\377", 3) == 0);
    expect("no byte past the lots written", all(grouping, 3, 5, 170));
}

static void reassign_refused(void) {
    uint8_t grouping[4] = {1, 2, 1, 170};
    const uint32_t lots[] = {0, 4, 256, 257, 65537, UINT32_MAX}, counts[] = {0, 1, 4, 257, 65539, UINT32_MAX};
    for (size_t i = 0; i < sizeof lots / sizeof *lots; i++) {
        expect("reassign, a lot refused", is(reassigned(grouping, 4, 9, lots[i], 5), 21, lots[i], 0, 0));
    }
    for (size_t i = 0; i < sizeof counts / sizeof *counts; i++) {
        expect("reassign, a count refused", is(reassigned(grouping, 4, counts[i], 1, 5), 22, counts[i], 0, 0));
    }
    expect("reassign, grouping short", is(reassigned(grouping, 2, 9, 0, 5), 8, 3, 0, 0));
    expect("reassign, a sheet refused", is(lihumbay_reassign(sheet_a, 5, grouping, 4, 3, 1, 5), 1, 0, 0, 0));
    expect("nothing written", memcmp(grouping, "\1\2\1\252", 4) == 0);
}

int main(void) {
    reader();
    search_met();
    search_refused();
    search_cannot();
    evaluator();
    checker();
    repacker();
    withdrawn();
    merge();
    merge_withdrawn();
    merge_limits();
    zero_lot();
    zero_lot_alone();
    search_limited();
    check_limited();
    count_unmet();
    reassign();
    reassign_refused();
    puts(failed ? "calls from C: FAILED" : "calls from C: ok");
    return failed;
}

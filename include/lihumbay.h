/* The services of Lihumbay, a verified solver for equality conditions: each answers by a proved contract, for every input. README.md, "Calling it from C and
   Rust", says how to build the archive; docs/FORMAT.md has the bytes of sheets, groupings, stores and lists, with examples.

   Buffers. Each is a pointer and then its length in bytes. A pointer is not null, also where the length is 0. Bytes need no alignment. A buffer that is
   written (grouping and store of a search with a limit or without, grouping of a reassignment, output of the repacker and of a merge) overlaps no other buffer
   of the call; buffers that are only read may overlap each other, so that a sheet may be merged with itself.

   Limits. A sheet has at most 128 lots, lot 0 not counted, 256 conditions and 1,024 term records, vacant ones included, so at most 8,710 bytes. A record of a
   store or list has 8 bytes; a store holds its length divided by 8, rounded down, at most 65,535 records; a list has at most 65,535. Nothing has to be checked
   beforehand: what is wrong is refused.

   Lot 0. Beside its lots 1 to n every sheet has lot 0, also where n is 0, and terms and splits may name it. Its number is 0 in every assignment, and a grouping
   has no byte for it: the n bytes are those of lots 1 to n, and a lot with byte 0 is together with lot 0.

   A limit on classes. The limited search and the limited checker take a number from 1 to 129, and speak of the assignments with at most so many different
   numbers among those of lots 0 to n. Lot 0's number, 0, is one of them, also where no other lot has it. All 32 bits count: a limit of 257 is refused, and is
   not 1.

   The running count. The number of conditions that a grouping doesn't meet is counted once, and then goes along with the grouping: each reassignment of a lot
   takes it and answers the new one. It is the caller's to keep beside the two buffers. The lot and the count are taken at all their 32 bits, as a limit is: lot
   257 is refused, and is not lot 1.

   Threads. A call reads and writes only what it is lent, and its own stack: any number of calls may run at once as long as none writes what another uses. No
   call allocates, blocks, or touches a global.

   Stack. A search needs up to 0.9 MB, 0.8 KB for each split on a path; give its thread 1 MB. A limited search, whose paths may have 8,256 splits, needs up to
   6.8 MB, 0.8 KB for each; give its thread 7 MB. A limited check needs up to 200 KB. The others need less than 48 KB. */
#ifndef LIHUMBAY_H
#define LIHUMBAY_H

#include <stddef.h>
#include <stdint.h>

#ifdef __cplusplus
extern "C" {
#endif

/* An answer. `check` is 0, and the others are the values that the service gives, 0 where it has none; or `check` is the number of the check that refused, the
   first that fails in the order of docs/FORMAT.md, `first` is its place, and the others are 0; but where a merge refuses a sheet that it reads,
   `second` is 1 or 2, for the sheet.

       1  fewer than 6 bytes                                            0
       2  lots, conditions or term records above the most               1, 2 or 3
       3  the sheet's length is wrong                                   0
       4  a condition's first record is above the number of records     the condition
       5  a term record that isn't vacant is malformed                  the record
       6  a term record is reached a second time                        the record
       7  a term record that isn't vacant is never reached              the record
       8  the grouping has fewer bytes than the sheet has lots          the lots
       9  the store is full                                             the records it holds
      10  the list's length is 0, no multiple of 8, or too great        0
      11  a record of the list is malformed                             the record
      12  the ground's condition is withdrawn, or a term isn't false;   the record
          the clique has too few classes, or two that aren't apart
      13  the split's next isn't the record where its second branch begins   the split
      14  a record is left over, or the next one is missing             its number
      15  1,024 splits stand above the split, under a limit 8,256       the record
      16  the output is shorter than the packed sheet                   the packed sheet's length
      17  a vacant record is reached                                    the record
      18  the merged sheet's conditions or terms are above the most     2 or 3
      19  the output is shorter than the merged sheet                   the merged sheet's length
      20  the limit is 0 or above 129                                   the limit
      21  the lot to reassign is 0 or above the number of lots          the lot
      22  the running count is above the number of conditions, or       the running count
          below that of the unmet ones that name the lot

   A condition whose head is zero is withdrawn, and everything meets it. A term record of eight zero bytes is vacant: it belongs to no condition. One whose sign
   is 1, and whose other bytes are zero, is the term "same 0 0". A lot is malformed, in checks 5 and 11, where it is above n. A record of kind 4, a clique, is
   malformed where there is no limit, and under one where another byte of it isn't zero. */
typedef struct {
    uint32_t check;
    uint32_t first;
    uint32_t second;
    uint32_t third;
} lihumbay_numbers;

/* The reader: lots, lot 0 not counted, conditions, term records, vacant ones included. Checks 1 to 7 and 17. */
lihumbay_numbers lihumbay_read(const uint8_t *sheet, size_t sheet_length);

/* The search: 1 met or 2 cannot be met, then the count of records, then 0. Checks 1 to 9 and 17.
   Met: the first bytes of the grouping, one for each lot from lot 1 on, are written: the smallest lot of its class, 0 exactly where that is lot 0's class.
   Met or cannot: the first 8 * count bytes of the store are written, one record for each node in the order of visit. Cannot: they are a refutation.
   Check 9, store full: the first 8 * `first` bytes of the store are zero.
   No other byte of either buffer is written. */
lihumbay_numbers lihumbay_search(const uint8_t *sheet, size_t sheet_length, uint8_t *grouping, size_t grouping_length, uint8_t *store, size_t store_length);

/* The search under a limit: as the search, but what is looked for is an assignment with at most `limit` different numbers, lot 0's 0 among them. Checks 1 to 7
   and 17, then 20, then 8 and 9.
   Nodes that take a condition are as in the search. A node that takes none is met where no more classes than the limit are left. Else it takes the limit + 1
   with the smallest lots, and is a split on the first two of them that aren't marked apart, named by their smallest lots, the lower first; or, where all are
   marked, a clique: a record of kind 4 whose other bytes are zero.
   Met: the bytes of the grouping that are written and 0 are at most `limit` different numbers. Cannot: the records are a refutation under this limit, which
   lihumbay_check_limited passes. The buffers are written as by the search, and no other byte of them is. */
lihumbay_numbers lihumbay_search_limited(const uint8_t *sheet, size_t sheet_length, uint32_t limit, uint8_t *grouping, size_t grouping_length, uint8_t *store,
                                         size_t store_length);

/* The evaluator: 0 where the grouping meets every condition, else the lowest condition that it doesn't meet; then 0, 0. Lot i has byte i - 1 of the grouping as
   its number, and lot 0, which has no byte, the number 0. Checks 1 to 8 and 17. */
lihumbay_numbers lihumbay_evaluate(const uint8_t *sheet, size_t sheet_length, const uint8_t *grouping, size_t grouping_length);

/* The count of unmet conditions: how many conditions the grouping doesn't meet; then 0, 0. It is 0 exactly where the evaluator answers 0. Lots have their
   numbers as in the evaluator, and a withdrawn condition is met by every grouping. Checks 1 to 8 and 17. */
lihumbay_numbers lihumbay_count_unmet(const uint8_t *sheet, size_t sheet_length, const uint8_t *grouping, size_t grouping_length);

/* The reassignment of one lot: it gets `value` as its number, which is written as byte `lot` - 1 of the grouping, also where it is the old one. No other byte
   of the grouping is written. Checks 1 to 8 and 17, then 21, then 22; on a refusal nothing is written.
   The answer is the new running count, then 0, 0: `count`, less the conditions naming the lot that were unmet before, plus those naming it that are unmet now.
   Only the conditions that name the lot, in either field of some term, are evaluated, and each counts once however often it names the lot. Lot 0 has no byte,
   and 21 refuses it.
   Where the first of a list of reassignments takes what lihumbay_count_unmet answers, each further one takes the count that was answered last, and nothing else
   changes sheet or grouping, the running count is always what lihumbay_count_unmet would answer. One that is refused changes nothing. A `count` that is wrong
   and that 22 admits gives what the equation gives, which may be above the number of conditions. */
lihumbay_numbers lihumbay_reassign(const uint8_t *sheet, size_t sheet_length, uint8_t *grouping, size_t grouping_length, uint32_t count, uint32_t lot,
                                   uint8_t value);

/* The refutation checker: 0, 0, 0 where the list, records from any hand, is a refutation of the sheet; then nobody can meet the sheet, whichever number lot 0
   had. The search's own is the first 8 * count bytes of its store where it answers 2. Checks 1 to 7, 10 to 15 and 17. */
lihumbay_numbers lihumbay_check(const uint8_t *sheet, size_t sheet_length, const uint8_t *list, size_t list_length);

/* The refutation checker under a limit: 0, 0, 0 where the list, splits, grounds and cliques from any hand, is a refutation of the sheet under this limit; then
   nobody can meet the sheet with at most `limit` different numbers, lot 0's among them, whichever that is. A clique passes where more classes than the limit
   are left and the limit + 1 with the smallest lots are all marked apart pairwise; no condition is looked at. The limited search's own refutation is the first
   8 * count bytes of its store where it answers 2. Checks 1 to 7 and 17, then 20, then 10 to 15. */
lihumbay_numbers lihumbay_check_limited(const uint8_t *sheet, size_t sheet_length, uint32_t limit, const uint8_t *list, size_t list_length);

/* The repacker: the bytes written, then 0, 0. Checks 1 to 7, 16 and 17; an output as long as the sheet is never too short, nor is one of 8,710 bytes.
   The first `first` bytes of out are written: the sheet with the records of condition 1 first, in the order of its chain, then those of condition 2, and so on.
   Vacant records are dropped, and withdrawn conditions keep their places. Sheets with equal lots and equal conditions, the same of them withdrawn, give equal
   bytes, two that differ never do, and a packed sheet changes no byte. Reader, search, evaluator, count, reassignment and checker, search and checker under every
   limit too, answer the packed sheet as they answer the sheet, except for the reader's number of term records, which has no vacant ones to count.
   No other byte of out is written, and on a refusal none is. */
lihumbay_numbers lihumbay_repack(const uint8_t *sheet, size_t sheet_length, uint8_t *out, size_t out_length);

/* The merge of two sheets into one: the bytes written, then 0, 0. The first sheet is read, then the second, each by checks 1 to 7 and 17; such a refusal has
   the sheet, 1 or 2, in `second`. Then check 18, for conditions, then for terms, and 19, each with 0 in `second`; an output of 8,710 bytes is never too short.
   The first `first` bytes of out are written: the packed sheet that has the larger number of lots, and the conditions of the first sheet in their order, then
   those of the second in theirs, less each one that repeats an earlier one, of either sheet. A condition repeats another where it has terms, and the other has
   the same ones in the same order: the same sign, and the same two lots in the same order. A withdrawn condition, which has no term, is never left out, and
   always keeps its place: a condition that stays has its number in the two lists one behind the other, less the repeats left out before it. What 18 counts is
   what is left, the withdrawn conditions of both sheets included: 512 conditions and 2,048 terms may come in. An assignment of numbers to lots meets the merged
   sheet exactly where it meets both sheets; lot 0 is one lot for both.
   No other byte of out is written, and on a refusal none is. */
lihumbay_numbers lihumbay_merge(const uint8_t *first, size_t first_length, const uint8_t *second, size_t second_length, uint8_t *out, size_t out_length);

#ifdef __cplusplus
}
#endif

#endif

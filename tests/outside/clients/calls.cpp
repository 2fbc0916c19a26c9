// The header from C++: its functions have C linkage, and document 01's sheet C, also with each lot one lower, is answered as the papers
// say, and so are two lots apart with a limit on the number of classes, and one lot of sheet C reassigned.
#include <algorithm>
#include <array>
#include <iostream>
#include <vector>

#include "lihumbay.h"

int main() {
    const std::array<std::uint8_t, 34> sheet = {3, 0, 2, 0, 3, 0, 1, 0, 3, 0, 1, 0, 1, 0, 2, 0, 2, 0, 1, 0, 1, 0, 3, 0, 0, 0, 2, 0, 1, 0, 2, 0, 0, 0};
    std::vector<std::uint8_t> grouping(4, 170), store(40, 170), out(35, 170);
    const lihumbay_numbers read = lihumbay_read(sheet.data(), sheet.size());
    const lihumbay_numbers found = lihumbay_search(sheet.data(), sheet.size(), grouping.data(), grouping.size(), store.data(), store.size());
    const lihumbay_numbers evaluated = lihumbay_evaluate(sheet.data(), sheet.size(), grouping.data(), grouping.size());
    const lihumbay_numbers checked = lihumbay_check(sheet.data(), sheet.size(), store.data(), 32);
    const lihumbay_numbers repacked = lihumbay_repack(sheet.data(), sheet.size(), out.data(), out.size());
    std::vector<std::uint8_t> both(35, 170);
    const lihumbay_numbers merged = lihumbay_merge(sheet.data(), sheet.size(), sheet.data(), sheet.size(), both.data(), both.size());
    const lihumbay_numbers cut = lihumbay_merge(sheet.data(), sheet.size(), sheet.data(), 33, both.data(), both.size());
    const std::array<std::uint8_t, 8> head_zero = {0, 0, 1, 0, 0, 0, 0, 0};
    std::vector<std::uint8_t> heads(11, 170);
    const lihumbay_numbers twice = lihumbay_merge(head_zero.data(), head_zero.size(), head_zero.data(), head_zero.size(), heads.data(), heads.size());
    const bool both_stay = twice.check == 0 && twice.first == 10 && heads == std::vector<std::uint8_t>{0, 0, 2, 0, 0, 0, 0, 0, 0, 0, 170};
    const std::array<std::uint8_t, 34> lower = {2, 0, 2, 0, 3, 0, 1, 0, 3, 0, 1, 0, 0, 0, 1, 0, 2, 0, 1, 0, 0, 0, 2, 0, 0, 0, 2, 0, 0, 0, 1, 0, 0, 0};
    std::vector<std::uint8_t> lower_grouping(3, 170);
    const lihumbay_numbers zero = lihumbay_search(lower.data(), lower.size(), lower_grouping.data(), lower_grouping.size(), store.data(), 32);
    const bool zero_lot = zero.check == 0 && zero.first == 1 && zero.second == 4 && lower_grouping == std::vector<std::uint8_t>{1, 0, 170};
    const std::array<std::uint8_t, 16> apart = {2, 0, 1, 0, 1, 0, 1, 0, 2, 0, 1, 0, 2, 0, 0, 0};
    std::vector<std::uint8_t> nodes(48, 170), within(3, 170);
    const lihumbay_numbers one = lihumbay_search_limited(apart.data(), apart.size(), 1, within.data(), within.size(), nodes.data(), nodes.size());
    const lihumbay_numbers refuted = lihumbay_check_limited(apart.data(), apart.size(), 1, nodes.data(), 40);
    const lihumbay_numbers two = lihumbay_search_limited(apart.data(), apart.size(), 2, within.data(), within.size(), nodes.data(), nodes.size());
    const lihumbay_numbers none = lihumbay_check_limited(apart.data(), apart.size(), 257, nodes.data(), nodes.size());
    const bool limits = one.check == 0 && one.first == 2 && one.second == 5 && refuted.check == 0 && two.check == 0 && two.first == 1 && two.second == 2 &&
                        within == std::vector<std::uint8_t>{0, 2, 170} && none.check == 20 && none.first == 257;
    std::vector<std::uint8_t> numbers = {7, 8, 9, 170};
    const lihumbay_numbers counted = lihumbay_count_unmet(sheet.data(), sheet.size(), numbers.data(), numbers.size());
    const lihumbay_numbers reassigned = lihumbay_reassign(sheet.data(), sheet.size(), numbers.data(), numbers.size(), counted.first, 3, 7);
    const lihumbay_numbers no_lot = lihumbay_reassign(sheet.data(), sheet.size(), numbers.data(), numbers.size(), 0, 257, 7);
    const lihumbay_numbers no_count = lihumbay_reassign(sheet.data(), sheet.size(), numbers.data(), numbers.size(), 3, 1, 8);
    const bool counts = counted.check == 0 && counted.first == 1 && reassigned.check == 0 && reassigned.first == 0 && no_lot.check == 21 &&
                        no_lot.first == 257 && no_count.check == 22 && no_count.first == 3 && numbers == std::vector<std::uint8_t>{7, 8, 7, 170};
    const bool accepted = read.check == 0 && read.first == 3 && read.second == 2 && read.third == 3;
    const bool met = found.check == 0 && found.first == 1 && found.second == 4 && found.third == 0;
    const bool written = grouping == std::vector<std::uint8_t>{1, 2, 1, 170} && std::count(store.begin() + 32, store.end(), 170) == 8;
    const bool no_refutation = checked.check == 11 && checked.first == 4;
    const bool canonical = repacked.check == 0 && repacked.first == 34 && std::equal(sheet.begin(), sheet.end(), out.begin()) && out.back() == 170;
    const bool one_sheet = merged.check == 0 && merged.first == 34 && merged.second == 0 && both == out;
    const bool second_named = cut.check == 3 && cut.first == 0 && cut.second == 2 && cut.third == 0;
    const bool all_met = evaluated.check == 0 && evaluated.first == 0;
    const bool merges = one_sheet && second_named && both_stay;
    const bool ok = accepted && met && written && no_refutation && canonical && merges && zero_lot && limits && counts && all_met;
    std::cout << (ok ? "calls from C++: ok\n" : "calls from C++: FAILED\n");
    return ok ? 0 : 1;
}

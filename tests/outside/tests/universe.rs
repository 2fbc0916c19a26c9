//! Very small universes, whole, through the services without a limit: all sheets with few lots, conditions and records whose fields lie in a small range, and
//! all short lists. Lot 0 is among the lots.
use outside::canonical::canonical;
use outside::case::{Case, canonical_length, probe};
use outside::merged::merged_length;
use outside::run::{run_case, say, with_stack};
use outside::tally::Tally;
use outside::together::compare_rules;
use outside::universes::{all_small_sheets, conditions_of, each};
use second::reader::accept;
use second::sheet::Term;
use second::store::{Record, ground, list_bytes, met, split};
use second::writer::{apart, same, sheet_bytes, sheet_bytes_among, sheet_bytes_in};
use std::collections::HashMap;

/// The search's own list, exactly its room and that of the canonical bytes. The store is a byte shorter where the count is even, so that 9 is seen too, and the
/// output where the sheet's bytes have an odd sum, so that 16 is.
fn case(sheet: Vec<u8>) -> Case {
    let found = probe(&sheet, 64);
    let short = usize::from(found.count().is_multiple_of(2));
    let sum: usize = sheet.iter().map(|&byte| usize::from(byte)).sum();
    Case {
        grouping: found.grouping[..2.max(usize::from(sheet[0]))].to_vec(),
        store_length: 8 * found.count() - short,
        list: found.nodes,
        out_length: canonical_length(&sheet) - sum % 2,
        fill: 0x55,
        sheet,
    }
}

#[test]
fn all_small_sheets_byte_by_byte() {
    with_stack(|| {
        let mut tally = Tally::default();
        let mut count = 0;
        all_small_sheets(&mut |sheet| {
            run_case(&case(sheet), &mut tally);
            count += 1;
        });
        say(&format!("{count} sheets of up to 2 lots and conditions and 3 records, byte by byte"));
        [0, 4, 5, 6, 7, 17].iter().for_each(|&check| assert!(tally.seen("reader", check) > 100, "check {check}"));
        [0, 16].iter().for_each(|&check| assert!(tally.seen("repacker", check) > 100, "check {check}"));
    });
}

/// Each of these sheets, accepted or not, merged with one that is accepted and has a withdrawn condition, and with one that isn't accepted, in both orders. The
/// output is a byte too short where the sheet's bytes have an odd sum.
#[test]
fn all_small_sheets_merged() {
    let conditions = [vec![same(1, 1)], vec![], vec![same(1, 1), same(0, 0)], vec![same(3, 2)], vec![same(0, 0)]];
    let accepted = sheet_bytes_in(3, &conditions, &[3, 1, 5, 4, 2]);
    let refused = [&accepted[..6], &[9], &accepted[7..]].concat();
    let mut checks: HashMap<[u32; 2], usize> = HashMap::new();
    all_small_sheets(&mut |sheet| {
        let sum: usize = sheet.iter().map(|&byte| usize::from(byte)).sum();
        for other in [&accepted, &refused] {
            for (first, second) in [(&sheet, other), (other, &sheet)] {
                let before = vec![0x6B; merged_length(first, second) - sum % 2];
                let answers = compare_rules(first, second, &before).unwrap_or_else(|why| panic!("{why}\n{first:02x?}\n{second:02x?}"));
                let [check, _, which, _] = answers.archive;
                *checks.entry([check, if check == 0 { 0 } else { which }]).or_default() += 1;
            }
        }
    });
    say(&format!("{} merges with sheets of up to 2 lots and conditions and 3 records, byte by byte", checks.values().sum::<usize>()));
    let seen = |check: u32, which: u32| assert!(checks.get(&[check, which]).is_some_and(|&count| count > 100), "check {check} of {which}");
    [4, 5, 6, 7, 17].iter().for_each(|&check| [1, 2].iter().for_each(|&which| seen(check, which)));
    [0, 19].iter().for_each(|&check| seen(check, 0));
}

/// Three conditions over three pairs of lots, and two over these and three pairs more.
fn small_conditions(lots: usize, pairs: [(usize, usize); 3], more: [(usize, usize); 3]) {
    with_stack(|| {
        let mut tally = Tally::default();
        let mut count = 0;
        let mut run = |conditions: &[Vec<Term>]| {
            run_case(&case(sheet_bytes(lots, conditions)), &mut tally);
            count += 1;
        };
        let three: Vec<Term> = pairs.iter().flat_map(|&(a, b)| [same(a, b), apart(a, b)]).collect();
        each(&conditions_of(&three), 3, &mut run);
        let all = pairs.iter().chain(&more);
        let twelve: Vec<Term> = all.flat_map(|&(a, b)| [same(a, b), apart(a, b)]).collect();
        each(&conditions_of(&twelve), 2, &mut run);
        say(&format!("{count} sheets of {lots} lots, all conditions of up to two terms"));
        assert!(tally.seen("search", 0) > 1000 && tally.seen("search", 9) > 1000);
    });
}

#[test]
fn all_small_conditions() {
    small_conditions(3, [(1, 2), (1, 3), (2, 3)], [(1, 1), (3, 3), (3, 2)]);
}

#[test]
fn all_small_conditions_with_lot_0() {
    small_conditions(2, [(0, 1), (0, 2), (1, 2)], [(0, 0), (2, 2), (2, 0)]);
}

/// All terms over lots 0 to 2 at once: lists of two conditions of up to two of them.
#[test]
fn all_terms_over_three_lots() {
    with_stack(|| {
        let mut tally = Tally::default();
        let lots = || 0..=2usize;
        let pairs = lots().flat_map(|a| lots().map(move |b| (a, b)));
        let terms: Vec<Term> = pairs.flat_map(|(a, b)| [same(a, b), apart(a, b)]).collect();
        each(&conditions_of(&terms), 2, &mut |conditions| run_case(&case(sheet_bytes(2, conditions)), &mut tally));
        say(&format!("{} sheets of 2 lots, two conditions of up to two terms of all kinds", tally.seen("reader", 0)));
        assert_eq!(tally.seen("reader", 0), 343 * 343);
    });
}

/// Lists whose splits are on these two lots, one of which is the sheet's last.
fn short_lists(one: usize, last: usize) {
    with_stack(|| {
        let mut tally = Tally::default();
        let mut count = 0;
        // Condition 3 is withdrawn, and there is no condition 4.
        let sheet = sheet_bytes(last, &[vec![same(one, last)], vec![apart(one, last)], vec![]]);
        let mut run = |records: &[Record]| {
            let list = list_bytes(records);
            let case = Case { sheet: sheet.clone(), grouping: vec![1, 1], store_length: 24, list, out_length: sheet.len(), fill: 1 };
            run_case(&case, &mut tally);
            count += 1;
        };
        let odd = [met(), Record { spare: 1, ..ground(1) }, ground(0), ground(3), ground(4)];
        let beside = [split(one, last + 1, 3), split(last + 1, one, 3), split(0, one, 3)];
        let mut values: Vec<Record> = vec![ground(1), ground(2)];
        for next in [0, 2, 3, 4] {
            values.extend([split(one, last, next), split(last, one, next), split(one, one, next)]);
        }
        let with_odd = [values.as_slice(), &odd, &beside].concat();
        (0..=3).for_each(|length| each(&with_odd, length, &mut run));
        each(&values, 4, &mut run);
        let few: Vec<Record> =
            [3, 4, 5].iter().flat_map(|&next| [split(one, last, next), split(last, last, next)]).chain([ground(1), ground(2)]).collect();
        each(&few, 5, &mut run);
        say(&format!("{count} lists of up to 5 records, on lots {one} and {last}"));
        [0, 10, 11, 12, 13, 14].iter().for_each(|&check| assert!(tally.seen("checker", check) > 0, "check {check}"));
    });
}

#[test]
fn all_short_lists() {
    short_lists(1, 2);
}

#[test]
fn all_short_lists_with_lot_0() {
    short_lists(0, 1);
}

type LotsAndConditions = (usize, Vec<Vec<Term>>);

/// Canonical bytes beside the lots and conditions that they came from, over sheets of any kind.
#[derive(Default)]
struct Forms {
    /// By the canonical bytes: lots and conditions, and how many sheets had them.
    seen: HashMap<Vec<u8>, (LotsAndConditions, usize)>,
}

impl Forms {
    /// Two sheets with equal lots and conditions give equal bytes, two that differ never do. Of a sheet that is refused nothing is kept.
    fn add(&mut self, bytes: &[u8]) {
        let Some(canonical) = canonical(bytes).expect("a repacker that keeps to its output") else { return };
        let sheet = accept(bytes).expect("a sheet that the archive accepts");
        assert_eq!(canonical, sheet_bytes(sheet.lots, &sheet.conditions), "the canonical bytes of {bytes:02x?}");
        let own = (sheet.lots, sheet.conditions);
        let (first, count) = self.seen.entry(canonical).or_insert_with(|| (own.clone(), 0));
        assert_eq!(*first, own, "two sheets with the same canonical bytes");
        *count += 1;
    }

    fn sheets(&self) -> usize {
        self.seen.values().map(|(_, count)| count).sum()
    }
}

#[test]
fn canonical_bytes_of_all_small_sheets() {
    let mut forms = Forms::default();
    all_small_sheets(&mut |sheet| forms.add(&sheet));
    say(&format!("{} accepted sheets byte by byte have {} canonical forms", forms.sheets(), forms.seen.len()));
    assert!(forms.seen.values().any(|(_, count)| *count > 1));
}

/// All orders of the numbers 1 to `count`.
fn orders(count: usize) -> Vec<Vec<usize>> {
    let Some(before) = count.checked_sub(1).map(orders) else { return vec![vec![]] };
    let put_in = |order: &Vec<usize>, at: usize| [&order[..at], &[count], &order[at..]].concat();
    before.iter().flat_map(|order| (0..count).map(move |at| put_in(order, at))).collect()
}

#[test]
fn canonical_bytes_in_all_orders_of_the_records() {
    let mut forms = Forms::default();
    let orders: Vec<Vec<Vec<usize>>> = (0..=6).map(orders).collect();
    // The record of "same 0 0" is the one that is nearest to a vacant one.
    let conditions = conditions_of(&[same(0, 0), apart(1, 2)]);
    for length in 0..=3 {
        each(&conditions, length, &mut |conditions| {
            let terms = conditions.iter().map(Vec::len).sum::<usize>();
            orders[terms].iter().for_each(|order| forms.add(&sheet_bytes_in(2, conditions, order)));
            // With one place more than terms, the place that is left over is vacant: each of them, with each order of the others.
            let one_more = orders.get(terms + 1).map_or(&[][..], Vec::as_slice);
            one_more.iter().for_each(|order| forms.add(&sheet_bytes_among(2, conditions, &order[..terms], terms + 1)));
        });
    }
    say(&format!("{} sheets in all orders of their records have {} canonical forms", forms.sheets(), forms.seen.len()));
    assert_eq!(forms.seen.len(), 1 + 7 + 49 + 343, "one for each list of conditions");
}

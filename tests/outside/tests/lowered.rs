//! Sheets that never name lot 0, and their like with every lot's number one less, so that lot 0 takes the part of lot 1. The order of the lots is the same, so
//! every service of the archive goes the same way on both: lot 0 is a lot as the others are, but that its number is 0, and a sheet that doesn't name it is
//! answered without it. The second implementation helps to make the inputs; what is expected on the one sheet is what the archive gives on the other.
use lihumbay::raw;
use outside::canonical::canonical;
use outside::case::Case;
use outside::compare::{plain, searched};
use outside::damage::list_fault;
use outside::merged::merged;
use outside::random::Random;
use outside::run::{say, with_stack};
use outside::sheets::{cannot, dense, large, medium, small, tiny};
use outside::tree::grow;
use second::limits::{HEAD_LENGTH, HEADER_LENGTH, NODE_LENGTH, SPLIT, TERM_LENGTH};
use second::reader::accept;
use second::store::{Record, list_bytes};

const FILL: u8 = 0x93;

/// A sheet with lots and with no term on lot 0, and its like one lot lower.
struct Pair {
    sheet: Vec<u8>,
    lower: Vec<u8>,
}

impl Pair {
    /// None where the sheet has no lots, or names lot 0.
    fn of(sheet: Vec<u8>) -> Option<Pair> {
        let accepted = accept(&sheet).expect("a valid sheet");
        let names_zero = accepted.conditions.iter().flatten().any(|term| term.a == 0 || term.b == 0);
        (accepted.lots > 0 && !names_zero).then(|| Pair { lower: lower_sheet(&sheet), sheet })
    }

    fn lots(&self) -> usize {
        usize::from(self.sheet[0])
    }
}

/// One lot less in the header, and each lot of each record that isn't vacant one less.
fn lower_sheet(sheet: &[u8]) -> Vec<u8> {
    let mut lower = sheet.to_vec();
    lower[0] -= 1;
    let records = HEADER_LENGTH + HEAD_LENGTH * usize::from(u16::from_le_bytes([sheet[2], sheet[3]]));
    for record in lower[records..].chunks_mut(TERM_LENGTH).filter(|record| **record != [0; TERM_LENGTH]) {
        record[2] -= 1;
        record[4] -= 1;
    }
    lower
}

/// Each lot of each split one less; none where a split names lot 0. What is no whole record stays.
fn lower_list(list: &[u8]) -> Option<Vec<u8>> {
    let whole = list.len() / NODE_LENGTH * NODE_LENGTH;
    let lower = |bytes: &[u8]| {
        let record = Record::from_bytes(bytes);
        match record.kind {
            SPLIT => Some(Record { first: record.first.checked_sub(1)?, second: record.second.checked_sub(1)?, ..record }),
            _ => Some(record),
        }
    };
    let records: Vec<Record> = list[..whole].chunks(NODE_LENGTH).map(lower).collect::<Option<_>>()?;
    Some([list_bytes(&records), list[whole..].to_vec()].concat())
}

/// 8's place is the number of lots, which is one less; every other answer is the same.
fn lower_answer(answer: [u32; 4]) -> [u32; 4] {
    match answer {
        [8, lots, second, third] => [8, lots - 1, second, third],
        _ => answer,
    }
}

/// The same verdict, the same nodes with their lots one less, and a grouping whose bytes are one less: none of them is 0 before.
fn searched_alike(pair: &Pair, room: usize, store_length: usize) -> [u32; 4] {
    let case = |sheet: &[u8], room: usize| Case {
        sheet: sheet.to_vec(),
        grouping: vec![0; room],
        store_length,
        list: vec![],
        out_length: 0,
        fill: FILL,
    };
    let (found, lower) = (searched(&case(&pair.sheet, room)), searched(&case(&pair.lower, room - 1)));
    assert_eq!(lower.answer, lower_answer(found.answer));
    let [check, verdict, count, _] = found.answer;
    let written = if check == 0 { NODE_LENGTH * count as usize } else { 0 };
    let nodes = lower_list(&found.store[..written]).expect("a search of a sheet that doesn't name lot 0 names it in no split");
    assert_eq!(lower.store, [&nodes, &found.store[written..]].concat());
    let lots = if [check, verdict] == [0, 1] { pair.lots() } else { 1 };
    let one_less = |byte: &u8| byte.checked_sub(1).expect("no lot is with lot 0");
    let expected: Vec<u8> = found.grouping[1..lots].iter().map(one_less).chain(found.grouping[lots..].iter().copied()).collect();
    assert_eq!(lower.grouping, expected);
    assert_eq!(found.grouping[0], if [check, verdict] == [0, 1] { 1 } else { FILL });
    found.answer
}

/// The numbers of a grouping turned so that lot 1 has 0: which lots have the same is as it was.
fn evaluated_alike(pair: &Pair, grouping: &[u8]) {
    let turned: Vec<u8> = grouping.iter().map(|byte| byte ^ grouping[0]).collect();
    let answer = plain(raw::evaluate(&pair.sheet, grouping));
    assert_eq!(plain(raw::evaluate(&pair.sheet, &turned)), answer, "a number counts for itself");
    assert_eq!(plain(raw::evaluate(&pair.lower, &turned[1..])), lower_answer(answer));
    let count = plain(raw::count_unmet(&pair.sheet, grouping));
    assert_eq!(plain(raw::count_unmet(&pair.sheet, &turned)), count, "a number counts for itself");
    assert_eq!(plain(raw::count_unmet(&pair.lower, &turned[1..])), lower_answer(count));
}

/// Whether the list is one that both checkers can be asked about, and what they say.
fn checked_alike(pair: &Pair, list: &[u8]) -> Option<u32> {
    let lower = lower_list(list)?;
    let answer = plain(raw::check(&pair.sheet, list));
    assert_eq!(plain(raw::check(&pair.lower, &lower)), answer);
    Some(answer[0])
}

/// The search's list, one of another hand, and each of them with a fault.
fn lists(pair: &Pair, own: Vec<u8>, random: &mut Random) -> Vec<Vec<u8>> {
    let sheet = accept(&pair.sheet).expect("a valid sheet");
    let mut all = vec![own];
    if !sheet.conditions.is_empty() {
        all.push(list_bytes(&grow(&sheet, None, &mut Vec::new(), &mut 60, random).records()));
    }
    let mut faulty = all.clone();
    faulty.iter_mut().for_each(|list| list_fault(list, sheet.lots, sheet.conditions.len(), random));
    [all, faulty].concat()
}

fn sheet(number: usize, random: &mut Random) -> Vec<u8> {
    match number % 20 {
        0..=5 => tiny(random),
        6..=11 => small(random),
        12..=14 => medium(random),
        15 if number.is_multiple_of(5) => dense(random),
        16 if number.is_multiple_of(3) => large(random),
        _ => cannot(random),
    }
}

fn some_pair(random: &mut Random) -> Pair {
    loop {
        if let Some(pair) = Pair::of(sheet(random.below(300), random)) {
            return pair;
        }
    }
}

/// Packed and merged sheets are one lot lower as well.
fn written_alike(before: &Pair, pair: &Pair) {
    let packed = |sheet: &[u8]| canonical(sheet).expect("a repacker that keeps to its output").expect("a valid sheet");
    assert_eq!(packed(&pair.lower), lower_sheet(&packed(&pair.sheet)));
    let room = vec![FILL; before.sheet.len() + pair.sheet.len()];
    let (whole, lower) = (merged(&before.sheet, &pair.sheet, &room), merged(&before.lower, &pair.lower, &room));
    assert_eq!(lower.answer, whole.answer);
    let written = if whole.answer[0] == 0 { whole.answer[1] as usize } else { 0 };
    assert_eq!(lower.out[written..], whole.out[written..]);
    if written > 0 {
        assert_eq!(lower.out[..written], lower_sheet(&whole.out[..written]));
    }
}

#[test]
fn sheets_without_lot_0_are_answered_as_their_like_one_lot_lower() {
    with_stack(|| {
        let mut random = Random::new(95);
        let (mut searches, mut checks) = ([0; 3], [0; 16]);
        let mut before: Option<Pair> = None;
        for _ in 0..4_000 {
            let pair = some_pair(&mut random);
            let [read, lower] = [&pair.sheet, &pair.lower].map(|sheet| plain(raw::read(sheet)));
            assert_eq!(lower, [0, read[1] - 1, read[2], read[3]]);
            let Case { grouping, store_length, list, .. } = Case::of(pair.sheet.clone(), &mut random);
            if !grouping.is_empty() {
                evaluated_alike(&pair, &grouping);
                match searched_alike(&pair, grouping.len(), store_length) {
                    [0, verdict, ..] => searches[verdict as usize] += 1,
                    _ => searches[0] += 1,
                }
            }
            for check in lists(&pair, list, &mut random).iter().filter_map(|list| checked_alike(&pair, list)) {
                checks[check as usize] += 1;
            }
            if let Some(before) = &before {
                written_alike(before, &pair);
            }
            before = Some(pair);
        }
        say(&format!(
            "sheets and their like one lot lower: refused, met, cannot {searches:?}; lists that pass, and refused by check {checks:?}"
        ));
        assert!(searches.iter().all(|&seen| seen > 200));
        [0, 10, 11, 12, 13, 14].iter().for_each(|&check| assert!(checks[check] > 50, "check {check}"));
    });
}

//! Withdrawing a condition of random sheets: what the package writes beside what the second implementation reads in it, and all services on the result.
use lihumbay::{WithdrawError, withdraw};
use outside::case::Case;
use outside::damage::Damaged;
use outside::pairs::{self, Pair};
use outside::random::Random;
use outside::run::{run_case, say, with_stack};
use outside::sheets::{cannot, large, medium, small, tiny};
use outside::tally::Tally;
use second::answer::numbers;
use second::limits::{HEAD_LENGTH, HEADER_LENGTH, TERM_LENGTH};
use second::reader::accept;

/// An accepted sheet; now and then one that cannot be met, so that a withdrawal turns verdicts.
fn sheet(number: usize, random: &mut Random) -> Vec<u8> {
    match number % 8 {
        0 | 1 => tiny(random),
        2 | 3 => small(random),
        4 if number.is_multiple_of(40) => large(random),
        4 => medium(random),
        _ => cannot(random),
    }
}

/// The sheet without this condition is accepted, and has the same lots and the same other conditions; the bytes that are not of the condition are as they were.
fn without(bytes: &[u8], condition: usize) -> Vec<u8> {
    let written = withdraw(bytes, condition as u32).expect("an accepted sheet and one of its conditions");
    let mut expected = accept(bytes).expect("a valid sheet");
    let terms = std::mem::take(&mut expected.conditions[condition - 1]).len();
    assert_eq!(accept(&written), Ok(expected), "condition {condition} of {bytes:02x?} withdrawn");
    assert_eq!(
        changed_parts(bytes, &written),
        (usize::from(terms > 0), terms),
        "only the head and the chain of condition {condition} change"
    );
    written
}

/// How many heads, and how many records, are zero in the second sheet and were not in the first. All other bytes are the same.
fn changed_parts(before: &[u8], after: &[u8]) -> (usize, usize) {
    assert_eq!((before.len(), &before[..HEADER_LENGTH]), (after.len(), &after[..HEADER_LENGTH]));
    let records = HEADER_LENGTH + HEAD_LENGTH * usize::from(u16::from_le_bytes([before[2], before[3]]));
    let changed = |from: usize, to: usize, length: usize| {
        let pairs = before[from..to].chunks(length).zip(after[from..to].chunks(length)).filter(|(old, new)| old != new);
        pairs.inspect(|(_, new)| assert!(new.iter().all(|&byte| byte == 0), "what changes is blanked")).count()
    };
    (changed(HEADER_LENGTH, records, HEAD_LENGTH), changed(records, before.len(), TERM_LENGTH))
}

#[test]
fn one_condition_is_withdrawn_and_the_others_stay() {
    with_stack(|| {
        let (mut random, mut tally) = (Random::new(61), Tally::default());
        let (mut turned, mut withdrawn) = (0, 0);
        for number in 0..6_000 {
            let sheet = sheet(number, &mut random);
            let conditions = accept(&sheet).expect("a valid sheet").conditions.len();
            if conditions == 0 {
                continue;
            }
            let condition = random.range(1, conditions);
            let written = without(&sheet, condition);
            assert_eq!(without(&written, condition), written, "withdrawn once more, no byte changes");
            // The checker gets the refutation of the sheet as it was, which may name what is withdrawn.
            let before = Case::of(sheet, &mut random);
            let after = Case { list: before.list, ..Case::of(written, &mut random) };
            let verdict = |sheet: &[u8]| numbers(&second::search(sheet, &mut [0; 128], &mut [0; 8 * 300]))[..2].to_vec();
            turned += usize::from(verdict(&before.sheet) == [0, 2] && verdict(&after.sheet) == [0, 1]);
            run_case(&after, &mut tally);
            withdrawn += 1;
        }
        say(&format!("{withdrawn} conditions withdrawn, which {turned} times turned a sheet that cannot be met into one that is"));
        assert!(turned > 100 && tally.seen("checker", 12) > 100 && tally.seen("checker", 0) > 100);
    });
}

#[test]
fn all_conditions_withdrawn_one_by_one() {
    let mut random = Random::new(62);
    for number in 0..300 {
        let mut sheet = sheet(number, &mut random);
        let conditions = accept(&sheet).expect("a valid sheet").conditions.len();
        let mut order: Vec<usize> = (1..=conditions).collect();
        random.shuffle(&mut order);
        order.into_iter().for_each(|condition| sheet = without(&sheet, condition));
        let packed = lihumbay::repack(&sheet).expect("an accepted sheet");
        assert_eq!(packed, [&sheet[..4], &vec![0; 2 + HEAD_LENGTH * conditions]].concat(), "lots, conditions, no record, and zero heads");
    }
}

/// A condition that comes once in two sheets is withdrawn from its sheet before they are merged, or from the merged sheet: packed, the bytes are the same,
/// however many others are withdrawn. Its number in the merged sheet is that in the two lists, less the repeats left out before it.
#[test]
fn withdrawn_before_a_merge_or_after_it() {
    let mut random = Random::new(64);
    let (mut withdrawn, mut beside_others) = (0, 0);
    for _ in 0..20_000 {
        let Pair { first, second } = pairs::small(&mut random);
        let [one, other] = [&first, &second].map(|sheet| accept(sheet).expect("a valid sheet").conditions);
        let (own, both) = (one.len(), [one, other].concat());
        let once = |&at: &usize| !both[at].is_empty() && both.iter().filter(|&condition| *condition == both[at]).count() == 1;
        let choices: Vec<usize> = (0..both.len()).filter(once).collect();
        if choices.is_empty() {
            continue;
        }
        let at = random.pick(&choices);
        let before = match at < own {
            true => lihumbay::merge(&without(&first, at + 1), &second),
            false => lihumbay::merge(&first, &without(&second, at + 1 - own)),
        };
        let repeats = (0..at).filter(|&earlier| !both[earlier].is_empty() && both[..earlier].contains(&both[earlier])).count();
        let whole = lihumbay::merge(&first, &second).expect("two sheets that are accepted");
        assert_eq!(before, Ok(lihumbay::repack(&without(&whole, at + 1 - repeats)).expect("a merged sheet")), "{first:02x?} {second:02x?}");
        withdrawn += 1;
        beside_others += usize::from(both.contains(&vec![]));
    }
    say(&format!("{withdrawn} conditions withdrawn before a merge and after it, {beside_others} of them beside others"));
    assert!(withdrawn > 5_000 && beside_others > 3_000);
}

#[test]
fn what_the_reader_refuses_is_refused_so() {
    let mut random = Random::new(63);
    let (mut refused, mut missing) = (0, 0);
    for number in 0..4_000 {
        let mut damaged = Damaged::of(sheet(number, &mut random));
        damaged.fault(&mut random);
        let sheet = damaged.bytes;
        let condition = random.below(300) as u32;
        match (lihumbay::read(&sheet), withdraw(&sheet, condition)) {
            (Err(refusal), Err(error)) => {
                assert_eq!(error, WithdrawError::Refused(refusal));
                refused += 1;
            }
            (Ok(reading), Err(error)) => {
                assert!(condition == 0 || condition > reading.conditions);
                assert_eq!(error, WithdrawError::NoCondition { condition, conditions: reading.conditions });
                missing += 1;
            }
            (Ok(reading), Ok(_)) => assert!((1..=reading.conditions).contains(&condition)),
            (Err(_), Ok(_)) => panic!("a refused sheet is written"),
        }
    }
    assert!(refused > 1000 && missing > 500, "{refused} refused, {missing} with no such condition");
}

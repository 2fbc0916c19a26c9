//! Made-up sheets, texts and bytes: what one function writes another one reads, and nothing panics.
use lihumbay::{
    Evaluation, Grouping, HEAD_LENGTH, HEADER_LENGTH, MOST_LOTS, RECORD_LENGTH, Reassignment, Record, RecordError, RecordList, Running,
    Sheet, SheetBuilder, TERM_LENGTH, Term, Verdict, ZERO_LOT,
};

/// A small generator, the same at each run.
struct Random(u64);

impl Random {
    fn below(&mut self, bound: usize) -> usize {
        self.0 = self.0.wrapping_mul(6_364_136_223_846_793_005).wrapping_add(1_442_695_040_888_963_407);
        (self.0 >> 33) as usize % bound
    }

    fn shuffled(&mut self, count: usize) -> Vec<usize> {
        let mut order: Vec<usize> = (0..count).collect();
        (1..count).rev().for_each(|last| order.swap(last, self.below(last + 1)));
        order
    }

    /// A term over lots 0 to this one.
    fn term(&mut self, lots: u16) -> Term {
        let (a, b) = (self.below(usize::from(lots) + 1) as u16, self.below(usize::from(lots) + 1) as u16);
        if self.below(2) == 0 { Term::Same(a, b) } else { Term::Apart(a, b) }
    }

    fn sheet(&mut self) -> Sheet {
        let lots = self.below(7) as u16;
        let mut builder = SheetBuilder::new(lots).unwrap();
        for _ in 0..self.below(9) {
            let terms: Vec<Term> = (0..self.below(30).min(3)).map(|_| self.term(lots)).collect();
            builder.condition(terms).unwrap();
        }
        builder.finish()
    }
}

/// The same sheet with its records at other places.
fn reordered(bytes: &[u8], conditions: usize, random: &mut Random) -> Vec<u8> {
    let start = HEADER_LENGTH + HEAD_LENGTH * conditions;
    let order = random.shuffled((bytes.len() - start) / TERM_LENGTH);
    let moved = |number: [u8; 2]| match usize::from(u16::from_le_bytes(number)) {
        0 => [0, 0],
        number => (order[number - 1] as u16 + 1).to_le_bytes(),
    };
    let mut written = bytes.to_vec();
    for at in (HEADER_LENGTH..start).step_by(HEAD_LENGTH) {
        written[at..at + 2].copy_from_slice(&moved([bytes[at], bytes[at + 1]]));
    }
    for (record, &place) in bytes[start..].chunks(TERM_LENGTH).zip(&order) {
        let to = start + TERM_LENGTH * place;
        written[to..to + 6].copy_from_slice(&record[..6]);
        written[to + 6..to + 8].copy_from_slice(&moved([record[6], record[7]]));
    }
    written
}

#[test]
fn sheets_go_to_bytes_and_text_and_back() {
    let mut random = Random(1);
    for _ in 0..2000 {
        let sheet = random.sheet();
        let bytes = sheet.to_bytes();
        let other = reordered(&bytes, sheet.conditions().len(), &mut random);
        assert_eq!(Sheet::from_bytes(&bytes).as_ref(), Ok(&sheet));
        assert_eq!(Sheet::from_bytes(&other).as_ref(), Ok(&sheet));
        assert_eq!(sheet.to_string().parse().as_ref(), Ok(&sheet));
        assert_eq!(lihumbay::repack(&other), Ok(bytes));
    }
}

#[test]
fn a_withdrawn_condition_has_no_term_and_the_others_have_theirs() {
    let mut random = Random(5);
    for _ in 0..2000 {
        let sheet = random.sheet();
        let count = sheet.conditions().len();
        if count == 0 {
            continue;
        }
        let bytes = reordered(&sheet.to_bytes(), count, &mut random);
        let number = random.below(count);
        let without = lihumbay::withdraw(&bytes, number as u32 + 1).unwrap();
        let mut expected = SheetBuilder::new(sheet.lots()).unwrap();
        for (at, condition) in sheet.conditions().iter().enumerate() {
            let terms = if at == number { &[] } else { condition.terms() };
            expected.condition(terms.iter().copied()).unwrap();
        }
        let expected = expected.finish();
        assert_eq!(Sheet::from_bytes(&without).as_ref(), Ok(&expected));
        assert_eq!(lihumbay::repack(&without), Ok(expected.to_bytes()));
        assert_eq!(lihumbay::read(&without), lihumbay::read(&bytes));
        assert_eq!(lihumbay::withdraw(&without, number as u32 + 1), Ok(without));
    }
}

/// A sheet's bytes with the records at other places and some of its conditions withdrawn, and the sheet that they are of.
fn some_withdrawn(random: &mut Random) -> (Sheet, Vec<u8>) {
    let sheet = random.sheet();
    let count = sheet.conditions().len();
    let mut bytes = reordered(&sheet.to_bytes(), count, random);
    for number in 1..=count as u32 {
        if random.below(3) == 0 {
            bytes = lihumbay::withdraw(&bytes, number).unwrap();
        }
    }
    (Sheet::from_bytes(&bytes).unwrap(), bytes)
}

#[test]
fn a_merged_sheet_has_the_conditions_of_both_but_for_repeats_with_terms() {
    let mut random = Random(6);
    let (mut left_out, mut withdrawn) = (0, 0);
    for _ in 0..2000 {
        let [(first, first_bytes), (second, second_bytes)] = [(); 2].map(|()| some_withdrawn(&mut random));
        let mut expected = SheetBuilder::new(first.lots().max(second.lots())).unwrap();
        let mut seen: Vec<&[Term]> = Vec::new();
        for condition in first.conditions().iter().chain(second.conditions()) {
            let terms = condition.terms();
            let repeats = seen.contains(&terms);
            seen.push(terms);
            if repeats && !condition.is_withdrawn() {
                left_out += 1;
                continue;
            }
            withdrawn += usize::from(repeats);
            expected.condition(terms.iter().copied()).unwrap();
        }
        assert_eq!(lihumbay::merge(&first_bytes, &second_bytes), Ok(expected.finish().to_bytes()));
    }
    assert!(left_out > 100 && withdrawn > 1000, "{left_out} conditions left out, {withdrawn} withdrawn behind another");
}

#[test]
fn a_condition_that_stays_moves_up_by_the_repeats_before_it() {
    let mut random = Random(7);
    for _ in 0..2000 {
        let [(first, first_bytes), (second, second_bytes)] = [(); 2].map(|()| some_withdrawn(&mut random));
        let merged = Sheet::from_bytes(&lihumbay::merge(&first_bytes, &second_bytes).unwrap()).unwrap();
        let both: Vec<_> = first.conditions().iter().chain(second.conditions()).collect();
        let is_left_out = |at: &usize| !both[*at].is_withdrawn() && both[..*at].contains(&both[*at]);
        let stays = (0..both.len()).filter(|at| !is_left_out(at));
        for at in stays.clone() {
            assert_eq!(merged.conditions()[at - (0..at).filter(is_left_out).count()], *both[at]);
        }
        assert_eq!(merged.conditions().len(), stays.count());
    }
}

#[test]
fn verdicts_pass_the_other_services() {
    let mut random = Random(2);
    let (mut met, mut with_zero_lot, mut cannot) = (0, 0, 0);
    for _ in 0..2000 {
        let written = random.sheet();
        let sheet = written.to_bytes();
        let (mut grouping, mut store) = ([0; MOST_LOTS], [0; 500 * RECORD_LENGTH]);
        match lihumbay::search_into(&sheet, &mut grouping, &mut store).unwrap() {
            Verdict::Met { grouping, .. } => {
                met += 1;
                assert_eq!(lihumbay::evaluate(&sheet, grouping.as_bytes()), Ok(Evaluation::AllMet));
                let smallest = |lot: usize, group: &[usize]| grouping.class_of(lot as u16) == Some(group[0] as u8);
                assert!(grouping.groups().iter().all(|group| group.iter().all(|&lot| smallest(lot, group))));
                if !grouping.with_zero_lot().is_empty() {
                    with_zero_lot += 1;
                    assert!(written.names_lot(ZERO_LOT));
                }
            }
            Verdict::Cannot { refutation } => {
                cannot += 1;
                assert_eq!(lihumbay::check(&sheet, refutation.as_bytes()), Ok(()));
            }
            Verdict::Full { capacity } => panic!("{capacity} records are enough for so small a sheet"),
        }
    }
    assert!(met > 100 && with_zero_lot > 100 && cannot > 100, "{met} met, {with_zero_lot} with lot 0, {cannot} cannot");
}

/// Each way to put lots 1 to `lots` together with each other and with lot 0, as groupings: a lot has a number that was there before, or the next one.
fn partitions(lots: usize) -> Vec<Vec<u8>> {
    let mut all = vec![Vec::new()];
    for _ in 0..lots {
        let longer = |grouping: Vec<u8>| {
            let next = grouping.iter().max().map_or(1, |most| most + 1);
            (0..=next).map(move |number| [grouping.as_slice(), &[number]].concat())
        };
        all = all.into_iter().flat_map(longer).collect();
    }
    all
}

/// How many different numbers a grouping has, lot 0's 0 counted.
fn numbers(grouping: &[u8]) -> u32 {
    let mut numbers = [&[0], grouping].concat();
    numbers.sort_unstable();
    numbers.dedup();
    numbers.len() as u32
}

/// The least number of groups that meets the sheet, by all ways to part its lots; none where nothing meets it.
fn fewest(sheet: &[u8], lots: u16) -> Option<u32> {
    let meets = |grouping: &Vec<u8>| lihumbay::evaluate(sheet, grouping) == Ok(Evaluation::AllMet);
    partitions(lots.into()).iter().filter(|grouping| meets(grouping)).map(|grouping| numbers(grouping)).min()
}

#[test]
fn verdicts_under_a_limit_are_those_of_all_groupings() {
    let mut random = Random(8);
    let (mut met, mut cannot, mut by_limit) = (0, 0, 0);
    for _ in 0..1000 {
        let written = random.sheet();
        let sheet = written.to_bytes();
        let fewest = fewest(&sheet, written.lots());
        for limit in 1..=u32::from(written.lots()) + 2 {
            let (mut grouping, mut store) = ([0; MOST_LOTS], [0; 2000 * RECORD_LENGTH]);
            match lihumbay::search_limited_into(&sheet, limit, &mut grouping, &mut store).unwrap() {
                Verdict::Met { grouping, .. } => {
                    met += 1;
                    assert!(fewest.is_some_and(|fewest| fewest <= limit), "{written}limit {limit}");
                    assert_eq!(lihumbay::evaluate(&sheet, grouping.as_bytes()), Ok(Evaluation::AllMet));
                    assert!(numbers(grouping.as_bytes()) <= limit);
                }
                Verdict::Cannot { refutation } => {
                    cannot += 1;
                    by_limit += usize::from(fewest.is_some());
                    assert!(fewest.is_none_or(|fewest| fewest > limit), "{written}limit {limit}");
                    assert_eq!(lihumbay::check_limited(&sheet, limit, refutation.as_bytes()), Ok(()));
                    assert_eq!(lihumbay::check(&sheet, refutation.as_bytes()).is_ok(), refutation.records().all(is_no_clique));
                }
                Verdict::Full { capacity } => panic!("{capacity} records are enough for so small a sheet"),
            }
        }
    }
    assert!(met > 1000 && cannot > 500 && by_limit > 200, "{met} met, {cannot} cannot, {by_limit} of them by the limit alone");
}

fn is_no_clique(read: Result<(u32, Record), RecordError>) -> bool {
    !matches!(read, Ok((_, Record::Clique)))
}

/// The conditions that a grouping doesn't meet, counted here.
fn unmet(sheet: &Sheet, grouping: &Grouping) -> u32 {
    let is_true = |term: &Term| match *term {
        Term::Same(a, b) => grouping.class_of(a) == grouping.class_of(b),
        Term::Apart(a, b) => grouping.class_of(a) != grouping.class_of(b),
    };
    let unmet = sheet.conditions().iter().filter(|condition| !condition.is_withdrawn() && !condition.terms().iter().any(is_true));
    unmet.count() as u32
}

#[test]
fn a_running_count_is_the_count_after_every_reassignment() {
    let mut random = Random(9);
    let (mut changed, mut refused, mut all_met) = (0, 0, 0);
    for _ in 0..2000 {
        let (sheet, bytes) = some_withdrawn(&mut random);
        let lots = usize::from(sheet.lots());
        let start: Vec<u8> = (0..lots).map(|_| random.below(4) as u8).collect();
        let mut running = Running::new(bytes.as_slice(), start).unwrap();
        assert_eq!(running.count(), unmet(&sheet, running.grouping()));
        for _ in 0..20 {
            let (lot, value, before) = (random.below(lots + 2) as u32, random.below(4) as u8, running.clone());
            let answer = running.reassign(lot, value);
            let mut expected = before.grouping().as_bytes().to_vec();
            if (1..=lots).contains(&(lot as usize)) {
                expected[lot as usize - 1] = value;
                assert_eq!(answer, Ok(unmet(&sheet, &Grouping::from(expected.as_slice()))));
            } else {
                refused += 1;
                assert_eq!(answer.map_err(|refusal| (refusal.check.number(), refusal.place)), Err((21, lot)));
            }
            assert_eq!((running.grouping().as_bytes(), running.sheet()), (expected.as_slice(), bytes.as_slice()));
            assert_eq!(lihumbay::count_unmet(&bytes, &expected), Ok(running.count()));
            assert_eq!(running.all_met(), running.evaluate() == Evaluation::AllMet);
            changed += usize::from(running.count() != before.count());
            all_met += usize::from(running.all_met());
        }
    }
    assert!(changed > 1000 && refused > 1000 && all_met > 1000, "{changed} changed, {refused} refused, {all_met} with all met");
}

#[test]
fn lists_of_reassignments_go_to_text_and_back() {
    let mut random = Random(10);
    for _ in 0..200 {
        let list: Vec<Reassignment> =
            (0..random.below(9)).map(|_| Reassignment { lot: random.below(usize::MAX) as u32, value: random.below(256) as u8 }).collect();
        let text: String = list.iter().map(|one| format!("{one}\n")).collect();
        assert_eq!(Reassignment::list(&text), Ok(list));
    }
}

#[test]
fn damaged_bytes_are_refused_or_read() {
    let mut random = Random(3);
    for _ in 0..20_000 {
        let mut bytes = random.sheet().to_bytes();
        let at = random.below(bytes.len());
        bytes[at] = random.below(256) as u8;
        match Sheet::from_bytes(&bytes) {
            Ok(sheet) => assert_eq!(lihumbay::repack(&bytes), Ok(sheet.to_bytes())),
            Err(refusal) => assert_eq!(lihumbay::repack(&bytes), Err(refusal)),
        }
        RecordList::from(bytes).walk().for_each(drop);
    }
}

#[test]
fn damaged_text_is_refused_or_read() {
    let mut random = Random(4);
    let pieces =
        ["same", "apart", "withdrawn", "never", "lots", "|", "#", "\n", " ", "1", "3", "0", "99999999", "é", "\t", "-", "+1", "\r\n"];
    for _ in 0..20_000 {
        let text: String = (0..random.below(12)).map(|_| [pieces[random.below(pieces.len())], " "].concat()).collect();
        match text.parse::<Sheet>() {
            Ok(sheet) => assert_eq!(Sheet::from_bytes(&sheet.to_bytes()), Ok(sheet)),
            Err(error) => assert!(error.line >= 1 && error.column >= 1 && error.line <= text.lines().count()),
        }
        if let Err(error) = Reassignment::list(&text) {
            assert!(error.line >= 1 && error.column >= 1 && error.line <= text.lines().count());
        }
    }
}

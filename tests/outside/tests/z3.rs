//! Verdicts on larger sheets beside z3's, where the command is on the path: lots are integers, lot 0 is the number 0, a condition is a disjunction, and with a
//! limit the integers are below it.
use lihumbay::raw;
use outside::compare::plain;
use outside::random::Random;
use outside::run::{say, with_stack};
use outside::sheets::{Shape, write};
use second::limits::{MOST_NODES, ZERO_LOT};
use second::reader::accept;
use second::sheet::{Lot, Sheet, Sign, Term, is_withdrawn};
use second::writer::{apart, same, sheet_bytes};
use std::fmt::Write as _;
use std::io::Write as _;
use std::process::{Command, Stdio};

const SHEETS: usize = 400;
/// The least number of sheets of each verdict.
const LEAST: usize = 40;

/// A larger sheet: tens of lots, up to 256 conditions. Fewer "same" terms and longer conditions are met more often.
fn sheet(random: &mut Random) -> Vec<u8> {
    let shape = Shape {
        lots: random.range(10, 60),
        conditions: random.range(40, 256),
        terms: 1024,
        longest: random.range(2, 4),
        same: random.range(30, 80),
        zero: random.pick(&[0, 2, 10]),
        twice: random.below(3),
        repeated: 3,
        withdrawn: random.pick(&[0, 5]),
        all: false,
    };
    write(&shape, random)
}

/// A sheet of which often more classes are asked than a small limit admits: most terms are "apart", and many conditions have one term.
fn mostly_apart(random: &mut Random) -> Vec<u8> {
    let shape = Shape {
        lots: random.range(10, 20),
        conditions: random.range(30, 120),
        terms: 1024,
        longest: random.range(1, 3),
        same: random.range(0, 15),
        zero: random.pick(&[0, 2, 10]),
        twice: 0,
        repeated: 3,
        withdrawn: random.pick(&[0, 5]),
        all: false,
    };
    write(&shape, random)
}

/// What the archive and z3 are both asked: whether something meets the sheet, within the limit if there is one.
struct Question {
    bytes: Vec<u8>,
    limit: Option<u32>,
}

impl Question {
    /// The archive's verdict, 1 met or 2 cannot, where the longest store is enough.
    fn verdict(&self) -> Option<u32> {
        let (mut grouping, mut store) = (vec![0; 128], vec![0; 8 * MOST_NODES]);
        let answer = match self.limit {
            None => raw::search(&self.bytes, &mut grouping, &mut store),
            Some(limit) => raw::search_limited(&self.bytes, limit, &mut grouping, &mut store),
        };
        match plain(answer) {
            [0, verdict, _, _] => Some(verdict),
            _ => None,
        }
    }

    fn script(&self) -> String {
        script(&accept(&self.bytes).expect("a valid sheet"), self.limit)
    }
}

/// Lot 0 has the number 0 in every assignment; each other lot is a constant of its own.
fn lot(lot: Lot) -> String {
    match lot {
        ZERO_LOT => "0".into(),
        _ => format!("x{lot}"),
    }
}

fn term(term: &Term) -> String {
    let equal = format!("(= {} {})", lot(term.a), lot(term.b));
    match term.sign {
        Sign::Same => equal,
        Sign::Apart => format!("(not {equal})"),
    }
}

/// At most so many different numbers, 0 among them, can be called by the numbers below the limit, and 0 by 0: which lots have the same number stays.
fn script(sheet: &Sheet, limit: Option<u32>) -> String {
    let mut text = String::from("(reset)\n(set-logic QF_LIA)\n");
    for lot in (1..=sheet.lots).map(self::lot) {
        writeln!(text, "(declare-const {lot} Int)").expect("a string takes all");
        if let Some(limit) = limit {
            writeln!(text, "(assert (and (<= 0 {lot}) (< {lot} {limit})))").expect("a string takes all");
        }
    }
    // A withdrawn condition is true, and asserts nothing.
    for condition in sheet.conditions.iter().filter(|condition| !is_withdrawn(condition)) {
        let terms: Vec<String> = condition.iter().map(term).collect();
        writeln!(text, "(assert (or false {}))", terms.join(" ")).expect("a string takes all");
    }
    text + "(check-sat)\n"
}

/// One process for all scripts: its answers, line by line.
fn answers(scripts: &str) -> Vec<String> {
    let mut z3 = Command::new("z3").arg("-in").stdin(Stdio::piped()).stdout(Stdio::piped()).spawn().expect("z3 can be started");
    let mut input = z3.stdin.take().expect("its input is a pipe");
    let output = std::thread::scope(|scope| {
        scope.spawn(move || input.write_all(scripts.as_bytes()).expect("z3 reads its input"));
        z3.wait_with_output().expect("z3 ends")
    });
    String::from_utf8(output.stdout).expect("z3 prints text").lines().map(String::from).collect()
}

/// What z3 is asked is looked at also where it is not there.
#[test]
fn a_sheet_s_script() {
    let bytes = sheet_bytes(2, &[vec![same(0, 2), apart(1, 0)], vec![], vec![apart(0, 0)]]);
    let lines = [
        "(reset)",
        "(set-logic QF_LIA)",
        "(declare-const x1 Int)",
        "(declare-const x2 Int)",
        "(assert (or false (= 0 x2) (not (= x1 0))))",
        "(assert (or false (not (= 0 0))))",
        "(check-sat)",
    ];
    let script = |limit: Option<u32>| Question { bytes: bytes.clone(), limit }.script();
    assert_eq!(script(None).lines().collect::<Vec<_>>(), lines);
    let within = ["x1", "x2"].map(|lot| format!("(assert (and (<= 0 {lot}) (< {lot} 2)))"));
    let limited = [&lines[..3], &[&within[0]], &lines[3..4], &[&within[1]], &lines[4..]].concat();
    assert_eq!(script(Some(2)).lines().collect::<Vec<_>>(), limited);
}

/// How many of the questions the archive answers met, and cannot; z3 answers all of them alike. Where the store was full, z3 isn't asked.
fn agree(what: &str, questions: &[Question]) -> [usize; 2] {
    let decided: Vec<(&Question, u32)> = questions.iter().filter_map(|question| Some((question, question.verdict()?))).collect();
    let scripts: String = decided.iter().map(|(question, _)| question.script()).collect();
    let answers = answers(&scripts);
    assert_eq!(answers.len(), decided.len(), "one answer for each sheet");
    for ((question, verdict), answer) in decided.iter().zip(&answers) {
        let expected = if *verdict == 1 { "sat" } else { "unsat" };
        assert_eq!(answer, expected, "on the sheet {:02x?}, limit {:?}", question.bytes, question.limit);
    }
    let met = decided.iter().filter(|(_, verdict)| *verdict == 1).count();
    let (cannot, full) = (decided.len() - met, questions.len() - decided.len());
    say(&format!("z3 agrees on {met} {what} met, {cannot} that cannot be; {full} were left out, their store was full"));
    [met, cannot]
}

#[test]
fn verdicts_agree_with_z3() {
    if !Command::new("z3").arg("--version").output().is_ok_and(|output| output.status.success()) {
        return say("SKIPPED: verdicts beside z3's, since there is no `z3`");
    }
    with_stack(|| {
        let mut random = Random::new(31);
        let questions: Vec<Question> = (0..SHEETS).map(|_| Question { bytes: sheet(&mut random), limit: None }).collect();
        assert!(agree("sheets", &questions).iter().all(|&count| count >= LEAST));
        let limited = |random: &mut Random| Question { bytes: mostly_apart(random), limit: Some(random.range(2, 4) as u32) };
        let questions: Vec<Question> = (0..SHEETS).map(|_| limited(&mut random)).collect();
        assert!(agree("sheets with a limit", &questions).iter().all(|&count| count >= LEAST));
        // Of those that are not met within the limit, some are met without one.
        let without = |question: &Question| Question { bytes: question.bytes.clone(), limit: None };
        let turned = questions.iter().filter(|question| question.verdict() == Some(2)).map(without).collect::<Vec<_>>();
        assert!(agree("of these sheets without a limit", &turned)[0] >= LEAST);
    });
}

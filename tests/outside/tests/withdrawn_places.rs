//! Where the conditions of a merged sheet stand: each withdrawn one stays, and each that stays has its number in the two lists, one behind the other, less the
//! repeats left out before it. Wrong merges stand beside the right one, and the pairs of each test have to tell all of them from it.
use outside::merged::{merged, merged_length};
use outside::pairs::{Conditions, Pair, lists, small};
use outside::random::Random;
use outside::run::say;
use outside::withdrawn_pairs::{around_both_limits, around_most_conditions};
use second::limits::{HEAD_LENGTH, HEADER_LENGTH};
use second::reader::accept;
use second::sheet::Term;
use second::writer::{apart, same, sheet_bytes};

/// Whether a condition stays: the two lists one behind the other, where the second begins, and where the condition stands.
type Stays = fn(&[Vec<Term>], usize, usize) -> bool;

fn is_repeat(both: &[Vec<Term>], from: usize, at: usize) -> bool {
    both[from..at].contains(&both[at])
}

fn stays(both: &[Vec<Term>], _: usize, at: usize) -> bool {
    both[at].is_empty() || !is_repeat(both, 0, at)
}

/// The last place before this one that has a withdrawn condition, and 0 where there is none.
fn last_withdrawn(both: &[Vec<Term>], at: usize) -> usize {
    both[..at].iter().rposition(Vec::is_empty).unwrap_or(0)
}

const WRONG: [(&str, Stays); 8] = [
    ("of all withdrawn conditions the first stays", |both, _, at| !is_repeat(both, 0, at)),
    ("of a sheet's withdrawn conditions the first stays", |both, second, at| match both[at].is_empty() {
        true => !is_repeat(both, if at < second { 0 } else { second }, at),
        false => stays(both, second, at),
    }),
    ("the second sheet's withdrawn conditions are repeats of the first's", |both, second, at| match both[at].is_empty() {
        true => at < second || !both[..second].contains(&vec![]),
        false => stays(both, second, at),
    }),
    ("of withdrawn conditions side by side the first stays", |both, second, at| match both[at].is_empty() {
        true => at == 0 || !both[at - 1].is_empty(),
        false => stays(both, second, at),
    }),
    ("no withdrawn condition stays", |both, second, at| !both[at].is_empty() && stays(both, second, at)),
    ("withdrawn conditions at the end of the lists go", |both, second, at| {
        stays(both, second, at) && both[at..].iter().any(|condition| !condition.is_empty())
    }),
    ("repeats are looked for behind the last withdrawn condition alone", |both, _, at| {
        both[at].is_empty() || !is_repeat(both, last_withdrawn(both, at), at)
    }),
    ("repeats stay", |_, _, _| true),
];

/// The conditions that stay, by a rule.
fn by(stays: Stays, both: &[Vec<Term>], second: usize) -> Conditions {
    (0..both.len()).filter(|&at| stays(both, second, at)).map(|at| both[at].clone()).collect()
}

/// The numbers of the conditions whose head is zero, by a sheet's bytes.
fn zero_heads(sheet: &[u8]) -> Vec<usize> {
    let count = usize::from(u16::from_le_bytes([sheet[2], sheet[3]]));
    let heads = sheet[HEADER_LENGTH..HEADER_LENGTH + HEAD_LENGTH * count].chunks(HEAD_LENGTH);
    heads.zip(1..).filter(|(head, _)| **head == [0, 0]).map(|(_, number)| number).collect()
}

#[derive(Default)]
struct Places {
    written: usize,
    withdrawn: usize,
    /// How many withdrawn conditions have another number than in the two lists.
    moved: usize,
    /// How often each wrong merge comes to other conditions than the right one.
    told: [usize; WRONG.len()],
}

impl Places {
    fn run(&mut self, first: &[u8], second: &[u8]) {
        let after = merged(first, second, &vec![0; merged_length(first, second)]);
        if after.answer[0] != 0 {
            return;
        }
        let [one, other] = [first, second].map(|sheet| accept(sheet).expect("a valid sheet").conditions);
        let (second_begins, both) = (one.len(), [one, other].concat());
        self.written += 1;
        self.withdrawn_stay(&both, &after.out);
        let right = accept(&after.out).expect("a merged sheet").conditions;
        assert_eq!(right, by(stays, &both, second_begins), "{first:02x?}\n{second:02x?}");
        for (told, (_, wrong)) in self.told.iter_mut().zip(WRONG) {
            *told += usize::from(by(wrong, &both, second_begins) != right);
        }
    }

    /// As many zero heads as there are withdrawn conditions in the two lists, each at its number there less the repeats before it.
    fn withdrawn_stay(&mut self, both: &[Vec<Term>], sheet: &[u8]) {
        let (mut left_out, mut expected) = (0, Vec::new());
        for (at, condition) in both.iter().enumerate() {
            match condition.is_empty() {
                true => expected.push(at + 1 - left_out),
                false => left_out += usize::from(is_repeat(both, 0, at)),
            }
            self.moved += usize::from(condition.is_empty() && left_out > 0);
        }
        assert_eq!(zero_heads(sheet), expected, "{both:?}");
        self.withdrawn += expected.len();
    }

    fn end(&self, what: &str) {
        let Places { written, withdrawn, moved, told } = self;
        say(&format!(
            "{what}: {written} merged sheets with {withdrawn} withdrawn conditions, {moved} of them behind repeats; told {told:?}"
        ));
        assert!(*withdrawn > 1_000 && *moved > 1_000, "{what}");
        for (told, (name, _)) in told.iter().zip(WRONG) {
            assert!(*told > 0, "{what}: a merge where {name} would come to the same on all of them");
        }
    }
}

fn random_pairs(what: &str, count: usize, seed: u64, make: fn(&mut Random) -> Pair) {
    let (mut random, mut places) = (Random::new(seed), Places::default());
    for _ in 0..count {
        let Pair { first, second } = make(&mut random);
        places.run(&first, &second);
        places.run(&second, &first);
        places.run(&first, &first);
    }
    places.end(what);
}

#[test]
fn in_small_sheets() {
    random_pairs("pairs of small sheets", 20_000, 92, small);
}

#[test]
fn around_the_most_conditions() {
    random_pairs("pairs with withdrawn conditions around the most", 1_000, 93, around_most_conditions);
}

#[test]
fn around_the_most_conditions_and_terms() {
    random_pairs("pairs with withdrawn conditions and terms around the most", 1_000, 94, around_both_limits);
}

/// Every two sheets with up to four conditions out of three, one of them withdrawn: at the beginning, in the middle and at the end.
#[test]
fn in_all_small_sheets() {
    let mut places = Places::default();
    let lists = lists(&[vec![], vec![apart(1, 2)], vec![apart(1, 2), same(0, 2)]], 4);
    let sheets: Vec<Vec<u8>> = lists.iter().map(|conditions| sheet_bytes(2, conditions)).collect();
    sheets.iter().for_each(|first| sheets.iter().for_each(|second| places.run(first, second)));
    places.end("all pairs of up to four conditions");
    assert_eq!(places.written, 121 * 121);
}

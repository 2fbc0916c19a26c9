//! Sheets for the evaluators whose conditions have one true term each, at the same place, or none; and the grouping that they are true under.
use crate::random::Random;
use crate::sheets::{Sheet, Term, apart, same};

const LOTS: usize = 128;

/// How many numbers the grouping has: a lot's is its remainder by this.
pub const NUMBERS: usize = 16;

/// The conditions of a sheet, the terms of each, and the place of each one's true term, which counts from 1.
#[derive(Clone, Copy, Debug, PartialEq, Eq)]
pub struct Shape {
    pub conditions: usize,
    pub terms: usize,
    pub place: Option<usize>,
}

pub fn grouping() -> Vec<u8> {
    (1..=LOTS).map(|lot| (lot % NUMBERS) as u8).collect()
}

/// The lot so many lots further on, in a circle of all but lot 0.
pub fn moved_on(lot: usize, step: usize) -> usize {
    (lot + step - 1) % LOTS + 1
}

/// A term of either sign that is true or false. As many random numbers are taken for the one as for the other.
fn term(random: &mut Random, is_true: bool) -> Term {
    let is_same = random.below(2) == 0;
    let a = random.below(LOTS);
    let (rounds, rest) = (random.below(LOTS / NUMBERS - 1), random.below(NUMBERS - 1));
    let step = if is_true == is_same { NUMBERS * (rounds + 1) } else { NUMBERS * rounds + rest + 1 };
    let (a, b) = (a + 1, moved_on(a + 1, step));
    if is_same { same(a, b) } else { apart(a, b) }
}

/// A sheet of such terms with lot 0 in about half of them, as the first lot or as the second. The other lot's number is then that of the term's lots less each
/// other, by remainders: the grouping's numbers are remainders too, so that a true term stays true and a false one false.
pub fn with_zero(mut sheet: Sheet) -> Sheet {
    let mut random = Random::new(2);
    for term in sheet.conditions.iter_mut().flat_map(|condition| &mut condition.terms) {
        match random.below(4) {
            0 => (term.a, term.b) = (0, (term.b + LOTS - term.a) % LOTS),
            1 => (term.a, term.b) = ((term.a + LOTS - term.b) % LOTS, 0),
            _ => {}
        }
    }
    sheet
}

impl Shape {
    /// Whether the conditions are long enough for the place, if there is one.
    pub fn has_its_place(self) -> bool {
        self.place.is_none_or(|place| place <= self.terms)
    }

    /// All but the true terms are the same for each place, and the first terms of one condition for each length.
    pub fn sheet(self) -> Sheet {
        let mut random = Random::new(1);
        let mut sheet = Sheet::new(LOTS);
        for _ in 0..self.conditions {
            sheet.condition((1..=self.terms).map(|i| term(&mut random, self.place == Some(i))));
        }
        sheet
    }

    pub fn key(self) -> String {
        let place = self.place.map_or("none".into(), |place| place.to_string());
        format!("first-{}-{}-{place}", self.conditions, self.terms)
    }

    pub fn name(self) -> String {
        let (count, of_each) =
            if self.conditions == 1 { ("one condition".into(), "") } else { (format!("{} conditions", self.conditions), " of each") };
        let place = match self.place {
            None => "none".into(),
            Some(2) => format!("the second{of_each}"),
            Some(place) if place == self.terms => format!("the last{of_each}"),
            Some(place) => format!("number {place}{of_each}"),
        };
        format!("{count} of {} terms, {place} true", crate::axis::grouped(self.terms as u64))
    }
}

/// What is timed.
pub fn rows() -> Vec<Shape> {
    let shape = |(conditions, terms, place)| Shape { conditions, terms, place };
    let forty = [(1, 40, Some(2)), (1, 40, Some(40)), (1, 40, None), (25, 40, Some(2)), (25, 40, Some(40))];
    let others = [(256, 4, Some(4)), (1, 1024, Some(2)), (1, 1024, Some(1024))];
    forty.into_iter().chain(others).map(shape).collect()
}

/// What is timed with lot 0 too: its own row has the same terms without it.
pub const ZERO_ROW: Shape = Shape { conditions: 25, terms: 40, place: Some(40) };

/// The lengths of the table by places.
pub const LENGTHS: [usize; 3] = [10, 20, 40];

/// Its places; none for a condition without a true term.
pub const PLACES: [Option<usize>; 7] = [Some(1), Some(2), Some(5), Some(10), Some(20), Some(40), None];

/// One condition for each place and length that has it.
pub fn places() -> Vec<Shape> {
    let shapes = PLACES.into_iter().flat_map(|place| LENGTHS.map(|terms| Shape { conditions: 1, terms, place }));
    shapes.filter(|shape| shape.has_its_place()).collect()
}

#[cfg(test)]
mod tests {
    use super::*;
    use crate::sheets::Sign;

    #[test]
    fn terms_are_true_where_the_shape_says_and_both_signs_occur() {
        let numbers = [vec![0], grouping()].concat();
        let is_true = |term: &Term| (numbers[term.a] == numbers[term.b]) == (term.sign == Sign::Same);
        let own = rows().into_iter().chain(places()).map(|shape| (shape, shape.sheet()));
        for (shape, sheet) in own.chain([(ZERO_ROW, with_zero(ZERO_ROW.sheet()))]) {
            assert!(
                sheet.conditions.len() == shape.conditions && sheet.records() == shape.conditions * shape.terms && sheet.records() <= 1024
            );
            for condition in &sheet.conditions {
                let true_places = (1..=shape.terms).filter(|i| is_true(&condition.terms[i - 1]));
                assert!(true_places.eq(shape.place), "{}", shape.key());
            }
            let terms = || sheet.conditions.iter().flat_map(|condition| &condition.terms);
            let both_signs = |truth: bool| {
                let of_truth = || terms().filter(move |term| is_true(term) == truth);
                of_truth().any(|term| term.sign == Sign::Same) && of_truth().any(|term| term.sign == Sign::Apart)
            };
            assert!(both_signs(false) && (both_signs(true) || shape.conditions == 1), "{}", shape.key());
        }
    }

    #[test]
    fn half_of_the_terms_have_lot_zero_in_either_place_and_no_other_row_has_it() {
        assert!(rows().contains(&ZERO_ROW) && rows().into_iter().all(|shape| !shape.sheet().names_zero()));
        let sheet = with_zero(ZERO_ROW.sheet());
        let count =
            |has: fn(&Term) -> bool| sheet.conditions.iter().flat_map(|condition| &condition.terms).filter(|term| has(term)).count();
        let [first, second] = [count(|term| term.a == 0), count(|term| term.b == 0)];
        assert!((200..300).contains(&first) && (200..300).contains(&second), "{first} and {second} of {}", sheet.terms());
    }
}

//! The archive beside the second implementation, on all classes of input. `OUTSIDE_CLASS` and `OUTSIDE_CASE` repeat one case: the class's name and the case's
//! number, as a failure prints them.
use outside::classes::CLASSES;
use outside::run::{run, run_one, say, with_stack};
use outside::tally::{Tally, ZeroLot};
use std::env;

/// The least number of inputs, of answers for each check of a service, and of sheets and lists of each verdict, with lot 0 and without it.
const LEAST_INPUTS: usize = 100_000;
const LEAST_SEEN: usize = 50;
const LEAST_WITH_ZERO: usize = 5_000;

/// The checks that each service makes, and 0, no refusal: all are to be seen, so that the classes can't go stale.
const CHECKS: [(&str, &[u32]); 6] = [
    ("reader", &[0, 1, 2, 3, 4, 5, 6, 7, 17]),
    ("search", &[0, 1, 2, 3, 4, 5, 6, 7, 8, 9, 17]),
    ("evaluator", &[0, 1, 2, 3, 4, 5, 6, 7, 8, 17]),
    ("count", &[0, 1, 2, 3, 4, 5, 6, 7, 8, 17]),
    ("checker", &[0, 1, 2, 3, 4, 5, 6, 7, 10, 11, 12, 13, 14, 15, 17]),
    ("repacker", &[0, 1, 2, 3, 4, 5, 6, 7, 16, 17]),
];

#[test]
fn archive_and_second_implementation_agree() {
    with_stack(|| {
        let mut tally = Tally::default();
        if let (Ok(name), Ok(number)) = (env::var("OUTSIDE_CLASS"), env::var("OUTSIDE_CASE")) {
            let class = CLASSES.iter().find(|class| class.name == name).expect("OUTSIDE_CLASS is the name of a class");
            return run_one(class, number.parse().expect("OUTSIDE_CASE is a number"), &mut tally);
        }
        for class in CLASSES {
            run(class, &mut tally);
        }
        say(&tally.report());
        assert!(tally.inputs() >= LEAST_INPUTS);
        let ZeroLot { met, cannot, passed } = tally.zero_lot();
        let seen = [met, cannot, passed].concat();
        assert!(
            seen.iter().all(|&seen| seen >= LEAST_WITH_ZERO),
            "sheets met, sheets that cannot be, lists: with lot 0 and without {seen:?}"
        );
        for (service, checks) in CHECKS {
            for &check in checks {
                let seen = tally.seen(service, check);
                assert!(seen >= LEAST_SEEN, "{service}: check {check} was seen {seen} times only");
            }
        }
    });
}

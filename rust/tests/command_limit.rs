//! The command with `--limit`: what it prints, and how it ends.
mod support;

use lihumbay::Record;
use std::process::Command;
use support::{Scratch, assert_complained, assert_said, encoded, run};

/// Three lots that are all apart; lot 0 may be together with any of them.
const THREE: &str = include_str!("../../samples/apart.txt");

const THREE_REPORT: &str = "\
cannot be met with at most 2 groups: refutation of 17 records
 1  split 0 1
 2    same 0 1: split 0 2
 3      same 0 2: ground, condition 1: apart 1 2
 4      apart 0 2: split 0 3
 5        same 0 3: ground, condition 2: apart 1 3
 6        apart 0 3: split 2 3
 7          same 2 3: ground, condition 3: apart 2 3
 8          apart 2 3: clique, 3 classes: 0 1 | 2 | 3
 9    apart 0 1: split 0 2
10      same 0 2: split 0 3
11        same 0 3: ground, condition 3: apart 2 3
12        apart 0 3: split 1 3
13          same 1 3: ground, condition 2: apart 1 3
14          apart 1 3: clique, 3 classes: 0 2 | 1 | 3
15      apart 0 2: split 1 2
16        same 1 2: ground, condition 1: apart 1 2
17        apart 1 2: clique, 3 classes: 0 | 1 | 2
";

const CLIQUE_GRAPH: &str = r#"digraph search {
  node [shape=box];
  1 [label="1\nsplit 2 3"];
  2 [label="2\nsplit 0 1"];
  1 -> 2 [label="same 2 3"];
  3 [label="3\nground, condition 2\napart 0 1", style=filled];
  2 -> 3 [label="same 0 1"];
  4 [label="4\nclique, 2 classes\n0 | 1", style="filled,rounded"];
  2 -> 4 [label="apart 0 1"];
  5 [label="5\nground, condition 1\nsame 2 3", style=filled];
  1 -> 5 [label="apart 2 3"];
}
"#;

#[test]
fn a_refutation_under_a_limit_has_its_cliques_with_their_classes() {
    assert_said(&run(&["search", "--limit", "2"], &encoded(THREE)), 1, THREE_REPORT);
    let one = "cannot be met with at most 1 group: refutation of 3 records\n1  split 0 1\n2    same 0 1: ground, condition 1: apart 0 1\n\
               3    apart 0 1: clique, 2 classes: 0 | 1\n";
    assert_said(&run(&["search", "--limit=1", "-"], &encoded("apart 0 1")), 1, one);
}

/// The limit counts lot 0's group, so it has its line whether or not the sheet names it.
#[test]
fn a_met_sheet_has_the_group_of_lot_0_under_a_limit() {
    assert_said(&run(&["search", "--limit", "3"], &encoded(THREE)), 0, "met: 3 groups, 2 records\n  0: 1\n  2\n  3\n");
    assert_said(&run(&["search", "--limit", "4"], &encoded(THREE)), 0, "met: 4 groups, 1 record\n  0:\n  1\n  2\n  3\n");
    assert_said(&run(&["search"], &encoded(THREE)), 0, "met: 3 groups, 1 record\n  1\n  2\n  3\n");
    assert_said(&run(&["search", "--limit", "129"], &encoded("")), 0, "met: 1 group, 1 record\n  0:\n");
    // The last of two limits is taken.
    assert_said(&run(&["search", "--limit", "1", "--limit", "2"], &encoded("lots 2")), 0, "met: 2 groups, 2 records\n  0: 1\n  2\n");
}

#[test]
fn a_search_under_a_limit_can_be_drawn() {
    assert_said(&run(&["search", "--limit", "1", "--dot"], &encoded("same 2 3\napart 0 1")), 1, CLIQUE_GRAPH);
    let met = run(&["search", "--dot", "--limit", "2"], &encoded("lots 2"));
    assert!(met.text().contains(r#"2 [label="2\nmet\n0: 1", peripheries=2];"#), "{}", met.text());
    let alone = run(&["search", "--dot", "--limit", "3"], &encoded("lots 2"));
    assert!(alone.text().contains(r#"1 [label="1\nmet\n0:", peripheries=2];"#), "{}", alone.text());
}

#[test]
fn a_refutation_passes_the_checker_with_its_limit() {
    let (sheet, list, grouping) = (Scratch::with("sheet", &encoded(THREE)), Scratch::unwritten("list"), Scratch::unwritten("grouping"));
    let files = ["--refutation", list.path(), "--grouping", grouping.path()];
    let search = |limit: &str| run(&[&["search", sheet.path(), "--limit", limit], files.as_slice()].concat(), &[]);
    assert_eq!((search("2").status, grouping.bytes()), (1, None));
    let passed = "passed: a refutation of 17 records, so nothing meets the sheet with at most 2 groups\n";
    assert_said(&run(&["check", "--limit", "2", sheet.path(), list.path()], &[]), 0, passed);
    assert_said(&run(&["check", sheet.path(), list.path(), "--limit=2"], &[]), 0, passed);
    let below = run(&["check", "--limit", "1", sheet.path()], &list.bytes().expect("the refutation is written"));
    assert_said(&below, 0, "passed: a refutation of 17 records, so nothing meets the sheet with at most 1 group\n");
    let too_few = "check 12, a ground's condition is withdrawn or has a term that isn't false there, or a clique has too few classes or two not apart";
    let above = run(&["check", "--limit", "3", sheet.path(), list.path()], &[]);
    assert_complained(&above, 1, &format!("{}: {too_few}: record 8", list.path()));
    let without = run(&["check", sheet.path(), list.path()], &[]);
    assert!(
        without.status == 1 && without.errors.contains(": check 11, ") && without.errors.ends_with(": record 8\n"),
        "{}",
        without.errors
    );
    assert_eq!((search("3").status, grouping.bytes()), (0, Some(vec![0, 2, 3])));
    assert_said(&run(&["evaluate", sheet.path(), grouping.path()], &[]), 0, "all conditions are met\n");
}

#[test]
fn a_limit_that_is_not_admitted_is_refused_by_its_check() {
    let (sheet, list) = (Scratch::with("sheet", &encoded(THREE)), Scratch::with("list", &Record::Clique.to_bytes().unwrap()));
    for limit in ["0", "130", "257", "4294967295"] {
        let message = format!("`--limit`: check 20, the limit on the number of classes is 0 or above 129: limit {limit}");
        assert_complained(&run(&["search", "--limit", limit, sheet.path()], &[]), 2, &message);
        assert_complained(&run(&["check", "--limit", limit, sheet.path(), list.path()], &[]), 2, &message);
        // What is wrong with the sheet comes first.
        let short = "standard input: check 1, the sheet is shorter than its header of 6 bytes";
        assert_complained(&run(&["search", "--limit", limit], &[1, 2, 3]), 2, short);
        assert_complained(&run(&["check", "--limit", limit, "-", list.path()], &[1, 2, 3]), 2, short);
    }
}

#[test]
fn wrong_arguments_are_refused() {
    let wrong = |arguments: &[&str], message: &str| assert_complained(&run(arguments, &[]), 2, message);
    for command in ["search", "check"] {
        let see = format!("see `lihumbay {command} --help`");
        for value in ["4294967296", "4294967297", "99999999999999999999", "+1", "-1", "", "two"] {
            wrong(&[command, "--limit", value], &format!("`--limit` is a number from 1 to 129, not `{value}`; {see}"));
        }
        wrong(&[command, "a", "--limit"], &format!("`--limit` needs a value; {see}"));
    }
    wrong(&["evaluate", "--limit", "2"], "there is no option `--limit`; see `lihumbay evaluate --help`");
    wrong(&["check", "--limit", "2", "--records", "1"], "there is no option `--records`; see `lihumbay check --help`");
    wrong(&["check", "--limit", "2"], "0 files are given, where the sheet and the list should be; see `lihumbay check --help`");
}

#[test]
fn a_full_store_is_told_under_a_limit_too() {
    let full = "store full: the search visits more than 16 nodes";
    assert_said(&run(&["search", "--limit", "2", "--records", "16"], &encoded(THREE)), 3, &format!("{full}\n"));
    assert_complained(&run(&["search", "--limit", "2", "--records", "16", "--dot"], &encoded(THREE)), 3, full);
    assert_eq!(run(&["search", "--limit", "2", "--records", "17"], &encoded(THREE)).status, 1);
}

/// A path of 1,024 splits, of which the last is the limit's. The thread that searches has a stack of its own.
#[test]
fn a_deep_search_needs_no_stack_of_the_command() {
    let pairs = (2..=48).flat_map(|a| (a + 1..=48).map(move |b| format!("same {a} {b}"))).take(1023).collect::<Vec<_>>();
    let sheet = Scratch::with("sheet", &encoded(&format!("{}\napart 0 1", pairs.join(" | "))));
    let mut shell = Command::new("sh");
    shell.args(["-c", "ulimit -s 256 && exec \"$0\" search --limit 1 \"$1\"", env!("CARGO_BIN_EXE_lihumbay"), sheet.path()]);
    let output = shell.output().expect("the shell starts");
    assert_eq!(output.status.code(), Some(1), "{}", String::from_utf8_lossy(&output.stderr));
    // Each of the 1,023 same branches is a split of the limit's, a ground and a clique.
    assert!(output.stdout.starts_with(b"cannot be met with at most 1 group: refutation of 4093 records\n"));
}

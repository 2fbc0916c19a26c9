//! The command on the sheets of document 01, and on sheets that name lot 0: what it prints, and how it ends.
mod support;

use lihumbay::{RECORD_LENGTH, Record};
use std::io::{BufRead, BufReader, Read, Write};
use std::process::{Command, Stdio};
use support::{Scratch, assert_complained, assert_said, command, encoded, run};

const A: &str = "same 1 2\nsame 2 3\napart 1 3\n";
const C: &[u8] = include_bytes!("../../samples/c.sheet");
const D: &str = "apart 1 2 | apart 2 3 | apart 3 1\nsame 1 2 | same 2 3\nsame 1 2 | same 3 1\nsame 2 3 | same 3 1\n";

const A_REPORT: &str = "\
cannot be met: refutation of 5 records
1  split 1 2
2    same 1 2: split 2 3
3      same 2 3: ground, condition 3: apart 1 3
4      apart 2 3: ground, condition 2: same 2 3
5    apart 1 2: ground, condition 1: same 1 2
";

const D_REPORT: &str = "\
cannot be met: refutation of 7 records
1  split 1 2
2    same 1 2: split 2 3
3      same 2 3: ground, condition 1: apart 1 2 | apart 2 3 | apart 3 1
4      apart 2 3: ground, condition 4: same 2 3 | same 3 1
5    apart 1 2: split 2 3
6      same 2 3: ground, condition 3: same 1 2 | same 3 1
7      apart 2 3: ground, condition 2: same 1 2 | same 2 3
";

const C_GRAPH: &str = r#"digraph search {
  node [shape=box];
  1 [label="1\nsplit 1 2"];
  2 [label="2\nground, condition 2\napart 1 2", style=filled];
  1 -> 2 [label="same 1 2"];
  3 [label="3\nsplit 1 3"];
  1 -> 3 [label="apart 1 2"];
  4 [label="4\nmet", peripheries=2];
  3 -> 4 [label="same 1 3"];
}
"#;

/// A sheet whose search visits 65,533 nodes.
fn large() -> Vec<u8> {
    let pairs = (1..=14).map(|i| format!("same {} {} | same {} 100\n", 2 * i, 2 * i + 1, 2 * i));
    encoded(&(pairs.collect::<String>() + "apart 1 1\n"))
}

#[test]
fn a_sheet_that_cannot_be_met_has_its_refutation_as_a_tree() {
    assert_said(&run(&["search"], &encoded(A)), 1, A_REPORT);
    assert_said(&run(&["search", "-"], &encoded(D)), 1, D_REPORT);
    let one_ground = "cannot be met: refutation of 1 record\n1  ground, condition 2: apart 1 1\n";
    assert_said(&run(&["search"], &encoded("withdrawn\napart 1 1")), 1, one_ground);
}

#[test]
fn a_sheet_that_is_met_has_its_groups() {
    assert_said(&run(&["search"], C), 0, "met: 2 groups, 4 records\n  1 3\n  2\n");
    assert_said(&run(&["search"], &encoded("")), 0, "met: 0 groups, 1 record\n");
    assert_said(&run(&["search"], &encoded("withdrawn")), 0, "met: 0 groups, 1 record\n");
}

const ZERO: &str = include_str!("../../samples/zero.txt");

const ZERO_CANNOT_REPORT: &str = "\
cannot be met: refutation of 5 records
1  split 0 1
2    same 0 1: split 2 0
3      same 2 0: ground, condition 3: apart 1 2
4      apart 2 0: ground, condition 2: same 2 0
5    apart 0 1: ground, condition 1: same 0 1
";

const ZERO_GRAPH: &str = r#"digraph search {
  node [shape=box];
  1 [label="1\nsplit 0 1"];
  2 [label="2\nsplit 1 2"];
  1 -> 2 [label="same 0 1"];
  3 [label="3\nground, condition 3\napart 2 0", style=filled];
  2 -> 3 [label="same 1 2"];
  4 [label="4\nsplit 3 0"];
  2 -> 4 [label="apart 1 2"];
  5 [label="5\nmet\n0: 1 3", peripheries=2];
  4 -> 5 [label="same 3 0"];
}
"#;

#[test]
fn the_group_of_lot_0_has_a_line_of_its_own() {
    assert_said(&run(&["search"], &encoded(ZERO)), 0, "met: 2 groups, 5 records\n  0: 1 3\n  2\n");
    assert_said(&run(&["search"], &encoded("same 0 1\nsame 1 2")), 0, "met: 1 group, 3 records\n  0: 1 2\n");
    assert_said(&run(&["search"], &encoded("same 0 1\nsame 2 0\napart 1 2")), 1, ZERO_CANNOT_REPORT);
    // Nothing is together with lot 0, and the sheet names it.
    assert_said(&run(&["search"], &encoded("apart 0 1\nsame 1 2")), 0, "met: 2 groups, 2 records\n  0:\n  1 2\n");
    assert_said(&run(&["search"], &encoded("same 0 0")), 0, "met: 1 group, 1 record\n  0:\n");
    // A withdrawn condition names nothing.
    let without = run(&["withdraw", "1"], &encoded("apart 0 1\nsame 1 1")).out;
    assert_said(&run(&["search"], &without), 0, "met: 1 group, 1 record\n  1\n");
}

#[test]
fn the_group_of_lot_0_is_drawn() {
    assert_said(&run(&["search", "--dot"], &encoded(ZERO)), 0, ZERO_GRAPH);
    let alone = run(&["search", "--dot"], &encoded("apart 0 1"));
    assert!(alone.text().contains(r#"1 [label="1\nmet\n0:", peripheries=2];"#), "{}", alone.text());
}

#[test]
fn lot_0_has_the_number_0_in_files_too() {
    let (sheet, grouping) = (Scratch::with("sheet", &encoded(ZERO)), Scratch::unwritten("grouping"));
    assert_eq!(run(&["search", sheet.path(), "--grouping", grouping.path()], &[]).status, 0);
    assert_eq!(grouping.bytes(), Some(vec![0, 2, 0]));
    assert_said(&run(&["evaluate", sheet.path(), grouping.path()], &[]), 0, "all conditions are met\n");
    assert_said(&run(&["evaluate", sheet.path()], &[7, 2, 7]), 1, "condition 1 is not met: same 0 1\n");
    let list = Scratch::unwritten("list");
    let cannot = Scratch::with("cannot", &encoded("same 0 1\nsame 2 0\napart 1 2"));
    assert_eq!(run(&["search", cannot.path(), "--refutation", list.path()], &[]).status, 1);
    let passed = "passed: a refutation of 5 records, so nothing meets the sheet\n";
    assert_said(&run(&["check", cannot.path(), list.path()], &[]), 0, passed);
}

#[test]
fn a_full_store_has_a_status_of_its_own() {
    assert_said(&run(&["search", "--records", "3"], C), 3, "store full: the search visits more than 3 nodes\n");
    assert_eq!(run(&["search", "--records=4"], C).status, 0);
    assert_complained(&run(&["search", "--records=0", "--dot"], C), 3, "store full: the search visits more than 0 nodes");
}

#[test]
fn a_search_can_be_drawn() {
    assert_said(&run(&["search", "--dot"], C), 0, C_GRAPH);
    let a = run(&["search", "--dot"], &encoded(A));
    assert_eq!((a.status, a.text().matches(" -> ").count()), (1, 4));
}

#[test]
fn a_refutation_passes_the_checker() {
    let (sheet, list, grouping) = (Scratch::with("sheet", &encoded(A)), Scratch::unwritten("list"), Scratch::unwritten("grouping"));
    let search = run(&["search", sheet.path(), "--refutation", list.path(), "--grouping", grouping.path()], &[]);
    assert_said(&search, 1, A_REPORT);
    assert_eq!(grouping.bytes(), None);
    let passed = "passed: a refutation of 5 records, so nothing meets the sheet\n";
    assert_said(&run(&["check", sheet.path(), list.path()], &[]), 0, passed);
    let bytes = list.bytes().expect("the refutation is written");
    assert_said(&run(&["check", sheet.path()], &bytes), 0, passed);
    assert_said(&run(&["check", "-", list.path()], &encoded(A)), 0, passed);
    assert_complained(
        &run(&["check", sheet.path()], &bytes[..4 * RECORD_LENGTH]),
        1,
        "standard input: check 14, a record is left over, or missing: record 5",
    );
}

#[test]
fn a_grouping_passes_the_evaluator() {
    let (sheet, list, grouping) = (Scratch::with("sheet", C), Scratch::unwritten("list"), Scratch::unwritten("grouping"));
    let search = run(&["search", &format!("--refutation={}", list.path()), "--grouping", grouping.path(), "--", sheet.path()], &[]);
    assert_eq!((search.status, list.bytes()), (0, None));
    assert_eq!(grouping.bytes(), Some(vec![1, 2, 1]));
    assert_said(&run(&["evaluate", sheet.path(), grouping.path()], &[]), 0, "all conditions are met\n");
    assert_said(&run(&["evaluate", sheet.path()], &[1; 3]), 1, "condition 2 is not met: apart 1 2\n");
    let short = "standard input: check 8, the grouping is shorter than the number of lots: lots 3";
    assert_complained(&run(&["evaluate", sheet.path(), "-"], &[1; 2]), 2, short);
}

#[test]
fn lists_are_refused_with_status_1() {
    let sheet = Scratch::with("sheet", &encoded(A));
    let refused = |list: &[u8], message: &str| {
        assert_complained(&run(&["check", sheet.path()], list), 1, &format!("standard input: {message}"));
    };
    let bytes = |record: Record| record.to_bytes().expect("the record is small");
    refused(&[], "check 10, the list is empty, too long, or not made of whole records");
    refused(&[0; RECORD_LENGTH + 1], "check 10, the list is empty, too long, or not made of whole records");
    refused(
        &bytes(Record::Ground { condition: 1 }),
        "check 12, a ground's condition is withdrawn or has a term that isn't false there, or a clique has too few classes or two not apart: record 1",
    );
    let kind = "check 11, a record's kind, spare byte, lot or condition is out of range, or an unused field of a ground or clique isn't 0: record 1";
    refused(&bytes(Record::Met), kind);
    // Without a limit a clique is of no kind that a list may have.
    refused(&bytes(Record::Clique), kind);
}

#[test]
fn sheets_are_refused_with_status_2_by_every_command() {
    let empty = Scratch::with("empty", &[]);
    let message = "standard input: check 1, the sheet is shorter than its header of 6 bytes";
    let with_two_files = [["check", "-", empty.path()], ["evaluate", "-", empty.path()]];
    let with_one = [["search", "-"].as_slice(), &["decode"], &["repack"], &["withdraw", "1"], &["withdraw", "-", "256"]];
    for arguments in with_one.into_iter().chain(with_two_files.iter().map(|two| two.as_slice())) {
        assert_complained(&run(arguments, &[1, 2, 3]), 2, message);
    }
    let mut head_too_high = C.to_vec();
    head_too_high[8] = 4;
    let message = "standard input: check 4, a condition's first record is above the number of records: condition 2";
    assert_complained(&run(&["search"], &head_too_high), 2, message);
    let longer = [&large()[..], &[0; 20_000]].concat();
    assert!(run(&["search"], &longer).errors.contains("check 3, "));
}

#[test]
fn text_and_sheets_are_told_apart() {
    for arguments in [["search"].as_slice(), &["repack"], &["withdraw", "1"]] {
        let text = run(arguments, A.as_bytes());
        assert_eq!((text.status, text.text()), (2, ""));
        assert!(text.errors.ends_with("; this looks like text: `lihumbay encode` makes a sheet of it\n"), "{}", text.errors);
    }
    let message = "standard input: this isn't text; if it is a sheet, `lihumbay decode` writes it as text";
    assert_complained(&run(&["encode"], C), 2, message);
}

#[test]
fn text_goes_to_bytes_and_back() {
    assert_eq!(encoded("# sheet C\nsame 1 2|same 1 3\n\napart 1 2"), C);
    assert_eq!(encoded("\u{feff}same 1 2 | same 1 3\r\napart 1 2\r\n"), C);
    assert_said(&run(&["decode"], C), 0, "lots 3\nsame 1 2 | same 1 3\napart 1 2\n");
    let with_lot_0 = ["lots 0\nsame 0 0\n", "lots 3\nsame 0 3 | apart 3 0\n", "lots 128\napart 0 128\n"];
    for text in ["lots 0\n", "lots 7\nwithdrawn\nsame 7 7\nwithdrawn\n", "lots 128\napart 128 1 | same 2 2\n"].into_iter().chain(with_lot_0)
    {
        assert_said(&run(&["decode"], &encoded(text)), 0, text);
    }
}

/// Sheet C with its records in another order.
const SHUFFLED: &[u8] = include_bytes!("../../samples/c-in-another-order.sheet");

#[test]
fn decoding_and_encoding_puts_records_in_order() {
    assert_eq!(encoded(run(&["decode"], SHUFFLED).text()), C);
}

#[test]
fn repacking_puts_records_in_order() {
    let file = Scratch::with("sheet", SHUFFLED);
    for (arguments, input) in [(["repack", file.path()].as_slice(), [].as_slice()), (&["repack"], SHUFFLED), (&["repack", "-"], C)] {
        let packed = run(arguments, input);
        assert_eq!((packed.status, packed.out.as_slice(), packed.errors.as_str()), (0, C, ""), "{arguments:?}");
    }
    assert_eq!(run(&["repack"], &large()).out, large());
}

/// Sheet C with its records in another order, and condition 1 withdrawn: records 1 and 3 are vacant.
const WITHOUT_1: [u8; 34] = [3, 0, 2, 0, 3, 0, 0, 0, 2, 0, 0, 0, 0, 0, 0, 0, 0, 0, 2, 0, 1, 0, 2, 0, 0, 0, 0, 0, 0, 0, 0, 0, 0, 0];

#[test]
fn withdrawing_blanks_a_condition_and_nothing_else() {
    let file = Scratch::with("sheet", SHUFFLED);
    for arguments in
        [["withdraw", file.path(), "1"].as_slice(), &["withdraw", "1"], &["withdraw", "-", "1"], &["withdraw", "--", "-", "01"]]
    {
        let without = run(arguments, SHUFFLED);
        assert_eq!((without.status, without.out.as_slice(), without.errors.as_str()), (0, WITHOUT_1.as_slice(), ""), "{arguments:?}");
    }
    assert_eq!(file.bytes().as_deref(), Some(SHUFFLED), "the file itself stays");
    assert_eq!(run(&["withdraw", "1"], C).out, include_bytes!("../../samples/c-withdrawn.sheet"));
    assert_eq!(run(&["withdraw", "1"], &WITHOUT_1).out, WITHOUT_1, "withdrawn already");
    assert_said(&run(&["decode"], &WITHOUT_1), 0, "lots 3\nwithdrawn\napart 1 2\n");
    assert_said(&run(&["search"], &WITHOUT_1), 0, "met: 3 groups, 1 record\n  1\n  2\n  3\n");
    assert_eq!(run(&["repack"], &WITHOUT_1).out, encoded("lots 3\nwithdrawn\napart 1 2"));
}

#[test]
fn only_a_condition_of_the_sheet_can_be_withdrawn() {
    let file = Scratch::with("sheet", C);
    let message = format!("{}: there is no condition 3: conditions count from 1 to 2", file.path());
    assert_complained(&run(&["withdraw", file.path(), "3"], &[]), 2, &message);
    assert_complained(&run(&["withdraw", "1"], &[0; 6]), 2, "standard input: there is no condition 1: the sheet has none");
}

const E: &[u8] = include_bytes!("../../samples/e.sheet");
const C_AND_E: &[u8] = include_bytes!("../../samples/c-and-e.sheet");

#[test]
fn merging_makes_one_sheet_of_two() {
    let (first, second) = (Scratch::with("first", SHUFFLED), Scratch::with("second", E));
    for (arguments, input) in [
        (["merge", first.path(), second.path()].as_slice(), [].as_slice()),
        (&["merge", first.path()], E),
        (&["merge", first.path(), "-"], E),
        (&["merge", "-", second.path()], SHUFFLED),
        (&["merge", "--", "-", second.path()], C),
    ] {
        let merged = run(arguments, input);
        assert_eq!((merged.status, merged.out.as_slice(), merged.errors.as_str()), (0, C_AND_E, ""), "{arguments:?}");
    }
    assert_eq!((first.bytes().as_deref(), second.bytes().as_deref()), (Some(SHUFFLED), Some(E)), "the files themselves stay");
    assert_eq!(run(&["merge", first.path(), first.path()], &[]).out, C);
    let text = "lots 4\nsame 1 2 | same 1 3\napart 1 2\nsame 1 3 | same 1 2\nsame 3 4\n";
    assert_said(&run(&["decode"], C_AND_E), 0, text);
    assert_eq!(run(&["repack"], C_AND_E).out, C_AND_E);
}

#[test]
fn withdrawn_conditions_of_both_sheets_stay_in_the_merged_one() {
    let (without, whole) = (Scratch::with("without", &WITHOUT_1), Scratch::with("whole", C));
    let merged = |first: &Scratch, second: &Scratch| run(&["merge", first.path(), second.path()], &[]).out;
    assert_said(&run(&["decode"], &merged(&without, &without)), 0, "lots 3\nwithdrawn\napart 1 2\nwithdrawn\n");
    assert_said(&run(&["decode"], &merged(&without, &whole)), 0, "lots 3\nwithdrawn\napart 1 2\nsame 1 2 | same 1 3\n");
    let again = Scratch::with("again", &merged(&without, &without));
    assert_said(&run(&["decode"], &merged(&again, &without)), 0, "lots 3\nwithdrawn\napart 1 2\nwithdrawn\nwithdrawn\n");
}

#[test]
fn a_refused_merge_names_the_sheet() {
    let (sheet, cut) = (Scratch::with("sheet", C), Scratch::with("cut", &C[..33]));
    let length = "check 3, the sheet's length isn't the one that its header gives";
    let short = "check 1, the sheet is shorter than its header of 6 bytes";
    let named = |which: &str, file: &Scratch| format!("{which} sheet, {}: {length}", file.path());
    assert_complained(&run(&["merge", cut.path(), sheet.path()], &[]), 2, &named("first", &cut));
    assert_complained(&run(&["merge", sheet.path(), cut.path()], &[]), 2, &named("second", &cut));
    assert_complained(&run(&["merge", cut.path(), cut.path()], &[]), 2, &named("first", &cut));
    assert_complained(&run(&["merge", cut.path()], &[1, 2, 3]), 2, &named("first", &cut));
    assert_complained(&run(&["merge", sheet.path()], &[1, 2, 3]), 2, &format!("second sheet, standard input: {short}"));
    assert_complained(&run(&["merge", "-", sheet.path()], &[1, 2, 3]), 2, &format!("first sheet, standard input: {short}"));
    // The first sheet is refused before the second is opened.
    let nowhere = Scratch::unwritten("nowhere");
    assert_complained(&run(&["merge", cut.path(), nowhere.path()], &[]), 2, &named("first", &cut));
    let unread = run(&["merge", sheet.path(), nowhere.path()], &[]);
    assert!(unread.errors.starts_with(&format!("lihumbay: second sheet, {}: can't be read: ", nowhere.path())), "{}", unread.errors);
    let text = run(&["merge", sheet.path()], A.as_bytes());
    assert!(text.status == 2 && text.errors.starts_with("lihumbay: second sheet, standard input: check "), "{}", text.errors);
    assert!(text.errors.ends_with("; this looks like text: `lihumbay encode` makes a sheet of it\n"), "{}", text.errors);
}

#[test]
fn a_merged_sheet_that_is_too_large_is_refused() {
    let conditions: String = (1..=128).map(|lot| format!("same 1 {lot}\napart 1 {lot}\n")).collect();
    let conditions = Scratch::with("conditions", &encoded(&conditions));
    let terms = Scratch::with("terms", &encoded(&vec!["same 1 1"; 1024].join(" | ")));
    let over = "check 18, a count of the merged sheet is above its most";
    assert_complained(&run(&["merge", conditions.path()], C), 2, &format!("{over}: conditions, at most 256"));
    assert_complained(&run(&["merge", terms.path()], C), 2, &format!("{over}: terms, at most 1024"));
    assert_complained(&run(&["merge", terms.path(), conditions.path()], &[]), 2, &format!("{over}: conditions, at most 256"));
    for file in [conditions, terms] {
        assert_eq!(Some(run(&["merge", file.path(), file.path()], &[]).out), file.bytes());
    }
    let withdrawn = Scratch::with("withdrawn", &encoded(&"withdrawn\n".repeat(129)));
    assert_complained(&run(&["merge", withdrawn.path(), withdrawn.path()], &[]), 2, &format!("{over}: conditions, at most 256"));
    assert_eq!(run(&["merge", withdrawn.path()], &encoded(&"withdrawn\n".repeat(127))).out, encoded(&"withdrawn\n".repeat(256)));
}

#[test]
fn wrong_text_is_refused_with_its_place() {
    let lot = "standard input: line 2, column 20: lot 9 is out of range: lots count from 0 to 3";
    assert_complained(&run(&["encode"], b"lots 3\nsame 1 2 | apart 3 9"), 2, lot);
    let never = run(&["encode"], b"never");
    assert!(
        never.status == 2 && never.errors.contains("line 1, column 1: `never`: ") && never.errors.contains("`withdrawn`"),
        "{}",
        never.errors
    );
    let file = Scratch::with("text", b"\n  differ 1 2\n");
    let word = format!("{}: line 2, column 3: `differ`: a term should stand here: `same` or `apart`, and two lots", file.path());
    assert_complained(&run(&["encode", file.path()], &[]), 2, &word);
}

#[test]
fn wrong_arguments_are_refused() {
    let wrong = |arguments: &[&str], message: &str| assert_complained(&run(arguments, &[]), 2, message);
    wrong(&[], "a command is missing; see `lihumbay --help`");
    wrong(&["solve"], "there is no command `solve`; see `lihumbay --help`");
    wrong(&["help", "solve"], "there is no command `solve`; see `lihumbay --help`");
    wrong(&["check", "--dot"], "there is no option `--dot`; see `lihumbay check --help`");
    wrong(&["search", "--dot=svg"], "`--dot` takes no value; see `lihumbay search --help`");
    wrong(&["search", "--records"], "`--records` needs a value; see `lihumbay search --help`");
    wrong(&["search", "--records=+1"], "`--records` is a number from 0 to 65535, not `+1`; see `lihumbay search --help`");
    wrong(&["search", "--records", "65536"], "`--records` is a number from 0 to 65535, not `65536`; see `lihumbay search --help`");
    wrong(&["search", "--grouping", "-"], "`--grouping` needs the name of a file; see `lihumbay search --help`");
    wrong(&["search", "a", "b"], "2 files are given, where the sheet should be; see `lihumbay search --help`");
    wrong(&["repack", "a", "b"], "2 files are given, where the sheet should be; see `lihumbay repack --help`");
    wrong(&["merge"], "0 files are given, where the first sheet and the second sheet should be; see `lihumbay merge --help`");
    wrong(
        &["merge", "a", "b", "c"],
        "3 files are given, where the first sheet and the second sheet should be; see `lihumbay merge --help`",
    );
    wrong(&["merge", "-"], "only one file can be standard input; see `lihumbay merge --help`");
    wrong(&["merge", "-", "-"], "only one file can be standard input; see `lihumbay merge --help`");
    wrong(&["merge", "--repack"], "there is no option `--repack`; see `lihumbay merge --help`");
    wrong(&["withdraw"], "the condition's number is missing; see `lihumbay withdraw --help`");
    wrong(&["withdraw", "a", "b", "1"], "2 files are given, where the sheet should be; see `lihumbay withdraw --help`");
    for number in ["0", "257", "4294967297", "99999999999999999999", "+1", "", "c.sheet"] {
        wrong(
            &["withdraw", "a", number],
            &format!("a condition is a number from 1 to 256, not `{number}`; see `lihumbay withdraw --help`"),
        );
    }
    wrong(&["withdraw", "-1"], "there is no option `-1`; see `lihumbay withdraw --help`");
    wrong(&["check"], "0 files are given, where the sheet and the list should be; see `lihumbay check --help`");
    wrong(&["check", "-", "-"], "only one file can be standard input; see `lihumbay check --help`");
}

#[test]
fn files_that_cannot_be_read_or_written_are_named() {
    let nowhere = Scratch::unwritten("nowhere");
    let read = run(&["search", nowhere.path()], &[]);
    assert_eq!(read.status, 2);
    assert!(read.errors.starts_with(&format!("lihumbay: {}: can't be read: ", nowhere.path())), "{}", read.errors);
    let inside = format!("{}/grouping", nowhere.path());
    let written = run(&["search", "--grouping", &inside], C);
    assert_eq!((written.status, written.text()), (2, ""));
    assert!(written.errors.starts_with(&format!("lihumbay: {inside}: can't be written: ")), "{}", written.errors);
}

#[test]
fn help_is_there_for_the_whole_and_for_each_command() {
    for arguments in [["--help"].as_slice(), &["-h"], &["help"]] {
        let whole = run(arguments, &[]);
        assert_eq!((whole.status, whole.errors.as_str()), (0, ""));
        assert!(whole.text().contains("Exit status:"));
    }
    for name in ["encode", "decode", "repack", "merge", "withdraw", "search", "check", "evaluate", "count", "reassign"] {
        let help = run(&[name, "--help"], &[]);
        assert!(help.text().starts_with(&format!("Usage: lihumbay {name} ")), "{name}");
        assert_said(&run(&["help", name], &[]), 0, help.text());
        assert!(help.text().lines().all(|line| line.len() <= 80), "{name}");
    }
    assert_said(&run(&["--version"], &[]), 0, concat!("lihumbay ", env!("CARGO_PKG_VERSION"), "\n"));
}

#[test]
fn a_reader_that_stops_early_ends_the_command_quietly() {
    let sheet = Scratch::with("sheet", &large());
    let child = command().args(["search", sheet.path()]).stdin(Stdio::null()).stdout(Stdio::piped()).stderr(Stdio::piped()).spawn();
    let mut child = child.expect("the command starts");
    let mut first = String::new();
    BufReader::with_capacity(16, child.stdout.take().expect("output is piped")).read_line(&mut first).expect("a line comes");
    assert_eq!(first, "cannot be met: refutation of 65533 records\n");
    let mut errors = String::new();
    child.stderr.take().expect("errors are piped").read_to_string(&mut errors).expect("messages are text");
    assert_eq!((child.wait().expect("the command ends").code(), errors.as_str()), (Some(1), ""));
}

#[test]
fn deep_records_say_how_deep_they_are() {
    let terms: Vec<String> = (2..=60).map(|lot| format!("same 1 {lot}")).collect();
    let report = run(&["search"], &encoded(&format!("{}\napart 1 1", terms.join(" | "))));
    assert!(report.text().contains(&format!("{}apart 1 41: split 1 42\n", "  ".repeat(40))));
    assert!(report.text().contains(&format!("{}(41 deep) apart 1 42: split 1 43\n", "  ".repeat(40))));
}

/// One condition with as many "same" terms as a sheet can have beside one that nothing meets: a path has a split for each term.
#[test]
fn the_deepest_search_needs_no_stack_of_the_command() {
    let pairs = (1..=46).flat_map(|a| (a + 1..=46).map(move |b| format!("same {a} {b}"))).take(1023).collect::<Vec<_>>();
    let sheet = Scratch::with("sheet", &encoded(&format!("{}\napart 1 1", pairs.join(" | "))));
    let mut shell = Command::new("sh");
    shell.args(["-c", "ulimit -s 256 && exec \"$0\" search \"$1\"", env!("CARGO_BIN_EXE_lihumbay"), sheet.path()]);
    let output = shell.output().expect("the shell starts");
    assert_eq!(output.status.code(), Some(1), "{}", String::from_utf8_lossy(&output.stderr));
    assert!(output.stdout.starts_with(b"cannot be met: refutation of 2047 records\n"));
}

#[test]
fn a_sheet_is_found_whole_behind_a_slow_pipe() {
    let child = command().arg("search").stdin(Stdio::piped()).stdout(Stdio::piped()).spawn();
    let mut child = child.expect("the command starts");
    let mut input = child.stdin.take().expect("input is piped");
    for byte in C {
        input.write_all(&[*byte]).and_then(|()| input.flush()).expect("the command reads");
    }
    drop(input);
    assert_eq!(child.wait_with_output().expect("the command ends").status.code(), Some(0));
}

//! The commands `count` and `reassign`: what they print, and how they end.
mod support;

use std::io::{BufRead, BufReader, Read};
use std::process::Stdio;
use support::{Scratch, assert_complained, assert_said, command, encoded, run};

const C: &[u8] = include_bytes!("../../samples/c.sheet");
const C_AND_E: &[u8] = include_bytes!("../../samples/c-and-e.sheet");
const MOVES: &[u8] = include_bytes!("../../samples/c-and-e-moves.txt");

const MOVES_REPORT: &str = "\
lot 3 to 2: 3 unmet
lot 4 to 2: 2 unmet
lot 1 to 2: 1 unmet
lot 2 to 5: 0 unmet
unmet: 0 of 4 conditions
grouping: 2 5 2 2
";

const NO_LOT: &str = "refused by check 21, the lot to reassign is 0 or above the number of lots";

#[test]
fn unmet_conditions_are_counted() {
    let (sheet, grouping) = (Scratch::with("sheet", C), Scratch::with("grouping", &[7, 7, 7]));
    assert_said(&run(&["count", sheet.path(), grouping.path()], &[]), 1, "unmet: 1 of 2 conditions\n");
    assert_said(&run(&["count", sheet.path()], &[7, 8, 7]), 0, "unmet: 0 of 2 conditions\n");
    assert_said(&run(&["count", sheet.path(), "-"], &[7, 8, 9, 9]), 1, "unmet: 1 of 2 conditions\n");
    assert_said(&run(&["count", "-", grouping.path()], &encoded("apart 0 1\nsame 1 1")), 0, "unmet: 0 of 2 conditions\n");
    assert_said(&run(&["count", "-", grouping.path()], &encoded("same 0 1")), 1, "unmet: 1 of 1 condition\n");
    // A withdrawn condition is met, and one of the sheet's.
    assert_said(&run(&["count", "-", grouping.path()], &encoded("withdrawn\nsame 0 1\nwithdrawn")), 1, "unmet: 1 of 3 conditions\n");
    assert_said(&run(&["count", "-", grouping.path()], &encoded("")), 0, "unmet: 0 of 0 conditions\n");
}

#[test]
fn each_move_has_its_count_and_the_end_its_grouping() {
    let (sheet, grouping, moves) = (Scratch::with("sheet", C_AND_E), Scratch::unwritten("grouping"), Scratch::with("moves", MOVES));
    assert_eq!(run(&["search", sheet.path(), "--grouping", grouping.path()], &[]).status, 0);
    let files = ["reassign", sheet.path(), grouping.path()];
    assert_said(&run(&files, MOVES), 0, MOVES_REPORT);
    assert_said(&run(&[files.as_slice(), &["-"]].concat(), MOVES), 0, MOVES_REPORT);
    assert_said(&run(&[files.as_slice(), &[moves.path()]].concat(), &[]), 0, MOVES_REPORT);
    assert_said(&run(&["reassign", sheet.path(), "-", moves.path()], &[1, 2, 1, 1, 9, 9]), 0, MOVES_REPORT);
    assert_said(&run(&["reassign", "-", grouping.path(), moves.path()], C_AND_E), 0, MOVES_REPORT);
    assert_eq!(grouping.bytes(), Some(vec![1, 2, 1, 1]), "the file itself stays");
    // A part of the moves, none, and one that changes nothing.
    assert_said(&run(&files, b"3 2\n4 2"), 1, "lot 3 to 2: 3 unmet\nlot 4 to 2: 2 unmet\nunmet: 2 of 4 conditions\ngrouping: 1 2 2 2\n");
    assert_said(&run(&files, b""), 0, "unmet: 0 of 4 conditions\ngrouping: 1 2 1 1\n");
    assert_said(&run(&files, b"\xef\xbb\xbf2 2\r\n"), 0, "lot 2 to 2: 0 unmet\nunmet: 0 of 4 conditions\ngrouping: 1 2 1 1\n");
}

/// The example of the help page.
#[test]
fn the_help_has_a_true_example() {
    let help = run(&["reassign", "--help"], &[]);
    let (sheet, grouping) = (Scratch::with("sheet", C), Scratch::with("grouping", &[7, 7, 7]));
    let report = "lot 2 to 8: 0 unmet\nlot 3 to 0: 1 unmet\nunmet: 1 of 2 conditions\ngrouping: 7 8 0\n";
    assert_said(&run(&["reassign", sheet.path(), grouping.path()], b"2 8\n3 0\n"), 1, report);
    assert!(report.lines().all(|line| help.text().contains(&format!("\n  {line}\n"))), "{}", help.text());
}

#[test]
fn the_grouping_can_be_written_and_taken_again() {
    let (sheet, before, after) = (Scratch::with("sheet", C_AND_E), Scratch::with("before", &[1, 2, 1, 1]), Scratch::unwritten("after"));
    let moved = run(&["reassign", sheet.path(), before.path(), "--grouping", after.path()], b"3 2\n4 2\n");
    assert_eq!((moved.status, after.bytes()), (1, Some(vec![1, 2, 2, 2])));
    assert_said(&run(&["count", sheet.path(), after.path()], &[]), 1, "unmet: 2 of 4 conditions\n");
    assert_said(&run(&["evaluate", sheet.path(), after.path()], &[]), 1, "condition 1 is not met: same 1 2 | same 1 3\n");
    // The file that it came from may be written.
    let rest = format!("--grouping={}", after.path());
    assert_eq!(run(&["reassign", &rest, sheet.path(), after.path()], b"1 2\n2 5\n").status, 0);
    assert_eq!((before.bytes(), after.bytes()), (Some(vec![1, 2, 1, 1]), Some(vec![2, 5, 2, 2])));
    assert_said(&run(&["count", sheet.path(), after.path()], &[]), 0, "unmet: 0 of 4 conditions\n");
    // Only the bytes of lots are written, however long the grouping was.
    assert_eq!(run(&["reassign", &rest, sheet.path(), "-", "/dev/null"], &[3; 200]).status, 1);
    assert_eq!(after.bytes(), Some(vec![3; 4]));
}

#[test]
fn a_refused_move_changes_nothing_and_the_others_go_on() {
    let (sheet, grouping, after) = (Scratch::with("sheet", C), Scratch::with("grouping", &[7, 7, 7]), Scratch::unwritten("after"));
    let moves = b"0 1\n2 8\n4 7\n257 7\n4294967295 0\n3 9\n3 7\n";
    let moved = run(&["reassign", sheet.path(), grouping.path(), "--grouping", after.path()], moves);
    let report = format!(
        "lot 0 to 1: {NO_LOT}: lot 0\nlot 2 to 8: 0 unmet\nlot 4 to 7: {NO_LOT}: lot 4\nlot 257 to 7: {NO_LOT}: lot 257\n\
         lot 4294967295 to 0: {NO_LOT}: lot 4294967295\nlot 3 to 9: 1 unmet\nlot 3 to 7: 0 unmet\nunmet: 0 of 2 conditions\ngrouping: 7 8 7\n"
    );
    assert_eq!(
        (moved.status, moved.text(), moved.errors.as_str()),
        (2, report.as_str(), "lihumbay: standard input: refused: 4 of 7 moves\n")
    );
    assert_eq!(after.bytes(), Some(vec![7, 8, 7]));
    let (zero, moves) = (Scratch::with("zero", &encoded("apart 0 0")), Scratch::with("moves", b"1 1"));
    let alone = run(&["reassign", zero.path(), "-", moves.path()], &[]);
    let report = format!("lot 1 to 1: {NO_LOT}: lot 1\nunmet: 1 of 1 condition\ngrouping:\n");
    let errors = format!("lihumbay: {}: refused: 1 of 1 move\n", moves.path());
    assert_eq!((alone.status, alone.text(), alone.errors.as_str()), (2, report.as_str(), errors.as_str()));
}

#[test]
fn where_a_line_is_wrong_no_move_is_made() {
    let (sheet, grouping, after) = (Scratch::with("sheet", C), Scratch::with("grouping", &[7, 7, 7]), Scratch::unwritten("after"));
    let wrong = |moves: &[u8], message: &str| {
        let moved = run(&["reassign", sheet.path(), grouping.path(), "--grouping", after.path()], moves);
        assert_complained(&moved, 2, &format!("standard input: {message}"));
        assert_eq!(after.bytes(), None);
    };
    wrong(b"2 8\n# and\n\n 3\n", "line 4, column 3: a number from 0 to 255 is missing");
    wrong(b"2 8\n3 256\n", "line 2, column 3: `256`: a number from 0 to 255 should stand here");
    wrong(b"2 8\n4294967296 1\n", "line 2, column 1: `4294967296`: a lot's number should stand here");
    wrong(b"2 8 9", "line 1, column 5: `9`: the end of the line should stand here");
    wrong(b"lot 2 to 8", "line 1, column 1: `lot`: a lot's number should stand here");
    wrong(&[2, 0, 8, 0], "this isn't text; each move is a line with a lot and its new number");
    wrong(b"2 \xff", "this isn't text; each move is a line with a lot and its new number");
}

#[test]
fn a_refused_sheet_or_grouping_comes_before_the_moves() {
    let (sheet, cut, short) = (Scratch::with("sheet", C), Scratch::with("cut", &C[..33]), Scratch::with("short", &[7, 7]));
    let length = format!("{}: check 3, the sheet's length isn't the one that its header gives", cut.path());
    let lots = format!("{}: check 8, the grouping is shorter than the number of lots: lots 3", short.path());
    for command in ["count", "reassign"] {
        let moves: &[&str] = if command == "count" { &[] } else { &["-"] };
        assert_complained(&run(&[&[command, cut.path(), short.path()], moves].concat(), b"wrong"), 2, &length);
        assert_complained(&run(&[&[command, sheet.path(), short.path()], moves].concat(), b"wrong"), 2, &lots);
    }
    let text = run(&["count", "-", short.path()], b"same 1 2");
    assert!(text.errors.ends_with("; this looks like text: `lihumbay encode` makes a sheet of it\n"), "{}", text.errors);
    let nowhere = Scratch::unwritten("nowhere");
    let unread = run(&["reassign", sheet.path(), nowhere.path()], &[]);
    assert!(
        unread.status == 2 && unread.errors.starts_with(&format!("lihumbay: {}: can't be read: ", nowhere.path())),
        "{}",
        unread.errors
    );
}

#[test]
fn wrong_arguments_are_refused() {
    let wrong = |arguments: &[&str], message: &str| assert_complained(&run(arguments, &[]), 2, message);
    wrong(&["count"], "0 files are given, where the sheet and the grouping should be; see `lihumbay count --help`");
    wrong(&["count", "a", "b", "c"], "3 files are given, where the sheet and the grouping should be; see `lihumbay count --help`");
    wrong(&["count", "-"], "only one file can be standard input; see `lihumbay count --help`");
    wrong(&["count", "--grouping", "a"], "there is no option `--grouping`; see `lihumbay count --help`");
    let all = "given, where the sheet, the grouping and the moves should be; see `lihumbay reassign --help`";
    wrong(&["reassign"], &format!("0 files are {all}"));
    wrong(&["reassign", "a"], &format!("1 file is {all}"));
    wrong(&["reassign", "a", "b", "c", "d"], &format!("4 files are {all}"));
    wrong(&["reassign", "-", "b"], "only one file can be standard input; see `lihumbay reassign --help`");
    wrong(&["reassign", "a", "b", "--grouping", "-"], "`--grouping` needs the name of a file; see `lihumbay reassign --help`");
    wrong(&["reassign", "a", "b", "--limit", "1"], "there is no option `--limit`; see `lihumbay reassign --help`");
    wrong(&["reassign", "a", "b", "--count", "1"], "there is no option `--count`; see `lihumbay reassign --help`");
}

#[test]
fn a_reader_that_stops_early_loses_no_grouping() {
    let (sheet, grouping, after) = (Scratch::with("sheet", C), Scratch::with("grouping", &[7, 7, 7]), Scratch::unwritten("after"));
    let moves = Scratch::with("moves", "2 8\n2 7\n".repeat(50_000).as_bytes());
    let mut child = command();
    child.args(["reassign", sheet.path(), grouping.path(), moves.path(), "--grouping", after.path()]);
    let mut child = child.stdin(Stdio::null()).stdout(Stdio::piped()).stderr(Stdio::piped()).spawn().expect("the command starts");
    let mut first = String::new();
    BufReader::with_capacity(16, child.stdout.take().expect("output is piped")).read_line(&mut first).expect("a line comes");
    assert_eq!(first, "lot 2 to 8: 0 unmet\n");
    let mut errors = String::new();
    child.stderr.take().expect("errors are piped").read_to_string(&mut errors).expect("messages are text");
    assert_eq!((child.wait().expect("the command ends").code(), errors.as_str(), after.bytes()), (Some(1), "", Some(vec![7, 7, 7])));
}

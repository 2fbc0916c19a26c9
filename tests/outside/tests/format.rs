//! Every example of docs/FORMAT.md, run: the services through the archive, the printed text through the program, where that is built.
use lihumbay::{Check, raw};
use outside::compare::plain;
use outside::page::{Answer, Call, FILL, Page};
use outside::run::say;
use std::collections::BTreeSet;
use std::io::Write;
use std::path::{Path, PathBuf};
use std::process::{Command, Stdio};

const TEXT: &str = include_str!("../../../docs/FORMAT.md");

/// The printing program, where `rt` leaves it.
fn program() -> PathBuf {
    Path::new(env!("CARGO_MANIFEST_DIR")).join("../../crates/print_search/out/print_search")
}

fn printed(sheet: &[u8]) -> Vec<u8> {
    let child = Command::new(program()).stdin(Stdio::piped()).stdout(Stdio::piped()).spawn();
    let mut child = child.expect("the program starts");
    child.stdin.take().expect("input is piped").write_all(sheet).expect("the program reads");
    child.wait_with_output().expect("the program ends").stdout
}

/// A limit, a running count or a lot, which are given as four bytes.
fn number(bytes: &[u8]) -> u32 {
    u32::from_le_bytes(bytes.try_into().expect("a number is four bytes"))
}

/// A lot's new number, which is given as one byte.
fn byte(bytes: &[u8]) -> u8 {
    u8::from_le_bytes(bytes.try_into().expect("a lot's number is one byte"))
}

/// The numbers of a search, with both buffers as the page has them afterwards.
fn searched(call: &Call, search: impl FnOnce(&mut [u8], &mut [u8]) -> raw::Numbers, grouping_after: &[u8], store_after: &[u8]) -> Answer {
    let (mut grouping, mut store) = (vec![FILL; grouping_after.len()], vec![FILL; store_after.len()]);
    let numbers = plain(search(&mut grouping, &mut store));
    assert_eq!(grouping, grouping_after, "the grouping after {}", call.text);
    assert_eq!(store, store_after, "the store after {}", call.text);
    Answer::Numbers(numbers)
}

/// The numbers of a reassignment, with the grouping as the page has it before and afterwards.
fn reassigned(call: &Call, reassign: impl FnOnce(&mut [u8]) -> raw::Numbers, before: &[u8], after: &[u8]) -> Answer {
    let mut grouping = before.to_vec();
    let numbers = plain(reassign(&mut grouping));
    assert_eq!(grouping, after, "the grouping after {}", call.text);
    Answer::Numbers(numbers)
}

/// The repacker's numbers, with the output as the page has it afterwards.
fn repacked(call: &Call, sheet: &[u8], out_after: &[u8]) -> Answer {
    let mut out = vec![FILL; out_after.len()];
    let numbers = plain(raw::repack(sheet, &mut out));
    assert_eq!(out, out_after, "the output after {}", call.text);
    Answer::Numbers(numbers)
}

/// The numbers of a merge, with the output as the page has it afterwards.
fn merged(call: &Call, first: &[u8], second: &[u8], out_after: &[u8]) -> Answer {
    let mut out = vec![FILL; out_after.len()];
    let numbers = plain(raw::merge(first, second, &mut out));
    assert_eq!(out, out_after, "the output after {}", call.text);
    Answer::Numbers(numbers)
}

fn answered(call: &Call) -> Answer {
    match (call.service.as_str(), call.given.as_slice()) {
        ("read", [sheet]) => Answer::Numbers(plain(raw::read(sheet))),
        ("search", [sheet, grouping, store]) => searched(call, |g, s| raw::search(sheet, g, s), grouping, store),
        ("search_limited", [sheet, most, grouping, store]) => {
            searched(call, |g, s| raw::search_limited(sheet, number(most), g, s), grouping, store)
        }
        ("evaluate", [sheet, grouping]) => Answer::Numbers(plain(raw::evaluate(sheet, grouping))),
        ("count_unmet", [sheet, grouping]) => Answer::Numbers(plain(raw::count_unmet(sheet, grouping))),
        ("reassign", [sheet, before, count, lot, value, after]) => {
            reassigned(call, |grouping| raw::reassign(sheet, grouping, number(count), number(lot), byte(value)), before, after)
        }
        ("check", [sheet, list]) => Answer::Numbers(plain(raw::check(sheet, list))),
        ("check_limited", [sheet, most, list]) => Answer::Numbers(plain(raw::check_limited(sheet, number(most), list))),
        ("repack", [sheet, out]) => repacked(call, sheet, out),
        ("merge", [first, second, out]) => merged(call, first, second, out),
        ("print", [sheet]) => Answer::Printed(printed(sheet)),
        _ => panic!("there is no such call: {}", call.text),
    }
}

#[test]
fn calls_are_answered_as_the_page_says() {
    let page = Page::of(TEXT);
    let there = program().exists();
    if !there {
        say("SKIPPED: the printed texts of docs/FORMAT.md, since `rt run` in crates/print_search has not built the program");
    }
    for call in page.calls.iter().filter(|call| there || call.service != "print") {
        assert_eq!(answered(call), call.answer, "{}", call.text);
    }
}

#[test]
fn each_check_has_its_row_and_a_refusal() {
    let known: BTreeSet<u32> = (1..).take_while(|&number| Check::new(number).subject().is_some()).collect();
    let refused = Page::of(TEXT).calls.into_iter().filter_map(|call| match call.answer {
        Answer::Numbers([check, ..]) if check > 0 => Some(check),
        _ => None,
    });
    assert_eq!(refused.collect::<BTreeSet<u32>>(), known);
    let section = TEXT.lines().skip_while(|line| *line != "## Checks").skip(1).take_while(|line| !line.starts_with("## "));
    let rows = section.filter_map(|line| line.strip_prefix("| ")?.split(' ').next()?.parse().ok());
    assert_eq!(rows.collect::<Vec<u32>>(), Vec::from_iter(known));
}

#[test]
fn the_sheets_of_the_page_are_the_samples() {
    let page = Page::of(TEXT);
    assert_eq!(page.block("C"), include_bytes!("../../../samples/c.sheet"));
    assert_eq!(page.block("C-in-another-order"), include_bytes!("../../../samples/c-in-another-order.sheet"));
    assert_eq!(page.block("C-withdrawn"), include_bytes!("../../../samples/c-withdrawn.sheet"));
    assert_eq!(page.block("E"), include_bytes!("../../../samples/e.sheet"));
    assert_eq!(page.block("C-and-E"), include_bytes!("../../../samples/c-and-e.sheet"));
}

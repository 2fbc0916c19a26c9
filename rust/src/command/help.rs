//! The help texts. Lines are at most 80 characters long.
use lihumbay::{MOST_CONDITIONS, MOST_LIMIT, MOST_LOTS, MOST_RECORDS, MOST_TERMS};

pub const WHOLE: &str = "\
lihumbay: a verified solver for equality conditions

Usage: lihumbay COMMAND [OPTIONS] [FILES]

Commands:
  encode    make a sheet of readable text
  decode    write a sheet as readable text
  repack    put a sheet's records in order, so that equal sheets are equal files
  merge     make one sheet of two, met by what meets both
  withdraw  take a condition out of a sheet; the others keep their numbers
  search    find a grouping that meets a sheet, or a refutation
  check     check a refutation from any hand
  evaluate  say whether a grouping meets a sheet
  count     count the conditions that a grouping doesn't meet
  reassign  give lots other numbers, and count after each

  COMMAND --help, help COMMAND   what a command takes and writes
  --version                      the version

A file that is `-`, or the last one if it is missing, is standard input.

Exit status:
  0  met, passed, written
  1  cannot be met, refused by the refutation checker, not met
  2  a refused sheet, limit or move, two sheets too large to merge, a file that
     can't be read or written, wrong arguments
  3  a search's store is full, which says neither met nor cannot
";

fn encode() -> String {
    format!(
        "\
Usage: lihumbay encode [TEXT] > SHEET

Makes a sheet of readable text, and writes its bytes to standard output.

  # Three lots, two conditions.
  lots 3
  same 1 2 | same 1 3
  apart 1 2

Each line is a condition: one term or more, parted by `|`. `same A B` is true
when lots A and B have the same number, `apart A B` when they have different
ones. A condition is met when a term is true, a sheet when all conditions are.
The line `withdrawn` is a condition with no term, which everything meets.

`lots N` may stand before the conditions; without it the lots are 1 to the
highest named. `#` begins a comment. Empty lines are passed over.

A term may also name lot 0, which is in every sheet and has the number 0:
`same 0 3` asks the number 0 of lot 3, `apart 0 3` another one. `lots N` doesn't
count lot 0.

A sheet has at most {MOST_LOTS} lots, {MOST_CONDITIONS} conditions and {MOST_TERMS} terms.
"
    )
}

const DECODE: &str = "\
Usage: lihumbay decode [SHEET]

Writes a sheet as the text that `lihumbay encode` reads. Encoded again, it is
the packed sheet: the same lots and conditions, the records in order of
condition, and none of them vacant.
";

const REPACK: &str = "\
Usage: lihumbay repack [SHEET] > PACKED

Writes the sheet's bytes to standard output with the records of condition 1
first, in order, then those of condition 2, and so on. Vacant records are
dropped, and withdrawn conditions keep their numbers. Two sheets with the same
lots and the same conditions give the same bytes, two that differ never do, and
a packed sheet stays as it is.

Exit status: 0 written, 2 the sheet is refused.
";

fn merge() -> String {
    format!(
        "\
Usage: lihumbay merge FIRST [SECOND] > MERGED

Makes one sheet of two, and writes its bytes to standard output. What meets the
merged sheet is what meets both. It has the larger number of lots, and the
conditions of the first sheet in their order, then those of the second. A
condition with the same terms in the same order as an earlier one, of either
sheet, is left out. Withdrawn conditions all stay: a condition moves up only by
the repeats that are left out before it. The records are in order, as
`lihumbay repack` writes them.

The first sheet is read before the second, and a refusal says which of the two
is refused. The merged sheet has at most {MOST_CONDITIONS} conditions and {MOST_TERMS} terms, those
that are left out not counted.

Exit status: 0 written, 2 a sheet is refused, or the merged one is too large.
"
    )
}

const WITHDRAW: &str = "\
Usage: lihumbay withdraw [SHEET] CONDITION > WITHDRAWN

Writes the sheet's bytes to standard output with one condition withdrawn, the
one with this number: its head is zero, and its records are blanked. All other
bytes stay as they were, so that the other conditions keep their numbers.
Everything meets a withdrawn condition. Where it is withdrawn already, no byte
changes. `lihumbay repack` drops the blanked records.

Exit status: 0 written, 2 the sheet is refused or has no such condition.
";

fn search() -> String {
    format!(
        "\
Usage: lihumbay search [OPTIONS] [SHEET]

Searches for a grouping that meets the sheet. The report is
  met            and a line for each group, the lots that have one number;
                 where the sheet names lot 0, the first of them is `0:` and
                 the lots that are together with it, if there are any;
  cannot be met  and the refutation, a line for each of its records: a split,
                 and below it what follows when its lots are the same, then
                 when they are apart; a ground with its condition, of which
                 every term is false there; under a limit, a clique with its
                 classes, one more than the limit and all of them apart;
  store full     where the search visits more nodes than the store has records.

Options:
  --limit G          no more than G groups, from 1 to {MOST_LIMIT}; lot 0's counts as one
                     also where no lot is together with it, and has its line
  --records N        a store of N records, at most (and if not given) {MOST_RECORDS}
  --dot              no report: the nodes visited, as a Graphviz graph; the
                     node that is met has the report's line `0:`, if any
  --refutation FILE  if there is a refutation, write its records to FILE, which
                     `lihumbay check` takes, with the same limit
  --grouping FILE    if there is a grouping, write its bytes to FILE, one for
                     each lot from 1 on, which `lihumbay evaluate`, `count` and
                     `reassign` take; lots together with lot 0 have byte 0

Exit status: 0 met, 1 cannot be met, 2 a refused sheet or limit, 3 store full.
"
    )
}

fn check() -> String {
    format!(
        "\
Usage: lihumbay check [OPTIONS] SHEET [LIST]

Checks a list of records, from any hand. If it passes, nothing meets the sheet.

Options:
  --limit G   the list may have cliques, and if it passes, nothing meets the
              sheet with no more than G groups, from 1 to {MOST_LIMIT}; lot 0's counts
              as one also where no lot is together with it

Exit status: 0 passed, 1 the list is refused, 2 the sheet or limit is refused.
"
    )
}

const EVALUATE: &str = "\
Usage: lihumbay evaluate SHEET [GROUPING]

Says whether a grouping meets the sheet: a byte for each lot from 1 on, its
number. Lot 0 has no byte, and its number is 0. Where the grouping doesn't meet
the sheet, the lowest condition that isn't met is named.

Exit status: 0 all conditions are met, 1 one isn't, 2 the sheet is refused or
the grouping is shorter than the number of lots.
";

const COUNT: &str = "\
Usage: lihumbay count SHEET [GROUPING]

Counts the conditions that a grouping doesn't meet: a byte for each lot from 1
on, its number, as `lihumbay evaluate` takes it.

  unmet: 1 of 2 conditions

A withdrawn condition is one of the sheet's conditions, and is always met.

Exit status: 0 all conditions are met, 1 one isn't, 2 the sheet is refused or
the grouping is shorter than the number of lots.
";

const REASSIGN: &str = "\
Usage: lihumbay reassign [OPTIONS] SHEET GROUPING [MOVES]

Gives lots of a grouping other numbers, one after the other, and counts the
conditions that aren't met after each. For a move only the conditions that name
the lot are evaluated. The moves are text, a lot and its new number on each
line:

  # Lot 2 gets a number of its own; lot 3 goes to lot 0.
  2 8
  3 0

A number is from 0 to 255, and is the lot's byte in the grouping: lots with the
same one are together, and those with 0 are together with lot 0. `#` begins a
comment. Empty lines are passed over. Where a line is anything else, no move is
made.

The report has a line for each move, then the count in the end, and the numbers
of lots 1 to the last:

  lot 2 to 8: 0 unmet
  lot 3 to 0: 1 unmet
  unmet: 1 of 2 conditions
  grouping: 7 8 0

A lot that the sheet doesn't have, or lot 0, whose number is always 0, is
refused by check 21. Its line says so, nothing changes by it, and the moves
after it are made.

Options:
  --grouping FILE    write the grouping as it is in the end to FILE, a byte for
                     each lot from 1 on, which `lihumbay count`, `evaluate` and
                     `reassign` take; it may be the file GROUPING itself

Exit status: 0 all conditions are met in the end, 1 one isn't, 2 a move or the
sheet is refused, the grouping is shorter than the number of lots, or a line of
the moves is wrong.
";

/// The help of a command, if there is such a command.
pub fn of(command: &str) -> Option<String> {
    Some(match command {
        "encode" => encode(),
        "decode" => DECODE.into(),
        "repack" => REPACK.into(),
        "merge" => merge(),
        "withdraw" => WITHDRAW.into(),
        "search" => search(),
        "check" => check(),
        "evaluate" => EVALUATE.into(),
        "count" => COUNT.into(),
        "reassign" => REASSIGN.into(),
        _ => return None,
    })
}

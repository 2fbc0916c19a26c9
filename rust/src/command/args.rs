//! The arguments: which command, with which files and options.
use super::ending::Failure;
use super::files::Source;
use super::help;
use lihumbay::{MOST_CONDITIONS, MOST_LIMIT, MOST_RECORDS};
use std::ffi::{OsStr, OsString};
use std::path::PathBuf;

/// What is asked for.
#[derive(Debug, PartialEq)]
pub enum Request {
    Help(String),
    Version,
    Encode { text: Source },
    Decode { sheet: Source },
    Repack { sheet: Source },
    Merge { first: Source, second: Source },
    Withdraw { sheet: Source, condition: u32 },
    Search(Search),
    Check { sheet: Source, list: Source, limit: Option<u32> },
    Evaluate { sheet: Source, grouping: Source },
    Count { sheet: Source, grouping: Source },
    Reassign(Reassign),
}

/// The arguments of a search.
#[derive(Debug, PartialEq)]
pub struct Search {
    pub sheet: Source,
    pub options: Options,
}

/// The arguments of reassignments.
#[derive(Debug, PartialEq)]
pub struct Reassign {
    pub sheet: Source,
    pub grouping: Source,
    pub moves: Source,
    /// Where the grouping goes in the end, if it is wanted.
    pub output: Option<PathBuf>,
}

/// What options say. A command has some of them.
#[derive(Debug, PartialEq)]
pub struct Options {
    /// The most groups, if they are limited.
    pub limit: Option<u32>,
    /// The records that the store has room for.
    pub records: usize,
    pub dot: bool,
    pub refutation: Option<PathBuf>,
    pub grouping: Option<PathBuf>,
}

impl Default for Options {
    fn default() -> Self {
        Options { limit: None, records: MOST_RECORDS, dot: false, refutation: None, grouping: None }
    }
}

const LIMIT: &str = "--limit";
const RECORDS: &str = "--records";
const DOT: &str = "--dot";
const REFUTATION: &str = "--refutation";
const GROUPING: &str = "--grouping";

pub fn parse(mut arguments: impl Iterator<Item = OsString>) -> Result<Request, Failure> {
    let Some(first) = arguments.next() else { return Err(wrong("a command is missing", "")) };
    let first = first.to_string_lossy().into_owned();
    let rest = Arguments { rest: arguments.collect::<Vec<_>>().into_iter(), command: &first };
    match first.as_str() {
        "--help" | "-h" => Ok(Request::Help(help::WHOLE.into())),
        "--version" | "-V" => Ok(Request::Version),
        "help" => rest.help(),
        "encode" => rest.files_alone(["the text"], |[text]| Request::Encode { text }),
        "decode" => rest.files_alone(["the sheet"], |[sheet]| Request::Decode { sheet }),
        "repack" => rest.files_alone(["the sheet"], |[sheet]| Request::Repack { sheet }),
        "merge" => rest.files_alone(["the first sheet", "the second sheet"], |[first, second]| Request::Merge { first, second }),
        "withdraw" => rest.withdraw(),
        "search" => rest.search(),
        "check" => rest.check(),
        "evaluate" => rest.files_alone(["the sheet", "the grouping"], |[sheet, grouping]| Request::Evaluate { sheet, grouping }),
        "count" => rest.files_alone(["the sheet", "the grouping"], |[sheet, grouping]| Request::Count { sheet, grouping }),
        "reassign" => rest.reassign(),
        unknown => Err(wrong(&format!("there is no command `{unknown}`"), "")),
    }
}

/// The arguments after the command's name.
struct Arguments<'a> {
    rest: std::vec::IntoIter<OsString>,
    command: &'a str,
}

/// One argument.
enum Argument {
    /// A file, or another operand.
    File(OsString),
    /// An option by its name, with the value that was joined to it by `=`.
    Option(String, Option<OsString>),
}

impl Arguments<'_> {
    fn help(mut self) -> Result<Request, Failure> {
        let topic = self.rest.next();
        let name = topic.as_deref().map(OsStr::to_string_lossy);
        match name {
            None => Ok(Request::Help(help::WHOLE.into())),
            Some(name) if is_help(&name) => Ok(Request::Help(help::WHOLE.into())),
            Some(name) => help::of(&name).map(Request::Help).ok_or_else(|| wrong(&format!("there is no command `{name}`"), "")),
        }
    }

    /// A command that has files, and no options but `--help`.
    fn files_alone<const N: usize>(self, names: [&str; N], request: impl FnOnce([Source; N]) -> Request) -> Result<Request, Failure> {
        self.operands(|own, files| own.sources(files, names).map(request))
    }

    /// The sheet and, behind it, the condition's number; where that stands alone, the sheet is standard input.
    fn withdraw(self) -> Result<Request, Failure> {
        self.operands(|own, mut operands| {
            let Some(number) = operands.pop() else { return Err(wrong("the condition's number is missing", own.command)) };
            let condition = own.condition(&number)?;
            let [sheet] = own.sources(operands, ["the sheet"])?;
            Ok(Request::Withdraw { sheet, condition })
        })
    }

    fn search(self) -> Result<Request, Failure> {
        self.with_options(&[LIMIT, RECORDS, DOT, REFUTATION, GROUPING], |own, files, options| {
            let [sheet] = own.sources(files, ["the sheet"])?;
            Ok(Request::Search(Search { sheet, options }))
        })
    }

    fn check(self) -> Result<Request, Failure> {
        self.with_options(&[LIMIT], |own, files, options| {
            let [sheet, list] = own.sources(files, ["the sheet", "the list"])?;
            Ok(Request::Check { sheet, list, limit: options.limit })
        })
    }

    fn reassign(self) -> Result<Request, Failure> {
        self.with_options(&[GROUPING], |own, files, options| {
            let [sheet, grouping, moves] = own.sources(files, ["the sheet", "the grouping", "the moves"])?;
            Ok(Request::Reassign(Reassign { sheet, grouping, moves, output: options.grouping }))
        })
    }

    /// A command that has operands, and no options but `--help`.
    fn operands(self, request: impl FnOnce(&Self, Vec<OsString>) -> Result<Request, Failure>) -> Result<Request, Failure> {
        self.with_options(&[], |own, operands, _| request(own, operands))
    }

    /// A command that has operands, and these options beside `--help`.
    fn with_options(
        mut self,
        known: &[&str],
        request: impl FnOnce(&Self, Vec<OsString>, Options) -> Result<Request, Failure>,
    ) -> Result<Request, Failure> {
        let (mut operands, mut options) = (Vec::new(), Options::default());
        while let Some(argument) = self.next(&mut operands) {
            match argument {
                Argument::File(operand) => operands.push(operand),
                Argument::Option(name, _) if is_help(&name) => return self.own_help(),
                Argument::Option(name, joined) if known.contains(&name.as_str()) => self.option(&mut options, &name, joined)?,
                Argument::Option(name, _) => return Err(self.unknown(&name)),
            }
        }
        request(&self, operands, options)
    }

    fn option(&mut self, options: &mut Options, name: &str, joined: Option<OsString>) -> Result<(), Failure> {
        match name {
            LIMIT => options.limit = Some(self.limit(joined)?),
            RECORDS => options.records = self.record_count(joined)?,
            DOT if joined.is_some() => return Err(wrong("`--dot` takes no value", self.command)),
            DOT => options.dot = true,
            REFUTATION => options.refutation = Some(self.output(REFUTATION, joined)?),
            GROUPING => options.grouping = Some(self.output(GROUPING, joined)?),
            name => return Err(self.unknown(name)),
        }
        Ok(())
    }

    /// The next argument. After `--` all that is left are files.
    fn next(&mut self, files: &mut Vec<OsString>) -> Option<Argument> {
        let argument = self.rest.next()?;
        match argument.to_str() {
            Some("--") => {
                files.extend(self.rest.by_ref());
                None
            }
            Some(text) if text.starts_with('-') && text != "-" => Some(match text.split_once('=') {
                Some((name, value)) => Argument::Option(name.into(), Some(value.into())),
                None => Argument::Option(text.into(), None),
            }),
            _ => Some(Argument::File(argument)),
        }
    }

    fn value(&mut self, option: &str, joined: Option<OsString>) -> Result<OsString, Failure> {
        joined.or_else(|| self.rest.next()).ok_or_else(|| wrong(&format!("`{option}` needs a value"), self.command))
    }

    /// A limit as large as the services take one. Whether it is admitted they say, behind what they say of the sheet.
    fn limit(&mut self, joined: Option<OsString>) -> Result<u32, Failure> {
        let value = self.value(LIMIT, joined)?;
        let number = whole_number(&value).and_then(|number| u32::try_from(number).ok());
        number.ok_or_else(|| wrong(&format!("`--limit` is a number from 1 to {MOST_LIMIT}, not `{}`", value.display()), self.command))
    }

    fn record_count(&mut self, joined: Option<OsString>) -> Result<usize, Failure> {
        let value = self.value(RECORDS, joined)?;
        let number = whole_number(&value).filter(|&number| number <= MOST_RECORDS);
        number.ok_or_else(|| wrong(&format!("`--records` is a number from 0 to {MOST_RECORDS}, not `{}`", value.display()), self.command))
    }

    /// A condition's number. Whether the sheet has such a condition is seen when the sheet is read.
    fn condition(&self, value: &OsStr) -> Result<u32, Failure> {
        let number =
            whole_number(value).filter(|number| (1..=MOST_CONDITIONS).contains(number)).and_then(|number| u32::try_from(number).ok());
        number
            .ok_or_else(|| wrong(&format!("a condition is a number from 1 to {MOST_CONDITIONS}, not `{}`", value.display()), self.command))
    }

    /// A file to write. Standard output has the report, so `-` is none.
    fn output(&mut self, option: &str, joined: Option<OsString>) -> Result<PathBuf, Failure> {
        let value = self.value(option, joined)?;
        if value.is_empty() || value == "-" {
            return Err(wrong(&format!("`{option}` needs the name of a file"), self.command));
        }
        Ok(value.into())
    }

    /// The files by their names; the last may be missing, and one may be `-`.
    fn sources<const N: usize>(&self, files: Vec<OsString>, names: [&str; N]) -> Result<[Source; N], Failure> {
        let mut sources: Vec<Source> = files.into_iter().map(Source::from).collect();
        if sources.len() + 1 == N {
            sources.push(Source::Input);
        }
        if sources.iter().filter(|source| **source == Source::Input).count() > 1 {
            return Err(wrong("only one file can be standard input", self.command));
        }
        let given = match sources.len() {
            1 => "1 file is".into(),
            count => format!("{count} files are"),
        };
        sources.try_into().map_err(|_| wrong(&format!("{given} given, where {} should be", listed(&names)), self.command))
    }

    fn own_help(&self) -> Result<Request, Failure> {
        Ok(Request::Help(help::of(self.command).unwrap_or_else(|| help::WHOLE.into())))
    }

    fn unknown(&self, option: &str) -> Failure {
        wrong(&format!("there is no option `{option}`"), self.command)
    }
}

/// Names parted by commas, the last two by `and`.
fn listed(names: &[&str]) -> String {
    match names {
        [others @ .., before, last] => others.iter().map(|name| format!("{name}, ")).collect::<String>() + before + " and " + last,
        names => names.concat(),
    }
}

/// A number in digits alone.
fn whole_number(value: &OsStr) -> Option<usize> {
    value.to_str().filter(|text| text.bytes().all(|byte| byte.is_ascii_digit()))?.parse().ok()
}

fn is_help(option: &str) -> bool {
    matches!(option, "--help" | "-h")
}

/// Wrong arguments, and where help is.
fn wrong(why: &str, command: &str) -> Failure {
    let space = if command.is_empty() { "" } else { " " };
    Failure::new(format!("{why}; see `lihumbay {command}{space}--help`"))
}

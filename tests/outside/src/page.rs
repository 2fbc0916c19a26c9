//! The examples of docs/FORMAT.md: blocks of bytes and of text by their names, and calls over them. The page's last section says how they are written.
use std::collections::HashMap;

/// The buffers that a service writes are filled with this byte beforehand.
pub const FILL: u8 = 0xAA;

/// The examples of a page.
#[derive(Default)]
pub struct Page {
    blocks: HashMap<String, Vec<u8>>,
    pub calls: Vec<Call>,
}

/// A line of a block `calls`.
pub struct Call {
    pub text: String,
    pub service: String,
    /// What the service is given; a buffer that it writes, as it is afterwards.
    pub given: Vec<Vec<u8>>,
    pub answer: Answer,
}

#[derive(Debug, PartialEq, Eq)]
pub enum Answer {
    Numbers([u32; 4]),
    Printed(Vec<u8>),
}

impl Page {
    /// The examples of a page. One that is written wrongly ends the test.
    pub fn of(text: &str) -> Page {
        let mut page = Page::default();
        let mut lines = text.lines();
        while let Some(line) = lines.next() {
            let Some(head) = line.strip_prefix("```") else { continue };
            let body: Vec<&str> = lines.by_ref().take_while(|line| *line != "```").collect();
            match head.split_once(' ') {
                Some(("hex", name)) => page.name(name, body.iter().flat_map(|line| line_bytes(before(line, ';'))).collect()),
                Some(("text", name)) => page.name(name, body.iter().flat_map(|line| [line.as_bytes(), b"\n"].concat()).collect()),
                _ if head == "calls" => body.iter().for_each(|line| page.call(line)),
                _ => panic!("the page has a block `{head}`"),
            }
        }
        page
    }

    pub fn block(&self, name: &str) -> &[u8] {
        self.blocks.get(name).unwrap_or_else(|| panic!("the page has no block `{name}` up to here"))
    }

    fn name(&mut self, name: &str, bytes: Vec<u8>) {
        assert!(self.blocks.insert(name.into(), bytes).is_none(), "the page has two blocks `{name}`");
    }

    /// `SERVICE GIVEN, GIVEN = ANSWER`
    fn call(&mut self, line: &str) {
        let (call, answer) = line.rsplit_once(" = ").unwrap_or_else(|| panic!("a call has an answer: {line}"));
        let (service, given) = call.split_once(' ').unwrap_or_else(|| panic!("a call is given something: {line}"));
        let given = given.split(", ").map(|given| self.given(given)).collect();
        let numbers: Option<Vec<u32>> = answer.split(' ').map(|word| word.parse().ok()).collect();
        let answer = match numbers {
            Some(numbers) => Answer::Numbers(numbers.try_into().unwrap_or_else(|_| panic!("an answer is four numbers: {line}"))),
            None => Answer::Printed(self.block(answer).to_vec()),
        };
        self.calls.push(Call { text: line.into(), service: service.into(), given, answer });
    }

    /// A number in decimal, as its four bytes, low byte first; or a block by its name, or bytes in brackets, and then what is changed.
    fn given(&self, text: &str) -> Vec<u8> {
        if let Ok(number) = text.parse::<u32>() {
            return number.to_le_bytes().to_vec();
        }
        let (mut given, changes) = match text.strip_prefix('[').and_then(|rest| rest.split_once(']')) {
            Some((literal, rest)) => (bytes(literal).collect(), rest.trim_start()),
            None => (self.block(before(text, ' ')).to_vec(), text.split_once(' ').map_or("", |(_, rest)| rest)),
        };
        match changes.split_once(' ') {
            None => assert!(changes.is_empty(), "{text}"),
            Some(("with", changed)) => changed.split(' ').for_each(|one| {
                let (at, byte) = one.split_once('=').unwrap_or_else(|| panic!("OFFSET=BYTE: {text}"));
                given[number(at)] = hex(byte);
            }),
            Some(("cut", length)) => given.truncate(number(length)),
            Some(("times", count)) => given = given.repeat(number(count)),
            Some(_) => panic!("with, cut or times: {text}"),
        }
        given
    }
}

fn before(text: &str, end: char) -> &str {
    text.split(end).next().unwrap_or_default()
}

/// The bytes of a line. With `{FROM..TO}` in it, the line stands for one with each of these numbers in its place, in two bytes, low byte first.
fn line_bytes(line: &str) -> Vec<u8> {
    let Some((before, rest)) = line.split_once('{') else { return bytes(line).collect() };
    let (range, after) = rest.split_once('}').unwrap_or_else(|| panic!("`{line}` has an open brace"));
    let (from, to) = range.split_once("..").unwrap_or_else(|| panic!("FROM..TO: {line}"));
    let one = |number: usize| {
        let number = u16::try_from(number).unwrap_or_else(|_| panic!("a number of two bytes: {line}")).to_le_bytes();
        bytes(before).chain(number).chain(bytes(after)).collect::<Vec<u8>>()
    };
    (number(from)..=number(to)).flat_map(one).collect()
}

fn bytes(text: &str) -> impl Iterator<Item = u8> {
    text.split_whitespace().map(hex)
}

fn hex(text: &str) -> u8 {
    u8::from_str_radix(text, 16).unwrap_or_else(|_| panic!("`{text}` is no byte in hexadecimal"))
}

fn number(text: &str) -> usize {
    text.parse().unwrap_or_else(|_| panic!("`{text}` is no number"))
}

#[cfg(test)]
mod tests {
    use super::{Page, line_bytes};

    #[test]
    fn numbers_in_braces_are_counted() {
        assert_eq!(line_bytes("01 0A "), [1, 10]);
        assert_eq!(line_bytes("{255..257}"), [255, 0, 0, 1, 1, 1]);
        assert_eq!(line_bytes("07 {1..2} 09"), [7, 1, 0, 9, 7, 2, 0, 9]);
    }

    #[test]
    fn numbers_in_decimal_have_four_bytes() {
        let given = |text| Page::default().given(text);
        assert_eq!((given("257"), given("4294967295"), given("[07 08]")), (vec![1, 1, 0, 0], vec![255; 4], vec![7, 8]));
    }
}

//! The portfolio file: its layout, and its entries (docs/PORTFOLIO.md).

use std::fmt;

use crate::book::{Book, Post};
use crate::faults::{Fault, Refusal};
use crate::rules::{InvesteeFields, Rule};
use crate::sources::{Source, Term};

const MOST_BYTES: usize = 65_536;
const MOST_BYTES_OF_A_LINE: usize = 512;
const MOST_DIGITS: usize = 13;

/// What stopped a file, and at which line.
#[derive(Clone, Copy, Debug, PartialEq, Eq)]
pub struct Stop {
    line: usize,
    fault: Fault,
}

impl fmt::Display for Stop {
    fn fmt(&self, out: &mut fmt::Formatter) -> fmt::Result {
        let Fault { refusal, place, source } = self.fault;
        write!(out, "X {} {} {} {}", self.line, refusal as u8, place, source)
    }
}

/// A file that is as laid out; its numbers may still be wrong.
pub struct Portfolio {
    rule: Rule,
    investees: Vec<(InvesteeFields, Source)>,
    posts: Vec<Post>,
}

/// The lines of a file, one after another.
struct Lines<'a> {
    rest: &'a [u8],
    number: usize,
}

impl<'a> Lines<'a> {
    /// The next line without its line feed.
    fn next(&mut self) -> Result<Fields<'a>, Stop> {
        self.number += 1;
        let Some(length) = self.rest.iter().position(|byte| *byte == b'\n') else {
            return Err(self.stop(Refusal::LineMissing));
        };
        let (line, rest) = self.rest.split_at(length + 1);
        self.rest = rest;
        if line.len() > MOST_BYTES_OF_A_LINE {
            return Err(self.stop(Refusal::LineMalformed));
        }
        let fields = line[..length].split(|byte| *byte == b' ').collect();
        Ok(Fields { line: self.number, fields, taken: 0 })
    }

    fn end(mut self) -> Result<(), Stop> {
        self.number += 1;
        if self.rest.is_empty() { Ok(()) } else { Err(self.stop(Refusal::LineMissing)) }
    }

    fn stop(&self, refusal: Refusal) -> Stop {
        Stop { line: self.number, fault: refusal.into() }
    }
}

/// The fields of one line, taken from the left.
struct Fields<'a> {
    line: usize,
    fields: Vec<&'a [u8]>,
    taken: usize,
}

impl<'a> Fields<'a> {
    fn next(&mut self) -> Result<&'a [u8], Stop> {
        self.taken += 1;
        self.fields.get(self.taken - 1).copied().ok_or(self.malformed())
    }

    /// A number of 1 to 13 digits without leading zeros.
    fn number(&mut self) -> Result<i128, Stop> {
        let digits = self.next()?;
        let is_number = (1..=MOST_DIGITS).contains(&digits.len())
            && digits.iter().all(u8::is_ascii_digit)
            && (digits[0] != b'0' || digits.len() == 1);
        if !is_number {
            return Err(self.malformed());
        }
        Ok(digits.iter().fold(0, |number, digit| 10 * number + i128::from(digit - b'0')))
    }

    /// Nothing may be left over.
    fn end(mut self) -> Result<(), Stop> {
        self.taken += 1;
        if self.taken > self.fields.len() { Ok(()) } else { Err(self.malformed()) }
    }

    /// The field taken last is wrong, missing or too many.
    fn malformed(&self) -> Stop {
        Stop { line: self.line, fault: Fault::from(Refusal::LineMalformed).at(self.taken) }
    }
}

/// Tries the whole layout, from the top.
pub fn read(bytes: &[u8]) -> Result<Portfolio, Stop> {
    if bytes.len() > MOST_BYTES {
        return Err(Stop { line: 1, fault: Refusal::BeyondLimits.into() });
    }
    let mut lines = Lines { rest: bytes, number: 0 };
    let (investees, posts, rule) = header(&mut lines)?;
    let investees = (0..investees).map(|_| investee(&mut lines)).collect::<Result<_, _>>()?;
    let mut posts = (0..posts).map(|_| key(&mut lines)).collect::<Result<Vec<Post>, _>>()?;
    for post in &mut posts {
        let mut fields = lines.next()?;
        post.balance = fields.number()?;
        fields.end()?;
    }
    lines.end()?;
    Ok(Portfolio { rule, investees, posts })
}

/// The numbers of investees and of posts, and the rule.
fn header(lines: &mut Lines) -> Result<(i128, i128, Rule), Stop> {
    let mut fields = lines.next()?;
    let investees = fields.number()?;
    let posts = fields.number()?;
    let rule = fields.number()?;
    fields.end()?;
    let rule = match rule {
        1 => Rule::National,
        2 => Rule::Pudong,
        _ => return Err(lines.stop(Refusal::BeyondLimits)),
    };
    if investees > 200 || posts > 1_000 {
        return Err(lines.stop(Refusal::BeyondLimits));
    }
    Ok((investees, posts, rule))
}

fn investee(lines: &mut Lines) -> Result<(InvesteeFields, Source), Stop> {
    let mut fields = lines.next()?;
    let investee = InvesteeFields {
        id: fields.number()?,
        kind: fields.number()?,
        sector: fields.number()?,
        size: fields.number()?,
        days: fields.number()?,
        investment: fields.number()?,
        revenue: fields.number()?,
        total_assets: fields.number()?,
        initial_value: fields.number()?,
    };
    let part = fields.number()?;
    let green_power = fields.number()?;
    let ccer = fields.number()?;
    let tickets = fields.number()?;
    let below = Box::new(method(&mut fields)?);
    fields.end()?;
    let below = Box::new(Source::OverseasCut { part, below });
    Ok((investee, Source::Offset { green_power, ccer, tickets, below }))
}

fn method(fields: &mut Fields) -> Result<Source, Stop> {
    Ok(match fields.next()? {
        b"R" => Source::Report { kilograms: fields.number()?, mark: fields.number()? },
        b"P" => {
            let count = fields.number()?;
            let term = |_| Ok(Term { row: fields.number()?, quantity: fields.number()? });
            Source::EnergyBill { terms: (0..count).map(term).collect::<Result<_, _>>()? }
        }
        b"E" => Source::SectorMean { output: fields.number()?, mean: fields.number()? },
        _ => return Err(fields.malformed()),
    })
}

/// The key of a post; its balance comes later in the file.
fn key(lines: &mut Lines) -> Result<Post, Stop> {
    let mut fields = lines.next()?;
    let branch = fields.number()?;
    let investee = fields.number()?;
    let month = fields.number()?;
    fields.end()?;
    Ok(Post { branch, investee, month, balance: 0 })
}

/// Makes the entries in a new book, up to the first that is declined.
pub fn enter(portfolio: &Portfolio) -> Result<Book, Stop> {
    let mut book = Book::new(portfolio.rule);
    let first_investee = 2;
    let first_key = first_investee + portfolio.investees.len();
    for (index, (fields, source)) in portfolio.investees.iter().enumerate() {
        let at = |fault| Stop { line: first_investee + index, fault };
        book.open(fields, source).map_err(at)?;
    }
    for (index, post) in portfolio.posts.iter().enumerate() {
        let at = |fault| Stop { line: first_key + index, fault };
        book.post(post).map_err(at)?;
    }
    Ok(book)
}

#[cfg(test)]
mod tests {
    use super::*;

    fn answer(file: &str) -> String {
        let book = read(file.as_bytes()).and_then(|portfolio| enter(&portfolio));
        book.map_or_else(|stop| stop.to_string(), |book| crate::page::page(&book))
    }

    fn with_investee(line: &str) -> String {
        answer(&format!("1 0 1\n{line}\n"))
    }

    #[test]
    fn missing_and_surplus_lines() {
        assert_eq!(answer(""), "X 1 32 0 0");
        assert_eq!(answer("0 0 1"), "X 1 32 0 0");
        assert_eq!(answer("0 0 1\n"), "FE 0\nT 0\n");
        assert_eq!(answer("0 0 1\n\n"), "X 2 32 0 0");
        assert_eq!(answer("0 1 1\n1 1 1\n"), "X 3 32 0 0");
    }

    #[test]
    fn the_place_of_a_field() {
        assert_eq!(answer("\n"), "X 1 30 1 0");
        assert_eq!(answer("0 00 1\n"), "X 1 30 2 0");
        assert_eq!(answer("0 0\n"), "X 1 30 3 0");
        assert_eq!(answer("0  0 1\n"), "X 1 30 2 0");
        assert_eq!(answer("0 0 1 \n"), "X 1 30 4 0");
        assert_eq!(answer("0 0 1\r\n"), "X 1 30 3 0");
        assert_eq!(with_investee("7 5 0 2 200 0 1 0 0 0 0 0 0 X"), "X 2 30 14 0");
        assert_eq!(with_investee("7 5 0 2 200 0 1 0 0 0 0 0 0 P 9999999999999 1"), "X 2 30 17 0");
        assert_eq!(with_investee("7 5 0 2 200 0 1 0 0 0 0 0 0 P 0"), "X 2 3 0 2");
    }

    #[test]
    fn limits_of_lines_and_files() {
        assert_eq!(answer("201 0 1\n"), "X 1 31 0 0");
        assert_eq!(answer("0 0 3\n"), "X 1 31 0 0");
        assert_eq!(answer(&format!("{}\n", "1".repeat(511))), "X 1 30 1 0");
        assert_eq!(answer(&format!("{}\n", "1".repeat(512))), "X 1 30 0 0");
        assert_eq!(answer(&"1".repeat(65_536)), "X 1 32 0 0");
        assert_eq!(answer(&"1".repeat(65_537)), "X 1 31 0 0");
    }

    #[test]
    fn the_layout_comes_before_the_entries() {
        let unknown = "0 1 1\n1 1 1\n";
        assert_eq!(answer(&format!("{unknown}1\n")), "X 2 16 0 0");
        assert_eq!(answer(&format!("{unknown}01\n")), "X 3 30 1 0");
    }
}

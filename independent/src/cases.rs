//! The worked cases of docs/, each computed and printed on one line.

use crate::book::{Book, Post, mean_grade};
use crate::faults::Fault;
use crate::rules::{InvesteeFields, Rule};
use crate::sources::{Source, Term};
use crate::units::{InvesteeId, Kilograms};
use crate::{answer, book};

const LOAN: i128 = 5;
const BOND: i128 = 6;

/// The example of docs/PORTFOLIO.md.
const TWO_BRANCHES: &str = "\
1 2 1
7 5 0 2 200 0 10000 0 0 0 0 0 0 R 1001 1
1 7 1
2 7 1
60000
60000
";

pub fn all() -> Vec<String> {
    let mut lines = Vec::from(thirds());
    lines.push(capped_pair(1_000, 120_000, 60_000));
    lines.push(halves(1));
    lines.extend([6_000, 5_999].map(exposure));
    lines.push(energy_bill(1_000, 1));
    lines.push(estimate(100, 120, 1_000, 1_050));
    lines.push(mean(199, 1, 1, 2));
    lines.extend([1_000, 1_001].map(|balance| bond(balance, 1_000)));
    lines.push(two_branches());
    lines
}

fn investee(kind: i128) -> InvesteeFields {
    InvesteeFields {
        id: 1,
        kind,
        sector: 0,
        size: 2,
        days: 200,
        investment: 0,
        revenue: 10_000,
        total_assets: 1_000,
        initial_value: 0,
    }
}

fn reported(kilograms: i128) -> Source {
    Source::Report { kilograms, mark: 1 }
}

fn january(branch: i128, balance: i128) -> Post {
    Post { branch, investee: 1, month: 1, balance }
}

/// A general loan under the National rule, so with a denominator of 12 × 10,000 wan, to which
/// branches 1, 2, ... have lent these amounts.
fn lent(kilograms: i128, exposures: &[i128]) -> Book {
    let mut book = Book::new(Rule::National);
    book.open(&investee(LOAN), &reported(kilograms)).expect("a sound investee");
    for (branch, exposure) in (1..).zip(exposures) {
        book.post(&january(branch, *exposure)).expect("a sound post");
    }
    book
}

fn parts(book: &Book, figure: impl Fn(&book::Investee) -> Kilograms) -> String {
    let investee = &book.investees()[0];
    let parts = book.parts(investee, figure(investee));
    parts.iter().map(|(_, part)| part.to_string()).collect::<Vec<_>>().join(" ")
}

fn thirds() -> [String; 2] {
    let mut book = lent(1_000, &[40_000; 3]);
    let below = Box::new(reported(1_000));
    let more_emitted =
        Source::Estimate { report_output: 0, base_output: 1, base_kilograms: 0, below };
    book.reduce(InvesteeId(1), &more_emitted).expect("the investee is open");
    let figures = &book.investees()[0];
    [
        format!("thirds of {} kg: {}", figures.kilograms, parts(&book, |it| it.kilograms)),
        format!("thirds of {} kg: {}", figures.reduction, parts(&book, |it| it.reduction)),
    ]
}

fn capped_pair(kilograms: i128, first: i128, second: i128) -> String {
    let parts = parts(&lent(kilograms, &[first, second]), |it| it.kilograms);
    format!("{kilograms} kg over {first} and {second}: {parts}")
}

fn halves(kilograms: i128) -> String {
    let parts = parts(&lent(kilograms, &[60_000; 2]), |it| it.kilograms);
    format!("halves of {kilograms} kg: {parts}")
}

fn exposure(exposure: i128) -> String {
    let book = lent(1_000, &[exposure]);
    let reason = book.left_out(&book.investees()[0]).map_or(0, |reason| reason as u8);
    format!("exposure {exposure}: {} kg, reason {reason}", parts(&book, |it| it.kilograms))
}

fn energy_bill(kilowatt_hours: i128, litres: i128) -> String {
    let power = Term { row: 6, quantity: kilowatt_hours };
    let diesel = Term { row: 3, quantity: litres };
    let bill = Source::EnergyBill { terms: vec![power, diesel] };
    format!("energy bill of {kilowatt_hours} kWh and {litres} litre: {}", kilograms(&bill))
}

fn estimate(report_output: i128, base_output: i128, base_kilograms: i128, emitted: i128) -> String {
    let below = Box::new(reported(emitted));
    let estimate = Source::Estimate { report_output, base_output, base_kilograms, below };
    let result = kilograms(&estimate);
    format!(
        "estimate of {report_output} over {base_output} of {base_kilograms} kg, less {emitted}: \
         {result}"
    )
}

fn kilograms(source: &Source) -> String {
    let reading = source.read().expect("a sound source");
    format!("{} kg", reading.kilograms)
}

fn mean(weight: i128, grade: i128, other_weight: i128, other_grade: i128) -> String {
    let mean = mean_grade(&[(weight, grade), (other_weight, other_grade)]).expect("some weight");
    format!(
        "mean grade of {weight} at {grade} and {other_weight} at {other_grade}: {}.{:02}",
        mean / 100,
        mean % 100
    )
}

fn bond(balance: i128, total_assets: i128) -> String {
    let mut book = Book::new(Rule::Pudong);
    let fields = InvesteeFields { total_assets, ..investee(BOND) };
    book.open(&fields, &reported(1_000)).expect("a sound bond");
    let answer = match book.post(&Post { month: 12, ..january(1, balance) }) {
        Ok(()) => String::from("accepted"),
        Err(Fault { refusal, .. }) => format!("refusal {}", refusal as u8),
    };
    format!("bond balance {balance} on assets {total_assets}: {answer}")
}

fn two_branches() -> String {
    let page = answer(TWO_BRANCHES.as_bytes());
    format!("two branches: {}", page.lines().collect::<Vec<_>>().join(" / "))
}

#[cfg(test)]
mod tests {
    use super::*;

    const DOCS: &str = include_str!("../../docs/PORTFOLIO.md");

    /// The indented text of the page on the portfolio file, whose first block is the example.
    fn indented() -> String {
        let lines = DOCS.lines().filter_map(|line| line.strip_prefix("    "));
        lines.map(|line| format!("{line}\n")).collect()
    }

    #[test]
    fn the_example_is_that_of_the_docs_and_so_is_its_page() {
        assert_eq!(indented(), format!("{TWO_BRANCHES}{}", answer(TWO_BRANCHES.as_bytes())));
    }
}

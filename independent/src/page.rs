//! The page of a book (docs/PORTFOLIO.md).

use std::collections::BTreeMap;
use std::fmt::Write;

use crate::book::Book;
use crate::units::{Branch, Kilograms};

pub fn page(book: &Book) -> String {
    let mut page = format!("FE {}\n", book.investees().len());
    let mut sheets: BTreeMap<Branch, Kilograms> = BTreeMap::new();
    let mut book_total = Kilograms(0);
    for investee in book.investees() {
        let parts = book.parts(investee, investee.kilograms);
        let total = parts.iter().map(|(_, part)| *part).sum();
        let reason = book.left_out(investee).map_or(0, |reason| reason as u8);
        let _ = writeln!(page, "{} {total} {reason} {}", investee.profile.id, investee.grade);
        for (branch, part) in parts {
            let sheet = sheets.entry(branch).or_insert(Kilograms(0));
            *sheet = *sheet + part;
        }
        book_total = book_total + total;
    }
    for (branch, sheet) in sheets {
        let _ = writeln!(page, "B {branch} {sheet}");
    }
    let _ = writeln!(page, "T {book_total}");
    page
}

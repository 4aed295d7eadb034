//! What printed pages and refusals show by themselves: sums that hold, and what was covered.

use std::collections::{BTreeMap, BTreeSet};
use std::fmt;

use crate::limits::Limits;

/// The refusals that a file can get. 13, 15 and 23 are not among them: no cut leaves a reading
/// below 0, more than 200 investees are 31, and a file amends nothing.
const FROM_A_FILE: [u8; 20] =
    [1, 2, 3, 4, 5, 6, 10, 11, 12, 14, 16, 20, 21, 22, 24, 25, 26, 30, 31, 32];

/// The places of a refused field on a line: whole, and each field of the longest line as laid out,
/// an energy bill with 16 terms, with one field too many.
const PLACES: std::ops::RangeInclusive<usize> = 0..=48;
/// The places of a term.
const TERMS: std::ops::RangeInclusive<usize> = 1..=16;

/// Whether the investees' lines of a page add up to its total, and its `B` lines too.
pub fn check_sums(printed: &str) -> Result<(), String> {
    if !printed.starts_with("FE ") {
        return Ok(());
    }
    let (mut of_investees, mut of_branches, mut total) = (0i128, 0i128, None);
    for line in printed.lines().skip(1) {
        let fields: Vec<&str> = line.split(' ').collect();
        let number =
            |text: &str| text.parse::<i128>().map_err(|_| format!("no number in {line:?}"));
        match fields[..] {
            ["B", _, kilograms] => of_branches += number(kilograms)?,
            ["T", kilograms] => total = Some(number(kilograms)?),
            [_, kilograms, _, _] => of_investees += number(kilograms)?,
            _ => return Err(format!("not a line of a page: {line:?}")),
        }
    }
    let total = total.ok_or("there is no T line")?;
    if total == of_investees && total == of_branches {
        Ok(())
    } else {
        Err(format!("investees add up to {of_investees}, branches to {of_branches}, T is {total}"))
    }
}

/// How often a source found a refusal, and at which places.
#[derive(Default)]
struct Found {
    count: usize,
    places: BTreeSet<usize>,
}

/// What the files of a comparison have covered.
#[derive(Default)]
pub struct Tally {
    pages: usize,
    /// By refusal, then by source.
    refusals: BTreeMap<u8, BTreeMap<u8, Found>>,
    /// Investees on pages, by rule and reason.
    investees: BTreeMap<(String, String), usize>,
    limits: Limits,
}

impl Tally {
    pub fn add(&mut self, file: &[u8], printed: &str) {
        self.limits.add(file, printed);
        let fields: Vec<&str> = printed.split_whitespace().collect();
        if let ["X", _, refusal, place, source] = fields[..] {
            let of_refusal = self.refusals.entry(refusal.parse().unwrap_or(0)).or_default();
            let found = of_refusal.entry(source.parse().unwrap_or(0)).or_default();
            found.count += 1;
            found.places.insert(place.parse().unwrap_or(0));
            return;
        }
        self.pages += 1;
        let header = String::from_utf8_lossy(file);
        let rule = header.lines().next().and_then(|line| line.split(' ').nth(2)).unwrap_or("");
        for line in printed.lines() {
            if let [_, _, reason, _] = line.split(' ').collect::<Vec<_>>()[..] {
                *self.investees.entry((rule.into(), reason.into())).or_default() += 1;
            }
        }
    }

    /// What a comparison should come to and this one did not: a refusal that a file can get, a
    /// place of a refused field or term, a limit from within or from beyond.
    pub fn missed(&self) -> Vec<String> {
        let refusals = FROM_A_FILE.iter().filter(|it| !self.refusals.contains_key(it));
        let places = PLACES.filter(|place| !self.was_at(30, 0, *place));
        let terms = TERMS.filter(|place| !self.was_at(1, 2, *place));
        refusals
            .map(|refusal| format!("refusal {refusal}"))
            .chain(places.map(|place| format!("a field refused at place {place}")))
            .chain(terms.map(|place| format!("a term refused at place {place}")))
            .chain(self.limits.missed())
            .collect()
    }

    fn was_at(&self, refusal: u8, source: u8, place: usize) -> bool {
        let found = self.refusals.get(&refusal).and_then(|sources| sources.get(&source));
        found.is_some_and(|found| found.places.contains(&place))
    }
}

impl fmt::Display for Tally {
    fn fmt(&self, out: &mut fmt::Formatter) -> fmt::Result {
        writeln!(out, "pages: {}", self.pages)?;
        for ((rule, reason), count) in &self.investees {
            writeln!(out, "  investees under rule {rule} with reason {reason}: {count}")?;
        }
        for (refusal, sources) in &self.refusals {
            let count: usize = sources.values().map(|found| found.count).sum();
            let sources: Vec<String> = sources.iter().map(in_words).collect();
            writeln!(out, "refusal {refusal}: {count} ({})", sources.join("; "))?;
        }
        let missed = self.missed();
        if missed.is_empty() {
            writeln!(out, "every refusal, place and limit that a file can come to was met")
        } else {
            writeln!(out, "not met: {}", missed.join(", "))
        }
    }
}

fn in_words((source, found): (&u8, &Found)) -> String {
    format!("source {source}: {} at places {}", found.count, ranges(&found.places))
}

/// Places in a row are shown by their ends.
fn ranges(places: &BTreeSet<usize>) -> String {
    let mut ranges: Vec<(usize, usize)> = Vec::new();
    for &place in places {
        match ranges.last_mut() {
            Some((_, end)) if *end + 1 == place => *end = place,
            _ => ranges.push((place, place)),
        }
    }
    let shown = |(start, end): &(usize, usize)| {
        if start == end { start.to_string() } else { format!("{start}-{end}") }
    };
    ranges.iter().map(shown).collect::<Vec<_>>().join(",")
}

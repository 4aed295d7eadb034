//! Which limits the files of a comparison came to: the last number that is accepted, and the next
//! one, refused. Read off the files and what was printed of them.

use std::collections::{BTreeMap, BTreeSet};

/// A limit on a number of a file, with the refusal and the source of the number beyond it.
struct Limit {
    field: usize,
    name: &'static str,
    within: i128,
    beyond: i128,
    refusal: u8,
    source: u8,
}

const fn least(field: usize, name: &'static str, least: i128, refusal: u8, source: u8) -> Limit {
    Limit { field, name, within: least, beyond: least - 1, refusal, source }
}

const fn most(field: usize, name: &'static str, most: i128, refusal: u8, source: u8) -> Limit {
    Limit { field, name, within: most, beyond: most + 1, refusal, source }
}

const MOST_KILOGRAMS: i128 = 1_000_000_000_000;
const MOST_FIGURE: i128 = 500_000_000;
const MOST_EXPOSURE: i128 = 9_000_000;
const MOST_OFFSET: i128 = 1_000_000_000;
const METHOD: usize = 13;
const LOAN: i128 = 5;
const BOND: i128 = 6;

const HEADER: [Limit; 4] = [
    most(0, "investees", 200, 31, 0),
    most(1, "posts", 1_000, 31, 0),
    least(2, "least rule", 1, 31, 0),
    most(2, "rule", 2, 31, 0),
];

const INVESTEE: [Limit; 16] = [
    least(0, "least id", 1, 12, 0),
    most(0, "id", 4_294_967_295, 12, 0),
    least(1, "least kind", 1, 12, 0),
    most(1, "kind", 6, 12, 0),
    most(2, "sector", 8, 12, 0),
    least(3, "least size", 1, 12, 0),
    most(3, "size", 5, 12, 0),
    most(4, "days", 366, 12, 0),
    most(5, "investment", MOST_FIGURE, 12, 0),
    most(6, "revenue", MOST_FIGURE, 12, 0),
    most(7, "total assets", MOST_FIGURE, 12, 0),
    most(8, "initial value", MOST_FIGURE, 12, 0),
    most(9, "overseas part", MOST_KILOGRAMS, 1, 5),
    most(10, "green power", MOST_OFFSET, 1, 6),
    most(11, "CCER", MOST_OFFSET, 1, 6),
    most(12, "tickets", MOST_OFFSET, 1, 6),
];

const REPORT: [Limit; 3] = [
    most(METHOD + 1, "reported kilograms", MOST_KILOGRAMS, 1, 1),
    least(METHOD + 2, "least mark", 1, 2, 1),
    most(METHOD + 2, "mark", 2, 1, 1),
];

const BILL: [Limit; 2] =
    [least(METHOD + 1, "least terms", 1, 3, 2), most(METHOD + 1, "terms", 16, 3, 2)];

/// Of each term, by the place of its row.
const TERM: [Limit; 3] = [
    least(0, "least row", 1, 1, 2),
    most(0, "row", 6, 1, 2),
    most(1, "quantity", 10_000_000_000, 1, 2),
];

const MEAN: [Limit; 2] =
    [most(METHOD + 1, "output", MOST_FIGURE, 1, 3), most(METHOD + 2, "mean", 1_000_000, 1, 3)];

const KEY: [Limit; 4] = [
    least(0, "least branch", 1, 20, 0),
    most(0, "branch", 40, 20, 0),
    least(1, "least month", 1, 20, 0),
    most(1, "month", 12, 20, 0),
];

const BALANCE: [Limit; 1] = [most(0, "balance", MOST_EXPOSURE, 20, 0)];

/// Limits on what several numbers come to, or on bytes.
const OTHERS: [&str; 12] = [
    "bytes of a file",
    "bytes of a line",
    "digits",
    "kilograms of a sector mean",
    "overseas part of the reading",
    "offset sum of the reading",
    "positions",
    "exposure",
    "exposure of a bond",
    "days counted",
    "exposure of a loan counted",
    "month of a bond",
];

/// What stopped a file.
struct Stop {
    line: usize,
    refusal: u8,
    place: usize,
    source: u8,
}

fn stop_of(printed: &str) -> Option<Stop> {
    let fields: Vec<usize> =
        printed.strip_prefix("X ")?.split_whitespace().filter_map(|it| it.parse().ok()).collect();
    let [line, refusal, place, source] = fields[..] else { return None };
    Some(Stop { line, refusal: refusal as u8, place, source: source as u8 })
}

/// A line's fields as numbers; the method's letter and what is no number are -1.
fn numbers(line: &[u8]) -> Vec<i128> {
    let number = |field: &[u8]| std::str::from_utf8(field).ok()?.parse().ok();
    line.split(|byte| *byte == b' ').map(|field| number(field).unwrap_or(-1)).collect()
}

/// The limits that were met, by name: the number within, and the one beyond.
#[derive(Default)]
pub struct Limits {
    within: BTreeSet<&'static str>,
    beyond: BTreeSet<&'static str>,
}

impl Limits {
    pub fn add(&mut self, file: &[u8], printed: &str) {
        let stop = stop_of(printed);
        let lines: Vec<&[u8]> = file.split(|byte| *byte == b'\n').collect();
        self.bytes(file, &lines, stop.as_ref());
        let header = numbers(lines[0]);
        let answered = stop.as_ref().is_none_or(|stop| stop.refusal < 30);
        for limit in &HEADER {
            self.number(limit, &header, 0, answered, stop.as_ref().filter(|stop| stop.line == 1));
        }
        if answered {
            let entries = Entries::new(&lines, &header);
            self.entries(&entries, stop.as_ref());
            self.sums(&entries, stop.as_ref());
            self.reasons(&entries, printed);
        }
    }

    /// What no number came to, or no refused one.
    pub fn missed(&self) -> Vec<String> {
        let tables: [&[Limit]; 8] =
            [&HEADER, &INVESTEE, &REPORT, &BILL, &TERM, &MEAN, &KEY, &BALANCE];
        let of_fields = tables.into_iter().flatten().map(|limit| limit.name);
        let names: Vec<&str> = of_fields.chain(OTHERS).collect();
        let missing = |met: &BTreeSet<&'static str>, side: &str| -> Vec<String> {
            let names = names.iter().filter(|name| !met.contains(*name));
            names.map(|name| format!("{name} ({side})")).collect()
        };
        [missing(&self.within, "within"), missing(&self.beyond, "beyond")].concat()
    }

    /// One number of a line, whose first is in the field `from`.
    fn number(
        &mut self,
        limit: &Limit,
        fields: &[i128],
        from: usize,
        accepted: bool,
        stop: Option<&Stop>,
    ) {
        let Some(&number) = fields.get(from + limit.field) else { return };
        let is_stopped = |stop: &Stop| stop.refusal == limit.refusal && stop.source == limit.source;
        if accepted && number == limit.within {
            self.within.insert(limit.name);
        } else if number == limit.beyond && stop.is_some_and(is_stopped) {
            self.beyond.insert(limit.name);
        }
    }

    fn meet(&mut self, name: &'static str, within: bool, beyond: bool) {
        if within {
            self.within.insert(name);
        }
        if beyond {
            self.beyond.insert(name);
        }
    }

    /// The bytes of the file and of its lines, and the digits of a field.
    fn bytes(&mut self, file: &[u8], lines: &[&[u8]], stop: Option<&Stop>) {
        let too_long = stop.is_some_and(|stop| stop.line == 1 && stop.refusal == 31);
        self.meet(
            "bytes of a file",
            file.len() == 65_536 && !too_long,
            file.len() == 65_537 && too_long,
        );
        let tried = stop.map_or(lines.len(), |stop| if stop.refusal == 30 { stop.line } else { 0 });
        for (index, line) in lines.iter().enumerate().take(tried) {
            let here = stop.filter(|stop| stop.line == index + 1);
            let whole = here.is_some_and(|stop| stop.place == 0);
            self.meet("bytes of a line", line.len() == 511 && !whole, line.len() == 512 && whole);
            for (place, field) in line.split(|byte| *byte == b' ').enumerate() {
                let digits = field.iter().all(u8::is_ascii_digit) && !field.starts_with(b"0");
                let wrong = here.is_some_and(|stop| stop.place == place + 1);
                let before = here.is_none_or(|stop| place + 1 < stop.place);
                self.meet(
                    "digits",
                    digits && field.len() == 13 && before,
                    digits && field.len() == 14 && wrong,
                );
            }
        }
    }

    /// The numbers of the entries up to the one that was declined, if one was.
    fn entries(&mut self, entries: &Entries, stop: Option<&Stop>) {
        for (line, investee) in (2..).zip(&entries.investees) {
            let here = stop.filter(|stop| stop.line == line);
            let accepted = stop.is_none_or(|stop| line < stop.line);
            let (of_method, is_bill): (&[Limit], bool) = match entries.methods[line - 2] {
                b'R' => (&REPORT, false),
                b'P' => (&BILL, true),
                _ => (&MEAN, false),
            };
            for limit in INVESTEE.iter().chain(of_method) {
                self.number(limit, investee, 0, accepted, here);
            }
            for row in (METHOD + 2..investee.len()).step_by(2).filter(|_| is_bill) {
                let term = 1 + (row - METHOD - 2) / 2;
                for limit in &TERM {
                    self.number(limit, investee, row, accepted, here.filter(|it| it.place == term));
                }
            }
            self.cuts(investee, entries.methods[line - 2], accepted, here);
        }
        for (line, post) in (2 + entries.investees.len()..).zip(&entries.posts) {
            let here = stop.filter(|stop| stop.line == line);
            let accepted = stop.is_none_or(|stop| line < stop.line);
            for limit in &KEY {
                self.number(limit, &[post.branch, post.month], 0, accepted, here);
            }
            self.number(&BALANCE[0], &[post.balance], 0, accepted, here);
        }
    }

    /// A sector mean's kilograms, and the cuts from a reading that is plain to see.
    fn cuts(&mut self, investee: &[i128], method: u8, accepted: bool, here: Option<&Stop>) {
        let refused = |refusal| here.is_some_and(|stop| stop.refusal == refusal);
        let reading = match method {
            b'R' => investee[METHOD + 1],
            b'E' => investee[METHOD + 1] * investee[METHOD + 2],
            _ => return,
        };
        let mean = method == b'E';
        self.meet(
            "kilograms of a sector mean",
            mean && accepted && reading == MOST_KILOGRAMS,
            mean && refused(4) && reading == MOST_KILOGRAMS + 1,
        );
        let part = investee[9];
        self.meet(
            "overseas part of the reading",
            accepted && part == reading,
            refused(5) && part == reading + 1,
        );
        let offsets = investee[10] * 5_703 / 10 + 1_000 * (investee[11] + investee[12]);
        let left = reading - part;
        self.meet(
            "offset sum of the reading",
            accepted && offsets == left,
            refused(6) && offsets == left + 1,
        );
    }

    /// Positions and exposures, after each post and at the one that was declined.
    fn sums(&mut self, entries: &Entries, stop: Option<&Stop>) {
        let (mut positions, mut lent) = (BTreeSet::new(), BTreeMap::<i128, i128>::new());
        for (line, post) in (2 + entries.investees.len()..).zip(&entries.posts) {
            let here = stop.filter(|stop| stop.line == line);
            let refused = |refusal| here.is_some_and(|stop| stop.refusal == refusal);
            let Some(investee) = entries.investee(post.investee) else { return };
            let is_bond = investee[1] == BOND;
            let exposure = lent.entry(post.investee).or_default();
            *exposure += if is_bond { 12 * post.balance } else { post.balance };
            let (exposure, denominator) = (*exposure, 12 * investee[7]);
            let accepted = here.is_none() && stop.is_none_or(|stop| line < stop.line);
            self.meet("positions", accepted && positions.len() == 500, refused(24));
            self.meet(
                "exposure",
                accepted && exposure == MOST_EXPOSURE,
                refused(25) && exposure == MOST_EXPOSURE + 1,
            );
            self.meet(
                "exposure of a bond",
                is_bond && accepted && exposure == denominator,
                refused(26) && exposure == denominator + 12,
            );
            self.meet(
                "month of a bond",
                is_bond && accepted && post.month == 12,
                refused(21) && post.month == 11,
            );
            if !accepted {
                return;
            }
            positions.insert((post.branch, post.investee));
        }
        self.meet("positions", positions.len() == 500, false);
    }

    /// The days and the exposure of a loan from which it is counted, by the page.
    fn reasons(&mut self, entries: &Entries, printed: &str) {
        for (line, investee) in printed.lines().skip(1).zip(&entries.investees) {
            let reason = line.split(' ').nth(2);
            let is_loan = investee[1] == LOAN;
            let exposure: i128 = entries
                .posts
                .iter()
                .filter(|post| post.investee == investee[0])
                .map(|post| post.balance)
                .sum();
            let (counted, few_days, little) =
                (reason == Some("0"), reason == Some("1"), reason == Some("2"));
            self.meet(
                "days counted",
                is_loan && counted && investee[4] == 30,
                few_days && investee[4] == 29,
            );
            self.meet(
                "exposure of a loan counted",
                is_loan && counted && exposure == 6_000,
                little && exposure == 5_999,
            );
        }
    }
}

struct Post {
    branch: i128,
    investee: i128,
    month: i128,
    balance: i128,
}

/// The entries of a file that is as laid out.
struct Entries {
    investees: Vec<Vec<i128>>,
    methods: Vec<u8>,
    posts: Vec<Post>,
}

impl Entries {
    fn new(lines: &[&[u8]], header: &[i128]) -> Self {
        let (investees, posts) = (header[0] as usize, header[1] as usize);
        let (of_investees, rest) = lines[1..].split_at(investees);
        let (keys, balances) = rest.split_at(posts);
        let post = |(key, balance): (&&[u8], &&[u8])| {
            let (key, balance) = (numbers(key), numbers(balance)[0]);
            Post { branch: key[0], investee: key[1], month: key[2], balance }
        };
        let letter = |line: &&[u8]| line.iter().copied().find(u8::is_ascii_uppercase).unwrap_or(0);
        Entries {
            investees: of_investees.iter().map(|line| numbers(line)).collect(),
            methods: of_investees.iter().map(letter).collect(),
            posts: keys.iter().zip(balances).map(post).collect(),
        }
    }

    fn investee(&self, id: i128) -> Option<&Vec<i128>> {
        self.investees.iter().find(|investee| investee[0] == id)
    }
}

#[cfg(test)]
mod tests {
    use super::*;

    fn missed_after(files: &[(&str, &str)]) -> Vec<String> {
        let mut limits = Limits::default();
        for (file, printed) in files {
            limits.add(file.as_bytes(), printed);
        }
        limits.missed()
    }

    #[test]
    fn one_side_is_not_the_other() {
        let beyond = ("201 0 1\n", "X 1 31 0 0\n");
        let missed = missed_after(&[beyond]);
        assert!(missed.contains(&"investees (within)".to_string()));
        assert!(!missed.contains(&"investees (beyond)".to_string()));
    }

    #[test]
    fn what_another_refusal_hides_was_not_met() {
        let line = "1 0 1\n4294967296 5 0 2 367 0 1 0 0 0 0 0 0 R 1 1\n";
        assert!(!missed_after(&[(line, "X 2 12 0 0\n")]).contains(&"days (beyond)".to_string()));
        assert!(missed_after(&[(line, "X 2 11 0 0\n")]).contains(&"days (beyond)".to_string()));
    }

    #[test]
    fn exposures_are_added_up() {
        let file = "1 2 2\n1 6 0 2 9 0 0 10 0 0 0 0 0 R 1 1\n1 1 12\n2 1 12\n4\n6\n";
        let missed = missed_after(&[(file, "FE 1\n1 1 0 1\nB 1 0\nB 2 1\nT 1\n")]);
        assert!(!missed.contains(&"exposure of a bond (within)".to_string()));
        assert!(missed.contains(&"exposure of a bond (beyond)".to_string()));
    }
}

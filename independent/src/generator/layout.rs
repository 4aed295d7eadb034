//! Files that are not as laid out, or only just.

use super::portfolio::Portfolio;
use super::random::Random;

/// The lines of a file, each with its line feed, and how many of each kind it was made with.
pub struct Text {
    pub lines: Vec<Vec<u8>>,
    investees: usize,
    posts: usize,
    /// How often its recipe was used before.
    round: usize,
}

type Line = Vec<u8>;
type Field = Vec<u8>;

type Damage = fn(&mut Random, &mut Text);

pub const RECIPES: &[(&str, Damage)] = &[
    ("30: a field that is no number", odd_field),
    ("30: a field of a long bill", odd_field_of_a_bill),
    ("30: a field missing", missing_field),
    ("30: a field too many", surplus_field),
    ("30: a space too many", surplus_space),
    ("30: the letter", odd_letter),
    ("30: the count of a bill", odd_count),
    ("30: the length of a line", long_line),
    ("30: carriage returns", carriage_returns),
    ("31: the first line", odd_header),
    ("32: a line missing", missing_line),
    ("32: a line too many", surplus_line),
    ("32: a last line not ended", last_line_open),
    ("32: bytes after the end", bytes_after_the_end),
    ("a file cut off", cut_off),
    ("a line emptied", emptied_line),
    ("two lines joined, or one split", other_separator),
    ("bytes changed at random", changed_bytes),
    ("two faults of layout", two_faults),
];

/// Fields that are no numbers, and some that only just are.
const ODD_FIELDS: &[&[u8]] = &[
    b"",
    b"00",
    b"01",
    b"007",
    b"-1",
    b"+1",
    b"1.0",
    b"1,000",
    b"1e3",
    b"0x1",
    b"x",
    b"R",
    b"P",
    b"1\r",
    b"\t1",
    b"1\t1",
    b"\0",
    b"1\0",
    b"\xff",
    b"\xc2\xa01",
    b"\x0b",
    b"/",
    b":",
    b"12345678901234",
    b"99999999999999",
    b"00000000000001",
    b"0000000000001",
    b"18446744073709551616",
    b"9999999999999",
    b"1000000000000",
    b"0",
];

impl Text {
    pub fn new(portfolio: &Portfolio, round: usize) -> Text {
        Text {
            lines: portfolio.lines(),
            investees: portfolio.investees.len(),
            posts: portfolio.posts.len(),
            round,
        }
    }

    /// A line of any of the four kinds; investees, which have most fields, are likelier.
    fn any_line(&self, random: &mut Random) -> usize {
        let first_key = 1 + self.investees;
        let first_balance = first_key + self.posts;
        let end = first_balance + self.posts;
        let investees = 1..first_key;
        let mut kinds = vec![0..1, first_key..first_balance, first_balance..end];
        kinds.extend([investees.clone(), investees.clone(), investees]);
        kinds.retain(|lines| !lines.is_empty() && lines.end <= self.lines.len());
        if kinds.is_empty() {
            return random.place(self.lines.len());
        }
        let lines = kinds.swap_remove(random.place(kinds.len()));
        lines.start + random.place(lines.len())
    }

    fn any_investee(&self, random: &mut Random) -> Option<usize> {
        let whole = self.investees > 0 && self.lines.len() > self.investees;
        whole.then(|| 1 + random.place(self.investees))
    }

    fn edit(&mut self, line: usize, edit: impl FnOnce(&mut Vec<Field>)) {
        self.lines[line].pop();
        let mut fields: Vec<Field> =
            self.lines[line].split(|byte| *byte == b' ').map(<[u8]>::to_vec).collect();
        edit(&mut fields);
        self.lines[line] = fields.join(&b' ');
        self.lines[line].push(b'\n');
    }
}

fn odd_field(random: &mut Random, text: &mut Text) {
    let line = text.any_line(random);
    text.edit(line, |fields| {
        let place = random.place(fields.len());
        fields[place] = random.pick(ODD_FIELDS).to_vec();
    });
}

/// A field of an investee's line with sixteen terms: each of them in turn.
fn odd_field_of_a_bill(random: &mut Random, text: &mut Text) {
    let Some(line) = text.any_investee(random) else { return };
    let place = text.round % 47;
    text.edit(line, |fields| {
        fields.truncate(13);
        fields.extend([b"P".to_vec(), b"16".to_vec()]);
        fields.extend(vec![b"5".to_vec(); 32]);
        match random.between(1, 3) {
            1 => fields.truncate(place.max(1)),
            _ => fields[place] = random.pick(ODD_FIELDS).to_vec(),
        }
    });
}

/// A field in the middle, so that all after it stand one too early, or some at the end.
fn missing_field(random: &mut Random, text: &mut Text) {
    let line = text.any_line(random);
    text.edit(line, |fields| {
        let place = random.place(fields.len());
        if random.one_in(2) {
            fields.remove(place);
        } else {
            fields.truncate(place);
        }
    });
}

fn surplus_field(random: &mut Random, text: &mut Text) {
    let line = text.any_line(random);
    let surplus = random.pick(&[b"0".as_slice(), b"7", b"", b"x", b"9999999999999"]).to_vec();
    text.edit(line, |fields| {
        let place = if random.one_in(2) { fields.len() } else { random.place(fields.len()) };
        fields.insert(place, surplus);
    });
}

/// At the start, at the end or between two fields.
fn surplus_space(random: &mut Random, text: &mut Text) {
    let line = text.any_line(random);
    text.edit(line, |fields| {
        let place = random.place(fields.len() + 1);
        fields.insert(place, Field::new());
    });
}

fn odd_letter(random: &mut Random, text: &mut Text) {
    let Some(line) = text.any_investee(random) else { return };
    let letters: &[&[u8]] =
        &[b"r", b"p", b"e", b"X", b"RR", b"", b"1", b"R\r", b"\xd0\xa0", b"E", b"P"];
    let letter = random.pick(letters).to_vec();
    text.edit(line, |fields| fields[13] = letter);
}

/// A bill whose count is not that of its terms: by one, by a power of two, or beyond all bounds.
fn odd_count(random: &mut Random, text: &mut Text) {
    let Some(line) = text.any_investee(random) else { return };
    let terms = random.between(0, 20);
    let count = match random.between(1, 6) {
        1 => terms + 1,
        2 => (terms - 1).max(0),
        3 => 9_999_999_999_999,
        4 => terms,
        _ => terms + (1 << random.pick(&[7, 8, 15, 16, 31, 32, 40, 42])),
    };
    let surplus = if random.one_in(5) { 1 } else { 0 };
    text.edit(line, |fields| {
        fields.truncate(13);
        fields.push(b"P".to_vec());
        fields.push(count.to_string().into_bytes());
        let numbers = (0..2 * terms + surplus).map(|_| random.between(1, 6).to_string());
        fields.extend(numbers.map(String::into_bytes));
    });
}

/// A line of about 512 bytes with its line feed, or of many more.
fn long_line(random: &mut Random, text: &mut Text) {
    let length = random.pick(&[511, 512, 512, 513, 513, 514, 1_024, 5_000]);
    let investee = text.any_investee(random);
    match investee {
        Some(line) if length <= 600 && !random.one_in(3) => {
            text.lines[line] = long_bill(random, &text.lines[line], length);
        }
        _ => {
            let line = text.any_line(random);
            let filling = random.pick(b"01 x");
            text.lines[line].pop();
            text.lines[line].resize(length - 1, filling);
            text.lines[line].push(b'\n');
        }
    }
    if random.one_in(10) {
        last_line_open(random, text);
    }
}

/// An investee's line, laid out well but for its length, with a bill that fills it.
fn long_bill(random: &mut Random, line: &Line, length: usize) -> Line {
    let thirteen: Vec<&[u8]> = line.split(|byte| *byte == b' ').take(13).collect();
    let count = random.pick(&[16, 17, 40, 80]);
    let mut filled = thirteen.join(&b' ');
    filled.extend(format!(" P {count}").into_bytes());
    let spaces = 2 * count;
    let digits = (length - 1).saturating_sub(filled.len() + spaces);
    let each = (digits / spaces).clamp(1, 13);
    let longer = digits.saturating_sub(each * spaces);
    for place in 0..spaces {
        let digits = if place < longer { each + 1 } else { each };
        filled.push(b' ');
        filled.extend(vec![b'1'; digits]);
    }
    filled.push(b'\n');
    filled
}

fn carriage_returns(random: &mut Random, text: &mut Text) {
    let only = random.one_in(2).then(|| text.any_line(random));
    for (place, line) in text.lines.iter_mut().enumerate() {
        if only.is_none_or(|only| only == place) {
            line.insert(line.len() - 1, b'\r');
        }
    }
}

fn odd_header(random: &mut Random, text: &mut Text) {
    let (place, limit) = random.pick(&[(0, 200), (1, 1_000), (2, 2)]);
    let count = [text.investees, text.posts, 1][place] as i128;
    let wrapped = count + (1 << random.pick(&[8, 16, 32, 40]));
    let choices = [limit, limit + 1, limit + 1, 9_999_999_999_999, wrapped, count + 1, 0];
    let number = random.pick(&choices).to_string();
    text.edit(0, |fields| {
        fields.resize(fields.len().max(place + 1), Field::new());
        fields[place] = number.into_bytes();
    });
}

fn missing_line(random: &mut Random, text: &mut Text) {
    let line = if random.one_in(3) { text.lines.len() - 1 } else { text.any_line(random) };
    text.lines.remove(line);
}

fn surplus_line(random: &mut Random, text: &mut Text) {
    let line = text.any_line(random);
    let place = if random.one_in(2) { line } else { text.lines.len() };
    text.lines.insert(place, text.lines[line].clone());
}

fn last_line_open(_: &mut Random, text: &mut Text) {
    if let Some(last) = text.lines.last_mut() {
        last.pop();
    }
}

fn bytes_after_the_end(random: &mut Random, text: &mut Text) {
    let endings: &[&[u8]] = &[b"\n", b" ", b"0", b"0\n", b"\0", b"\r\n", b"\x1a", b"x y z\n\n"];
    text.lines.push(random.pick(endings).to_vec());
}

fn cut_off(random: &mut Random, text: &mut Text) {
    let bytes = text.lines.concat();
    let length = random.place(bytes.len());
    text.lines = vec![bytes[..length].to_vec()];
}

fn emptied_line(random: &mut Random, text: &mut Text) {
    let line = text.any_line(random);
    text.lines[line] = random.pick(&[b"\n".as_slice(), b" \n", b"\r\n", b""]).to_vec();
}

/// A line feed in place of a space, or the other way.
fn other_separator(random: &mut Random, text: &mut Text) {
    let line = text.any_line(random);
    let (old, new) = random.pick(&[(b'\n', b' '), (b' ', b'\n'), (b' ', b'\t'), (b'\n', b'\r')]);
    if let Some(byte) = text.lines[line].iter_mut().find(|byte| **byte == old) {
        *byte = new;
    }
}

fn changed_bytes(random: &mut Random, text: &mut Text) {
    let mut bytes = text.lines.concat();
    for _ in 0..random.between(1, 4) {
        let place = random.place(bytes.len());
        let any = random.byte();
        let byte = random.pick(&[any, b'0', b'1', b'9', b' ', b'\n', b'P']);
        match random.between(1, 4) {
            1 => drop(bytes.remove(place)),
            2 => bytes.insert(place, byte),
            _ => bytes[place] = byte,
        }
    }
    text.lines = vec![bytes];
}

/// The one nearer to the top is the answer.
fn two_faults(random: &mut Random, text: &mut Text) {
    let faults: &[Damage] =
        &[odd_field, missing_field, surplus_field, odd_count, long_line, odd_header];
    for _ in 0..2 {
        random.pick(faults)(random, text);
    }
}

//! An investee's line with a number at its limit or beyond it.

use super::portfolio::{FACTORS, Investee, Method, Term};
use super::random::Random;
use super::sound::{self, MOST_FIGURE, MOST_ID, MOST_KILOGRAMS};

/// The largest number that a field can hold.
pub const MOST: i128 = 9_999_999_999_999;
pub const MOST_OFFSET: i128 = 1_000_000_000;

pub type Spoil = fn(&mut Random, &mut Investee);

/// The limit, one more, or far more.
pub fn edge(random: &mut Random, limit: i128) -> i128 {
    match random.between(1, 6) {
        1 => limit,
        2..=4 => limit + 1,
        5 => random.scaled(limit + 1, MOST),
        _ => MOST,
    }
}

/// A number that reads the same where its upper bits are dropped.
pub fn wrap(random: &mut Random, number: i128) -> i128 {
    number + (1 << random.pick(&[8, 16, 32, 40]))
}

pub fn field(random: &mut Random, investee: &mut Investee) {
    let figures = [MOST_FIGURE; 4];
    let limits = [[MOST_ID, 6, 8, 5, 366].as_slice(), figures.as_slice()].concat();
    let place = random.place(limits.len());
    let least_is_one = [0, 1, 3].contains(&place);
    *investee.numbers()[place] =
        if least_is_one && random.one_in(3) { 0 } else { edge(random, limits[place]) };
}

fn without_cuts(investee: &mut Investee) {
    for cut in &mut investee.numbers()[9..] {
        **cut = 0;
    }
}

pub fn report(random: &mut Random, investee: &mut Investee) {
    without_cuts(investee);
    investee.method = match random.between(1, 4) {
        1 => Method::Report { kilograms: edge(random, MOST_KILOGRAMS), mark: 1 },
        2 => Method::Report { kilograms: edge(random, MOST_KILOGRAMS), mark: 0 },
        3 => Method::Report { kilograms: random.scaled(0, MOST_KILOGRAMS), mark: 0 },
        _ => Method::Report { kilograms: 7, mark: edge(random, 2) },
    };
}

pub fn term_count(random: &mut Random, investee: &mut Investee) {
    without_cuts(investee);
    let count = random.pick(&[0, 0, 1, 15, 16, 17, 17, 18, 30, 60]);
    let terms = (0..count).map(|_| Term { row: random.between(1, 6), quantity: 1 }).collect();
    investee.method = Method::Bill { terms };
}

pub fn bill_term(random: &mut Random, investee: &mut Investee) {
    without_cuts(investee);
    let count = random.pick(&[1, 5, 16, 16, 16, 16, 16, 17]);
    let mut terms: Vec<Term> = (0..count).map(|_| sound::term(random)).collect();
    for _ in 0..random.pick(&[1, 1, 1, 2]) {
        let place = random.place(count);
        match random.between(1, 3) {
            1 => terms[place].row = 0,
            2 => terms[place].row = edge(random, 6),
            _ => terms[place] = Term { row: 5, quantity: edge(random, 10_000_000_000) },
        }
    }
    investee.method = Method::Bill { terms };
}

/// Fills 10^12 kg from the heaviest row down, then takes a little off or adds one unit.
pub fn heavy_bill(random: &mut Random, investee: &mut Investee) {
    without_cuts(investee);
    let mut tenths_left = 10_000 * MOST_KILOGRAMS;
    let mut terms = Vec::new();
    for row in [1, 3, 5] {
        let quantity = tenths_left / FACTORS[row - 1];
        tenths_left -= quantity * FACTORS[row - 1];
        terms.push(Term { row: row as i128, quantity });
    }
    let last = terms.len() - 1;
    terms[last].quantity = (terms[last].quantity + random.between(-4, 2)).max(0);
    random.shuffle(&mut terms);
    investee.method = Method::Bill { terms };
}

pub fn mean_range(random: &mut Random, investee: &mut Investee) {
    without_cuts(investee);
    investee.method = if random.one_in(2) {
        Method::Mean { output: edge(random, MOST_FIGURE), mean: random.between(0, 2_000) }
    } else {
        Method::Mean { output: random.between(0, 1_000_000), mean: edge(random, 1_000_000) }
    };
}

/// 10^12 kg, a kilogram to either side of it, and more.
pub fn heavy_mean(random: &mut Random, investee: &mut Investee) {
    without_cuts(investee);
    let (output, mean) = random.pick(&[
        (1_000_000, 1_000_000),
        (MOST_FIGURE, 2_000),
        (100_010_001, 9_999),
        (99_990_001, 10_001),
        (1_000_001, 1_000_000),
        (MOST_FIGURE, 1_000_000),
    ]);
    investee.method = Method::Mean { output, mean };
}

pub fn overseas_range(random: &mut Random, investee: &mut Investee) {
    without_cuts(investee);
    investee.method = Method::Report { kilograms: MOST_KILOGRAMS, mark: 2 };
    investee.overseas = edge(random, MOST_KILOGRAMS);
}

pub fn overseas_above(random: &mut Random, investee: &mut Investee) {
    without_cuts(investee);
    investee.overseas = (investee.method.kilograms() + random.between(-1, 2)).clamp(0, MOST);
}

pub fn offset_range(random: &mut Random, investee: &mut Investee) {
    without_cuts(investee);
    investee.method = Method::Report { kilograms: MOST_KILOGRAMS, mark: 2 };
    let place = 10 + random.place(3);
    *investee.numbers()[place] = edge(random, MOST_OFFSET);
}

pub fn offsets_above(random: &mut Random, investee: &mut Investee) {
    without_cuts(investee);
    investee.overseas = random.scaled(0, 1_000_000);
    for place in 10..13 {
        *investee.numbers()[place] = random.scaled(0, 1_000_000);
    }
    let kilograms = (sound::taken_off(investee) + random.between(-2, 1)).max(investee.overseas);
    investee.method = Method::Report { kilograms, mark: 1 };
}

pub fn wrapped(random: &mut Random, investee: &mut Investee) {
    let mut numbers = investee.all_numbers();
    let place = random.place(numbers.len());
    *numbers[place] = wrap(random, *numbers[place]);
}

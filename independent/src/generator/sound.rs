//! Portfolios that are accepted, with a preference for numbers at the edge of their range.

use std::collections::{BTreeMap, HashSet};

use super::portfolio::{
    BOND, FACTORS, Investee, LOAN, Method, NATIONAL, PROJECT, PUDONG, Portfolio, Post, Term,
    VEHICLE,
};
use super::random::Random;

pub const MOST_KILOGRAMS: i128 = 1_000_000_000_000;
pub const MOST_EXPOSURE: i128 = 9_000_000;
pub const MOST_FIGURE: i128 = 500_000_000;
pub const MOST_ID: i128 = 4_294_967_295;

/// How large a portfolio is to be.
pub struct Shape {
    pub investees: usize,
    pub positions: usize,
    /// For a position, at most; a bond has one.
    pub months: usize,
}

pub fn any_rule(random: &mut Random) -> i128 {
    random.pick(&[NATIONAL, PUDONG])
}

/// Dozens of investees and posts.
pub fn usual(random: &mut Random) -> Shape {
    Shape {
        investees: random.between(12, 60) as usize,
        positions: random.between(30, 120) as usize,
        months: random.between(1, 5) as usize,
    }
}

/// A few investees, each with many branches.
pub fn deep(random: &mut Random) -> Shape {
    let investees = random.between(1, 8) as usize;
    let positions = investees * random.between(10, 40) as usize;
    Shape { investees, positions, months: random.between(1, 12) as usize }
}

/// From nothing to a handful.
pub fn small(random: &mut Random) -> Shape {
    let investees = random.between(0, 4) as usize;
    Shape { investees, positions: random.between(0, 6) as usize, months: 3 }
}

/// At or close to the limits: 200 investees, 1,000 posts, 500 positions.
pub fn full(random: &mut Random) -> Shape {
    Shape {
        investees: random.pick(&[199, 200, 200]),
        positions: random.pick(&[499, 500, 500]),
        months: random.between(1, 5) as usize,
    }
}

pub fn portfolio(random: &mut Random, rule: i128, shape: &Shape) -> Portfolio {
    let ids = ids(random, shape.investees);
    let mut investees: Vec<Investee> =
        ids.into_iter().map(|id| investee(random, rule, id)).collect();
    let mut posts = posts(random, rule, &mut investees, shape);
    random.shuffle(&mut posts);
    posts.truncate(1_000);
    Portfolio { rule, investees, posts }
}

/// Different ids: counted up from 1, or from anywhere.
fn ids(random: &mut Random, count: usize) -> Vec<i128> {
    if random.one_in(3) {
        return (1..=count as i128).collect();
    }
    let mut used = HashSet::new();
    while used.len() < count {
        used.insert(if random.one_in(50) { MOST_ID } else { random.scaled(1, MOST_ID) });
    }
    let mut ids: Vec<i128> = used.into_iter().collect();
    ids.sort();
    random.shuffle(&mut ids);
    ids
}

pub fn investee(random: &mut Random, rule: i128, id: i128) -> Investee {
    let kind = if rule == NATIONAL {
        random.pick(&[PROJECT, LOAN])
    } else {
        random.between(PROJECT, BOND)
    };
    let mut investee = Investee {
        id,
        kind,
        sector: random.between(0, 8),
        size: if random.one_in(8) { random.between(3, 5) } else { random.between(1, 2) },
        days: days(random),
        investment: figure_or_none(random),
        revenue: figure_or_none(random),
        total_assets: figure_or_none(random),
        initial_value: figure_or_none(random),
        overseas: 0,
        green_power: 0,
        ccer: 0,
        tickets: 0,
        method: method(random),
    };
    if kind != VEHICLE {
        *investee.needed_figure(rule) = figure(random);
    }
    cut(random, &mut investee);
    investee
}

fn days(random: &mut Random) -> i128 {
    match random.between(1, 12) {
        1 => random.between(0, 29),
        2 => random.pick(&[29, 30, 366]),
        _ => random.between(30, 366),
    }
}

fn figure_or_none(random: &mut Random) -> i128 {
    if random.one_in(2) { 0 } else { figure(random) }
}

/// Often of the size at which exposures reach the denominator.
fn figure(random: &mut Random) -> i128 {
    match random.between(1, 10) {
        1 => MOST_FIGURE,
        2..=4 => random.scaled(1, MOST_FIGURE),
        _ => random.scaled(300, 900_000),
    }
}

fn method(random: &mut Random) -> Method {
    match random.between(1, 5) {
        1 => Method::Bill { terms: terms(random) },
        2 => mean(random),
        _ => {
            let kilograms = match random.between(1, 12) {
                1 => random.between(0, 9),
                2 => MOST_KILOGRAMS - random.between(0, 1),
                _ => random.scaled(1_000, MOST_KILOGRAMS),
            };
            Method::Report { kilograms, mark: random.between(1, 2) }
        }
    }
}

fn terms(random: &mut Random) -> Vec<Term> {
    let count = random.between(1, 16);
    (0..count).map(|_| term(random)).collect()
}

/// So small that sixteen such terms stay below 10^12 kg.
pub fn term(random: &mut Random) -> Term {
    let row = random.between(1, 6);
    let most = if row == 1 { 10_000_000 } else { 10_000_000_000 };
    let quantity = if random.one_in(20) { most } else { random.scaled(0, most) };
    Term { row, quantity }
}

fn mean(random: &mut Random) -> Method {
    let output = random.scaled(0, MOST_FIGURE);
    let mean = random.scaled(0, (MOST_KILOGRAMS / output.max(1)).min(1_000_000));
    Method::Mean { output, mean }
}

/// Sometimes an overseas part and offsets, at times of all that there is.
fn cut(random: &mut Random, investee: &mut Investee) {
    let mut left = investee.method.kilograms();
    if random.one_in(4) {
        investee.overseas = if random.one_in(6) { left } else { random.scaled(0, left) };
        left -= investee.overseas;
    }
    if random.one_in(4) {
        investee.green_power = random.scaled(0, left / 3 * 10 / FACTORS[5]);
        investee.ccer = random.scaled(0, left / 3_000);
        investee.tickets = random.scaled(0, left / 3_000);
    }
    if random.one_in(15) {
        investee.method = Method::Report { kilograms: taken_off(investee), mark: 1 };
    }
}

/// The overseas part and the offsets together, in kilograms.
pub fn taken_off(investee: &Investee) -> i128 {
    let tonnes = investee.ccer + investee.tickets;
    investee.overseas + investee.green_power * FACTORS[5] / 10 + 1_000 * tonnes
}

/// Posts for as many positions as asked for, each investee's balances adding up to an exposure
/// that was chosen for it.
fn posts(random: &mut Random, rule: i128, investees: &mut [Investee], shape: &Shape) -> Vec<Post> {
    let mut keys: BTreeMap<usize, Vec<(i128, i128)>> = BTreeMap::new();
    for (place, branch) in positions(random, investees.len(), shape.positions) {
        let months = months(random, investees[place].kind, shape.months);
        let of_branch = months.into_iter().map(|month| (branch, month));
        keys.entry(place).or_default().extend(of_branch);
    }
    let mut posts = Vec::new();
    for (place, keys) in keys {
        let balances = balances(random, rule, &mut investees[place], keys.len());
        for ((branch, month), balance) in keys.into_iter().zip(balances) {
            posts.push(Post { branch, investee: investees[place].id, month, balance });
        }
    }
    posts
}

/// Different pairs of an investee's place and a branch.
fn positions(random: &mut Random, investees: usize, count: usize) -> Vec<(usize, i128)> {
    let branches =
        random.pick(&[3, 12, 40, 40]).max((count / investees.max(1)) as i128 + 1).min(40);
    let mut all: Vec<(usize, i128)> = (0..investees)
        .flat_map(|place| (1..=branches).map(move |branch| (place, branch)))
        .collect();
    random.shuffle(&mut all);
    all.truncate(count.min(500));
    all
}

/// Mostly with December, without which the Pudong rule leaves most kinds out.
fn months(random: &mut Random, kind: i128, most: usize) -> Vec<i128> {
    if kind == BOND {
        return vec![12];
    }
    let mut months: Vec<i128> = (1..=12).collect();
    random.shuffle(&mut months);
    months.truncate(random.between(1, most as i128) as usize);
    if !months.contains(&12) && !random.one_in(6) {
        months[0] = 12;
    }
    months
}

fn balances(random: &mut Random, rule: i128, investee: &mut Investee, count: usize) -> Vec<i128> {
    let amount = *investee.needed_figure(rule);
    let total = if investee.kind == BOND {
        let most = amount.min(MOST_EXPOSURE / 12);
        let any = random.scaled(0, most);
        random.pick(&[most, most - 1, any])
    } else {
        exposure(random, 12 * amount)
    };
    random.parted(total, count)
}

/// Near the limits, about as large as the denominator, or anything in between.
fn exposure(random: &mut Random, denominator: i128) -> i128 {
    let about = random.between(-1, 1);
    let exposure = match random.between(1, 12) {
        1 => 6_000 + about,
        2 => denominator + about,
        3 => MOST_EXPOSURE - about.abs(),
        4 => random.between(0, 6_000),
        5..=7 => random.between(denominator / 3, 2 * denominator),
        _ => random.scaled(6_000, MOST_EXPOSURE),
    };
    exposure.clamp(0, MOST_EXPOSURE)
}

//! Portfolios that are laid out well, with an entry that is declined or only just accepted.
//!
//! Three refusals cannot come from a file: 13, since a cut leaves no reading below 0; 15, since
//! a file with more than 200 investees is refused with 31; and 23, since nothing is amended.

use super::investees::{self as spoil, MOST, MOST_OFFSET, Spoil, edge, wrap};
use super::portfolio::{BOND, Investee, NATIONAL, PROJECT, PUDONG, Portfolio, Post};
use super::random::Random;
use super::sound::{self, MOST_EXPOSURE, MOST_FIGURE, MOST_KILOGRAMS, Shape};

pub type Recipe = (&'static str, fn(&mut Random) -> Portfolio);

/// One fault, or a number right at its limit.
pub const RECIPES: &[Recipe] = &[
    ("12: a field of an investee", |random| spoiled(random, spoil::field)),
    ("1 and 2: a report", |random| spoiled(random, spoil::report)),
    ("3: the number of terms", |random| spoiled(random, spoil::term_count)),
    ("1: a term of a bill", |random| spoiled(random, spoil::bill_term)),
    ("1: another term of a bill", |random| spoiled(random, spoil::bill_term)),
    ("4: a bill near 10^12 kg", |random| spoiled(random, spoil::heavy_bill)),
    ("1: a sector mean", |random| spoiled(random, spoil::mean_range)),
    ("4: a sector mean near 10^12 kg", |random| spoiled(random, spoil::heavy_mean)),
    ("1: an overseas part", |random| spoiled(random, spoil::overseas_range)),
    ("5: an overseas part near the reading", |random| spoiled(random, spoil::overseas_above)),
    ("1: an offset", |random| spoiled(random, spoil::offset_range)),
    ("6: offsets near the reading", |random| spoiled(random, spoil::offsets_above)),
    ("a number of an investee that wraps", |random| spoiled(random, spoil::wrapped)),
    ("10: the kind", kind_not_in_rule),
    ("11: the figure", figure_not_given),
    ("14: an id again", id_again),
    ("20: a post out of range", |random| with_post_spoiled(random, post_range)),
    ("16: an id that is not open", |random| with_post_spoiled(random, not_open)),
    ("a number of a post that wraps", |random| with_post_spoiled(random, wrapped_post)),
    ("21: a bond before December", bond_before_december),
    ("22: a month again", month_again),
    ("24: the 501st position", positions_full),
    ("25: an exposure at its limit", exposure_at_limit),
    ("26: a bond at its denominator", bond_at_denominator),
];

/// More than one fault: the order in which they are tried decides.
pub const CROWDED: &[Recipe] = &[
    ("several faults in an investee", several_in_an_investee),
    ("several faults in a post", several_in_a_post),
    ("posts that crowd a loan", |random| crowded(random, PROJECT)),
    ("posts that crowd a bond", |random| crowded(random, BOND)),
    ("two faulty entries", two_faulty_entries),
];

fn base(random: &mut Random, rule: i128) -> Portfolio {
    let shape = Shape {
        investees: random.between(2, 20) as usize,
        positions: random.between(5, 40) as usize,
        months: random.between(1, 3) as usize,
    };
    sound::portfolio(random, rule, &shape)
}

fn any_base(random: &mut Random) -> Portfolio {
    let rule = sound::any_rule(random);
    base(random, rule)
}

fn any_investee<'a>(random: &mut Random, portfolio: &'a mut Portfolio) -> &'a mut Investee {
    let place = random.place(portfolio.investees.len());
    &mut portfolio.investees[place]
}

/// A portfolio in which one investee is spoiled.
fn spoiled(random: &mut Random, spoil: Spoil) -> Portfolio {
    let mut portfolio = any_base(random);
    let investee = any_investee(random, &mut portfolio);
    spoil(random, investee);
    portfolio
}

/// Several of the above on one investee, to see which one is found first.
fn several_in_an_investee(random: &mut Random) -> Portfolio {
    let mut portfolio = any_base(random);
    let (first_id, rule) = (portfolio.investees[0].id, portfolio.rule);
    let place = random.place(portfolio.investees.len() - 1) + 1;
    let investee = &mut portfolio.investees[place];
    let method_spoils: &[Spoil] = &[
        spoil::report,
        spoil::term_count,
        spoil::bill_term,
        spoil::heavy_bill,
        spoil::mean_range,
        spoil::heavy_mean,
    ];
    random.pick(method_spoils)(random, investee);
    if random.one_in(2) {
        investee.overseas = edge(random, MOST_KILOGRAMS);
    }
    if random.one_in(2) {
        let place = 10 + random.place(3);
        *investee.numbers()[place] = edge(random, MOST_OFFSET);
    }
    if random.one_in(4) {
        *investee.needed_figure(rule) = 0;
    }
    if random.one_in(4) {
        investee.kind = random.between(1, 6);
    }
    if random.one_in(5) {
        investee.id = first_id;
    }
    if random.one_in(5) {
        spoil::field(random, investee);
    }
    portfolio
}

fn kind_not_in_rule(random: &mut Random) -> Portfolio {
    let mut portfolio = base(random, NATIONAL);
    any_investee(random, &mut portfolio).kind = random.between(1, 6);
    portfolio
}

fn figure_not_given(random: &mut Random) -> Portfolio {
    let mut portfolio = any_base(random);
    let rule = portfolio.rule;
    *any_investee(random, &mut portfolio).needed_figure(rule) = 0;
    portfolio
}

fn id_again(random: &mut Random) -> Portfolio {
    let mut portfolio = any_base(random);
    let place = random.place(portfolio.investees.len() - 1) + 1;
    portfolio.investees[place].id = portfolio.investees[random.place(place)].id;
    portfolio
}

fn with_post_spoiled(random: &mut Random, spoil: fn(&mut Random, &mut Post)) -> Portfolio {
    let mut portfolio = any_base(random);
    let place = random.place(portfolio.posts.len());
    spoil(random, &mut portfolio.posts[place]);
    portfolio
}

fn post_range(random: &mut Random, post: &mut Post) {
    match random.between(1, 5) {
        1 => post.branch = 0,
        2 => post.branch = edge(random, 40),
        3 => post.month = 0,
        4 => post.month = edge(random, 12),
        _ => post.balance = edge(random, MOST_EXPOSURE),
    }
}

fn not_open(random: &mut Random, post: &mut Post) {
    let other = random.scaled(0, MOST);
    post.investee = random.pick(&[0, post.investee + 1, post.investee + (1 << 32), other]);
}

fn wrapped_post(random: &mut Random, post: &mut Post) {
    let number = match random.between(1, 4) {
        1 => &mut post.branch,
        2 => &mut post.investee,
        3 => &mut post.month,
        _ => &mut post.balance,
    };
    *number = wrap(random, *number);
}

fn several_in_a_post(random: &mut Random) -> Portfolio {
    let mut portfolio = any_base(random);
    let place = random.place(portfolio.posts.len());
    let post = &mut portfolio.posts[place];
    for _ in 0..random.between(2, 3) {
        random.pick(&[post_range, not_open, wrapped_post])(random, post);
    }
    portfolio
}

/// Adds an investee of this kind that nothing has been posted on, and gives its id.
fn add_investee(random: &mut Random, portfolio: &mut Portfolio, kind: i128, amount: i128) -> i128 {
    let id = (1..).find(|id| portfolio.investees.iter().all(|it| it.id != *id)).unwrap_or(1);
    let mut investee = sound::investee(random, portfolio.rule, id);
    investee.kind = kind;
    *investee.needed_figure(portfolio.rule) = amount;
    let place = random.place(portfolio.investees.len() + 1);
    portfolio.investees.insert(place, investee);
    id
}

/// Puts a post somewhere among the others.
fn insert(random: &mut Random, portfolio: &mut Portfolio, post: Post) {
    let place = random.place(portfolio.posts.len() + 1);
    portfolio.posts.insert(place, post);
}

fn bond_before_december(random: &mut Random) -> Portfolio {
    let mut portfolio = base(random, PUDONG);
    let investee = add_investee(random, &mut portfolio, BOND, 1_000);
    let post = Post { branch: 1, investee, month: random.between(1, 12), balance: 1_000 };
    insert(random, &mut portfolio, post);
    portfolio
}

fn month_again(random: &mut Random) -> Portfolio {
    let mut portfolio = any_base(random);
    let mut again = portfolio.posts[random.place(portfolio.posts.len())].clone();
    again.balance = random.pick(&[0, again.balance, MOST_EXPOSURE]);
    insert(random, &mut portfolio, again);
    portfolio
}

/// 500 positions, and posts that would or would not make another.
fn positions_full(random: &mut Random) -> Portfolio {
    let shape = Shape { investees: random.between(13, 40) as usize, positions: 500, months: 1 };
    let rule = sound::any_rule(random);
    let mut portfolio = sound::portfolio(random, rule, &shape);
    let held = portfolio.posts.clone();
    for _ in 0..random.between(0, 4) {
        let mut post = held[random.place(held.len())].clone();
        let is_held = |branch| {
            held.iter().any(|other| other.investee == post.investee && other.branch == branch)
        };
        let new_branch = (1..=40).rev().find(|branch| !is_held(*branch));
        if !random.one_in(3) {
            post.branch = new_branch.unwrap_or(post.branch);
        }
        post.month = random.pick(&[12, 12, 12, 11]);
        post.balance = random.pick(&[0, 1, MOST_EXPOSURE, MOST_EXPOSURE]);
        portfolio.posts.push(post);
    }
    if random.one_in(3) {
        random.shuffle(&mut portfolio.posts);
    }
    portfolio
}

/// One investee whose exposure comes to its limit or passes it, from several branches.
fn exposure_at_limit(random: &mut Random) -> Portfolio {
    let mut portfolio = any_base(random);
    let amount = random.between(1, 900_000);
    let investee = add_investee(random, &mut portfolio, PROJECT, amount);
    let total = MOST_EXPOSURE + random.between(-1, 2);
    let count = random.between(1, 12);
    let balances = random.parted(total, count as usize);
    for (place, balance) in (0..).zip(balances) {
        let post = Post { branch: 1 + place % 5, investee, month: 1 + place, balance };
        insert(random, &mut portfolio, post);
    }
    portfolio
}

/// A bond whose balances come to its total assets or to 750,000 wan, or pass them.
fn bond_at_denominator(random: &mut Random) -> Portfolio {
    let mut portfolio = base(random, PUDONG);
    let any = random.scaled(1, MOST_FIGURE);
    let assets = random.pick(&[1, 1_000, 749_999, 750_000, 750_001, any]);
    let investee = add_investee(random, &mut portfolio, BOND, assets);
    let total = (assets.min(750_000) + random.between(-1, 2)).max(0);
    let count = random.between(1, 6) as usize;
    let balances = random.parted(total, count);
    for (branch, balance) in (1..).zip(balances) {
        insert(random, &mut portfolio, Post { branch, investee, month: 12, balance });
    }
    portfolio
}

/// A few posts of awkward numbers on one investee, to see which refusal is found first.
fn crowded(random: &mut Random, kind: i128) -> Portfolio {
    let rule = if kind == BOND { PUDONG } else { sound::any_rule(random) };
    let mut portfolio = base(random, rule);
    let amount = random.pick(&[1, 600_000, 750_000]);
    let investee = add_investee(random, &mut portfolio, kind, amount);
    for _ in 0..random.between(2, 8) {
        let balances = [0, 1, amount, amount + 1, 750_000, 750_001, 4_500_000, MOST_EXPOSURE];
        let post = Post {
            branch: random.pick(&[1, 1, 2, 40]),
            investee,
            month: random.pick(&[12, 12, 12, 11]),
            balance: random.pick(&balances),
        };
        insert(random, &mut portfolio, post);
    }
    portfolio
}

/// Only the first of them counts.
fn two_faulty_entries(random: &mut Random) -> Portfolio {
    let mut portfolio = any_base(random);
    let spoils: &[Spoil] = &[
        spoil::field,
        spoil::report,
        spoil::bill_term,
        spoil::overseas_above,
        spoil::offset_range,
    ];
    for _ in 0..random.between(0, 2) {
        let investee = any_investee(random, &mut portfolio);
        random.pick(spoils)(random, investee);
    }
    for _ in 0..2 {
        let place = random.place(portfolio.posts.len());
        random.pick(&[post_range, not_open])(random, &mut portfolio.posts[place]);
    }
    portfolio
}

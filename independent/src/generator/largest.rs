//! The file by which time is measured: all entries are accepted.

use super::portfolio::{BOND, Investee, Method, PROJECT, PUDONG, Portfolio, Post, Term, VEHICLE};

const BRANCHES: usize = 40;

/// Every kind and every method in turn, under the Pudong rule.
pub fn portfolio(investees: usize, posts: usize, positions: usize) -> Portfolio {
    let investees: Vec<Investee> = (0..investees).map(investee).collect();
    let posts = spread(&investees, posts, positions);
    Portfolio { rule: PUDONG, investees, posts }
}

fn investee(place: usize) -> Investee {
    let number = place as i128;
    let kind = PROJECT + number % 6;
    let whole = kind == VEHICLE && number % 4 == 1;
    Investee {
        id: 1_000 + 37 * number,
        kind,
        sector: number % 9,
        size: 1 + number % 2,
        days: 30 + number,
        investment: 2_000 + 111 * number,
        revenue: 30_000 + 13 * number,
        total_assets: 700_000 + 17 * number,
        initial_value: if whole { 0 } else { 2_000 + 119 * number },
        overseas: 100 * (number % 3),
        green_power: number % 5,
        ccer: number % 2,
        tickets: number % 3,
        method: method(place),
    }
}

fn method(place: usize) -> Method {
    let number = place as i128;
    match place % 3 {
        0 => Method::Report { kilograms: 1_234_567 + 7_919 * number, mark: 1 + number % 2 },
        1 => {
            let terms = 1 + number % 5;
            let term = |row| Term { row, quantity: 20_011 + 101 * number };
            Method::Bill { terms: (1..=terms).map(term).collect() }
        }
        _ => Method::Mean { output: 5_003 + number, mean: 17 + number },
    }
}

/// Each position gets the same number of months, December first; a bond gets one, and what it
/// leaves over goes to positions of other kinds.
fn spread(investees: &[Investee], posts: usize, positions: usize) -> Vec<Post> {
    let holder = |place: usize| &investees[place % investees.len()];
    let branch =
        |place: usize| (place / investees.len() + 7 * (place % investees.len())) % BRANCHES + 1;
    let mut made = Vec::new();
    for month in (1..=12).rev() {
        for place in 0..positions {
            let may_take = month == 12 || holder(place).kind != BOND;
            if made.len() < posts && may_take {
                made.push(Post {
                    branch: branch(place) as i128,
                    investee: holder(place).id,
                    month,
                    balance: 9_001 + (place as i128 * 131 + month) % 1_000,
                });
            }
        }
    }
    made
}

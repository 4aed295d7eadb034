//! Files by their size: at and beyond 65,536 bytes, with hardly anything, or mere noise.

use super::portfolio::{Method, PUDONG, Portfolio, Term};
use super::random::Random;
use super::sound::{self, Shape};

const MOST_BYTES: usize = 65_536;

type Recipe = (&'static str, fn(&mut Random) -> Vec<u8>);

pub const RECIPES: &[Recipe] = &[
    ("a sound file of about 65,536 bytes", sound_at_limit),
    ("a file filled up behind its end", filled_behind_its_end),
    ("a file far too long", far_too_long),
    ("hardly anything", hardly_anything),
    ("bytes at random", noise),
    ("digits and spaces at random", noise_of_digits),
];

/// Numbers of digits are chosen so that the file has a given length.
fn sound_at_limit(random: &mut Random) -> Vec<u8> {
    let shape = Shape { investees: 200, positions: 500, months: 3 };
    let mut portfolio = sound::portfolio(random, PUDONG, &shape);
    for investee in &mut portfolio.investees {
        for cut in &mut investee.numbers()[9..] {
            **cut = 0;
        }
        investee.method = Method::Bill { terms: vec![Term { row: 5, quantity: 0 }; 16] };
    }
    let length = random.pick(&[MOST_BYTES - 1, MOST_BYTES, MOST_BYTES, MOST_BYTES + 1]);
    lengthen(random, &mut portfolio, length);
    portfolio.bytes()
}

/// Replaces one-digit quantities by longer ones until the file has this length.
fn lengthen(random: &mut Random, portfolio: &mut Portfolio, length: usize) {
    let mut wanting = length.saturating_sub(portfolio.bytes().len());
    let methods = portfolio.investees.iter_mut().map(|investee| &mut investee.method);
    for method in methods {
        let Method::Bill { terms } = method else { continue };
        for term in terms {
            let digits = wanting.min(9);
            let least = 10i128.pow(digits as u32);
            term.quantity = random.between(least, 10 * least - 1);
            term.row = random.between(2, 6);
            wanting -= digits;
        }
    }
}

fn filled_behind_its_end(random: &mut Random) -> Vec<u8> {
    let shape = sound::usual(random);
    let mut bytes = sound::portfolio(random, PUDONG, &shape).bytes();
    let length = random.pick(&[MOST_BYTES - 1, MOST_BYTES, MOST_BYTES + 1, MOST_BYTES + 2]);
    let filling = random.pick(b"0 \n\0");
    bytes.resize(length, filling);
    bytes
}

fn far_too_long(random: &mut Random) -> Vec<u8> {
    let filling = random.pick(b"0 \n\0");
    let mut bytes = b"0 0 1\n".to_vec();
    bytes.resize(random.between(65_537, 300_000) as usize, filling);
    bytes
}

fn hardly_anything(random: &mut Random) -> Vec<u8> {
    let files: &[&[u8]] = &[
        b"",
        b"\n",
        b" ",
        b"\n\n\n",
        b"0 0 1\n",
        b"0 0 2\n",
        b"0 0 1",
        b"0 0 0\n",
        b"0 0 3\n",
        b"0 0\n",
        b"0 0 1 \n",
        b"1 0 1\n",
        b"0 1 1\n",
        b"0 1 1\n1 1 1\n",
        b"0 1 1\n1 1 1\n0\n",
        b"200 1000 2\n",
        b"201 1000 2\n",
        b"200 1001 2\n",
        b"0",
        b"\xef\xbb\xbf0 0 1\n",
    ];
    random.pick(files).to_vec()
}

fn noise(random: &mut Random) -> Vec<u8> {
    let length = random.scaled(0, 70_000);
    (0..length).map(|_| random.byte()).collect()
}

/// Now and then this is a few well laid out lines.
fn noise_of_digits(random: &mut Random) -> Vec<u8> {
    let length = random.scaled(0, 3_000);
    let mut bytes = random.pick(&[b"".as_slice(), b"0 1 1\n", b"1 0 2\n", b"3 3 2\n"]).to_vec();
    bytes.extend((0..length).map(|_| random.pick(b"0123456789    \n\nRPE")));
    bytes
}

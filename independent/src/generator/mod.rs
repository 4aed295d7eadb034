//! Portfolio files from seeds, sound and damaged.

mod entries;
mod investees;
mod largest;
mod layout;
mod portfolio;
mod random;
mod sizes;
mod sound;

use layout::Text;
use random::Random;
use sound::Shape;

/// A file, and in a few words what it was made to try.
pub struct Sample {
    pub recipe: &'static str,
    pub bytes: Vec<u8>,
}

type SoundRecipe = (&'static str, fn(&mut Random) -> Shape);

const SOUND: &[SoundRecipe] = &[
    ("sound, of the usual size", sound::usual),
    ("sound, with many branches to an investee", sound::deep),
    ("sound, of the usual size", sound::usual),
    ("sound, small", sound::small),
    ("sound, of the usual size", sound::usual),
    ("sound, with many branches to an investee", sound::deep),
    ("sound, of the usual size", sound::usual),
    ("sound, at the limits", sound::full),
];

/// The file of a seed. Seeds go through the recipes in turn, so that a few hundred in a row try
/// them all.
pub fn sample(seed: u64) -> Sample {
    let random = &mut Random::new(seed);
    let (round, slot) = ((seed / 12) as usize, (seed % 12) as usize);
    match slot {
        0..=1 => sound_sample(random, 2 * round + slot),
        2..=4 => entries_sample(random, entries::RECIPES, 3 * round + slot),
        5..=6 => entries_sample(random, entries::CROWDED, 2 * round + slot),
        7..=10 => layout_sample(random, 4 * round + slot),
        _ => {
            let (recipe, make) = sizes::RECIPES[round % sizes::RECIPES.len()];
            Sample { recipe, bytes: make(random) }
        }
    }
}

fn sound_sample(random: &mut Random, turn: usize) -> Sample {
    let (recipe, shape) = SOUND[turn % SOUND.len()];
    let (rule, shape) = (sound::any_rule(random), shape(random));
    Sample { recipe, bytes: sound::portfolio(random, rule, &shape).bytes() }
}

fn entries_sample(random: &mut Random, recipes: &[entries::Recipe], turn: usize) -> Sample {
    let (recipe, make) = recipes[turn % recipes.len()];
    Sample { recipe, bytes: make(random).bytes() }
}

/// One in three has a faulty entry besides, which the layout must hide.
fn layout_sample(random: &mut Random, turn: usize) -> Sample {
    let (recipe, damage) = layout::RECIPES[turn % layout::RECIPES.len()];
    let portfolio = if random.one_in(3) {
        random.pick(entries::RECIPES).1(random)
    } else {
        let shape = random.pick(&[sound::usual, sound::small])(random);
        let rule = sound::any_rule(random);
        sound::portfolio(random, rule, &shape)
    };
    let mut text = Text::new(&portfolio, turn / layout::RECIPES.len());
    damage(random, &mut text);
    Sample { recipe, bytes: text.lines.concat() }
}

/// The file by which time is measured.
pub fn largest(investees: usize, posts: usize, positions: usize) -> Vec<u8> {
    largest::portfolio(investees, posts, positions).bytes()
}

#[cfg(test)]
mod tests {
    use super::*;

    #[test]
    fn a_seed_always_gives_the_same_file() {
        for seed in 0..200 {
            assert_eq!(sample(seed).bytes, sample(seed).bytes);
        }
    }

    #[test]
    fn the_largest_file_is_within_the_limits() {
        let file = largest(200, 1_000, 500);
        assert!(file.starts_with(b"200 1000 2\n"));
        assert!(file.len() < 65_536);
        assert_eq!(file.iter().filter(|byte| **byte == b'\n').count(), 1 + 200 + 2 * 1_000);
    }
}

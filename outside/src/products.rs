//! The groups of cases for the products of the program WORDS.

use crate::expression::{letter, Expression};
use crate::generate;
use crate::kin::{around, wider};
use crate::known::Known;
use crate::product::{payload, Nesting, MOST_STATES};
use crate::reading::read;
use crate::rng::Rng;
use crate::session::{Group, Session};
use crate::words::{attempt_some, changed, member, refused, with_strange_label};

/// The sizes that a machine which was read can have.
const SIZES: std::ops::RangeInclusive<usize> = 2..=MOST_STATES;

/// How many words are looked at for one that is in all languages.
const TRIES: usize = 8;

/// All groups but one; for that see [`complaints`].
pub const GROUPS: [Group; 7] = [
    Group {
        name: "every pair of sizes",
        sessions: 2,
        fill: pairs_of_sizes,
    },
    Group {
        name: "pairs near 32 states",
        sessions: 4,
        fill: pairs_near_the_limit,
    },
    Group {
        name: "three of many sizes",
        sessions: 2,
        fill: three_of_many_sizes,
    },
    Group {
        name: "expressions and wider ones",
        sessions: 4,
        fill: wider_ones,
    },
    Group {
        name: "strangers",
        sessions: 4,
        fill: strangers,
    },
    Group {
        name: "refused expressions",
        sessions: 4,
        fill: refused_ones,
    },
    Group {
        name: "between readings and words",
        sessions: 4,
        fill: between_readings,
    },
];

fn pairs_of_sizes(rng: &mut Rng, session: &mut Session) {
    for first in SIZES {
        for second in SIZES {
            product_of_sizes(rng, session, &[first, second], &[Nesting::Two]);
        }
    }
}

fn pairs_near_the_limit(rng: &mut Rng, session: &mut Session) {
    for first in SIZES {
        for second in SIZES {
            if !(28..=38).contains(&(first * second)) {
                continue;
            }
            let sizes = [first, second];
            let (factors, common) = with_a_common_word(rng, &sizes);
            product_of_all(rng, session, Nesting::Two, &factors, &common);

            let labels = few_labels(rng);
            let factors = sizes.map(|size| of_size(rng, &labels, size));
            let word = shared(rng, &factors).unwrap_or_default();
            product_of_all(rng, session, Nesting::Two, &factors, &word);
        }
    }
}

/// Any sound expression of the size over the labels.
fn of_size(rng: &mut Rng, labels: &[u8], size: usize) -> Known {
    known(&generate::sound_over(rng, labels, size - 1..=size - 1))
}

/// All sizes of three that have a product near the limit or below, and some of
/// which already two have one above it.
fn three_of_many_sizes(rng: &mut Rng, session: &mut Session) {
    let some = [2, 3, 5, 8, 16, 17, 32];
    for first in SIZES {
        for second in SIZES {
            for third in SIZES {
                let sizes = [first, second, third];
                let near = sizes.iter().product::<usize>() <= 40;
                if near || sizes.iter().all(|size| some.contains(size)) {
                    product_of_sizes(rng, session, &sizes, &Nesting::OF_THREE);
                }
            }
        }
    }
}

/// Tries words on a product of these sizes, and more of them if it is not too
/// large: otherwise it is enough to see that not even a common word is accepted.
fn product_of_sizes(rng: &mut Rng, session: &mut Session, sizes: &[usize], nestings: &[Nesting]) {
    let fits = sizes.iter().product::<usize>() <= MOST_STATES;
    for _ in 0..if fits { 4 } else { 1 } {
        let (factors, common) = with_a_common_word(rng, sizes);
        for &nesting in nestings {
            if fits {
                product_of_all(rng, session, nesting, &factors, &common);
            } else {
                product(session, nesting, &factors, &common);
            }
        }
    }
}

/// Expressions of these sizes and a word that all of them have.
fn with_a_common_word(rng: &mut Rng, sizes: &[usize]) -> (Vec<Known>, Vec<u32>) {
    let fewest = sizes.iter().min().expect("there are sizes") - 1;
    let count = rng.within(1..=fewest.min(3));
    let labels = generate::some_labels(rng, count);
    let length = rng.pick(&[0, 1, 1, 2, 2, 3, 3, 4, 5, 6, 9]);
    let word: Vec<u8> = (0..length).map(|_| rng.pick(&labels)).collect();
    let factors = sizes
        .iter()
        .map(|size| known(&around(rng, &word, size - 1, &labels)))
        .collect();
    (factors, word.into_iter().map(u32::from).collect())
}

fn wider_ones(rng: &mut Rng, session: &mut Session) {
    for _ in 0..80 {
        let labels = few_labels(rng);
        let narrow = generate::sound_over(rng, &labels, 1..=5);
        let wide = wider(rng, &narrow, &labels);
        product_of_kin(rng, session, Nesting::Two, &[narrow, wide]);

        let narrow = generate::sound_over(rng, &labels, 1..=2);
        let wide = wider(rng, &narrow, &labels);
        let widest = wider(rng, &wide, &labels);
        let nesting = rng.pick(&Nesting::OF_THREE);
        product_of_kin(rng, session, nesting, &[narrow, wide, widest]);
    }
}

/// Tries words on the product of expressions, of which the first has the
/// fewest words, put in any order.
fn product_of_kin(rng: &mut Rng, session: &mut Session, nesting: Nesting, kin: &[Expression]) {
    let mut factors: Vec<Known> = kin.iter().map(known).collect();
    let common = member(rng, &factors[0]);
    let turns = rng.below(factors.len());
    factors.rotate_left(turns);
    product_of_all(rng, session, nesting, &factors, &common);
}

/// Expressions that have no more in common than their labels, and at times not
/// even these.
fn strangers(rng: &mut Rng, session: &mut Session) {
    for _ in 0..100 {
        let nesting = rng.pick(&Nesting::ALL);
        let labels = few_labels(rng);
        let most = if nesting == Nesting::Two { 5 } else { 2 };
        let factors: Vec<Known> = (0..nesting.factors())
            .map(|_| {
                known(&match rng.below(10) {
                    0 => generate::sound(rng, 1..=most),
                    1 => generate::sound_over(rng, &labels, 1..=31),
                    _ => generate::sound_over(rng, &labels, 1..=most),
                })
            })
            .collect();
        let word = shared(rng, &factors).unwrap_or_default();
        product_of_all(rng, session, nesting, &factors, &word);
    }
}

/// A word that all the languages have, if one is found soon.
fn shared(rng: &mut Rng, factors: &[Known]) -> Option<Vec<u32>> {
    (0..TRIES).find_map(|turn| {
        let word = member(rng, &factors[turn % factors.len()]);
        let in_all = factors.iter().all(|factor| factor.language.has(&word));
        in_all.then_some(word)
    })
}

/// In each position of each command an expression with a fault, at times with
/// another after it.
fn refused_ones(rng: &mut Rng, session: &mut Session) {
    let limits: Vec<Vec<u32>> = generate::limits()
        .into_iter()
        .filter(|words| read(words).is_err())
        .collect();
    for _ in 0..50 {
        for nesting in Nesting::ALL {
            for place in 0..nesting.factors() {
                let labels = few_labels(rng);
                let mut all: Vec<Vec<u32>> = (0..nesting.factors())
                    .map(|_| generate::sound_over(rng, &labels, 1..=9).words())
                    .collect();
                let word = member(rng, &Known::of(&all[place]).expect("sound"));
                all[place] = faulty(rng, &limits);
                if rng.chance(40) {
                    let other = rng.within(place..=nesting.factors() - 1);
                    all[other] = faulty(rng, &limits);
                }
                session.product(nesting, &slices(&all), &word);
            }
        }
    }
}

fn faulty(rng: &mut Rng, limits: &[Vec<u32>]) -> Vec<u32> {
    match rng.below(4) {
        0 => rng.pick(limits),
        1 => Vec::new(),
        _ => refused(rng),
    }
}

/// Products do not change what the machine holds, nor does it change them.
fn between_readings(rng: &mut Rng, session: &mut Session) {
    for _ in 0..60 {
        let nesting = rng.pick(&Nesting::ALL);
        let most = if nesting == Nesting::Two { 6 } else { 4 };
        let sizes: Vec<usize> = (0..nesting.factors())
            .map(|_| rng.within(2..=most))
            .collect();
        let (factors, common) = with_a_common_word(rng, &sizes);
        product(session, nesting, &factors, &common);
        attempt_some(rng, session, 2);
        session.attempt(&common);
        if rng.chance(25) {
            let faulty = refused(rng);
            let mut all = slices_of(&factors);
            all[rng.below(sizes.len())] = &faulty;
            session.product(nesting, &all, &common);
        } else {
            session.read(&match rng.below(3) {
                0 => refused(rng),
                1 => factors[0].words.clone(),
                _ => generate::sound(rng, 1..=8).words(),
            });
        }
        attempt_some(rng, session, 2);
        product_of_all(rng, session, nesting, &factors, &common);
    }
}

/// Tries a word of each of the languages on the product, the word that may be
/// common, and some more.
fn product_of_all(
    rng: &mut Rng,
    session: &mut Session,
    nesting: Nesting,
    factors: &[Known],
    common: &[u32],
) {
    product(session, nesting, factors, common);
    for factor in factors {
        let word = member(rng, factor);
        product(session, nesting, factors, &word);
    }
    let word = telling_word(rng, factors, common);
    product(session, nesting, factors, &word);
}

/// A member of one of the languages, or a word that was made of one.
fn telling_word(rng: &mut Rng, factors: &[Known], common: &[u32]) -> Vec<u32> {
    let factor = &factors[rng.below(factors.len())];
    match rng.below(10) {
        0 => Vec::new(),
        1 => with_strange_label(rng, common.to_vec()),
        2..=4 => changed(rng, factor, common),
        5 => shared(rng, factors).unwrap_or_default(),
        _ => member(rng, factor),
    }
}

fn product(session: &mut Session, nesting: Nesting, factors: &[Known], labels: &[u32]) {
    session.product(nesting, &slices_of(factors), labels);
}

fn slices_of(factors: &[Known]) -> Vec<&[u32]> {
    factors.iter().map(|factor| &factor.words[..]).collect()
}

fn slices(all: &[Vec<u32>]) -> Vec<&[u32]> {
    all.iter().map(|words| &words[..]).collect()
}

fn known(expression: &Expression) -> Known {
    Known::of(&expression.words()).expect("what is made to be sound is sound")
}

fn few_labels(rng: &mut Rng) -> Vec<u8> {
    let count = rng.within(1..=3);
    generate::some_labels(rng, count)
}

/// Inputs on which the program must complain and print nothing: one of the
/// commands has its expressions cut, says that it has more words than there
/// are, or is unknown.
pub fn complaints(seed: u64) -> Vec<Vec<u32>> {
    let mut rng = Rng::of_case(seed, "complaints", 0);
    let mut inputs = Vec::new();
    for nesting in Nesting::ALL {
        for _ in 0..6 {
            let payload = expressions_alone(&mut rng, nesting);
            for length in 0..payload.len() {
                inputs.push(among_others(&mut rng, nesting as u32, &payload[..length]));
            }
            // The word count of the first expression stands at the front.
            for count in [payload.len() as u32, 257, 0x8000_0000, u32::MAX] {
                let payload = [&[count], &payload[1..]].concat();
                inputs.push(among_others(&mut rng, nesting as u32, &payload));
            }
            let length = payload.len() as u32;
            inputs.push([&[nesting as u32, length + 1], &payload[..]].concat());
        }
    }
    for command in [0, 6, 7, 12, 0x103, 0x8000_0003, u32::MAX] {
        let payload = expressions_alone(&mut rng, Nesting::Two);
        inputs.push(among_others(&mut rng, command, &payload));
        inputs.push(vec![command, 0]);
    }
    inputs
}

/// The expressions of a command with no labels after them; one of them may
/// have a fault.
fn expressions_alone(rng: &mut Rng, nesting: Nesting) -> Vec<u32> {
    let mut all: Vec<Vec<u32>> = (0..nesting.factors())
        .map(|_| generate::sound(rng, 1..=4).words())
        .collect();
    if rng.chance(30) {
        all[rng.below(nesting.factors())] = refused(rng);
    }
    payload(&slices(&all), &[])
}

/// The command, at times with sound commands before it and after it, whose
/// answers are not printed then.
fn among_others(rng: &mut Rng, command: u32, payload: &[u32]) -> Vec<u32> {
    let others = [
        &[][..],
        &[1, 1, letter(0)],
        &[2, 1, 0],
        &[3, 4, 1, letter(0), 1, letter(0)],
    ];
    let (before, after) = (rng.pick(&others), rng.pick(&others));
    let length = u32::try_from(payload.len()).expect("commands are short");
    [before, &[command, length], payload, after].concat()
}

#[cfg(test)]
mod tests {
    use super::*;
    use crate::session::Tally;

    #[test]
    fn there_are_enough_products_of_each_kind() {
        let mut total = Tally::default();
        for group in &GROUPS {
            let tally = group.session(1, 0).tally();
            for _ in 0..group.sessions {
                total += tally;
            }
        }
        assert!(total.products >= 8_000, "{total:?}");
        assert!(total.accepting * 4 >= total.products, "{total:?}");
        assert!(total.too_large * 4 >= total.products, "{total:?}");
        assert!(total.refused >= 1_000, "{total:?}");
    }

    #[test]
    fn a_common_word_is_in_all_languages() {
        let mut rng = Rng::new(13);
        for first in SIZES {
            let sizes = [first, 2 + first % 5, 34 - first];
            let (factors, common) = with_a_common_word(&mut rng, &sizes);
            for (factor, size) in factors.iter().zip(sizes) {
                assert_eq!(factor.size, size);
                assert!(factor.language.has(&common), "{factor:?} {common:?}");
            }
        }
    }

    #[test]
    fn products_that_must_be_refused_are() {
        let mut session = Session::default();
        refused_ones(&mut Rng::new(14), &mut session);
        let tally = session.tally();
        assert_eq!((tally.refused, tally.products), (400, 400));
    }

    /// Whether all commands are known and whole.
    fn is_in_order(mut input: &[u32]) -> bool {
        while let [command, count, rest @ ..] = input {
            let count = *count as usize;
            if rest.len() < count {
                return false;
            }
            let (mut words, after) = rest.split_at(count);
            let expressions = match command {
                1 | 2 => 0,
                3 => 2,
                4 | 5 => 3,
                _ => return false,
            };
            for _ in 0..expressions {
                let whole = words
                    .split_first()
                    .and_then(|(count, rest)| rest.get(*count as usize..));
                match whole {
                    Some(rest) => words = rest,
                    None => return false,
                }
            }
            input = after;
        }
        true
    }

    #[test]
    fn there_is_a_reason_for_each_complaint() {
        let inputs = complaints(1);
        assert!(inputs.len() >= 200, "{}", inputs.len());
        for input in inputs {
            assert!(!is_in_order(&input), "{input:x?}");
        }
        let mut rng = Rng::new(15);
        for nesting in Nesting::ALL {
            let whole = expressions_alone(&mut rng, nesting);
            assert!(is_in_order(&among_others(&mut rng, nesting as u32, &whole)));
        }
    }
}

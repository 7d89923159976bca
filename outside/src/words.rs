//! The groups of cases for the program WORDS.

use crate::expression::{letter, CLOSE, OPEN, STAR};
use crate::generate;
use crate::known::Known;
use crate::rng::Rng;
use crate::session::{Group, Session};

/// A session of a random group goes on until it has so many commands.
const COMMANDS: usize = 2_500;

/// The longest word that is tried outside of the group of long words: the
/// work of membership grows with the third power.
const LONGEST: usize = 40;

/// All groups.
pub const GROUPS: [Group; 10] = [
    Group {
        name: "nothing read yet",
        sessions: 12,
        fill: nothing_read,
    },
    Group {
        name: "small trees",
        sessions: 16,
        fill: small_trees,
    },
    Group {
        name: "large trees",
        sessions: 10,
        fill: large_trees,
    },
    Group {
        name: "token soups",
        sessions: 6,
        fill: soups,
    },
    Group {
        name: "damaged expressions",
        sessions: 8,
        fill: damaged,
    },
    Group {
        name: "stray bits and junk",
        sessions: 2,
        fill: junk,
    },
    Group {
        name: "limits",
        sessions: 2,
        fill: limits,
    },
    Group {
        name: "lengths near 256",
        sessions: 2,
        fill: lengths,
    },
    Group {
        name: "runs of marks",
        sessions: 4,
        fill: runs,
    },
    Group {
        name: "long words",
        sessions: 8,
        fill: long_words,
    },
];

/// The machine accepts nothing before any accepted reading, whatever was
/// tried or refused before.
fn nothing_read(rng: &mut Rng, session: &mut Session) {
    // Sometimes there is no command at all.
    for _ in 0..rng.below(30) {
        if rng.chance(50) {
            session.read(&refused(rng));
        }
        session.attempt(&short_word(rng, &[0, 1, 15, 16, u32::MAX], 4));
    }
    if rng.chance(50) {
        session.read(&generate::sound(rng, 1..=5).words());
        attempt_some(rng, session, 20);
    }
}

/// An expression with a fault.
pub fn refused(rng: &mut Rng) -> Vec<u32> {
    loop {
        let words = generate::damaged(rng, 1..=6);
        if crate::reading::read(&words).is_err() {
            return words;
        }
    }
}

fn small_trees(rng: &mut Rng, session: &mut Session) {
    while session.len() < COMMANDS {
        session.read(&generate::sound(rng, 1..=6).words());
        attempt_all_short(session);
        attempt_some(rng, session, 20);
    }
}

fn large_trees(rng: &mut Rng, session: &mut Session) {
    while session.len() < COMMANDS {
        session.read(&generate::sound(rng, 7..=31).words());
        attempt_some(rng, session, 20);
    }
}

fn soups(rng: &mut Rng, session: &mut Session) {
    while session.len() < COMMANDS {
        let most = rng.pick(&[8, 20, 60, 270]);
        read_and_attempt(rng, session, |rng| generate::soup(rng, most));
    }
}

fn damaged(rng: &mut Rng, session: &mut Session) {
    while session.len() < COMMANDS {
        let most = rng.pick(&[3, 8, 31]);
        read_and_attempt(rng, session, |rng| generate::damaged(rng, 1..=most));
    }
}

fn junk(rng: &mut Rng, session: &mut Session) {
    for words in generate::stray_bits() {
        read_and_attempt(rng, session, |_| words.clone());
    }
    for _ in 0..400 {
        read_and_attempt(rng, session, |rng| {
            let mut words = generate::sound(rng, 1..=8).words();
            let place = rng.within(0..=words.len());
            words.insert(place, generate::junk(rng));
            words
        });
    }
}

fn limits(rng: &mut Rng, session: &mut Session) {
    for words in generate::limits() {
        read_and_attempt(rng, session, |_| words.clone());
    }
}

fn lengths(rng: &mut Rng, session: &mut Session) {
    for length in (250..=262).chain([300, 350, 400]) {
        for _ in 0..8 {
            read_and_attempt(rng, session, |rng| generate::of_length(rng, length));
        }
    }
}

fn runs(rng: &mut Rng, session: &mut Session) {
    for words in generate::short_runs() {
        session.read(&words);
        attempt_all_short(session);
    }
    for _ in 0..100 {
        read_and_attempt(rng, session, generate::with_runs);
    }
}

/// Words that go round many times, which only small expressions can be asked
/// for in reasonable time.
fn long_words(rng: &mut Rng, session: &mut Session) {
    for _ in 0..12 {
        let inner = generate::sound(rng, 1..=4).words();
        session.read(&[&[OPEN], &inner[..], &[CLOSE, STAR]].concat());
        let held = match session.held() {
            Some(held) => held,
            None => continue,
        };
        let mut words = Vec::new();
        for _ in 0..4 {
            let word = held.language.sample(rng, 98, 80);
            if word.len() <= 100 {
                words.push(changed(rng, held, &word));
                words.push(word);
            }
        }
        attempt(session, &words);
    }
}

/// Reads an expression that may be faulty. If it is not, some words are tried;
/// if it is, some words are tried that tell whether the machine still holds
/// what it held, and now and then it is given something else to hold.
fn read_and_attempt(rng: &mut Rng, session: &mut Session, make: impl FnOnce(&mut Rng) -> Vec<u32>) {
    let words = make(rng);
    if session.read(&words) {
        attempt_some(rng, session, 12);
        return;
    }
    attempt_some(rng, session, 2);
    if rng.chance(20) {
        session.read(&generate::sound(rng, 1..=8).words());
        attempt_some(rng, session, 4);
    }
}

/// Tries so many words that are likely to tell something about what is held.
pub fn attempt_some(rng: &mut Rng, session: &mut Session, count: usize) {
    let words: Vec<Vec<u32>> = match session.held() {
        Some(held) => (0..count).map(|_| telling_word(rng, held)).collect(),
        None => vec![vec![], vec![0]],
    };
    attempt(session, &words);
}

fn attempt(session: &mut Session, words: &[Vec<u32>]) {
    for word in words {
        session.attempt(word);
    }
}

/// Tries all short words over the labels of what is held, where these are few.
fn attempt_all_short(session: &mut Session) {
    let words = match session.held() {
        Some(held) if held.labels.len() == 1 => all_words(&held.labels, 6),
        Some(held) if held.labels.len() <= 3 => all_words(&held.labels, 3),
        _ => Vec::new(),
    };
    attempt(session, &words);
}

/// A member, a member with one label damaged, a short word over the labels, or
/// one with a label that no expression has.
fn telling_word(rng: &mut Rng, known: &Known) -> Vec<u32> {
    match rng.below(20) {
        0 => Vec::new(),
        1..=9 => member(rng, known),
        10..=14 => {
            let word = member(rng, known);
            changed(rng, known, &word)
        }
        15..=17 => short_word(rng, &known.labels, 6),
        _ => {
            let word = member(rng, known);
            with_strange_label(rng, word)
        }
    }
}

/// A word of the language, not too long to be tried.
pub fn member(rng: &mut Rng, known: &Known) -> Vec<u32> {
    let mut eagerness = rng.pick(&[20, 40, 60, 80, 95]);
    loop {
        let rounds = rng.within(1..=8);
        let word = known.language.sample(rng, eagerness, rounds);
        if word.len() <= LONGEST {
            return word;
        }
        eagerness = eagerness * 3 / 4;
    }
}

fn short_word(rng: &mut Rng, labels: &[u32], most: usize) -> Vec<u32> {
    let length = rng.within(0..=most);
    (0..length).map(|_| rng.pick(labels)).collect()
}

/// The word with one label changed, put in, taken out, or moved.
pub fn changed(rng: &mut Rng, known: &Known, word: &[u32]) -> Vec<u32> {
    let mut word = word.to_vec();
    let label = if rng.chance(80) {
        rng.pick(&known.labels)
    } else {
        rng.below(16) as u32
    };
    if word.is_empty() {
        return vec![label];
    }
    let place = rng.below(word.len());
    let other = rng.below(word.len());
    match rng.below(4) {
        0 => word[place] = label,
        1 => word.insert(rng.within(0..=word.len()), label),
        2 => drop(word.remove(place)),
        _ => word.swap(place, other),
    }
    word
}

/// The word with a label above 15 in it. The label may have low bits that are
/// right: a program that looks at four bits only would be taken in.
pub fn with_strange_label(rng: &mut Rng, mut word: Vec<u32>) -> Vec<u32> {
    let strange = [16, 17, 31, 32, 0xFFFF_FFFF, 0x8000_0001, letter(0), STAR];
    if word.is_empty() || rng.chance(30) {
        let place = rng.within(0..=word.len());
        word.insert(place, rng.pick(&strange));
        return word;
    }
    let place = rng.below(word.len());
    word[place] = if rng.chance(50) {
        word[place] | (1 << rng.within(4..=31))
    } else {
        rng.pick(&strange)
    };
    word
}

/// All words over the labels up to a length, the empty word first.
pub fn all_words(labels: &[u32], longest: usize) -> Vec<Vec<u32>> {
    let mut all = vec![vec![]];
    let mut start = 0;
    for _ in 0..longest {
        let end = all.len();
        for index in start..end {
            for &label in labels {
                all.push([&all[index][..], &[label]].concat());
            }
        }
        start = end;
    }
    all
}

#[cfg(test)]
mod tests {
    use super::*;

    #[test]
    fn all_words_are_all() {
        assert_eq!(all_words(&[7], 2), [vec![], vec![7], vec![7, 7]]);
        assert_eq!(all_words(&[1, 2, 3], 3).len(), 1 + 3 + 9 + 27);
    }

    #[test]
    fn there_are_enough_words_and_a_fair_part_is_accepted() {
        let mut words = 0;
        let mut accepted = 0;
        for group in &GROUPS {
            let tally = group.session(1, 0).tally();
            words += tally.words * group.sessions;
            accepted += tally.accepted * group.sessions;
        }
        assert!(words >= 60_000, "{words} words");
        assert!(accepted * 10 >= words * 3, "{accepted} of {words} accepted");
    }

    #[test]
    fn strange_labels_are_above_15() {
        let mut rng = Rng::new(9);
        for _ in 0..200 {
            let word = with_strange_label(&mut rng, vec![1, 2, 3]);
            assert_eq!(word.iter().filter(|&&label| label > 15).count(), 1);
        }
    }
}

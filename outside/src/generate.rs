//! Expressions to be read: sound ones, near misses, junk and limits.

use std::ops::RangeInclusive;

use crate::expression::{
    label_of, letter, Base, Expression, Piece, Sequence, BAR, CLOSE, MARKS, MAYBE, OPEN, PLUS, STAR,
};
use crate::reading::{MOST_LETTERS, MOST_OPEN, MOST_WORDS};
use crate::rng::Rng;

/// Words that are near to expression words but are none, and such as have a
/// meaning elsewhere.
const JUNK: [u32; 14] = [
    0x0000_0000,
    0x0000_0001,
    0x1000_0010,
    0x1000_0100,
    0x1800_0000,
    0x2000_0001,
    0x3000_0001,
    0x4000_0010,
    0x5000_0100,
    0x7800_0000,
    0x8000_0000,
    0x9000_0001,
    0xA000_0000,
    0xFFFF_FFFF,
];

/// A sound expression with a count of letters out of the range.
///
/// Mostly it has few labels, so that words over them have a chance.
pub fn sound(rng: &mut Rng, letters: RangeInclusive<usize>) -> Expression {
    loop {
        let size = if rng.chance(85) {
            rng.within(1..=3)
        } else {
            rng.within(4..=16)
        };
        let labels = some_labels(rng, size);
        if let Some(expression) = short_over(rng, labels, &letters) {
            return expression;
        }
    }
}

/// A sound expression over the labels, with a count of letters out of the range.
pub fn sound_over(rng: &mut Rng, labels: &[u8], letters: RangeInclusive<usize>) -> Expression {
    loop {
        if let Some(expression) = short_over(rng, labels.to_vec(), &letters) {
            return expression;
        }
    }
}

/// A random expression, or none: groups and marks may have made it too long.
fn short_over(
    rng: &mut Rng,
    labels: Vec<u8>,
    letters: &RangeInclusive<usize>,
) -> Option<Expression> {
    let letters = rng.within(letters.clone());
    let depth = if rng.chance(80) {
        rng.within(0..=5)
    } else {
        MOST_OPEN
    };
    let expression = Shape {
        labels,
        bars: rng.within(0..=60),
        cuts: rng.within(30..=90),
        groups: rng.within(0..=30),
        marks: rng.within(0..=50),
    }
    .expression(rng, letters, depth);
    (expression.words().len() <= MOST_WORDS).then_some(expression)
}

/// So many labels out of the 16, no two the same.
pub fn some_labels(rng: &mut Rng, size: usize) -> Vec<u8> {
    let mut left: Vec<u8> = (0..16).collect();
    (0..size)
        .map(|_| left.swap_remove(rng.below(left.len())))
        .collect()
}

/// How a random expression looks; the numbers are cases of a hundred.
struct Shape {
    labels: Vec<u8>,
    /// How often two letters next to each other in an expression are parted
    /// by a bar.
    bars: usize,
    /// How often two letters in a sequence belong to different pieces.
    cuts: usize,
    /// How often a single letter is a group of its own.
    groups: usize,
    /// How often a piece has one mark, or one more.
    marks: usize,
}

impl Shape {
    fn expression(&self, rng: &mut Rng, letters: usize, depth: usize) -> Expression {
        let sequences = parts(rng, letters, self.bars)
            .into_iter()
            .map(|letters| self.sequence(rng, letters, depth))
            .collect();
        Expression { sequences }
    }

    fn sequence(&self, rng: &mut Rng, letters: usize, depth: usize) -> Sequence {
        // Where no group may be opened, every letter is its own piece.
        let cuts = if depth == 0 { 100 } else { self.cuts };
        let pieces = parts(rng, letters, cuts)
            .into_iter()
            .map(|letters| self.piece(rng, letters, depth))
            .collect();
        Sequence { pieces }
    }

    fn piece(&self, rng: &mut Rng, letters: usize, depth: usize) -> Piece {
        let base = if letters == 1 && (depth == 0 || !rng.chance(self.groups)) {
            Base::Letter(rng.pick(&self.labels))
        } else {
            Base::Group(self.expression(rng, letters, depth - 1))
        };
        let mut marks = Vec::new();
        while rng.chance(self.marks) {
            marks.push(rng.pick(&MARKS));
        }
        Piece { base, marks }
    }
}

/// The total as a sum of parts, none of them 0.
fn parts(rng: &mut Rng, total: usize, cuts: usize) -> Vec<usize> {
    let mut parts = vec![1];
    for _ in 1..total {
        if rng.chance(cuts) {
            parts.push(1);
        } else if let Some(last) = parts.last_mut() {
            *last += 1;
        }
    }
    parts
}

/// A word that belongs into expressions, wherever it may be put.
pub fn token(rng: &mut Rng) -> u32 {
    match rng.below(8) {
        0 | 1 => letter(rng.below(4) as u8),
        2 => letter(rng.below(16) as u8),
        3 => OPEN,
        4 => CLOSE,
        5 => BAR,
        _ => rng.pick(&MARKS),
    }
}

/// A word that mostly does not belong into expressions.
pub fn junk(rng: &mut Rng) -> u32 {
    match rng.below(4) {
        0 => rng.pick(&JUNK),
        1 | 2 => token(rng) ^ (1 << rng.below(32)),
        _ => rng.word(),
    }
}

/// Tokens in a row that mostly go on as the grammar has it, but slip.
pub fn soup(rng: &mut Rng, most: usize) -> Vec<u32> {
    let length = rng.within(1..=most);
    let slips = rng.within(0..=12);
    let mut words = Vec::new();
    let mut must_begin = true;
    let mut open = 0_usize;
    for _ in 0..length {
        let word = if rng.chance(slips) {
            if rng.chance(80) {
                token(rng)
            } else {
                junk(rng)
            }
        } else {
            going_on(rng, must_begin, open)
        };
        match word {
            OPEN => open += 1,
            CLOSE => open = open.saturating_sub(1),
            _ => {}
        }
        must_begin = word == OPEN || word == BAR;
        words.push(word);
    }
    if must_begin && rng.chance(90) {
        words.push(letter(0));
    }
    if rng.chance(80) {
        words.extend(std::iter::repeat(CLOSE).take(open));
    }
    words
}

/// A word that is lawful after the words so far, but for the limits.
fn going_on(rng: &mut Rng, must_begin: bool, open: usize) -> u32 {
    let begins = [letter(0), letter(1), letter(15), OPEN];
    let follows = [BAR, STAR, PLUS, MAYBE, CLOSE, CLOSE];
    if must_begin || rng.chance(35) {
        return rng.pick(&begins);
    }
    let closes = if open > 0 { 0 } else { 2 };
    rng.pick(&follows[..follows.len() - closes])
}

/// A sound expression that was then damaged in one place, seldom in two.
pub fn damaged(rng: &mut Rng, letters: RangeInclusive<usize>) -> Vec<u32> {
    let mut words = sound(rng, letters).words();
    damage(rng, &mut words);
    if rng.chance(15) {
        damage(rng, &mut words);
    }
    words
}

fn damage(rng: &mut Rng, words: &mut Vec<u32>) {
    if words.is_empty() {
        return;
    }
    let place = rng.below(words.len());
    let other = rng.below(words.len());
    let after = (place + 1) % words.len();
    match rng.below(9) {
        0 | 1 => words[place] = token(rng),
        2 => words[place] = junk(rng),
        3 => words.insert(rng.within(0..=words.len()), token(rng)),
        4 => words.insert(place, junk(rng)),
        5 => drop(words.remove(place)),
        6 => words.swap(place, other),
        7 => words.swap(place, after),
        _ => words.truncate(place),
    }
}

/// Every kind with every stray bit, alone and in the places of a sound
/// expression: after a piece, where a piece must begin, and at the end.
pub fn stray_bits() -> Vec<Vec<u32>> {
    let a = letter(0);
    let mut all = Vec::new();
    for kind in 0..16_u32 {
        let plain = kind << 28;
        let strays = (0..28).map(|bit| plain | (1 << bit));
        let full = [plain | 0x0FFF_FFFF, plain | 0xF, plain | 0x1F];
        for word in [plain].into_iter().chain(strays).chain(full) {
            all.push(vec![word]);
            all.push(vec![a, word]);
            all.push(vec![a, BAR, word]);
            all.push(vec![OPEN, a, word, letter(1), CLOSE]);
        }
    }
    all.extend(JUNK.map(|word| vec![word]));
    all
}

/// Expressions around the limits of letters, depth and length, those within
/// and those beyond.
pub fn limits() -> Vec<Vec<u32>> {
    let mut all = Vec::new();
    all.extend(around_letters());
    all.extend(around_depth());
    all.extend(around_length());
    all
}

fn around_letters() -> Vec<Vec<u32>> {
    let a = letter(0);
    let many = |count: usize| (0..count).map(|index| letter((index % 3) as u8));
    let mut all = Vec::new();
    for count in [1, 2, 30, 31, 32, 33, 60] {
        let flat: Vec<u32> = many(count).collect();
        let parted: Vec<u32> = many(count).flat_map(|word| [word, BAR]).collect();
        all.push([&flat[..], &[STAR]].concat());
        all.push([&[OPEN], &flat[..], &[CLOSE, PLUS]].concat());
        all.push(many(count).flat_map(|word| [word, STAR]).collect());
        all.push(many(count).flat_map(|word| [word, MAYBE]).collect());
        all.push(many(count).flat_map(|word| [OPEN, word, CLOSE]).collect());
        all.push(parted[..parted.len() - 1].to_vec());
        all.push(nested(MOST_OPEN, &flat));
        all.push(nested(MOST_OPEN, &parted[..parted.len() - 1]));
        all.push(parted);
        all.push(flat);
    }
    // All that may come next when the letters are used up.
    let full: Vec<u32> = many(MOST_LETTERS).collect();
    let deep = vec![OPEN; MOST_OPEN];
    let deeper = vec![OPEN; MOST_OPEN + 1];
    for next in [
        &[a][..],
        &[BAR],
        &[BAR, a],
        &[BAR, BAR],
        &[CLOSE],
        &[OPEN],
        &[OPEN, a, CLOSE],
        &[OPEN, CLOSE],
        &[0x1000_0010],
        &[STAR, a],
        &[STAR, PLUS, MAYBE],
        &deep,
        &deeper,
    ] {
        all.push([&full[..], next].concat());
        all.push([&[OPEN], &full[..], next, &[CLOSE]].concat());
        all.push([&[OPEN], &full[..], &[CLOSE, PLUS], next].concat());
    }
    all
}

/// The words inside so many groups.
fn nested(depth: usize, words: &[u32]) -> Vec<u32> {
    [&vec![OPEN; depth], words, &vec![CLOSE; depth]].concat()
}

fn around_depth() -> Vec<Vec<u32>> {
    let a = letter(0);
    let b = letter(15);
    let mut all = Vec::new();
    for depth in [1, 2, 15, 16, 17, 18, 40, 127, 128] {
        let once = nested(depth, &[a]);
        all.push(once.clone());
        all.push(nested(depth, &[a, BAR, b]));
        all.push(nested(depth, &[a, STAR, b, MAYBE]));
        all.push(once[..once.len() - 1].to_vec());
        all.push([&once[..], &[CLOSE]].concat());
        all.push(vec![OPEN; depth]);
        for again in [1, 15, 16, 17] {
            let second = nested(again, &[b]);
            all.push([&once[..], &second].concat());
            all.push([&once[..], &[STAR, BAR], &second, &[PLUS]].concat());
        }
    }
    // Down, up by some, and down again: what counts is what is open now.
    let deep = [&vec![OPEN; MOST_OPEN][..], &[a]].concat();
    for up in 1..=MOST_OPEN {
        for down in [up - 1, up, up + 1] {
            let mut words = [&deep[..], &vec![CLOSE; up], &vec![OPEN; down], &[b]].concat();
            words.extend(vec![CLOSE; MOST_OPEN - up + down]);
            all.push(words);
        }
    }
    for next in [BAR, CLOSE, STAR, 0x2000_0001, OPEN] {
        all.push([&vec![OPEN; MOST_OPEN][..], &[next]].concat());
        all.push([&deep[..], &[next, a]].concat());
    }
    all
}

fn around_length() -> Vec<Vec<u32>> {
    let a = letter(2);
    let mut all = vec![vec![]];
    for length in [1, 2, 3, 254, 255, 256, 257, 258, 300, 399, 400] {
        for word in [a, OPEN, CLOSE, BAR, STAR, 0, 0xFFFF_FFFF] {
            all.push(vec![word; length]);
        }
        for mark in MARKS {
            all.push([&[a][..], &vec![mark; length - 1]].concat());
        }
        // The fault, or the end of soundness, at the very last word.
        for last in [a, OPEN, CLOSE, BAR, 0x5000_0001] {
            all.push([&[a][..], &vec![STAR; length - 1]].concat());
            if let Some(word) = all.last_mut().and_then(|words| words.last_mut()) {
                *word = last;
            }
        }
        if length > 3 {
            all.push([&[OPEN, a][..], &vec![PLUS; length - 3], &[CLOSE]].concat());
            all.push([&[OPEN, a][..], &vec![MAYBE; length - 2]].concat());
            all.push([&vec![MAYBE; length - 1][..], &[a]].concat());
        }
    }
    all
}

/// An expression of so many words, made from a sound one by putting marks in;
/// so it is sound if they are not too many.
pub fn of_length(rng: &mut Rng, length: usize) -> Vec<u32> {
    let mut words = sound(rng, 1..=10).words();
    while words.len() > length {
        words = sound(rng, 1..=10).words();
    }
    while words.len() < length {
        let place = rng.below(words.len());
        if words[place] != OPEN && words[place] != BAR {
            words.insert(place + 1, rng.pick(&MARKS));
        }
    }
    words
}

/// A small sound expression with runs of marks behind its letters and groups.
pub fn with_runs(rng: &mut Rng) -> Vec<u32> {
    let mut words = Vec::new();
    let longest = rng.within(2..=50);
    for word in sound(rng, 1..=4).words() {
        words.push(word);
        let ends_a_piece = word == CLOSE || label_of(word).is_some();
        if ends_a_piece && rng.chance(60) {
            let run = rng.within(1..=longest);
            words.extend((0..run).map(|_| rng.pick(&MARKS)));
        }
    }
    words
}

/// Every run of up to three marks behind several pieces.
pub fn short_runs() -> Vec<Vec<u32>> {
    let (a, b) = (letter(0), letter(1));
    let mut runs: Vec<Vec<u32>> = vec![vec![]];
    for start in 0..13 {
        for mark in MARKS {
            runs.push([&runs[start][..], &[mark]].concat());
        }
    }
    let mut all = Vec::new();
    for run in &runs {
        all.push([&[a], &run[..]].concat());
        all.push([&[a], &run[..], &[b]].concat());
        all.push([&[OPEN, a, b, CLOSE], &run[..]].concat());
        all.push([&[OPEN, a, BAR, b, CLOSE], &run[..], &[a]].concat());
        all.push([&[OPEN, a, STAR, b, MAYBE, CLOSE], &run[..]].concat());
        all.push([&[OPEN, a, PLUS, BAR, b, a, CLOSE], &run[..]].concat());
    }
    all
}

#[cfg(test)]
mod tests {
    use super::*;
    use crate::reading::read;

    #[test]
    fn sound_expressions_are_sound() {
        let mut rng = Rng::new(6);
        for _ in 0..3_000 {
            let words = sound(&mut rng, 1..=31).words();
            assert!(read(&words).is_ok(), "{words:x?}");
        }
    }

    #[test]
    fn every_fault_is_made_often() {
        let mut rng = Rng::new(7);
        let mut seen = [0; 6];
        let mut count = |words: &[u32]| {
            if let Err(fault) = read(words) {
                seen[fault.number as usize - 20] += 1;
            }
        };
        for _ in 0..2_000 {
            count(&soup(&mut rng, 40));
            count(&damaged(&mut rng, 1..=12));
        }
        for words in limits() {
            count(&words);
        }
        assert!(seen.iter().all(|&times| times >= 20), "{seen:?}");
    }

    #[test]
    fn lengths_are_met_and_marks_keep_soundness() {
        let mut rng = Rng::new(8);
        for _ in 0..100 {
            let words = of_length(&mut rng, MOST_WORDS);
            assert_eq!(words.len(), MOST_WORDS);
            assert!(read(&words).is_ok());
        }
    }

    #[test]
    fn short_runs_are_all_there() {
        assert_eq!(short_runs().len(), 40 * 6);
        assert!(short_runs().iter().all(|words| read(words).is_ok()));
    }
}

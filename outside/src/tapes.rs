//! The groups of cases for the program TAPE.

use crate::expression::{letter, BAR, CLOSE, MARKS, OPEN, STAR};
use crate::generate;
use crate::reading::MOST_LETTERS;
use crate::report::join_words;
use crate::rng::Rng;
use crate::tape::{ADD, ADVANCE, DROP, MOST_BYTES, START, WINDOW};

/// Cases of one kind.
pub struct Group {
    /// What they are.
    pub name: &'static str,
    make: fn(&mut Rng) -> Vec<Vec<u8>>,
}

impl Group {
    /// The tapes of this kind.
    pub fn tapes(&self, seed: u64) -> Vec<Vec<u8>> {
        (self.make)(&mut Rng::of_case(seed, self.name, 0))
    }
}

/// All groups.
pub const GROUPS: [Group; 11] = [
    Group {
        name: "starts",
        make: starts,
    },
    Group {
        name: "tapes cut at every byte",
        make: cuts,
    },
    Group {
        name: "damaged start words",
        make: damaged_starts,
    },
    Group {
        name: "counts of expression words",
        make: counts,
    },
    Group {
        name: "faulty expressions",
        make: faulty_expressions,
    },
    Group {
        name: "cells near 2,048",
        make: cells,
    },
    Group {
        name: "lawful records",
        make: records,
    },
    Group {
        name: "other words after the start",
        make: other_words,
    },
    Group {
        name: "trailing bytes",
        make: trailing_bytes,
    },
    Group {
        name: "sizes near 8,192 bytes",
        make: sizes,
    },
    Group {
        name: "tape soups",
        make: soups,
    },
];

const NS: [u32; 14] = [0, 1, 2, 3, 8, 16, 32, 33, 45, 46, 63, 64, 65, 255];
const WINDOWS: [u32; 5] = [0, 1, 10, 0x0800_0000, 0x0FFF_FFFF];

/// A start record in parts, sound or not.
#[derive(Debug, Clone)]
struct Start {
    n: u32,
    window: u32,
    /// The count in the first word, which need not be the true one.
    count: u32,
    expression: Vec<u32>,
}

impl Start {
    fn new(n: u32, window: u32, expression: Vec<u32>) -> Self {
        Self {
            n,
            window,
            count: expression.len() as u32,
            expression,
        }
    }

    /// A start that opens.
    fn sound(rng: &mut Rng) -> Self {
        let expression = generate::sound(rng, 1..=4).words();
        // With 4 letters the size is 5, and 20 * 20 * 5 cells are allowed.
        let n = rng.within(1..=20) as u32;
        Self::new(n, sound_window(rng), expression)
    }

    fn words(&self) -> Vec<u32> {
        let first = START | (self.count & 0x1FF) << 8 | self.n;
        [&[first, WINDOW | self.window], &self.expression[..]].concat()
    }

    fn bytes(&self) -> Vec<u8> {
        join_words(&self.words())
    }

    /// The tape of this start and more words.
    fn then(&self, rest: &[u32]) -> Vec<u8> {
        join_words(&[&self.words(), rest].concat())
    }
}

fn sound_window(rng: &mut Rng) -> u32 {
    match rng.below(3) {
        0 => rng.pick(&WINDOWS[1..]),
        1 => rng.within(1..=20) as u32,
        _ => 1 + rng.below(0x0FFF_FFFF) as u32,
    }
}

/// Often a good one, so that something else can be at fault.
fn any_n(rng: &mut Rng) -> u32 {
    if rng.chance(50) {
        rng.within(1..=8) as u32
    } else {
        rng.pick(&NS)
    }
}

fn any_window(rng: &mut Rng) -> u32 {
    if rng.chance(80) {
        sound_window(rng)
    } else {
        0
    }
}

fn any_bytes(rng: &mut Rng, count: usize) -> Vec<u8> {
    (0..count).map(|_| rng.word() as u8).collect()
}

fn starts(rng: &mut Rng) -> Vec<Vec<u8>> {
    let a = letter(7);
    let mut tapes = Vec::new();
    for n in NS {
        for window in WINDOWS {
            tapes.push(Start::new(n, window, vec![a]).bytes());
            for most in [2, 3, 5, 31] {
                let expression = generate::sound(rng, 1..=most).words();
                tapes.push(Start::new(n, window, expression).bytes());
            }
        }
    }
    for n in 0..256 {
        tapes.push(Start::new(n, 10, vec![a]).bytes());
    }
    tapes
}

fn cuts(rng: &mut Rng) -> Vec<Vec<u8>> {
    let a = letter(0);
    let mut whole: Vec<Vec<u8>> = Vec::new();
    for length in [1, 2, 3, 5, 8, 13, 21, 34, 256] {
        let expression = generate::of_length(rng, length);
        whole.push(Start::new(3, 10, expression).bytes());
    }
    // With records, with a faulty expression, with bad numbers.
    for _ in 0..4 {
        let records = some_records(rng, 4);
        whole.push(Start::sound(rng).then(&records));
    }
    for expression in [vec![STAR, a, a], vec![a, BAR, BAR, a, 0], vec![OPEN; 20]] {
        whole.push(Start::new(3, 10, expression).bytes());
    }
    whole.push(Start::new(0, 0, vec![a, BAR, a]).bytes());
    whole.push(Start::new(46, 1, vec![a, a, a]).then(&[ADVANCE]));
    whole.push(join_words(&[WINDOW, START, a]));
    whole.push(join_words(&[START | 0x101, START, a]));
    let mut tapes: Vec<Vec<u8>> = whole
        .iter()
        .flat_map(|tape| (0..=tape.len()).map(|length| tape[..length].to_vec()))
        .collect();
    // Long ones, cut near to where it matters.
    for length in [255, 256, 257, 511] {
        let start = Start::new(2, 5, generate::of_length(rng, length));
        let tape = start.then(&[record(rng), record(rng)]);
        let near = start.bytes().len();
        tapes.extend((near - 9..=near + 5).map(|length| tape[..length].to_vec()));
        tapes.extend((0..10).map(|_| tape[..rng.below(near)].to_vec()));
    }
    tapes
}

fn damaged_starts(rng: &mut Rng) -> Vec<Vec<u8>> {
    let mut tapes = Vec::new();
    for round in 0..6 {
        let mut start = Start::sound(rng);
        if round % 3 == 2 {
            // What comes later is wrong as well, but is not come to.
            start.expression = generate::damaged(rng, 1..=4);
            start.n = rng.pick(&NS);
        }
        let words = start.words();
        let mut damaged = |index: usize, word: u32| {
            let mut words = words.clone();
            words[index] = word;
            tapes.push(join_words(&words));
        };
        for index in [0, 1] {
            for bit in 0..32 {
                damaged(index, words[index] ^ 1 << bit);
            }
            for kind in 0..16 {
                damaged(index, words[index] & 0x0FFF_FFFF | kind << 28);
            }
            for _ in 0..6 {
                damaged(index, rng.word());
                damaged(index, generate::junk(rng));
                damaged(index, START | rng.word() >> 4);
            }
        }
    }
    for _ in 0..100 {
        let mut words = Start::sound(rng).words();
        words[0] ^= 1 << rng.below(32);
        words[1] ^= 1 << rng.below(32);
        if rng.chance(30) {
            words.swap(0, 1);
        }
        words.truncate(rng.within(1..=words.len()));
        tapes.push(join_words(&words));
    }
    tapes
}

fn counts(rng: &mut Rng) -> Vec<Vec<u8>> {
    let mut tapes = Vec::new();
    // The count says more or less than is there.
    for _ in 0..12 {
        let mut start = Start::new(any_n(rng), any_window(rng), Vec::new());
        start.expression = generate::sound(rng, 1..=6).words();
        let records = some_records(rng, 3);
        let true_count = start.expression.len() as u32;
        for count in true_count.saturating_sub(4)..=true_count + 4 {
            start.count = count;
            tapes.push(start.bytes());
            tapes.push(start.then(&records));
        }
    }
    for count in [0, 1, 255, 256, 257, 258, 300, 400, 510, 511] {
        for _ in 0..4 {
            let mut start = Start::new(any_n(rng), any_window(rng), Vec::new());
            start.count = count;
            // As many as it says, all but one, one more, or few.
            for length in [count, count.saturating_sub(1), count + 1, 1, 3] {
                start.expression = generate::of_length(rng, length.max(1) as usize);
                start.expression.truncate(length as usize);
                tapes.push(start.bytes());
            }
            start.expression = vec![rng.pick(&[0, OPEN, letter(1), STAR]); count as usize];
            tapes.push(start.bytes());
            tapes.push(start.then(&some_records(rng, 2)));
        }
    }
    tapes
}

fn faulty_expressions(rng: &mut Rng) -> Vec<Vec<u8>> {
    let mut tapes = Vec::new();
    for round in 0..700 {
        let expression = match round % 4 {
            0 => generate::soup(rng, 30),
            1 => generate::damaged(rng, 1..=20),
            2 => vec![generate::token(rng); rng.within(0..=3)],
            _ => generate::damaged(rng, 1..=4),
        };
        let start = Start::new(any_n(rng), any_window(rng), expression);
        let mut tape = if rng.chance(30) {
            start.then(&some_records(rng, 2))
        } else {
            start.bytes()
        };
        if rng.chance(20) {
            let count = rng.below(4);
            tape.extend(any_bytes(rng, count));
        }
        tapes.push(tape);
    }
    let limits = generate::limits();
    for _ in 0..300 {
        // Counts above 511 cannot be written; none of the limits has so many.
        let expression = rng.pick(&limits);
        tapes.push(Start::new(any_n(rng), any_window(rng), expression).bytes());
    }
    tapes
}

fn cells(rng: &mut Rng) -> Vec<Vec<u8>> {
    let mut tapes = Vec::new();
    for n in 1..=64_u32 {
        for size in 2..=MOST_LETTERS as u32 + 1 {
            let most = 2_048 / (n * n);
            if size.abs_diff(most) <= 1 || (most < 2 && size < 4) || size >= MOST_LETTERS as u32 {
                let window = rng.pick(&[0, 1, 10, 10, 10, 0x0FFF_FFFF]);
                let expression = of_size(rng, size as usize);
                tapes.push(Start::new(n, window, expression).bytes());
            }
        }
    }
    tapes
}

/// An expression of this size, with or without bars, groups and marks.
fn of_size(rng: &mut Rng, size: usize) -> Vec<u32> {
    if rng.chance(50) {
        return generate::sound(rng, size - 1..=size - 1).words();
    }
    (1..size).map(|index| letter((index % 16) as u8)).collect()
}

fn some_records(rng: &mut Rng, most: usize) -> Vec<u32> {
    (0..rng.within(1..=most)).map(|_| record(rng)).collect()
}

/// A lawful record with any numbers in it.
fn record(rng: &mut Rng) -> u32 {
    match rng.below(3) {
        0 => ADVANCE | low_bits(rng, 28),
        1 => ADD | low_bits(rng, 20),
        _ => DROP | low_bits(rng, 20),
    }
}

/// None, one, all or any of so many low bits.
fn low_bits(rng: &mut Rng, count: usize) -> u32 {
    let all = (1 << count) - 1;
    match rng.below(6) {
        0 => 0,
        1 => all,
        2 => 1 << rng.below(count),
        _ => rng.word() & all,
    }
}

fn records(rng: &mut Rng) -> Vec<Vec<u8>> {
    let mut tapes = Vec::new();
    let start = Start::sound(rng);
    for kind in [ADVANCE, ADD, DROP] {
        tapes.push(start.then(&[kind]));
        tapes.extend((0..20).map(|bit| start.then(&[kind | 1 << bit])));
    }
    tapes.extend((20..28).map(|bit| start.then(&[ADVANCE | 1 << bit])));
    for _ in 0..400 {
        let start = Start::sound(rng);
        let mut rest = some_records(rng, 6);
        if rng.chance(30) {
            rest.push(generate::junk(rng));
        }
        let mut tape = start.then(&rest);
        let count = rng.below(4);
        tape.extend(any_bytes(rng, count));
        tapes.push(tape);
    }
    tapes
}

fn other_words(rng: &mut Rng) -> Vec<Vec<u8>> {
    let mut tapes = Vec::new();
    let start = Start::sound(rng);
    for kind in 0..16_u32 {
        for low in [0, 1, 5, 0x10_0000, 0x0FFF_FFFF] {
            tapes.push(start.then(&[kind << 28 | low]));
        }
    }
    for bit in 0..28 {
        for kind in [ADD, DROP, 0xD000_0000, 0x2000_0000] {
            tapes.push(start.then(&[kind | 0x1_0203 ^ 1 << bit]));
        }
    }
    for _ in 0..400 {
        let start = Start::sound(rng);
        let word = match rng.below(6) {
            0 => rng.word(),
            1 => generate::token(rng),
            2 => record(rng) | 1 << rng.within(20..=27),
            3 => record(rng) ^ 1 << rng.within(28..=31),
            4 => start.words()[rng.below(2)],
            _ => rng.pick(&[CLOSE, BAR, MARKS[0], letter(0)]),
        };
        let mut rest = vec![word];
        if rng.chance(30) {
            rest.extend(some_records(rng, 3));
        }
        let mut tape = start.then(&rest);
        if rng.chance(30) {
            let count = rng.within(1..=3);
            tape.extend(any_bytes(rng, count));
        }
        tapes.push(tape);
    }
    tapes
}

fn trailing_bytes(rng: &mut Rng) -> Vec<Vec<u8>> {
    let mut tapes = Vec::new();
    for _ in 0..100 {
        let start = Start::sound(rng);
        for count in 1..=3 {
            let mut tape = start.bytes();
            let zeros = rng.chance(20);
            tape.extend(if zeros {
                vec![0; count]
            } else {
                any_bytes(rng, count)
            });
            tapes.push(tape);
        }
    }
    tapes
}

fn sizes(rng: &mut Rng) -> Vec<Vec<u8>> {
    let mut tapes = Vec::new();
    let near = MOST_BYTES - 9..=MOST_BYTES + 9;
    let beyond = [9_000, 16_384, 65_535, 65_536, 65_537, 100_000, 300_000];
    for size in near.chain(beyond) {
        for _ in 0..2 {
            let start = Start::sound(rng).bytes();
            let records: Vec<u8> = join_words(&[record(rng), record(rng)]);
            for filling in [&[0][..], &[0xFF], &[0, 0, 0, 0xA0], &records] {
                tapes.push(filled(start.clone(), filling, size));
                tapes.push(filled(Vec::new(), filling, size));
            }
        }
        let faulty = Start::new(any_n(rng), any_window(rng), generate::damaged(rng, 1..=9));
        tapes.push(filled(faulty.bytes(), &[0, 0, 0, 0xA0], size));
        tapes.push(any_bytes(rng, size));
    }
    for size in [1_000_000, 4_000_000] {
        tapes.push(filled(Start::sound(rng).bytes(), &[0, 0, 0, 0xA0], size));
        tapes.push(vec![0; size]);
    }
    tapes
}

/// The tape filled up to the size, the filling again and again; its first
/// byte goes where a word begins.
fn filled(mut tape: Vec<u8>, filling: &[u8], size: usize) -> Vec<u8> {
    let missing = size - tape.len();
    tape.extend(filling.iter().cycle().take(missing));
    tape
}

/// Words of all kinds in a row that look like a tape more or less.
fn soups(rng: &mut Rng) -> Vec<Vec<u8>> {
    (0..900)
        .map(|_| {
            let length = rng.within(0..=8);
            let words: Vec<u32> = (0..length).map(|index| soup_word(rng, index)).collect();
            let mut tape = join_words(&words);
            if rng.chance(25) {
                let count = rng.within(1..=3);
                tape.extend(any_bytes(rng, count));
            }
            tape
        })
        .collect()
}

fn soup_word(rng: &mut Rng, index: usize) -> u32 {
    if rng.chance(6) {
        return generate::junk(rng);
    }
    match index {
        0 => START | (rng.within(0..=4) as u32) << 8 | any_n(rng),
        1 => WINDOW | any_window(rng),
        _ if rng.chance(70) => rng.pick(&[letter(0), letter(9), STAR, BAR, OPEN, CLOSE]),
        _ => record(rng),
    }
}

#[cfg(test)]
mod tests {
    use super::*;
    use crate::tape::expected;
    use std::collections::{BTreeMap, BTreeSet};

    #[test]
    fn there_are_enough_tapes_and_every_answer_is_among_them() {
        let mut answers: BTreeMap<String, usize> = BTreeMap::new();
        let mut total = 0;
        for group in &GROUPS {
            for tape in group.tapes(1) {
                total += 1;
                let expected = expected(&tape);
                let last = expected.stdout.lines().last().unwrap_or_default();
                let kind: Vec<&str> = last.split(' ').take(3).collect();
                let kind = match kind[0] {
                    "fault" => kind.join(" "),
                    other => other.to_string(),
                };
                *answers.entry(kind).or_default() += 1;
            }
        }
        assert!(total >= 5_000, "{total} tapes");
        let faults = [
            "1 20", "1 21", "1 22", "1 23", "1 24", "1 25", "2 30", "2 31", "2 32", "3 3", "3 4",
            "3 6",
        ];
        let known: BTreeSet<String> = faults
            .map(|fault| format!("fault {fault}"))
            .into_iter()
            .chain(["end".to_string(), "start".to_string()])
            .collect();
        assert!(answers.keys().eq(&known), "{answers:?}");
        assert!(answers.values().all(|&times| times >= 20), "{answers:?}");
    }
}

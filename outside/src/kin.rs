//! Expressions that have words in common.
//!
//! Of two expressions that know nothing of each other hardly a word is in both
//! languages. These are made so that some word is.

use std::collections::BTreeSet;

use crate::expression::{Base, Expression, Piece, Sequence, MARKS, MAYBE, STAR};
use crate::rng::Rng;

/// An expression with so many letters that has the word, and mostly has others.
///
/// It takes a letter at least, and one for each label of the word. Letters
/// that the word does not need are taken from the labels.
pub fn around(rng: &mut Rng, word: &[u8], letters: usize, labels: &[u8]) -> Expression {
    if word.len() <= letters {
        woven(rng, word, letters, labels)
    } else {
        again_and_again(rng, word, letters, labels)
    }
}

/// The word letter by letter, with groups, and with what may be left out.
fn woven(rng: &mut Rng, word: &[u8], letters: usize, labels: &[u8]) -> Expression {
    let mut spare = letters - word.len();
    let mut pieces: Vec<Piece> = word
        .iter()
        .map(|&label| marked(rng, Base::Letter(label)))
        .collect();
    let groups = if word.is_empty() { 0 } else { rng.below(3) };
    for _ in 0..groups {
        let from = rng.below(pieces.len());
        let to = rng.within(from + 1..=pieces.len());
        let inner = pieces.drain(from..to).collect();
        let mut sequences = vec![Sequence { pieces: inner }];
        if spare > 0 && rng.chance(50) {
            let count = rng.within(1..=spare.min(3));
            sequences.insert(rng.below(2), row(rng, count, labels));
            spare -= count;
        }
        pieces.insert(from, marked(rng, Base::Group(Expression { sequences })));
    }
    for _ in 0..spare {
        let place = rng.within(0..=pieces.len());
        pieces.insert(place, skippable(rng, labels));
    }
    Expression {
        sequences: vec![Sequence { pieces }],
    }
}

/// Any of the word's labels, any number of times.
fn again_and_again(rng: &mut Rng, word: &[u8], letters: usize, labels: &[u8]) -> Expression {
    let needed: BTreeSet<u8> = word.iter().copied().collect();
    let mut sequences: Vec<Sequence> = needed
        .iter()
        .map(|&label| Sequence {
            pieces: vec![marked(rng, Base::Letter(label))],
        })
        .collect();
    for _ in needed.len()..letters {
        let place = rng.below(sequences.len());
        if rng.chance(50) {
            sequences.insert(place, row(rng, 1, labels));
        } else {
            sequences[place].pieces.push(skippable(rng, labels));
        }
    }
    let mut whole = marked(rng, Base::Group(Expression { sequences }));
    whole.marks.push(STAR);
    Expression {
        sequences: vec![Sequence {
            pieces: vec![whole],
        }],
    }
}

/// An expression near to the given one that has all of its words: the same,
/// or with a mark, a bar or a piece put in somewhere.
pub fn wider(rng: &mut Rng, expression: &Expression, labels: &[u8]) -> Expression {
    let mut expression = expression.clone();
    widen(rng, &mut expression, labels);
    expression
}

fn widen(rng: &mut Rng, expression: &mut Expression, labels: &[u8]) {
    let place = rng.below(expression.sequences.len());
    let pieces = &mut expression.sequences[place].pieces;
    let index = rng.below(pieces.len());
    let piece = &mut pieces[index];
    match &mut piece.base {
        Base::Group(inner) if rng.chance(50) => return widen(rng, inner, labels),
        _ => {}
    }
    match rng.below(5) {
        0 => {}
        1 => piece.marks.push(rng.pick(&MARKS)),
        2 => pieces.insert(index, skippable(rng, labels)),
        3 => {
            let count = rng.within(1..=2);
            expression.sequences.insert(place, row(rng, count, labels));
        }
        _ => {
            let inner = Base::Group(expression.clone());
            let mut whole = marked(rng, inner);
            whole.marks.push(rng.pick(&MARKS));
            expression.sequences = vec![Sequence {
                pieces: vec![whole],
            }];
        }
    }
}

/// So many letters in a row.
fn row(rng: &mut Rng, count: usize, labels: &[u8]) -> Sequence {
    let pieces = (0..count)
        .map(|_| {
            let label = rng.pick(labels);
            marked(rng, Base::Letter(label))
        })
        .collect();
    Sequence { pieces }
}

/// A piece with no mark, or with a few: with marks it has no word less.
fn marked(rng: &mut Rng, base: Base) -> Piece {
    let count = rng.pick(&[0, 0, 0, 1, 1, 2]);
    let marks = (0..count).map(|_| rng.pick(&MARKS)).collect();
    Piece { base, marks }
}

/// A letter that may be left out.
fn skippable(rng: &mut Rng, labels: &[u8]) -> Piece {
    let label = rng.pick(labels);
    let mut piece = marked(rng, Base::Letter(label));
    piece.marks.push(rng.pick(&[STAR, MAYBE]));
    piece
}

#[cfg(test)]
mod tests {
    use super::*;
    use crate::generate;
    use crate::known::Known;
    use crate::reading::MOST_LETTERS;

    fn known(expression: &Expression) -> Known {
        Known::of(&expression.words()).expect("sound")
    }

    #[test]
    fn what_is_made_around_a_word_has_it_and_the_letters() {
        let mut rng = Rng::new(11);
        for round in 0..2_000 {
            let letters = round % MOST_LETTERS + 1;
            let size = rng.within(1..=letters.min(3));
            let labels = generate::some_labels(&mut rng, size);
            let length = rng.below(10);
            let word: Vec<u8> = (0..length).map(|_| rng.pick(&labels)).collect();
            let expression = around(&mut rng, &word, letters, &labels);
            let known = known(&expression);
            let labels: Vec<u32> = word.into_iter().map(u32::from).collect();
            assert_eq!(known.size, letters + 1);
            assert!(known.language.has(&labels), "{expression:?} {labels:?}");
        }
    }

    #[test]
    fn what_is_wider_has_all_words_and_mostly_more() {
        let mut rng = Rng::new(12);
        let mut more = 0;
        for _ in 0..1_000 {
            let narrow = generate::sound_over(&mut rng, &[0, 1], 1..=6);
            let wide = wider(&mut rng, &narrow, &[0, 1]);
            let (narrow, wide) = (known(&narrow), known(&wide));
            for _ in 0..5 {
                let word = narrow.language.sample(&mut rng, 50, 4);
                assert!(wide.language.has(&word), "{narrow:?} {wide:?} {word:?}");
            }
            let word = wide.language.sample(&mut rng, 50, 4);
            more += usize::from(!narrow.language.has(&word));
        }
        assert!((200..800).contains(&more), "{more} of 1,000");
    }
}

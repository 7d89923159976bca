//! The language of an expression, straight from its definition.
//!
//! There is no automaton here and no derivative: whether a stretch of a word
//! belongs to a part of the expression is asked of its parts, by trying every
//! way of splitting the stretch. That is slow, plain, and shares no idea with
//! the programs that are tested.

use crate::expression::{Base, Expression, Piece, PLUS, STAR};
use crate::rng::Rng;

/// A part of an expression; the numbers are places in [`Language::parts`].
#[derive(Debug, Clone, Copy)]
enum Part {
    Letter(u32),
    Both(usize, usize),
    Either(usize, usize),
    Star(usize),
    Plus(usize),
    Maybe(usize),
}

/// The language of an expression.
#[derive(Debug)]
pub struct Language {
    parts: Vec<Part>,
    whole: usize,
}

impl Language {
    /// The language of the expression.
    pub fn of(expression: &Expression) -> Self {
        let mut language = Self {
            parts: Vec::new(),
            whole: 0,
        };
        language.whole = language.add_expression(expression);
        language
    }

    fn add(&mut self, part: Part) -> usize {
        self.parts.push(part);
        self.parts.len() - 1
    }

    fn add_expression(&mut self, expression: &Expression) -> usize {
        let mut sequences = expression.sequences.iter();
        let first = sequences.next().expect("an expression has a sequence");
        let first = self.add_pieces(&first.pieces);
        sequences.fold(first, |left, sequence| {
            let right = self.add_pieces(&sequence.pieces);
            self.add(Part::Either(left, right))
        })
    }

    fn add_pieces(&mut self, pieces: &[Piece]) -> usize {
        let (first, rest) = pieces.split_first().expect("a sequence has a piece");
        let first = self.add_piece(first);
        rest.iter().fold(first, |left, piece| {
            let right = self.add_piece(piece);
            self.add(Part::Both(left, right))
        })
    }

    fn add_piece(&mut self, piece: &Piece) -> usize {
        let base = match &piece.base {
            Base::Letter(label) => self.add(Part::Letter(u32::from(*label))),
            Base::Group(inner) => self.add_expression(inner),
        };
        piece.marks.iter().fold(base, |inner, &mark| {
            self.add(match mark {
                STAR => Part::Star(inner),
                PLUS => Part::Plus(inner),
                _ => Part::Maybe(inner),
            })
        })
    }

    /// Whether the word belongs to the language.
    pub fn has(&self, labels: &[u32]) -> bool {
        let ends = labels.len() + 1;
        let mut question = Question {
            parts: &self.parts,
            labels,
            known: vec![None; self.parts.len() * ends * ends],
        };
        question.has(self.whole, 0, labels.len())
    }

    /// A word of the language, found by walking the expression.
    ///
    /// At each mark that allows it the walk goes in, or round again, in
    /// `eagerness` cases of a hundred, but goes round again `rounds` times at
    /// most in all: marks upon marks would otherwise make it endless.
    pub fn sample(&self, rng: &mut Rng, eagerness: usize, rounds: usize) -> Vec<u32> {
        let mut walk = Walk {
            parts: &self.parts,
            rng,
            eagerness,
            rounds,
            labels: Vec::new(),
        };
        walk.through(self.whole);
        walk.labels
    }
}

/// One question of membership, with all that is known on the way to it.
struct Question<'a> {
    parts: &'a [Part],
    labels: &'a [u32],
    known: Vec<Option<bool>>,
}

impl Question<'_> {
    /// Whether `labels[from..to]` belongs to the part.
    ///
    /// It ends, because every question that it asks on the way is about a
    /// smaller part or about a shorter stretch.
    fn has(&mut self, part: usize, from: usize, to: usize) -> bool {
        let ends = self.labels.len() + 1;
        let place = (part * ends + from) * ends + to;
        if let Some(answer) = self.known[place] {
            return answer;
        }
        let answer = match self.parts[part] {
            Part::Letter(label) => self.labels[from..to] == [label],
            Part::Either(left, right) => self.has(left, from, to) || self.has(right, from, to),
            Part::Both(left, right) => {
                (from..=to).any(|split| self.has(left, from, split) && self.has(right, split, to))
            }
            Part::Maybe(inner) => from == to || self.has(inner, from, to),
            Part::Star(inner) => from == to || self.goes_on(part, inner, from, to),
            // One member, or a member with some more after it.
            Part::Plus(inner) => self.has(inner, from, to) || self.goes_on(part, inner, from, to),
        };
        self.known[place] = Some(answer);
        answer
    }

    /// Whether a member of `inner` that is not empty comes first and the
    /// repetition again after it. Empty members in between change nothing.
    fn goes_on(&mut self, repetition: usize, inner: usize, from: usize, to: usize) -> bool {
        (from + 1..=to).any(|split| self.has(inner, from, split) && self.has(repetition, split, to))
    }
}

/// A walk through an expression that gathers the labels on its way.
struct Walk<'a> {
    parts: &'a [Part],
    rng: &'a mut Rng,
    eagerness: usize,
    rounds: usize,
    labels: Vec<u32>,
}

impl Walk<'_> {
    fn through(&mut self, part: usize) {
        match self.parts[part] {
            Part::Letter(label) => self.labels.push(label),
            Part::Both(left, right) => {
                self.through(left);
                self.through(right);
            }
            Part::Either(left, right) => {
                let side = if self.rng.chance(50) { left } else { right };
                self.through(side);
            }
            Part::Maybe(inner) => {
                if self.rng.chance(self.eagerness) {
                    self.through(inner);
                }
            }
            Part::Star(inner) => {
                if self.rng.chance(self.eagerness) {
                    self.through(inner);
                    self.round_again(inner);
                }
            }
            Part::Plus(inner) => {
                self.through(inner);
                self.round_again(inner);
            }
        }
    }

    fn round_again(&mut self, inner: usize) {
        while self.rounds > 0 && self.rng.chance(self.eagerness) {
            self.rounds -= 1;
            self.through(inner);
        }
    }
}

#[cfg(test)]
mod tests {
    use super::*;
    use crate::expression::parse;
    use crate::generate;
    use crate::words::all_words;
    use std::collections::BTreeSet;

    type Words = BTreeSet<Vec<u32>>;

    const LONGEST: usize = 4;

    /// All members up to a length, as sets: the definition once more, in the
    /// other direction.
    fn members(expression: &Expression) -> Words {
        let mut union = Words::new();
        for sequence in &expression.sequences {
            let empty = Words::from([vec![]]);
            let of_sequence = sequence.pieces.iter().fold(empty, |before, piece| {
                let base = match &piece.base {
                    Base::Letter(label) => Words::from([vec![u32::from(*label)]]),
                    Base::Group(inner) => members(inner),
                };
                let marked = piece.marks.iter().fold(base, |inner, &mark| match mark {
                    STAR => closure(&inner),
                    PLUS => joined(&inner, &closure(&inner)),
                    _ => &inner | &Words::from([vec![]]),
                });
                joined(&before, &marked)
            });
            union.extend(of_sequence);
        }
        union
    }

    fn joined(left: &Words, right: &Words) -> Words {
        left.iter()
            .flat_map(|first| right.iter().map(|second| [&first[..], second].concat()))
            .filter(|word| word.len() <= LONGEST)
            .collect()
    }

    fn closure(inner: &Words) -> Words {
        let mut all = Words::from([vec![]]);
        loop {
            let more = &all | &joined(&all, inner);
            if more == all {
                return all;
            }
            all = more;
        }
    }

    #[test]
    fn membership_is_being_among_the_members() {
        let mut rng = Rng::new(3);
        for _ in 0..600 {
            let expression = generate::sound(&mut rng, 1..=6);
            let language = Language::of(&expression);
            let members = members(&expression);
            let labels = expression.labels();
            if labels.len() > 3 {
                continue;
            }
            for word in all_words(&labels, LONGEST) {
                let belongs = members.contains(&word);
                assert_eq!(language.has(&word), belongs, "{expression:?} {word:?}");
            }
        }
    }

    #[test]
    fn what_is_sampled_belongs() {
        let mut rng = Rng::new(4);
        for _ in 0..500 {
            let language = Language::of(&generate::sound(&mut rng, 1..=10));
            let eagerness = rng.within(10..=90);
            let word = language.sample(&mut rng, eagerness, 6);
            assert!(language.has(&word), "{language:?} {word:?}");
        }
    }

    #[test]
    fn a_walk_through_marks_upon_marks_ends() {
        let a = crate::expression::letter(0);
        let words: Vec<u32> = [a]
            .into_iter()
            .chain(std::iter::repeat(crate::expression::MAYBE).take(100))
            .chain(std::iter::repeat(PLUS).take(100))
            .collect();
        let language = Language::of(&parse(&words).expect("sound"));
        let mut rng = Rng::new(5);
        let longest = (0..200)
            .map(|_| language.sample(&mut rng, 99, 10).len())
            .max();
        assert!(matches!(longest, Some(2..=11)), "{longest:?}");
        assert!(language.has(&[0; 20]));
        assert!(!language.has(&[0, 0, 16]));
    }
}

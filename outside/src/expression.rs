//! Expressions as the grammar has them, and their words on the wire.
//!
//! The structure follows the grammar one to one, so that writing an expression
//! out loses nothing and [`parse`] brings back the very same structure. Limits
//! (letters, depth, length) are no part of the grammar and are not looked at
//! here: they are the matter of [`crate::reading`].

use std::collections::BTreeSet;

/// Opens a group.
pub const OPEN: u32 = 0x2000_0000;
/// Closes a group.
pub const CLOSE: u32 = 0x3000_0000;
/// Parts two sequences.
pub const BAR: u32 = 0x4000_0000;
/// Zero or more of the piece before it.
pub const STAR: u32 = 0x5000_0000;
/// One or more of the piece before it.
pub const PLUS: u32 = 0x6000_0000;
/// None or one of the piece before it.
pub const MAYBE: u32 = 0x7000_0000;
/// The words that may follow a piece and change how often it comes.
pub const MARKS: [u32; 3] = [STAR, PLUS, MAYBE];

const LETTER: u32 = 0x1000_0000;

/// The letter with the given label (0 to 15).
pub fn letter(label: u8) -> u32 {
    assert!(label < 16, "labels have four bits");
    LETTER | u32::from(label)
}

/// The label, if the word is a letter.
pub fn label_of(word: u32) -> Option<u8> {
    let label = word ^ LETTER;
    (label < 16).then_some(label as u8)
}

/// One or more sequences parted by bars.
#[derive(Debug, Clone, PartialEq, Eq)]
pub struct Expression {
    /// The sequences, of which any one may be taken.
    pub sequences: Vec<Sequence>,
}

/// One or more pieces, one after the other.
#[derive(Debug, Clone, PartialEq, Eq)]
pub struct Sequence {
    /// The pieces from left to right.
    pub pieces: Vec<Piece>,
}

/// A letter or a group, with its marks.
#[derive(Debug, Clone, PartialEq, Eq)]
pub struct Piece {
    /// What the marks are about.
    pub base: Base,
    /// Any number of [`MARKS`]; the first binds first.
    pub marks: Vec<u32>,
}

/// What a piece is made of.
#[derive(Debug, Clone, PartialEq, Eq)]
pub enum Base {
    /// A letter with this label.
    Letter(u8),
    /// An expression between open and close.
    Group(Expression),
}

impl Expression {
    /// The expression written out.
    pub fn words(&self) -> Vec<u32> {
        let mut words = Vec::new();
        self.write(&mut words);
        words
    }

    fn write(&self, words: &mut Vec<u32>) {
        for (index, sequence) in self.sequences.iter().enumerate() {
            if index > 0 {
                words.push(BAR);
            }
            for piece in &sequence.pieces {
                match &piece.base {
                    Base::Letter(label) => words.push(letter(*label)),
                    Base::Group(inner) => {
                        words.push(OPEN);
                        inner.write(words);
                        words.push(CLOSE);
                    }
                }
                words.extend(&piece.marks);
            }
        }
    }

    /// The labels that the expression has, each once.
    pub fn labels(&self) -> Vec<u32> {
        let labels: BTreeSet<u32> = self
            .words()
            .into_iter()
            .filter_map(label_of)
            .map(u32::from)
            .collect();
        labels.into_iter().collect()
    }
}

/// The structure of the words, or none where they are not an expression.
pub fn parse(words: &[u32]) -> Option<Expression> {
    let mut rest = words;
    let expression = parse_expression(&mut rest)?;
    rest.is_empty().then_some(expression)
}

fn parse_expression(rest: &mut &[u32]) -> Option<Expression> {
    let mut sequences = vec![parse_sequence(rest)?];
    while take(rest, BAR) {
        sequences.push(parse_sequence(rest)?);
    }
    Some(Expression { sequences })
}

fn parse_sequence(rest: &mut &[u32]) -> Option<Sequence> {
    let mut pieces = vec![parse_piece(rest)?];
    while let Some(&word) = rest.first() {
        if word != OPEN && label_of(word).is_none() {
            break;
        }
        pieces.push(parse_piece(rest)?);
    }
    Some(Sequence { pieces })
}

fn parse_piece(rest: &mut &[u32]) -> Option<Piece> {
    let base = if take(rest, OPEN) {
        let inner = parse_expression(rest)?;
        if !take(rest, CLOSE) {
            return None;
        }
        Base::Group(inner)
    } else {
        let label = label_of(*rest.first()?)?;
        *rest = &rest[1..];
        Base::Letter(label)
    };
    let mut marks = Vec::new();
    while let Some(&mark) = rest.first().filter(|word| MARKS.contains(word)) {
        marks.push(mark);
        *rest = &rest[1..];
    }
    Some(Piece { base, marks })
}

/// Steps over the word if it is the next one.
fn take(rest: &mut &[u32], word: u32) -> bool {
    let there = rest.first() == Some(&word);
    if there {
        *rest = &rest[1..];
    }
    there
}

#[cfg(test)]
mod tests {
    use super::*;
    use crate::generate;
    use crate::rng::Rng;

    #[test]
    fn parsing_brings_back_what_was_written() {
        let mut rng = Rng::new(1);
        for _ in 0..2_000 {
            let expression = generate::sound(&mut rng, 1..=31);
            assert_eq!(parse(&expression.words()), Some(expression));
        }
    }

    #[test]
    fn words_outside_the_grammar_have_no_structure() {
        let a = letter(0);
        for words in [
            &[][..],
            &[STAR],
            &[a, BAR],
            &[BAR, a],
            &[OPEN, CLOSE],
            &[OPEN, a],
            &[a, CLOSE],
            &[a, 0x1000_0010],
            &[a, STAR, 0],
        ] {
            assert_eq!(parse(words), None, "{words:x?}");
        }
    }
}

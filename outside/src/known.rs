//! What is known of an expression without a fault.

use crate::expression::parse;
use crate::language::Language;
use crate::reading::{read, Fault};

/// An expression without a fault.
#[derive(Debug)]
pub struct Known {
    /// The expression written out.
    pub words: Vec<u32>,
    /// The size of its machine.
    pub size: usize,
    /// The labels in it, each once.
    pub labels: Vec<u32>,
    /// Its language.
    pub language: Language,
}

impl Known {
    /// What is known of the words, or their fault.
    pub fn of(words: &[u32]) -> Result<Self, Fault> {
        let size = read(words)?;
        let expression = parse(words).expect("what has no fault has a structure");
        Ok(Self {
            words: words.to_vec(),
            size,
            labels: expression.labels(),
            language: Language::of(&expression),
        })
    }
}

#[cfg(test)]
mod tests {
    use super::*;
    use crate::expression::{letter, BAR, STAR};

    #[test]
    fn sound_words_are_known_and_faulty_ones_are_not() {
        let words = [letter(3), STAR, BAR, letter(1), letter(3)];
        let known = Known::of(&words).expect("sound");
        assert_eq!((known.size, &known.words[..]), (4, &words[..]));
        assert_eq!(known.labels, [1, 3]);
        assert!(known.language.has(&[1, 3]) && !known.language.has(&[1]));
        let fault = Known::of(&words[..3]).expect_err("unfinished");
        assert_eq!((fault.number, fault.place), (25, 3));
    }
}

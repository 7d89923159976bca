//! What reading an expression answers: its size, or the first fault.

use crate::expression::{label_of, BAR, CLOSE, MAYBE, OPEN, PLUS, STAR};

/// The most words that an expression may have.
pub const MOST_WORDS: usize = 256;
/// The most letters that an expression may have.
pub const MOST_LETTERS: usize = 31;
/// The most groups that may be open at once.
pub const MOST_OPEN: usize = 16;

/// A fault of an expression: its number and the place of the faulty word.
#[derive(Debug, Clone, Copy, PartialEq, Eq)]
pub struct Fault {
    /// 20 to 25.
    pub number: u32,
    /// The index of the faulty word, or the count of words for fault 25.
    pub place: usize,
}

/// The size of the expression, which is its letters and one, or its fault.
///
/// One pass with two counters is enough: no word's lawfulness hangs on more
/// than how many groups are open, how many letters there were, and whether a
/// piece must begin.
pub fn read(words: &[u32]) -> Result<usize, Fault> {
    if words.is_empty() || words.len() > MOST_WORDS {
        return Err(Fault {
            number: 20,
            place: 0,
        });
    }
    let mut letters = 0;
    let mut open = 0;
    let mut must_begin = true;
    for (place, &word) in words.iter().enumerate() {
        let fault = |number| Err(Fault { number, place });
        if label_of(word).is_some() {
            if letters == MOST_LETTERS {
                return fault(23);
            }
            letters += 1;
            must_begin = false;
        } else if word == OPEN {
            if open == MOST_OPEN {
                return fault(24);
            }
            open += 1;
            must_begin = true;
        } else if ![CLOSE, BAR, STAR, PLUS, MAYBE].contains(&word) {
            return fault(21);
        } else if must_begin || (word == CLOSE && open == 0) {
            return fault(22);
        } else if word == CLOSE {
            open -= 1;
        } else {
            // A mark leaves things as they are.
            must_begin = word == BAR;
        }
    }
    if must_begin || open > 0 {
        return Err(Fault {
            number: 25,
            place: words.len(),
        });
    }
    Ok(letters + 1)
}

#[cfg(test)]
mod tests {
    use super::*;
    use crate::expression::{letter, parse};
    use crate::generate;
    use crate::rng::Rng;

    /// The same answer, worked out from the grammar: the place of a fault is
    /// where the words so far can no longer be gone on with.
    fn read_by_grammar(words: &[u32]) -> Result<usize, Fault> {
        if words.is_empty() || words.len() > 256 {
            return Err(Fault {
                number: 20,
                place: 0,
            });
        }
        let astray = (0..words.len()).find(|&place| !can_go_on(&words[..=place]));
        let letter_too_many = (0..words.len())
            .filter(|&place| label_of(words[place]).is_some())
            .nth(31);
        let too_deep =
            (0..words.len()).find(|&place| words[place] == OPEN && depth(&words[..place]) == 16);
        let first = [
            astray.map(|place| (place, if is_token(words[place]) { 22 } else { 21 })),
            letter_too_many.map(|place| (place, 23)),
            too_deep.map(|place| (place, 24)),
        ]
        .into_iter()
        .flatten()
        .min();
        match (first, parse(words)) {
            (Some((place, number)), _) => Err(Fault { number, place }),
            (None, None) => Err(Fault {
                number: 25,
                place: words.len(),
            }),
            (None, Some(_)) => Ok(words.iter().filter_map(|&word| label_of(word)).count() + 1),
        }
    }

    /// Whether some words could follow to make an expression: it is enough to
    /// try a letter or none, and then closes.
    fn can_go_on(words: &[u32]) -> bool {
        (0..=words.len()).any(|closes| {
            [&[][..], &[letter(0)]].into_iter().any(|middle| {
                let whole = [words, middle, &vec![CLOSE; closes]].concat();
                parse(&whole).is_some()
            })
        })
    }

    fn depth(words: &[u32]) -> isize {
        let count = |sought| words.iter().filter(|&&word| word == sought).count() as isize;
        count(OPEN) - count(CLOSE)
    }

    fn is_token(word: u32) -> bool {
        label_of(word).is_some() || [OPEN, CLOSE, BAR, STAR, PLUS, MAYBE].contains(&word)
    }

    #[test]
    fn short_words_agree_with_the_grammar() {
        let alphabet = [letter(3), OPEN, CLOSE, BAR, STAR, 0x2000_0001];
        let mut all: Vec<Vec<u32>> = vec![vec![]];
        for _ in 0..6 {
            all = all
                .iter()
                .flat_map(|words| alphabet.map(|next| [&words[..], &[next]].concat()))
                .collect();
            for words in &all {
                assert_eq!(read(words), read_by_grammar(words), "{words:x?}");
            }
        }
    }

    #[test]
    fn made_expressions_agree_with_the_grammar() {
        let mut rng = Rng::new(2);
        let mut sound = 0;
        for round in 0..1_500 {
            let words = match round % 3 {
                0 => generate::soup(&mut rng, 60),
                1 => generate::damaged(&mut rng, 1..=12),
                _ => generate::sound(&mut rng, 1..=31).words(),
            };
            sound += usize::from(read(&words).is_ok());
            assert_eq!(read(&words), read_by_grammar(&words), "{words:x?}");
        }
        assert!((600..1_200).contains(&sound), "{sound} of 1,500 are sound");
    }

    #[test]
    fn limits_agree_with_the_grammar() {
        for words in generate::limits() {
            assert_eq!(read(&words), read_by_grammar(&words), "{words:x?}");
        }
    }

    #[test]
    fn faults_are_where_the_description_says() {
        let a = letter(0);
        let fault = |number, place| Err(Fault { number, place });
        let cases = [
            (vec![], fault(20, 0)),
            (vec![0; 257], fault(20, 0)),
            (vec![a, 0x1000_0010], fault(21, 1)),
            (vec![a, BAR, STAR], fault(22, 2)),
            (vec![a, CLOSE], fault(22, 1)),
            (vec![OPEN, CLOSE], fault(22, 1)),
            (vec![a; 31], Ok(32)),
            (vec![a; 32], fault(23, 31)),
            (vec![OPEN; 16], fault(25, 16)),
            (vec![OPEN; 17], fault(24, 16)),
            (vec![OPEN, a], fault(25, 2)),
            (vec![a, BAR], fault(25, 2)),
        ];
        for (words, answer) in cases {
            assert_eq!(read(&words), answer, "{words:x?}");
        }
    }
}

//! A word tried on a product of machines, and what the program WORDS must
//! answer.
//!
//! The answer is put together from what is known of each expression alone: the
//! sizes multiply, and the word belongs to the product if it belongs to every
//! one of the languages. No product is made here.

use crate::known::Known;
use crate::reading::Fault;

/// The most states that a product may have.
pub const MOST_STATES: usize = 32;
/// The size of a product that would have more.
pub const TOO_MANY: usize = MOST_STATES + 1;

/// How machines are put together, two by two; the numbers are the commands.
#[derive(Debug, Clone, Copy, PartialEq, Eq)]
pub enum Nesting {
    /// The first and the second.
    Two = 3,
    /// The product of the first and the second, and the third.
    TwoAndOne = 4,
    /// The first, and the product of the second and the third.
    OneAndTwo = 5,
}

impl Nesting {
    /// All of them.
    pub const ALL: [Self; 3] = [Self::Two, Self::TwoAndOne, Self::OneAndTwo];
    /// Those of three machines.
    pub const OF_THREE: [Self; 2] = [Self::TwoAndOne, Self::OneAndTwo];

    /// How many machines there are.
    pub fn factors(self) -> usize {
        match self {
            Self::Two => 2,
            Self::TwoAndOne | Self::OneAndTwo => 3,
        }
    }
}

/// The words after a command for a product and its count: the expressions,
/// each with its count of words before it, and then the labels.
pub fn payload(expressions: &[&[u32]], labels: &[u32]) -> Vec<u32> {
    let mut payload = Vec::new();
    for words in expressions {
        payload.push(u32::try_from(words.len()).expect("expressions are short"));
        payload.extend(*words);
    }
    payload.extend(labels);
    payload
}

/// What a product says.
#[derive(Debug, Clone, Copy, PartialEq, Eq)]
pub struct Verdict {
    /// Its size.
    pub size: usize,
    /// Whether every one of the languages has the word.
    pub in_all: bool,
}

impl Verdict {
    /// The verdict on the word, or the fault of the first expression that has
    /// one. How the machines are nested makes no difference.
    pub fn on(expressions: &[&[u32]], labels: &[u32]) -> Result<Self, Fault> {
        let factors = expressions
            .iter()
            .map(|words| Known::of(words))
            .collect::<Result<Vec<Known>, Fault>>()?;
        Ok(Self {
            size: size_of_product(factors.iter().map(|factor| factor.size)),
            in_all: factors.iter().all(|factor| factor.language.has(labels)),
        })
    }

    /// Whether there would be too many states.
    pub fn is_too_large(self) -> bool {
        self.size == TOO_MANY
    }

    /// Whether the word is accepted.
    pub fn accepts(self) -> bool {
        self.in_all && !self.is_too_large()
    }

    /// The line that tells it.
    pub fn line(self) -> String {
        let answer = if self.accepts() { "yes" } else { "no" };
        format!("both {} {answer}\n", self.size)
    }
}

/// The sizes multiplied from left to right, each product above the most
/// counted as too many.
pub fn size_of_product(sizes: impl IntoIterator<Item = usize>) -> usize {
    sizes
        .into_iter()
        .fold(1, |size, next| (size * next).min(TOO_MANY))
}

#[cfg(test)]
mod tests {
    use super::*;
    use crate::expression::{letter, BAR, STAR};

    #[test]
    fn sizes_multiply_until_there_are_too_many() {
        for (sizes, product) in [
            (&[2, 2][..], 4),
            (&[3, 10], 30),
            (&[2, 16], 32),
            (&[8, 4], 32),
            (&[3, 11], 33),
            (&[17, 2], 33),
            (&[6, 6], 33),
            (&[32, 32], 33),
            (&[2, 4, 4], 32),
            (&[3, 3, 3], 27),
            (&[2, 3, 6], 33),
            (&[2, 17, 2], 33),
            (&[32, 32, 32], 33),
        ] {
            assert_eq!(size_of_product(sizes.to_vec()), product, "{sizes:?}");
        }
    }

    #[test]
    fn a_verdict_is_size_and_membership_or_the_first_fault() {
        let a_or_b = [letter(0), BAR, letter(1)];
        let all_b = [letter(1), STAR];
        let long = [letter(1), STAR].repeat(10);
        let line = |expressions: &[&[u32]], labels: &[u32]| match Verdict::on(expressions, labels) {
            Ok(verdict) => verdict.line(),
            Err(fault) => format!("{} {}", fault.number, fault.place),
        };
        assert_eq!(line(&[&a_or_b, &all_b], &[1]), "both 6 yes\n");
        assert_eq!(line(&[&a_or_b, &all_b], &[0]), "both 6 no\n");
        assert_eq!(line(&[&a_or_b, &all_b], &[]), "both 6 no\n");
        assert_eq!(line(&[&all_b, &all_b, &a_or_b], &[1]), "both 12 yes\n");
        assert_eq!(line(&[&a_or_b, &long], &[1]), "both 33 no\n");
        assert_eq!(line(&[&a_or_b, &[BAR]], &[1]), "22 0");
        assert_eq!(line(&[&a_or_b[..2], &[BAR]], &[1]), "25 2");
    }

    #[test]
    fn counts_stand_before_the_expressions() {
        let payload = payload(&[&[letter(0), STAR], &[], &[letter(1)]], &[0, 16]);
        assert_eq!(payload, [2, letter(0), STAR, 0, 1, letter(1), 0, 16]);
    }
}

//! What the program TAPE must do on a tape.

use crate::reading::read;
use crate::report::{split_words, Expected};

/// The most bytes that a tape may have.
pub const MOST_BYTES: usize = 8_192;

/// The first start word, with neither count nor n in it.
pub const START: u32 = 0x8000_0000;
/// The second start word, with no window in it.
pub const WINDOW: u32 = 0x9000_0000;
/// An advance, with no clock in it.
pub const ADVANCE: u32 = 0xA000_0000;
/// An add, with nothing in it.
pub const ADD: u32 = 0xB000_0000;
/// A drop, with nothing in it.
pub const DROP: u32 = 0xC000_0000;

/// The most that a side may be, and the most cells that a watch may need.
const MOST_N: usize = 64;
const MOST_CELLS: usize = 2_048;

/// Which part of the program found a fault.
#[derive(Debug, Clone, Copy)]
enum Layer {
    Expression = 1,
    Tape = 2,
    Watch = 3,
}

/// A fault as the program prints it.
#[derive(Debug, Clone, Copy)]
struct Fault {
    layer: Layer,
    number: u32,
    word: usize,
}

impl Fault {
    fn new(layer: Layer, number: u32, word: usize) -> Self {
        Self {
            layer,
            number,
            word,
        }
    }

    fn line(self) -> String {
        format!(
            "fault {} {} {}\n",
            self.layer as u32, self.number, self.word
        )
    }
}

/// A start record without a fault.
struct Start {
    n: usize,
    size: usize,
    /// How many words it has on the tape.
    length: usize,
}

/// What comes after the start record.
enum Next {
    End,
    Record,
}

/// What the program must do on the tape.
pub fn expected(tape: &[u8]) -> Expected {
    if tape.len() > MOST_BYTES {
        let fault = Fault::new(Layer::Tape, 32, MOST_BYTES / 4);
        return Expected::text(fault.line());
    }
    let (words, cut) = split_words(tape);
    let start = match start(&words) {
        Ok(start) => start,
        Err(fault) => return Expected::text(fault.line()),
    };
    let begun = format!("start {} {}\n", start.n, start.size);
    match next(&words, cut, start.length) {
        Ok(Next::End) => Expected::text(begun + "end 0 0 0\n"),
        // Records are not run yet: the program says so and gives up.
        Ok(Next::Record) => Expected {
            stdout: begun,
            status: 1,
            complains: true,
        },
        Err(fault) => Expected::text(begun + &fault.line()),
    }
}

/// The start record. It is there as a whole before its expression is read,
/// and its expression is read before its numbers are judged.
fn start(words: &[u32]) -> Result<Start, Fault> {
    let is_first = |word| word & !0x1_FFFF == START;
    let first = start_word(words, 0, is_first)?;
    let window = start_word(words, 1, |word| word >> 28 == WINDOW >> 28)? ^ WINDOW;
    let length = 2 + (first >> 8 & 0x1FF) as usize;
    let n = (first & 0xFF) as usize;
    let expression = words
        .get(2..length)
        .ok_or_else(|| Fault::new(Layer::Tape, 30, words.len()))?;
    let size = read(expression)
        .map_err(|fault| Fault::new(Layer::Expression, fault.number, fault.place + 2))?;
    let watch_fault = |number| Err(Fault::new(Layer::Watch, number, 0));
    if n == 0 || n > MOST_N {
        return watch_fault(3);
    }
    if window == 0 {
        return watch_fault(4);
    }
    if n * n * size > MOST_CELLS {
        return watch_fault(6);
    }
    Ok(Start { n, size, length })
}

/// The word at this index of the start, which must be there and belong there.
fn start_word(words: &[u32], index: usize, belongs: fn(u32) -> bool) -> Result<u32, Fault> {
    match words.get(index) {
        None => Err(Fault::new(Layer::Tape, 30, index)),
        Some(&word) if belongs(word) => Ok(word),
        Some(_) => Err(Fault::new(Layer::Tape, 31, index)),
    }
}

fn next(words: &[u32], cut: &[u8], index: usize) -> Result<Next, Fault> {
    match words.get(index) {
        Some(&word) if is_record(word) => Ok(Next::Record),
        Some(_) => Err(Fault::new(Layer::Tape, 31, index)),
        None if cut.is_empty() => Ok(Next::End),
        None => Err(Fault::new(Layer::Tape, 30, index)),
    }
}

fn is_record(word: u32) -> bool {
    match word & 0xF000_0000 {
        ADVANCE => true,
        ADD | DROP => word & 0x0FF0_0000 == 0,
        _ => false,
    }
}

#[cfg(test)]
mod tests {
    use super::*;
    use crate::expression::{letter, BAR, STAR};
    use crate::report::join_words;

    fn said(words: &[u32]) -> String {
        expected(&join_words(words)).stdout
    }

    fn first(count: u32, n: u32) -> u32 {
        START | count << 8 | n
    }

    #[test]
    fn starts_are_answered_as_described() {
        let a = letter(0);
        let window = WINDOW | 10;
        let cases: [(&[u32], &str); 17] = [
            (&[], "fault 2 30 0\n"),
            (&[WINDOW], "fault 2 31 0\n"),
            (&[START | 1 << 17], "fault 2 31 0\n"),
            (&[first(1, 0)], "fault 2 30 1\n"),
            (&[first(1, 0), a], "fault 2 31 1\n"),
            (&[first(1, 0), WINDOW], "fault 2 30 2\n"),
            (&[first(3, 0), WINDOW, STAR, a], "fault 2 30 4\n"),
            (&[first(0, 0), WINDOW], "fault 1 20 2\n"),
            (&[first(2, 0), WINDOW, a, BAR], "fault 1 25 4\n"),
            (&[first(1, 0), WINDOW, a], "fault 3 3 0\n"),
            (&[first(1, 65), WINDOW, a], "fault 3 3 0\n"),
            (&[first(1, 64), WINDOW, a], "fault 3 4 0\n"),
            (&[first(1, 33), window, a], "fault 3 6 0\n"),
            (&[first(1, 32), window, a], "start 32 2\nend 0 0 0\n"),
            (&[first(1, 1), window, a, a], "start 1 2\nfault 2 31 3\n"),
            (&[first(1, 1), window, a, ADVANCE], "start 1 2\n"),
            (
                &[first(1, 1), window, a, ADD | 1 << 20],
                "start 1 2\nfault 2 31 3\n",
            ),
        ];
        for (words, text) in cases {
            assert_eq!(said(words), text, "{words:x?}");
        }
    }

    #[test]
    fn only_a_record_makes_it_give_up() {
        let start = [first(1, 1), WINDOW | 1, letter(0)];
        for record in [ADVANCE | 0x0FFF_FFFF, ADD | 0xF_FFFF, DROP] {
            let expected = expected(&join_words(&[&start[..], &[record]].concat()));
            assert_eq!((expected.status, expected.complains), (1, true));
        }
        for other in [0, START, ADD | 0x10_0000, DROP | 0x800_0000, 0xD000_0000] {
            let expected = expected(&join_words(&[&start[..], &[other]].concat()));
            assert_eq!((expected.status, expected.complains), (0, false));
        }
    }

    #[test]
    fn cut_words_and_sizes_are_answered_as_described() {
        let mut tape = join_words(&[first(1, 1), WINDOW | 1, letter(0)]);
        let said = |tape: &[u8]| expected(tape).stdout;
        assert_eq!(said(&tape[..3]), "fault 2 30 0\n");
        assert_eq!(said(&tape[..7]), "fault 2 30 1\n");
        assert_eq!(said(&tape[..11]), "fault 2 30 2\n");
        tape.push(0xA0);
        assert_eq!(said(&tape), "start 1 2\nfault 2 30 3\n");
        tape.resize(MOST_BYTES, 0);
        assert_eq!(said(&tape), "start 1 2\nfault 2 31 3\n");
        tape.push(0);
        assert_eq!(said(&tape), "fault 2 32 2048\n");
    }
}

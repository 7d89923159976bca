//! What is expected of a program, and how a mismatch is told.

use std::fmt;
use std::io;
use std::path::Path;

use crate::runner::{self, Output};

/// The most words of an input that are told; beyond that it is only their
/// number that matters.
const MOST_TOLD: usize = 2_049;

/// The most lines of an output that are told, and how many of them are lines
/// before the first difference.
const MOST_LINES: usize = 12;
const LINES_BEFORE: usize = 4;

/// What a program must do on an input.
#[derive(Debug, Clone, PartialEq, Eq)]
pub struct Expected {
    /// All of standard output, to the byte.
    pub stdout: String,
    /// The exit status.
    pub status: i32,
    /// Whether there must be something on standard error; if not, it is not
    /// looked at.
    pub complains: bool,
}

impl Expected {
    /// The text on standard output and a good end.
    pub fn text(stdout: String) -> Self {
        Self {
            stdout,
            status: 0,
            complains: false,
        }
    }

    /// Nothing on standard output, a complaint and a bad end.
    pub fn complaint() -> Self {
        Self {
            stdout: String::new(),
            status: 1,
            complains: true,
        }
    }

    fn is_met_by(&self, actual: &Output) -> bool {
        actual.in_time
            && actual.stdout == self.stdout.as_bytes()
            && actual.status == Some(self.status)
            && (!self.complains || !actual.stderr.is_empty())
    }
}

/// Why a run of this program stops early.
#[derive(Debug)]
pub enum Failure {
    /// A program answered otherwise than expected.
    Mismatch(Box<Mismatch>),
    /// A program could not be run.
    NotRun(io::Error),
}

/// An input on which a program did not do what was expected.
#[derive(Debug)]
pub struct Mismatch {
    /// All of the program's standard input.
    pub input: Vec<u8>,
    /// What it should have done.
    pub expected: Expected,
    /// What it did.
    pub actual: Output,
}

/// Runs the program on the input and compares.
pub fn compare(program: &Path, input: &[u8], expected: &Expected) -> Result<(), Failure> {
    let actual = runner::run(program, input).map_err(Failure::NotRun)?;
    if expected.is_met_by(&actual) {
        return Ok(());
    }
    Err(Failure::Mismatch(Box::new(Mismatch {
        input: input.to_vec(),
        expected: expected.clone(),
        actual,
    })))
}

impl fmt::Display for Mismatch {
    fn fmt(&self, out: &mut fmt::Formatter<'_>) -> fmt::Result {
        writeln!(out, "input, {} bytes:", grouped(self.input.len()))?;
        write_words(out, &self.input)?;
        let expected = lines(self.expected.stdout.as_bytes());
        let actual = lines(&self.actual.stdout);
        let same = expected.iter().zip(&actual).take_while(|(a, b)| a == b);
        let same = same.count();
        writeln!(out, "expected (exit status: {}):", self.expected.status)?;
        write_lines(out, &expected, same)?;
        if self.expected.complains {
            writeln!(out, "  and a message on standard error")?;
        }
        writeln!(out, "actual ({}):", self.actual.ending)?;
        write_lines(out, &actual, same)?;
        if !self.actual.stderr.is_empty() {
            writeln!(out, "actual, on standard error:")?;
            write_lines(out, &lines(&self.actual.stderr), 0)?;
        }
        Ok(())
    }
}

/// The words in rows of eight, and the bytes that are no whole word.
fn write_words(out: &mut fmt::Formatter<'_>, bytes: &[u8]) -> fmt::Result {
    let (words, cut) = split_words(bytes);
    for row in words[..words.len().min(MOST_TOLD)].chunks(8) {
        let row: Vec<String> = row.iter().map(|word| format!("0x{word:08X}")).collect();
        writeln!(out, "  {}", row.join(" "))?;
    }
    if words.len() > MOST_TOLD {
        writeln!(out, "  and so on, {} words", grouped(words.len()))?;
    }
    if !cut.is_empty() {
        writeln!(out, "  and the bytes {cut:02X?}")?;
    }
    Ok(())
}

fn lines(text: &[u8]) -> Vec<&[u8]> {
    text.split_inclusive(|&byte| byte == b'\n').collect()
}

/// The lines from shortly before the first that is not the same on both sides,
/// escaped so that nothing in them is hidden.
fn write_lines(out: &mut fmt::Formatter<'_>, lines: &[&[u8]], same: usize) -> fmt::Result {
    let skipped = same.saturating_sub(LINES_BEFORE);
    if skipped > 0 {
        writeln!(out, "  (after {} lines that agree)", grouped(skipped))?;
    }
    let rest = &lines[skipped..];
    for line in rest.iter().take(MOST_LINES) {
        writeln!(out, "  \"{}\"", line.escape_ascii())?;
    }
    if rest.len() > MOST_LINES {
        writeln!(out, "  (and {} more)", grouped(rest.len() - MOST_LINES))?;
    }
    if rest.len() == same - skipped {
        writeln!(out, "  (nothing more)")?;
    }
    Ok(())
}

/// The whole words of the bytes, low byte first, and the bytes after them.
pub fn split_words(bytes: &[u8]) -> (Vec<u32>, &[u8]) {
    let whole = bytes.chunks_exact(4);
    let cut = whole.remainder();
    let words = whole
        .map(|word| u32::from_le_bytes([word[0], word[1], word[2], word[3]]))
        .collect();
    (words, cut)
}

/// The words on the wire.
pub fn join_words(words: &[u32]) -> Vec<u8> {
    words.iter().flat_map(|word| word.to_le_bytes()).collect()
}

/// The number with commas between its thousands.
pub fn grouped(number: usize) -> String {
    let digits = number.to_string();
    let mut text = String::new();
    for (index, digit) in digits.chars().enumerate() {
        if index > 0 && (digits.len() - index) % 3 == 0 {
            text.push(',');
        }
        text.push(digit);
    }
    text
}

#[cfg(test)]
mod tests {
    use super::*;

    #[test]
    fn numbers_have_commas_between_thousands() {
        for (number, text) in [
            (0, "0"),
            (999, "999"),
            (1_000, "1,000"),
            (61_204, "61,204"),
            (1_234_567, "1,234,567"),
        ] {
            assert_eq!(grouped(number), text);
        }
    }

    #[test]
    fn words_have_the_low_byte_first() {
        let bytes = join_words(&[0x8000_0102, 5]);
        assert_eq!(bytes, [2, 1, 0, 0x80, 5, 0, 0, 0]);
        assert_eq!(
            split_words(&bytes[..7]),
            (vec![0x8000_0102], &[5, 0, 0][..])
        );
    }

    #[test]
    fn a_mismatch_tells_input_expected_and_actual() {
        let program = Path::new("cat");
        let expected = Expected::text("no\n".into());
        let mismatch = match compare(program, b"\x01\0\0\x80y", &expected) {
            Err(Failure::Mismatch(mismatch)) => mismatch,
            _ => panic!("cat does not say no"),
        };
        let text = mismatch.to_string();
        for part in [
            "0x80000001",
            "[79]",
            "\"no\\n\"",
            "exit status: 0",
            "\\x80y\"",
        ] {
            assert!(text.contains(part), "{part} in {text}");
        }
        assert!(compare(program, b"no\n", &expected).is_ok());
    }

    #[test]
    fn status_and_complaint_count() {
        let actual = |status, stderr: &[u8]| Output {
            stdout: b"x".to_vec(),
            stderr: stderr.to_vec(),
            ending: String::new(),
            status,
            in_time: true,
        };
        let expected = Expected {
            stdout: "x".into(),
            status: 1,
            complains: true,
        };
        assert!(expected.is_met_by(&actual(Some(1), b"why")));
        assert!(!expected.is_met_by(&actual(Some(1), b"")));
        assert!(!expected.is_met_by(&actual(Some(0), b"why")));
        assert!(!expected.is_met_by(&actual(None, b"why")));
    }
}

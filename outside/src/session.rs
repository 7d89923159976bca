//! One run of the program WORDS: commands, and the answers due to them.

use std::ops::AddAssign;
use std::path::Path;

use crate::known::Known;
use crate::product::{payload, Nesting, Verdict};
use crate::reading::Fault;
use crate::report::{compare, join_words, Expected, Failure};
use crate::rng::Rng;
use crate::runner;

/// Cases of one kind.
pub struct Group {
    /// What they are.
    pub name: &'static str,
    /// How many runs of the program they are spread over.
    pub sessions: usize,
    /// Makes the commands of one run.
    pub fill: fn(&mut Rng, &mut Session),
}

impl Group {
    /// The commands of one run of the program.
    pub fn session(&self, seed: u64, index: usize) -> Session {
        let mut session = Session::default();
        (self.fill)(&mut Rng::of_case(seed, self.name, index), &mut session);
        session
    }
}

/// Commands for one run, with what the machine then holds.
#[derive(Debug, Default)]
pub struct Session {
    exchanges: Vec<Exchange>,
    held: Option<Held>,
    tally: Tally,
}

/// A command and its answer.
#[derive(Debug)]
struct Exchange {
    command: Vec<u32>,
    answer: String,
    /// The command by which the machine got what it held at this command.
    basis: Option<usize>,
}

/// What the machine holds after an accepted reading.
#[derive(Debug)]
struct Held {
    known: Known,
    /// The command that was the reading.
    basis: usize,
}

/// How many commands there were.
#[derive(Debug, Default, Clone, Copy)]
pub struct Tally {
    /// Readings in all.
    pub readings: usize,
    /// Those without a fault.
    pub sound: usize,
    /// Words tried in all.
    pub words: usize,
    /// Those accepted.
    pub accepted: usize,
    /// Products in all, those that are not made because of a fault included.
    pub products: usize,
    /// Those that accept their word.
    pub accepting: usize,
    /// Those with too many states.
    pub too_large: usize,
    /// Those with a fault in an expression.
    pub refused: usize,
}

impl AddAssign for Tally {
    fn add_assign(&mut self, other: Self) {
        self.readings += other.readings;
        self.sound += other.sound;
        self.words += other.words;
        self.accepted += other.accepted;
        self.products += other.products;
        self.accepting += other.accepting;
        self.too_large += other.too_large;
        self.refused += other.refused;
    }
}

impl Session {
    /// Adds a reading; says whether it is without a fault.
    pub fn read(&mut self, words: &[u32]) -> bool {
        let known = Known::of(words);
        let answer = match &known {
            Ok(known) => format!("read {}\n", known.size),
            Err(fault) => fault_line(*fault),
        };
        self.exchange(1, words, answer);
        self.tally.readings += 1;
        let known = match known {
            Ok(known) => known,
            Err(_) => return false,
        };
        self.tally.sound += 1;
        let basis = self.exchanges.len() - 1;
        self.held = Some(Held { known, basis });
        true
    }

    /// Adds a word to be tried.
    pub fn attempt(&mut self, labels: &[u32]) {
        let accepted = self.held().map_or(false, |held| held.language.has(labels));
        let answer = if accepted { "yes\n" } else { "no\n" };
        self.exchange(2, labels, answer.to_string());
        self.tally.words += 1;
        self.tally.accepted += usize::from(accepted);
    }

    /// Adds a word to be tried on a product of the expressions' machines,
    /// which has nothing to do with the machine that is held.
    pub fn product(&mut self, nesting: Nesting, expressions: &[&[u32]], labels: &[u32]) {
        assert_eq!(expressions.len(), nesting.factors());
        self.tally.products += 1;
        let answer = match Verdict::on(expressions, labels) {
            Ok(verdict) => {
                self.tally.accepting += usize::from(verdict.accepts());
                self.tally.too_large += usize::from(verdict.is_too_large());
                verdict.line()
            }
            Err(fault) => {
                self.tally.refused += 1;
                fault_line(fault)
            }
        };
        self.exchange(nesting as u32, &payload(expressions, labels), answer);
    }

    fn exchange(&mut self, kind: u32, words: &[u32], answer: String) {
        let length = u32::try_from(words.len()).expect("commands are short");
        self.exchanges.push(Exchange {
            command: [&[kind, length], words].concat(),
            answer,
            basis: self.held.as_ref().map(|held| held.basis),
        });
    }

    /// What the machine holds now.
    pub fn held(&self) -> Option<&Known> {
        self.held.as_ref().map(|held| &held.known)
    }

    /// How many commands there are.
    pub fn len(&self) -> usize {
        self.exchanges.len()
    }

    /// How many commands there are of each kind.
    pub fn tally(&self) -> Tally {
        self.tally
    }

    /// Runs the program on all commands and compares.
    pub fn check(&self, program: &Path) -> Result<Tally, Failure> {
        let all: Vec<&Exchange> = self.exchanges.iter().collect();
        match compare_exchanges(program, &all) {
            Ok(()) => Ok(self.tally()),
            Err(failure) => Err(self.narrowed(program, failure)),
        }
    }

    /// The failure on a shorter input, if one can easily be found: thousands of
    /// commands would not tell anybody anything.
    fn narrowed(&self, program: &Path, failure: Failure) -> Failure {
        let mismatch = match &failure {
            Failure::Mismatch(mismatch) => mismatch,
            _ => return failure,
        };
        // To wait for a slow program again and again is not worth it.
        if !mismatch.actual.in_time || self.exchanges.is_empty() {
            return failure;
        }
        let index = self
            .first_difference(&mismatch.actual.stdout)
            .unwrap_or(self.exchanges.len() - 1);
        self.shorter_inputs(index)
            .iter()
            .find_map(|exchanges| compare_exchanges(program, exchanges).err())
            .unwrap_or(failure)
    }

    /// Inputs that end with this command, each longer than the one before: the
    /// command with only what the machine must hold for it, and then with more
    /// and more of what was before it. All answers stay as they are, because
    /// each begins where the machine gets what it holds.
    fn shorter_inputs(&self, index: usize) -> Vec<Vec<&Exchange>> {
        let last = &self.exchanges[index];
        let basis = last.basis.map(|basis| &self.exchanges[basis]);
        let alone: Vec<&Exchange> = basis.into_iter().chain([last]).collect();
        let mut inputs = vec![alone];
        let mut back = 0;
        loop {
            let earlier = &self.exchanges[index.saturating_sub(back)];
            let start = earlier.basis.unwrap_or(0);
            inputs.push(self.exchanges[start..=index].iter().collect());
            if start == 0 {
                inputs.dedup_by_key(|exchanges| exchanges.len());
                return inputs;
            }
            back = 2 * back + 1;
        }
    }

    /// The first command whose answer is not the line due to it.
    fn first_difference(&self, stdout: &[u8]) -> Option<usize> {
        let mut lines = stdout.split_inclusive(|&byte| byte == b'\n');
        self.exchanges
            .iter()
            .position(|exchange| lines.next() != Some(exchange.answer.as_bytes()))
    }
}

fn fault_line(fault: Fault) -> String {
    format!("fault 1 {} {}\n", fault.number, fault.place)
}

fn compare_exchanges(program: &Path, exchanges: &[&Exchange]) -> Result<(), Failure> {
    let input: Vec<u32> = exchanges
        .iter()
        .flat_map(|exchange| exchange.command.iter().copied())
        .collect();
    let answers: String = exchanges
        .iter()
        .map(|exchange| exchange.answer.as_str())
        .collect();
    compare(program, &join_words(&input), &Expected::text(answers))
}

/// Makes so many sessions and checks them, on all cores.
pub fn check_sessions(
    program: &Path,
    count: usize,
    make: impl Fn(usize) -> Session + Sync,
) -> Result<Tally, Failure> {
    let mut total = Tally::default();
    for tally in runner::check_all(count, |index| make(index).check(program))? {
        total += tally;
    }
    Ok(total)
}

#[cfg(test)]
mod tests {
    use super::*;
    use crate::expression::{letter, BAR, STAR};

    fn answers(session: &Session) -> String {
        session
            .exchanges
            .iter()
            .map(|exchange| exchange.answer.as_str())
            .collect()
    }

    #[test]
    fn a_faulty_reading_leaves_the_machine_as_it_was() {
        let mut session = Session::default();
        session.attempt(&[]);
        assert!(!session.read(&[BAR]));
        session.attempt(&[]);
        assert!(session.read(&[letter(3), STAR]));
        session.attempt(&[3, 3]);
        assert!(!session.read(&[letter(4), BAR]));
        session.attempt(&[3]);
        session.attempt(&[4]);
        session.attempt(&[19]);
        assert_eq!(
            answers(&session),
            "no\nfault 1 22 0\nno\nread 2\nyes\nfault 1 25 2\nyes\nno\nno\n"
        );
        assert_eq!(session.exchanges[4].command, [2, 2, 3, 3]);
        assert_eq!(session.exchanges[6].basis, Some(3));
    }

    #[test]
    fn a_product_leaves_the_machine_as_it_was() {
        let mut session = Session::default();
        let (a, b) = (letter(0), letter(1));
        session.product(Nesting::Two, &[&[a], &[a, STAR]], &[0]);
        session.attempt(&[0]);
        session.read(&[b]);
        session.product(Nesting::TwoAndOne, &[&[a], &[a, b], &[a]], &[0]);
        session.product(Nesting::OneAndTwo, &[&[a], &[BAR], &[a]], &[0]);
        session.product(Nesting::Two, &[&[a; 10], &[a; 10]], &[0; 10]);
        session.attempt(&[1]);
        assert_eq!(
            answers(&session),
            "both 4 yes\nno\nread 2\nboth 12 no\nfault 1 22 0\nboth 33 no\nyes\n"
        );
        assert_eq!(session.exchanges[0].command, [3, 6, 1, a, 2, a, STAR, 0]);
        assert_eq!(session.exchanges[4].command[..2], [5, 7]);
        let tally = session.tally();
        assert_eq!((tally.products, tally.accepting), (4, 1));
        assert_eq!((tally.too_large, tally.refused), (1, 1));
    }

    #[test]
    fn the_first_difference_is_found() {
        let mut session = Session::default();
        session.read(&[letter(0)]);
        session.attempt(&[0]);
        session.attempt(&[1]);
        let difference = |text: &str| session.first_difference(text.as_bytes());
        assert_eq!(difference("read 2\nyes\nno\n"), None);
        assert_eq!(difference("read 2\nno\nno\n"), Some(1));
        assert_eq!(difference("read 2\nyes\n"), Some(2));
        assert_eq!(difference("read 2\nyes\nno"), Some(2));
        assert_eq!(difference(""), Some(0));
    }

    #[test]
    fn shorter_inputs_begin_where_something_is_held() {
        let mut session = Session::default();
        session.attempt(&[]);
        session.read(&[letter(0)]);
        session.read(&[BAR]);
        session.read(&[letter(1)]);
        session.read(&[STAR]);
        session.attempt(&[1]);
        let lengths: Vec<usize> = session.shorter_inputs(5).iter().map(Vec::len).collect();
        // Reading and word; with the faulty reading between; with the reading
        // before; all.
        assert_eq!(lengths, [2, 3, 5, 6]);
    }

    #[test]
    fn a_mismatch_is_told_with_what_the_machine_held() {
        let mut session = Session::default();
        session.read(&[letter(0)]);
        session.attempt(&[]);
        let mismatch = match session.check(Path::new("cat")) {
            Err(Failure::Mismatch(mismatch)) => mismatch,
            _ => panic!("cat reads no expressions"),
        };
        assert_eq!(mismatch.input, join_words(&[1, 1, letter(0)]));
        assert_eq!(mismatch.expected.stdout, "read 2\n");
    }
}

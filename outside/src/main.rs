//! Tests two programs from the outside: makes inputs, works out the right
//! answers in its own way, runs the programs and compares what they print.
//!
//! `outside TAPE WORDS [SEED]`, where TAPE and WORDS are the programs' paths.
//! A run repeats exactly with the same seed. The exit status is 0 if all
//! agrees, 1 on a mismatch, and 2 if there was nothing to compare.

#![forbid(unsafe_code)]
#![warn(missing_docs, clippy::all)]

mod expression;
mod generate;
mod kin;
mod known;
mod language;
mod product;
mod products;
mod reading;
mod report;
mod rng;
mod runner;
mod session;
mod tape;
mod tapes;
mod words;

use std::env;
use std::path::{Path, PathBuf};
use std::process::ExitCode;

use report::{compare, grouped, join_words, Expected, Failure};
use session::{check_sessions, Group, Tally};

const DEFAULT_SEED: u64 = 20_240_229;

/// What the command line asks for.
struct Options {
    tape: PathBuf,
    words: PathBuf,
    seed: u64,
}

impl Options {
    fn from_arguments(arguments: impl IntoIterator<Item = String>) -> Option<Self> {
        let mut arguments = arguments.into_iter();
        let tape = arguments.next()?.into();
        let words = arguments.next()?.into();
        let seed = match arguments.next() {
            Some(seed) => seed.parse().ok()?,
            None => DEFAULT_SEED,
        };
        let options = Self { tape, words, seed };
        arguments.next().is_none().then_some(options)
    }
}

fn main() -> ExitCode {
    let options = match Options::from_arguments(env::args().skip(1)) {
        Some(options) => options,
        None => {
            eprintln!("usage: outside TAPE WORDS [SEED]");
            return ExitCode::from(2);
        }
    };
    match compare_all(&options) {
        Ok(Compared {
            tapes,
            words,
            products,
        }) => {
            let [tapes, words, products] = [tapes, words, products].map(grouped);
            println!("outside: {tapes} tapes, {words} words and {products} products agree");
            ExitCode::SUCCESS
        }
        Err((group, Failure::Mismatch(mismatch))) => {
            println!("mismatch in {group}, seed {}", options.seed);
            print!("{mismatch}");
            ExitCode::from(1)
        }
        Err((group, Failure::NotRun(error))) => {
            eprintln!("outside: {group}: cannot run the program: {error}");
            ExitCode::from(2)
        }
    }
}

/// How much was compared.
#[derive(Default)]
struct Compared {
    tapes: usize,
    words: usize,
    products: usize,
}

/// Compares everything; gives how much that was, or the group in which it
/// stopped and why.
fn compare_all(options: &Options) -> Result<Compared, (String, Failure)> {
    let mut all = Compared::default();
    for group in &tapes::GROUPS {
        let name = format!("tapes: {}", group.name);
        let count = compare_tapes(options, group).map_err(|failure| (name.clone(), failure))?;
        println!("{name}: {} compared", grouped(count));
        all.tapes += count;
    }
    for group in &words::GROUPS {
        let name = format!("words: {}", group.name);
        let tally = compare_sessions(options, group).map_err(|failure| (name.clone(), failure))?;
        println!("{name}: {} compared", told_words(&tally));
        all.words += tally.words;
    }
    for group in &products::GROUPS {
        let name = format!("products: {}", group.name);
        let tally = compare_sessions(options, group).map_err(|failure| (name.clone(), failure))?;
        println!("{name}: {} compared", told_products(&tally));
        all.words += tally.words;
        all.products += tally.products;
    }
    let name = "products: cut and unknown commands".to_string();
    let count = compare_complaints(options).map_err(|failure| (name.clone(), failure))?;
    println!("{name}: {} compared", grouped(count));
    Ok(all)
}

fn told_words(tally: &Tally) -> String {
    format!(
        "{} words ({} accepted) and {} readings ({} sound)",
        grouped(tally.words),
        grouped(tally.accepted),
        grouped(tally.readings),
        grouped(tally.sound),
    )
}

fn told_products(tally: &Tally) -> String {
    let products = format!(
        "{} products ({} accepting, {} too large, {} refused)",
        grouped(tally.products),
        grouped(tally.accepting),
        grouped(tally.too_large),
        grouped(tally.refused),
    );
    if tally.words == 0 {
        return products;
    }
    format!("{products}, {}", told_words(tally))
}

fn compare_tapes(options: &Options, group: &tapes::Group) -> Result<usize, Failure> {
    let tapes = group.tapes(options.seed);
    let program: &Path = &options.tape;
    runner::check_all(tapes.len(), |index| {
        compare(program, &tapes[index], &tape::expected(&tapes[index]))
    })?;
    Ok(tapes.len())
}

fn compare_sessions(options: &Options, group: &Group) -> Result<Tally, Failure> {
    check_sessions(&options.words, group.sessions, |index| {
        group.session(options.seed, index)
    })
}

/// Compares inputs on which WORDS must complain and print nothing else.
fn compare_complaints(options: &Options) -> Result<usize, Failure> {
    let inputs = products::complaints(options.seed);
    runner::check_all(inputs.len(), |index| {
        let input = join_words(&inputs[index]);
        compare(&options.words, &input, &Expected::complaint())
    })?;
    Ok(inputs.len())
}

#[cfg(test)]
mod tests {
    use super::*;

    fn options(arguments: &[&str]) -> Option<Options> {
        Options::from_arguments(arguments.iter().map(ToString::to_string))
    }

    #[test]
    fn the_command_line_is_two_paths_and_maybe_a_seed() {
        assert!(options(&[]).is_none());
        assert!(options(&["a"]).is_none());
        assert_eq!(options(&["a", "b"]).map(|it| it.seed), Some(DEFAULT_SEED));
        assert_eq!(options(&["a", "b", "7"]).map(|it| it.seed), Some(7));
        assert!(options(&["a", "b", "x"]).is_none());
        assert!(options(&["a", "b", "7", "c"]).is_none());
    }
}

//! Compares the monitor with the reference on random inputs.
//!
//! `compare [--cases N] [--seed S] [--watch PATH] [--watch-cases M] [--small R]`: case number i is
//! that of the seed S + i, so `compare --seed S --cases 1` repeats one case, and
//! `compare --seed S --cases 0 --watch PATH --watch-cases 1` one input of `watch`. With `--small R`
//! short traces and short logs are compared too, and every contract of at most R records on one
//! action, with windows of 2 or 3.

#![forbid(unsafe_code)]

use compare::cases::{Case, Start, FAMILIES};
use compare::report::{self, Summary, Tally};
use compare::{check, short, short_logs, shrink, small, watch};
use std::env;
use std::path::{Path, PathBuf};
use std::process::ExitCode;

const USAGE: &str =
    "usage: compare [--cases N] [--seed S] [--watch PATH] [--watch-cases M] [--small R]";

struct Options {
    cases: u64,
    seed: u64,
    watch: Option<PathBuf>,
    watch_cases: u64,
    small: usize,
}

fn options() -> Option<Options> {
    let mut options = Options {
        cases: 100_000,
        seed: 1,
        watch: None,
        watch_cases: 1000,
        small: 0,
    };
    let mut words = env::args().skip(1);
    while let Some(word) = words.next() {
        let value = words.next()?;
        match word.as_str() {
            "--cases" => options.cases = value.parse().ok()?,
            "--seed" => options.seed = value.parse().ok()?,
            "--watch" => options.watch = Some(value.into()),
            "--watch-cases" => options.watch_cases = value.parse().ok()?,
            "--small" => options.small = value.parse().ok()?,
            _ => return None,
        }
    }
    Some(options)
}

/// Compares one case; false after a difference, which is printed.
fn compare_case(seed: u64, summary: &mut Summary) -> bool {
    let case = Case::of_seed(seed);
    let family = FAMILIES
        .iter()
        .position(|(family, _)| *family == case.family);
    let tally = &mut summary.families[family.expect("every family is listed")];
    tally.case();
    if let Start::Contract { bytes, .. } = &case.start {
        tally.contract_kinds(bytes);
    }
    if check::check(&case, tally).is_ok() {
        return true;
    }
    println!("seed {seed}: a difference");
    print_smaller(case);
    false
}

/// Prints the smallest case that a difference could be shrunk to.
fn print_smaller(case: Case) {
    let mut differs = |case: &Case| check::check(case, &mut Tally::default()).is_err();
    let smaller = shrink::case(case, &mut differs);
    report::print_case(&smaller);
    if let Err(difference) = check::check(&smaller, &mut Tally::default()) {
        difference.print();
    }
}

/// Compares cases that aren't drawn; false after a difference, which is printed.
fn compare_all(cases: impl Iterator<Item = Case>, name: &str) -> bool {
    let mut tally = Tally::default();
    for case in cases {
        tally.case();
        if check::check(&case, &mut tally).is_err() {
            println!("{name}: a difference");
            print_smaller(case);
            return false;
        }
    }
    tally.print(name);
    true
}

fn compare_short() -> bool {
    let traces =
        "short traces (every length up to 21 bytes, every damaged mark, mixtures of the forms)";
    let logs =
        "short logs (every pair of at most 3 records on numbers 0 to 4 or with a wrong mark, \
                bytes that are no whole record, every trace buffer near the need)";
    compare_all(short::cases(), traces) && compare_all(short_logs::cases(), logs)
}

/// Compares one input of `watch`; false after a difference, which is printed.
fn compare_watch(program: &Path, seed: u64, tally: &mut Tally) -> bool {
    tally.case();
    let input = watch::input_of_seed(seed);
    if watch::check(program, &input, tally).is_ok() {
        return true;
    }
    println!("seed {seed}: a difference of watch");
    let mut differs =
        |input: &Vec<u8>| watch::check(program, input, &mut Tally::default()).is_err();
    let smaller = shrink::input(input, &mut differs);
    report::print_input(&smaller);
    if let Err(difference) = watch::check(program, &smaller, &mut Tally::default()) {
        difference.print();
    }
    false
}

fn main() -> ExitCode {
    let Some(options) = options() else {
        eprintln!("{USAGE}");
        return ExitCode::from(2);
    };
    let mut summary = Summary::default();
    for number in 0..options.cases {
        if !compare_case(options.seed.wrapping_add(number), &mut summary) {
            return ExitCode::FAILURE;
        }
    }
    let mut watched = 0;
    if let Some(program) = &options.watch {
        if !program.is_file() {
            eprintln!("{} is missing", program.display());
            return ExitCode::from(2);
        }
        for number in 0..options.watch_cases {
            let seed = options.seed.wrapping_add(number);
            if !compare_watch(program, seed, &mut summary.watch) {
                return ExitCode::FAILURE;
            }
            watched += 1;
        }
    }
    summary.print();
    if options.small > 0 && !(compare_short() && small::compare(options.small)) {
        return ExitCode::FAILURE;
    }
    println!("compared {} cases, no difference", options.cases + watched);
    ExitCode::SUCCESS
}

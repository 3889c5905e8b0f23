//! Compares the monitor's archive with an earlier one: `before [--seed S] [--cases N]`,
//! `before --speed`, `before --stack`.
//!
//! The earlier archive is linked beside today's where `MONITOR_BEFORE` names its folder at the
//! build. The first form makes every call of `compare`'s cases with both archives on equal copies
//! of what is lent, but for decide and join where the earlier one lacks them; all must be the same
//! at the call's end. Where one of them reads no wide records, the cases have narrow ones instead,
//! and actions up to 15, which both read. Where they compile an `until` to other images, a contract
//! with one may have two, and the calls are made on both. Case number i is that of the seed S + i,
//! so `before --seed S --cases 1` repeats one case. The second form times both archives on the
//! benchmark's inputs, whose records are narrow, and on contracts as they are typed, but for those
//! that the earlier one alone refuses; the third measures the stack that the calls use.

#![deny(unsafe_code)]
#![warn(clippy::undocumented_unsafe_blocks)]

#[allow(unsafe_code)]
mod archive;
#[cfg(test)]
mod archives;
mod narrow;
#[allow(unsafe_code)]
mod painted;
mod same;
mod speed;
#[cfg(test)]
#[allow(unsafe_code)]
mod spoiled;
mod stack;
mod untils;

use archive::{Archive, Sides};
use bench::timing::Plan;
use compare::cases::Case;
use compare::{report, shrink};
use same::{Pair, Tally};
use std::env;
use std::process::ExitCode;

const USAGE: &str = "usage: before [--seed S] [--cases N], before --speed, before --stack";
const NOT_LINKED: &str =
    "no earlier archive is linked: build with MONITOR_BEFORE set to a folder that has libmonitor.a, \
     or libcompiler.a and librunner.a (a whole path, or one from hosts/before)";

#[derive(Debug, PartialEq, Eq)]
enum Task {
    Bytes { seed: u64, cases: u64 },
    Speed,
    Stack,
}

fn task(mut words: impl Iterator<Item = String>) -> Option<Task> {
    let (mut seed, mut cases) = (1, 100_000);
    while let Some(word) = words.next() {
        match word.as_str() {
            "--seed" => seed = words.next()?.parse().ok()?,
            "--cases" => cases = words.next()?.parse().ok()?,
            "--speed" => return words.next().is_none().then_some(Task::Speed),
            "--stack" => return words.next().is_none().then_some(Task::Stack),
            _ => return None,
        }
    }
    Some(Task::Bytes { seed, cases })
}

/// Compares cases up to the first difference, which is printed.
fn compare_bytes(sides: &Sides, seed: u64, cases: u64) -> ExitCode {
    let pair = Pair::new(sides.before.places[0], Archive::of_hosts());
    let limit = limit(&pair);
    if !pair.alike {
        println!(
            "They compile an until to other images: of a contract with one the calls are made on both."
        );
    }
    let mut tally = Tally::default();
    for number in 0..cases {
        let seed = seed.wrapping_add(number);
        let case = limit(Case::of_seed(seed));
        if pair.check(&case, &mut tally).is_err() {
            print_difference(&pair, limit, seed, case);
            return ExitCode::FAILURE;
        }
    }
    println!("{tally}: before and now agree byte for byte");
    ExitCode::SUCCESS
}

/// Changes a case to one that both archives read.
type Limit = fn(Case) -> Case;

fn limit(pair: &Pair) -> Limit {
    if [pair.before, pair.now].iter().all(narrow::reads_wide) {
        return |case| case;
    }
    println!("One of them reads no wide records: the cases have narrow ones, and actions 0 to 15.");
    narrow::narrowed
}

/// Prints the seed, and the smallest case that it could be shrunk to.
fn print_difference(pair: &Pair, limit: Limit, seed: u64, case: Case) {
    println!("seed {seed}: a difference");
    let check = |case: &Case| pair.check(&limit(case.clone()), &mut Tally::default());
    let smaller = limit(shrink::case(case, &mut |case| check(case).is_err()));
    report::print_case(&smaller);
    if let Err(difference) = check(&smaller) {
        difference.print();
    }
}

/// Prints which archive is which.
fn print_sides(sides: &Sides) {
    println!("before: {}", sides.before.files);
    println!("now:    {}", sides.now.files);
    if sides.alike {
        println!("Both hold the same code.");
    }
    let before = &sides.before.places[0];
    for (call, is_lacking) in [
        ("decide", before.decide.is_none()),
        ("join", before.join.is_none()),
    ] {
        if is_lacking {
            println!("The earlier archive has no {call}, so that call isn't compared.");
        }
    }
}

fn main() -> ExitCode {
    let Some(task) = task(env::args().skip(1)) else {
        eprintln!("{USAGE}");
        return ExitCode::from(2);
    };
    let Some(sides) = archive::sides() else {
        eprintln!("{NOT_LINKED}");
        return ExitCode::from(2);
    };
    assert!(sides.are_apart(), "the archives share code");
    print_sides(&sides);
    match task {
        Task::Bytes { seed, cases } => return compare_bytes(&sides, seed, cases),
        Task::Speed => speed::measure(&Plan::new(false), &sides),
        Task::Stack => stack::measure(&sides),
    }
    ExitCode::SUCCESS
}

#[cfg(test)]
mod tests {
    use super::*;

    fn read(line: &str) -> Option<Task> {
        task(line.split_whitespace().map(str::to_string))
    }

    #[test]
    fn tasks_are_read() {
        let bytes = |seed, cases| Some(Task::Bytes { seed, cases });
        assert_eq!(read(""), bytes(1, 100_000));
        assert_eq!(read("--seed 7 --cases 2"), bytes(7, 2));
        assert_eq!(read("--speed"), Some(Task::Speed));
        assert_eq!(read("--stack"), Some(Task::Stack));
        for wrong in ["--cases", "--cases x", "--speed --stack", "--other"] {
            assert_eq!(read(wrong), None, "{wrong}");
        }
    }
}

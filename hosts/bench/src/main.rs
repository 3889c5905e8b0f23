//! What the monitor costs: `bench [--check] [--watch PATH]`.
//!
//! In one run it times `run` against row machines without checks and against the reference's tree
//! monitor, `step` and wide records against `run` over narrow ones, compile and run against their
//! input's length, deadlines against their window, `decide` against `run`, `join` against a merge by
//! hand, and, where a path is given, the program `watch`. Whatever is timed together is also checked
//! to agree. With `--check` all sizes are tiny, nothing is printed but the last line, and no time
//! counts.

#![forbid(unsafe_code)]

use bench::timing::Plan;
use bench::{compile, deadlines, decide, join, periods, rows, steps, tree, watch};
use std::env;
use std::path::PathBuf;
use std::process::ExitCode;

const USAGE: &str = "usage: bench [--check] [--watch PATH]";

struct Options {
    check: bool,
    watch: Option<PathBuf>,
}

fn options() -> Option<Options> {
    let mut options = Options {
        check: false,
        watch: None,
    };
    let mut words = env::args().skip(1);
    while let Some(word) = words.next() {
        match word.as_str() {
            "--check" => options.check = true,
            "--watch" => options.watch = Some(words.next()?.into()),
            _ => return None,
        }
    }
    Some(options)
}

fn measure_all(plan: &Plan, options: &Options) {
    plan.say(&plan.method());
    let sections: [fn(&Plan); 8] = [
        rows::measure,
        tree::measure,
        steps::measure,
        compile::measure,
        periods::measure,
        deadlines::measure,
        decide::measure,
        join::measure,
    ];
    for section in sections {
        section(plan);
    }
    match &options.watch {
        Some(program) => watch::measure(plan, program),
        None => plan.say("\n9. `watch`: not measured, no path is given"),
    }
}

fn main() -> ExitCode {
    let Some(options) = options() else {
        eprintln!("{USAGE}");
        return ExitCode::from(2);
    };
    if let Some(program) = options.watch.as_deref().filter(|path| !path.is_file()) {
        eprintln!("{} is missing", program.display());
        return ExitCode::from(2);
    }
    measure_all(&Plan::new(options.check), &options);
    if options.check {
        println!("bench agrees");
    }
    ExitCode::SUCCESS
}

//! Section 9: the program `watch` as a whole process.

use crate::contracts::{self, Open};
use crate::inputs::{self, Random};
use crate::timing::{nanoseconds, Plan};
use reference::watch::{watch, MAX_INPUT};
use std::fs;
use std::io::{Read, Write};
use std::path::Path;
use std::process::{Child, Command, Stdio};

pub fn measure(plan: &Plan, program: &Path) {
    plan.say(
        "\n9. `watch`: milliseconds of a whole process, from its start to its end\n   \
         The input comes through a pipe.\n",
    );
    line(
        plan,
        ["input", "bytes", "lines", "/dev/null", "a pipe", "writes"],
    );
    let random = &mut Random::new();
    let inputs = [
        (
            "repaired duty",
            input(random, &contracts::repaired_duty(), 4),
        ),
        (
            "13 repaired duties",
            longest(plan, random, &contracts::repairs()),
        ),
        (
            "long expression",
            longest(plan, random, &contracts::long_expression()),
        ),
        (
            "32 deadlines of 15",
            longest(plan, random, &contracts::longest_deadlines()),
        ),
    ];
    for (name, input) in &inputs {
        measure_input(plan, program, name, input);
    }
}

fn input(random: &mut Random, contract: &Open, periods: usize) -> Vec<u8> {
    let trace = inputs::open(random, &contract.clause(), contract.kept, periods);
    [&contract.bytes[..], &trace].concat()
}

fn longest(plan: &Plan, random: &mut Random, contract: &Open) -> Vec<u8> {
    let periods = (MAX_INPUT - contract.bytes.len()) / 6;
    input(random, contract, plan.size(periods, 40))
}

fn measure_input(plan: &Plan, program: &Path, name: &str, input: &[u8]) {
    let expected = watch(input);
    let (printed, writes) = run_to_pipe(program, input);
    assert!(
        printed == expected.as_bytes(),
        "{name}: it prints otherwise"
    );
    let times = plan.measure(&mut [
        Box::new(|| nanoseconds(|| run_to_null(program, input))),
        Box::new(|| nanoseconds(|| drop(run_to_pipe(program, input)))),
    ]);
    line(
        plan,
        [
            name,
            &input.len().to_string(),
            &expected.lines().count().to_string(),
            &times[0].per(1_000_000),
            &times[1].per(1_000_000),
            &writes.map_or("unknown".into(), |count| count.to_string()),
        ],
    );
}

fn start(program: &Path, input: &[u8], output: Stdio) -> Child {
    let mut child = Command::new(program)
        .stdin(Stdio::piped())
        .stdout(output)
        .spawn()
        .expect("watch starts");
    let mut standard_input = child.stdin.take().expect("standard input is a pipe");
    standard_input.write_all(input).expect("watch reads");
    child
}

fn run_to_null(program: &Path, input: &[u8]) {
    let mut child = start(program, input, Stdio::null());
    assert!(child.wait().expect("watch ends").success());
}

/// What it prints, and how often it writes, where the system counts that.
fn run_to_pipe(program: &Path, input: &[u8]) -> (Vec<u8>, Option<u64>) {
    let mut child = start(program, input, Stdio::piped());
    let mut printed = Vec::new();
    let mut output = child.stdout.take().expect("standard output is a pipe");
    output.read_to_end(&mut printed).expect("watch prints");
    let writes = write_calls(&child);
    assert!(child.wait().expect("watch ends").success());
    (printed, writes)
}

/// The write calls of a process that has not been waited for.
fn write_calls(child: &Child) -> Option<u64> {
    let counts = fs::read_to_string(format!("/proc/{}/io", child.id())).ok()?;
    let count = counts
        .lines()
        .find_map(|line| line.strip_prefix("syscw: "))?;
    count.parse().ok()
}

fn line(plan: &Plan, [name, bytes, lines, null, pipe, writes]: [&str; 6]) {
    plan.say(&format!(
        "   {name:<20}{bytes:>7}{lines:>8}{null:>16}{pipe:>16}{writes:>9}"
    ));
}

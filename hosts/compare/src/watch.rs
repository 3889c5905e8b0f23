//! Random inputs of `watch`, and what it prints.

use crate::contracts;
use crate::random::Random;
use crate::report::{Difference, Tally};
use crate::traces;
use reference::contract::read;
use reference::watch::{contract_length, watch};
use reference::Form;
use std::io::{self, Write};
use std::path::Path;
use std::process::{Command, Output, Stdio};
use std::thread;

/// The contract and the trace of an input: the trace begins at the first whole six bytes, counted in
/// sixes, that start with the mark of either form.
pub fn split(input: &[u8]) -> (&[u8], &[u8]) {
    input.split_at(contract_length(input))
}

/// The input of that number.
pub fn input_of_seed(seed: u64) -> Vec<u8> {
    let mut random = Random::new(seed ^ 0x7761_7463_6800_0000);
    let random = &mut random;
    let mut input = match random.below(22) {
        0..=9 => good(random),
        10 => long(random),
        11 => contracts::good(random),
        12 => {
            let mut input = contracts::damaged(random);
            let periods = traces::any(random, 3);
            input.extend(traces::in_some_form(random, &periods));
            input
        }
        13 => {
            let length = random.below(10);
            let periods = traces::any(random, length);
            traces::in_some_form(random, &periods)
        }
        14 | 15 => with_mark(random),
        16 => random.some_bytes(0, 79),
        17 => contracts::soup(random),
        18 => [contracts::good(random), traces::short(random)].concat(),
        _ => with_bad_trace(random),
    };
    if random.percent(10) {
        let cut = random.below(22).min(input.len());
        input.truncate(input.len() - cut);
    }
    input
}

/// A contract that is taken, and a trace.
fn good(random: &mut Random) -> Vec<u8> {
    let mut input = contracts::good(random);
    let length = traces::length(random);
    let clause = read(&input).expect("the contract is taken");
    let periods = traces::for_clause(random, &clause, length);
    input.extend(traces::in_some_form(random, &periods));
    input
}

/// An input of the greatest length, or a little less or more; at times only whole records of it.
fn long(random: &mut Random) -> Vec<u8> {
    let mut input = good(random);
    let form = Form::of_mark(split(&input).1).unwrap_or_else(|| random.pick(&Form::ALL));
    let length = random.pick(&[65514, 65519, 65520, 65520, 65520, 65521, 65526, 70000]);
    let period = traces::period(random, 4);
    while input.len() < length {
        let next = if random.percent(20) {
            traces::period(random, 4)
        } else {
            period
        };
        input.extend(traces::bytes(form, &[next]));
    }
    if random.percent(50) {
        input.truncate(length);
    } else if input.len() > length {
        input.truncate(input.len() - form.record_bytes());
    }
    input
}

/// The mark of a period record anywhere, mostly not at the start of a six.
fn with_mark(random: &mut Random) -> Vec<u8> {
    let mut input = good(random);
    let at = random.below(input.len() - 1);
    let mark = random.pick(&Form::ALL).mark();
    if random.percent(50) {
        input[at..at + 2].copy_from_slice(&mark);
    } else {
        input.splice(at..at, mark);
    }
    input
}

fn with_bad_trace(random: &mut Random) -> Vec<u8> {
    let mut input = contracts::good(random);
    let length = random.below(30);
    let periods = traces::any(random, length);
    let mut trace = traces::in_some_form(random, &periods);
    traces::damage(random, &mut trace);
    input.extend(trace);
    input
}

/// How the program ends on an input, and what it prints.
fn output(program: &Path, input: &[u8]) -> io::Result<Output> {
    let mut child = Command::new(program)
        .stdin(Stdio::piped())
        .stdout(Stdio::piped())
        .stderr(Stdio::piped())
        .spawn()?;
    let mut standard_input = child.stdin.take().expect("standard input is a pipe");
    let input = input.to_vec();
    let writer = thread::spawn(move || match standard_input.write_all(&input) {
        // The program needn't read more than it takes.
        Err(error) if error.kind() != io::ErrorKind::BrokenPipe => Err(error),
        _ => Ok(()),
    });
    let output = child.wait_with_output()?;
    writer.join().expect("the writer ends")?;
    Ok(output)
}

/// Runs the program on an input; an error is a difference.
pub fn check(program: &Path, input: &[u8], tally: &mut Tally) -> Result<(), Difference> {
    let expected = watch(input);
    let came = match output(program, input) {
        Ok(came) => came,
        Err(error) => return Err(Difference::new("watch", "its start", "a run".into(), error)),
    };
    tally_text(&expected, tally);
    compare(&expected, &came)
}

/// That the program ended well, with nothing on standard error, and printed that text.
fn compare(expected: &str, came: &Output) -> Result<(), Difference> {
    if !came.status.success() {
        return Err(Difference::new(
            "watch",
            "its end",
            "success".into(),
            came.status,
        ));
    }
    let error = String::from_utf8_lossy(&came.stderr);
    Difference::unless_same("watch", "standard error", &"", &error.as_ref())?;
    let came = came.stdout.as_slice();
    if came == expected.as_bytes() {
        return Ok(());
    }
    let same = came
        .iter()
        .zip(expected.as_bytes())
        .take_while(|(a, b)| a == b)
        .count();
    let from = expected.as_bytes()[..same]
        .iter()
        .rposition(|b| *b == b'\n')
        .map_or(0, |n| n + 1);
    let part = |text: &[u8]| {
        let to = text.len().min(from + 200);
        String::from_utf8_lossy(&text[from.min(to)..to])
            .escape_debug()
            .to_string()
    };
    let what = format!("the text from byte {from}, {} bytes long", expected.len());
    Err(Difference::new(
        "watch",
        &what,
        part(expected.as_bytes()),
        part(came),
    ))
}

fn tally_text(text: &str, tally: &mut Tally) {
    let mut words = text.split([' ', '\n']);
    let number = match words.next() {
        Some("refused") => words
            .next()
            .and_then(|number| number.parse().ok())
            .unwrap_or(0),
        _ => 0,
    };
    tally.reply("watch", number);
    for line in text.lines() {
        match line.split(' ').nth(1) {
            Some("open") => tally.verdict(0),
            Some("met") => tally.verdict(1),
            Some("broken") => tally.verdict(2),
            Some("met-after") => tally.verdict(3),
            Some("broken-after") => tally.verdict(4),
            _ => {}
        }
    }
}

#[cfg(test)]
mod tests {
    use super::*;
    use reference::records::read_trace;
    use std::os::unix::process::ExitStatusExt;
    use std::process::ExitStatus;

    /// Whether this end and these texts differ where "decided 0" is to be printed.
    fn differs(status: i32, stdout: &str, stderr: &str) -> bool {
        let came = Output {
            status: ExitStatus::from_raw(status),
            stdout: stdout.into(),
            stderr: stderr.into(),
        };
        compare("decided 0\n", &came).is_err()
    }

    #[test]
    fn another_end_or_text_is_a_difference() {
        assert!(!differs(0, "decided 0\n", ""));
        assert!(differs(0x100, "decided 0\n", ""), "exit status 1");
        assert!(differs(11, "decided 0\n", ""), "signal 11");
        assert!(differs(0, "decided 0\n", "watch: no\n"));
        for text in ["", "decided 0", "decided 1\n", "decided 0\n\n"] {
            assert!(differs(0, text, ""), "{text:?}");
        }
    }

    #[test]
    fn an_input_is_split_at_a_six_with_a_mark_of_either_form() {
        let contract = [0x54, 0x43, 1, 1, 0, 0];
        for form in Form::ALL {
            let started = [&contract[..], &form.mark(), &[0; 4]].concat();
            assert_eq!(split(&started).0, contract);
            assert_eq!(split(&[&started[..], &contract].concat()).0, contract);
            // Less than six bytes, and off the grid.
            assert_eq!(split(&started[..11]).1, []);
            assert_eq!(split(&started[1..]).1, []);
        }
    }

    #[test]
    fn inputs_of_both_forms_come_up() {
        // By the form that the trace starts with, and by what is refused: nothing, the contract, the
        // trace.
        let mut counts = [[0; 3]; 2];
        for seed in 0..2000 {
            let input = input_of_seed(seed);
            let (contract, trace) = split(&input);
            if let Some(form) = Form::of_mark(trace) {
                let refused = match (read(contract), read_trace(trace)) {
                    (Err(_), _) => 1,
                    (_, Err(_)) => 2,
                    _ => 0,
                };
                counts[form as usize][refused] += 1;
            }
        }
        let all = counts.as_flattened();
        assert!(all.iter().all(|count| *count > 50), "{counts:?}");
    }

    #[test]
    fn another_program_is_a_difference() {
        let input = good(&mut Random::new(1));
        for program in ["/bin/cat", "/bin/false", "/bin/no such program"] {
            let checked = check(Path::new(program), &input, &mut Tally::default());
            assert!(checked.is_err(), "{program}");
        }
    }
}

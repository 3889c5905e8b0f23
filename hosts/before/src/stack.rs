//! The stack that the calls use with both archives.

use crate::archive::{Archive, Sides};
use crate::painted;
use bench::contracts::{self, FAMILIES};
use bench::join::{self, Logs};
use bench::product::{self, LONGEST_IMAGE, PERIOD};
use bench::timing::Plan;
use bench::{steps, Input};
use monitor::Record::{Any, Duty, Repeat, Seq, Star, Then, Until, When};
use monitor::{Action, Contract, Fault, Party, Period, Record};

pub fn measure(sides: &Sides) {
    println!(
        "Bytes of stack that a call uses, its return address among them, on a stack painted beforehand;\n\
         - where the archive replies otherwise or lacks the call.\n"
    );
    line(["call", "input", "before", "now"]);
    let archives = [sides.before.places[0], Archive::of_hosts()];
    for (name, contract) in contracts() {
        let bytes = archives.map(|archive| of_compile(&archive, &contract));
        row("compile", &name, bytes);
    }
    let bytes = archives.map(|archive| of_reading(&archive));
    row("compile", "64 duties, which are read and refused", bytes);
    let inputs = steps::inputs(&Plan::new(true));
    for input in [&inputs[0], &inputs[inputs.len() - 1]] {
        let name = format!("{} rows", product::rows_of(&input.image));
        let bytes = archives.map(|archive| of_calls(&archive, input));
        for (number, call) in ["begin", "step", "run", "decide"].into_iter().enumerate() {
            row(call, &name, bytes.map(|bytes| bytes[number]));
        }
    }
    for input in join::inputs(&Plan::new(false)) {
        let bytes = archives.map(|archive| of_join(&archive, &input));
        row("join", input.name, bytes);
    }
}

fn row(call: &str, input: &str, bytes: [Option<usize>; 2]) {
    let [before, now] = bytes.map(|bytes| bytes.map_or("-".into(), |bytes| bytes.to_string()));
    line([call, input, &before, &now]);
}

fn line([call, input, before, now]: [&str; 4]) {
    println!("{call:<9}{input:<57}{before:>8}{now:>8}");
}

fn of_compile(archive: &Archive, contract: &[u8]) -> Option<usize> {
    painted::compile(archive, contract, &mut vec![0; LONGEST_IMAGE], 0)
}

/// The bytes of compile where it reads all records and then refuses them: 64 clauses are left.
fn of_reading(archive: &Archive) -> Option<usize> {
    let duties = contracts::duty().repeat(64);
    let number = Fault::NotOneClause.number();
    painted::compile(archive, &duties, &mut vec![0; LONGEST_IMAGE], number)
}

/// The bytes of begin, step, run and decide.
fn of_calls(archive: &Archive, input: &Input) -> [Option<usize>; 4] {
    let Input { image, trace, .. } = input;
    let mut state = product::begin(image);
    [
        painted::begin(archive, image, &mut state),
        painted::step(archive, image, &mut state, &trace[..PERIOD]),
        painted::run(archive, image, &mut state, trace),
        painted::decide(archive, image, trace),
    ]
}

fn of_join(archive: &Archive, input: &Logs) -> Option<usize> {
    let [one, two] = &input.logs;
    let mut trace = vec![0; Period::BYTES * input.periods];
    painted::join(archive, [one, two], &mut trace)
}

/// A lone record, and contracts of 64 records in several shapes.
fn contracts() -> Vec<(String, Vec<u8>)> {
    let mut contracts = vec![("1 record".to_string(), contracts::duty())];
    for family in &FAMILIES {
        let name = format!("64 records, {}", family.name);
        contracts.push((name, family.contract(64)));
    }
    for (name, records) in deep_shapes() {
        let name = format!("{} records, {name}", records.len());
        let contract = Contract::from_records(&records);
        contracts.push((name, contract.as_bytes().to_vec()));
    }
    contracts
}

/// Shapes as deep as 64 records allow that are none of the benchmark's.
fn deep_shapes() -> [(&'static str, Vec<Record>); 5] {
    let duty = Duty(Party::One.into(), Action::new(0).expect("below 16"));
    [
        (
            "right-deep chain of 31 then",
            [&[duty; 32][..], &[Then; 31], &[Repeat]].concat(),
        ),
        (
            "31 nested when",
            [&[Any; 31][..], &[duty], &[When; 31], &[Repeat]].concat(),
        ),
        (
            "31 nested until",
            [&[duty][..], &[Any, Until].repeat(31), &[Repeat]].concat(),
        ),
        (
            "right-deep chain of 30 seq under when",
            [&[Any; 31][..], &[Seq; 30], &[duty, When, Repeat]].concat(),
        ),
        (
            "59 stars in a seq under when",
            [&[Any; 2][..], &[Star; 59], &[Seq, duty, When]].concat(),
        ),
    ]
}

#[cfg(test)]
mod tests {
    use super::*;
    use crate::spoiled::refusing;

    #[test]
    fn contracts_are_taken_and_long() {
        for (name, contract) in &contracts()[1..] {
            assert_eq!(contract.len(), 6 * 64, "{name}");
            assert!(
                of_compile(&Archive::of_hosts(), contract) > Some(0),
                "{name}"
            );
        }
    }

    #[test]
    fn deeper_contracts_use_more() {
        let hosts = Archive::of_hosts();
        let contracts = contracts();
        let [one, deepest] = [0, 1].map(|n| of_compile(&hosts, &contracts[n].1));
        assert!(one < deepest, "{one:?}, {deepest:?}");
        let reading = of_reading(&hosts);
        assert!(Some(64) < reading && reading < one, "{reading:?}, {one:?}");
    }

    #[test]
    fn every_call_is_measured() {
        for input in steps::inputs(&Plan::new(true)) {
            let bytes = of_calls(&Archive::of_hosts(), &input);
            assert!(bytes.iter().all(|bytes| *bytes >= Some(8)), "{bytes:?}");
        }
        for input in join::inputs(&Plan::new(true)) {
            assert!(of_join(&Archive::of_hosts(), &input) >= Some(8));
        }
    }

    #[test]
    fn what_is_refused_or_lacking_is_not_measured() {
        let image = &steps::inputs(&Plan::new(true))[0];
        assert_eq!(of_compile(&refusing(), &contracts()[0].1), None);
        assert_eq!(of_reading(&refusing()), None);
        assert_eq!(of_calls(&refusing(), image)[0], None);
        let without = Archive {
            decide: None,
            join: None,
            ..Archive::of_hosts()
        };
        assert_eq!(of_calls(&without, image)[3], None);
        let logs = &join::inputs(&Plan::new(true))[0];
        assert_eq!(of_join(&without, logs), None);
    }
}

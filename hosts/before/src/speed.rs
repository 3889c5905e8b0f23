//! Times of both archives on the benchmark's inputs, as ratios.

use crate::archive::{Archive, Sides, PLACES};
use crate::untils::{compile_alike, has_until};
use bench::compile::{calls, LENGTHS};
use bench::contracts::{self, Family, Open, FAMILIES};
use bench::join::{self, Logs};
use bench::product::{self, HEAD, LONGEST_IMAGE, PERIOD};
use bench::timing::{each_of, fastest, nanoseconds, Plan, Side};
use bench::{rows, steps, Input};
use monitor::{Period, Record};
use std::cell::RefCell;

pub fn measure(plan: &Plan, sides: &Sides) {
    plan.say(&plan.method());
    plan.say(
        "The ratio is that of now to before. Each archive is linked four times, its code 16 bytes further\n\
         on each time, and the fastest place counts. Nanoseconds are those of a row visit in run and\n\
         decide, of a period in step and join, of a call in compile and in typing, which is a compile\n\
         after each record. What the earlier archive alone refuses isn't timed, nor is a call that it\n\
         lacks.\n",
    );
    let table = Table::new(plan, sides);
    if !table.alike {
        plan.say("They compile an until to other images, so of a contract with one each writes its own.\n");
    }
    line(plan, ["call", "input", "before", "now", "ratio"]);
    let (run_inputs, step_inputs) = (rows::inputs(plan), steps::inputs(plan));
    let runs = run_inputs
        .iter()
        .filter_map(|input| table.run(input))
        .collect();
    let steps = step_inputs
        .iter()
        .filter_map(|input| table.step(input))
        .collect();
    let decides = run_inputs
        .iter()
        .filter_map(|input| table.decide(input))
        .collect();
    let compiles = lengths_of_families()
        .filter_map(|(family, records)| table.compile(family, records))
        .collect();
    let typings = typed()
        .iter()
        .filter_map(|contract| table.typing(contract))
        .collect();
    let joins = join::inputs(plan)
        .iter()
        .filter_map(|input| table.join(input))
        .collect();
    plan.say("");
    for (call, ratios) in [
        ("run", runs),
        ("step", steps),
        ("decide", decides),
        ("compile", compiles),
        ("typing", typings),
        ("join", joins),
    ] {
        plan.say(&summary(call, ratios));
    }
}

fn lengths_of_families() -> impl Iterator<Item = (&'static Family, usize)> {
    let lengths = |family| LENGTHS.map(|records| (family, records));
    FAMILIES.iter().flat_map(lengths)
}

/// The contracts that are typed: short ones, and ones of 64 records.
fn typed() -> [Open; 7] {
    [
        contracts::repaired_duty(),
        contracts::duty_and_ban(),
        contracts::repairs(),
        contracts::whens(),
        contracts::nested(),
        contracts::long_expression(),
        contracts::longest_deadlines(),
    ]
}

/// The ratios of a row: of the bests, and the median of the turns.
type Ratios = [f64; 2];

/// The least and the greatest ratios of a call.
fn summary(call: &str, rows: Vec<Ratios>) -> String {
    if rows.is_empty() {
        return format!("{call}: not timed");
    }
    let [bests, medians] = [0, 1].map(|which| {
        let ratios = || rows.iter().map(|ratios| ratios[which]);
        let least = ratios().fold(f64::INFINITY, f64::min);
        let most = ratios().fold(0.0, f64::max);
        format!("{least:.2} to {most:.2}")
    });
    let inputs = rows.len();
    format!("{call}, {inputs} inputs: ratios of the bests {bests}, medians of the turns {medians}")
}

/// What the rows of the table have in common.
struct Table<'a> {
    plan: &'a Plan,
    sides: &'a Sides,
    /// Whether both archives compile an `until` to the same image.
    alike: bool,
}

impl<'a> Table<'a> {
    fn new(plan: &'a Plan, sides: &'a Sides) -> Table<'a> {
        Table {
            plan,
            sides,
            alike: compile_alike([&sides.before.places[0], &Archive::of_hosts()]),
        }
    }

    /// One row. The work is done with each archive in each place, in turns, and in the same memory.
    fn row(&self, call: &str, input: &str, parts: usize, work: &dyn Fn(&Archive) -> f64) -> Ratios {
        let mut turns: Vec<Side> = Vec::new();
        for place in 0..PLACES {
            for copies in [&self.sides.before, &self.sides.now] {
                let archive = &copies.places[place];
                turns.push(Box::new(move || work(archive)));
            }
        }
        let times = self.plan.measure(&mut turns);
        let fastest = fastest(&times, PLACES);
        let (before, now) = (fastest[0], fastest[1]);
        let cells = [before.per(parts), now.per(parts), now.ratio(before)];
        line(self.plan, [call, input, &cells[0], &cells[1], &cells[2]]);
        now.ratios(before)
    }

    /// A row that says why the earlier archive isn't timed.
    fn untimed(&self, call: &str, input: &str, why: &str) -> Option<Ratios> {
        line(self.plan, [call, input, why, "", ""]);
        None
    }

    fn run(&self, input: &Input) -> Option<Ratios> {
        let Input { image, trace, .. } = input;
        self.taking("run", input, visits(input), &|archive, state| {
            archive.run(image, state, trace, &mut [0; 24]);
        })
    }

    fn step(&self, input: &Input) -> Option<Ratios> {
        let Input { image, trace, .. } = input;
        self.taking("step", input, trace.len() / PERIOD, &|archive, state| {
            for record in trace.chunks_exact(PERIOD) {
                archive.step(image, state, record, &mut [0; 24]);
            }
        })
    }

    /// A row of step or run.
    fn taking(
        &self,
        call: &str,
        input: &Input,
        parts: usize,
        take: &dyn Fn(&Archive, &mut [u8]),
    ) -> Option<Ratios> {
        let mut end = product::begin(&input.image);
        product::run(&input.image, &mut end, &input.trace);
        let state = RefCell::new(end.clone());
        let name = name(input);
        if !begins(&self.sides.before.places[0], &input.image) {
            return self.untimed(call, &name, "refused");
        }
        let ratios = self.row(call, &name, parts, &|archive| {
            let mut state = state.borrow_mut();
            state.fill(0);
            let time = nanoseconds(|| take(archive, &mut state));
            assert!(*state == end, "{name}: {call} ends otherwise");
            time
        });
        Some(ratios)
    }

    fn decide(&self, input: &Input) -> Option<Ratios> {
        let (Input { image, trace, .. }, name) = (input, name(input));
        let mut end = [0; 32];
        Archive::of_hosts().decide(image, trace, &mut end);
        let before = &self.sides.before.places[0];
        if before.decide.is_none() {
            return self.untimed("decide", &name, "lacking");
        }
        if !begins(before, image) {
            return self.untimed("decide", &name, "refused");
        }
        let ratios = self.row("decide", &name, visits(input), &|archive| {
            let mut reply = [0; 32];
            let time = nanoseconds(|| {
                archive.decide(image, trace, &mut reply);
            });
            assert!(reply == end, "{name}: decide ends otherwise");
            time
        });
        Some(ratios)
    }

    fn join(&self, input: &Logs) -> Option<Ratios> {
        let [one, two] = &input.logs;
        let mut end = (vec![0; Period::BYTES * input.periods], [0; 16]);
        Archive::of_hosts().join(one, two, &mut end.0, &mut end.1);
        let name = format!("{}, {} periods", input.name, input.periods);
        if self.sides.before.places[0].join.is_none() {
            return self.untimed("join", &name, "lacking");
        }
        let areas = RefCell::new(end.clone());
        let calls = self.plan.size(10, 1);
        let ratios = self.row("join", &name, input.periods, &|archive| {
            let mut areas = areas.borrow_mut();
            let (trace, reply) = &mut *areas;
            trace.fill(0);
            reply.fill(0);
            let time = each_of(calls, || {
                archive.join(one, two, trace, reply);
            });
            assert!(*areas == end, "{name}: join ends otherwise");
            time
        });
        Some(ratios)
    }

    fn compile(&self, family: &Family, records: usize) -> Option<Ratios> {
        let contract = family.contract(records);
        let name = match records {
            1 => format!("1 record, {}", family.name),
            _ => format!("{records} records, {}", family.name),
        };
        self.compiling("compile", &name, &[&contract], calls(self.plan, records))
    }

    /// A row of compile after each record, as an editor calls it while the contract is typed.
    fn typing(&self, contract: &Open) -> Option<Ratios> {
        let records = contract.records;
        let prefixes: Vec<&[u8]> = (1..=records)
            .map(|length| &contract.bytes[..length * Record::BYTES])
            .collect();
        let name = format!("{records} records, {}", contract.name);
        let rounds = self.plan.size(65_536 / (records * records), 1);
        self.compiling("typing", &name, &prefixes, rounds)
    }

    /// A row of compile over contracts one after the other, so many rounds of them; the last one is
    /// taken.
    fn compiling(
        &self,
        call: &str,
        name: &str,
        contracts: &[&[u8]],
        rounds: usize,
    ) -> Option<Ratios> {
        let round = |archive: &Archive, image: &mut [u8], replies: &mut [[u8; 16]]| {
            for (contract, reply) in contracts.iter().zip(replies) {
                archive.compile(contract, image, reply);
            }
        };
        let [before, hosts] = [self.sides.before.places[0], Archive::of_hosts()];
        let whole = contracts.last().expect("there is a contract");
        assert!(compiles(&hosts, whole), "{name}: compile refuses");
        if !compiles(&before, whole) {
            return self.untimed(call, name, "refused");
        }
        let ends = [&before, &hosts].map(|archive| {
            let mut end = (vec![0; LONGEST_IMAGE], vec![[0; 16]; contracts.len()]);
            round(archive, &mut end.0, &mut end.1);
            end
        });
        assert!(
            ends[0] == ends[1] || (!self.alike && has_until(whole)),
            "{name}: {call} ends otherwise"
        );
        let areas = RefCell::new(ends[0].clone());
        let ratios = self.row(call, name, rounds * contracts.len(), &|archive| {
            let mut areas = areas.borrow_mut();
            let (image, replies) = &mut *areas;
            image.fill(0);
            replies.fill([0; 16]);
            let time = nanoseconds(|| {
                for _ in 0..rounds {
                    round(archive, image, replies);
                }
            });
            assert!(ends.contains(&areas), "{name}: {call} ends otherwise");
            time
        });
        Some(ratios)
    }
}

fn name(input: &Input) -> String {
    format!("{}, {} rows", input.name, product::rows_of(&input.image))
}

/// Every row in every period: no input is decided.
fn visits(input: &Input) -> usize {
    input.trace.len() / PERIOD * product::rows_of(&input.image)
}

/// Whether the archive takes the image: an earlier one may take fewer rows.
fn begins(archive: &Archive, image: &[u8]) -> bool {
    let (mut state, mut reply) = (vec![0; HEAD + product::rows_of(image)], [0xff; 16]);
    archive.begin(image, &mut state, &mut reply);
    reply[..4] == [0; 4]
}

/// Whether the archive takes the contract: an earlier one may know fewer kinds.
fn compiles(archive: &Archive, contract: &[u8]) -> bool {
    let mut reply = [0xff; 16];
    archive.compile(contract, &mut vec![0; LONGEST_IMAGE], &mut reply);
    reply[..4] == [0; 4]
}

fn line(plan: &Plan, [call, input, before, now, ratio]: [&str; 5]) {
    let row = format!("{call:<9}{input:<56}{before:>15}{now:>15}{ratio:>13}");
    plan.say(row.trim_end());
}

#[cfg(test)]
mod tests {
    use super::*;
    use crate::archive::Copies;
    use crate::spoiled::{refusing, spoiled, with_longer_images, ALL, OUTPUT, REPLY, UNTILS};
    use std::panic::catch_unwind;

    fn sides(before: Archive, now: Archive) -> Sides {
        let copies = |archive| Copies {
            files: "",
            places: [archive; PLACES],
        };
        Sides {
            before: copies(before),
            now: copies(now),
            alike: false,
        }
    }

    #[test]
    fn what_is_timed_ends_alike() {
        let hosts = Archive::of_hosts();
        measure(&Plan::new(true), &sides(hosts, hosts));
    }

    fn is_timed(archive: Archive) -> bool {
        let sides = sides(Archive::of_hosts(), archive);
        catch_unwind(|| measure(&Plan::new(true), &sides)).is_ok()
    }

    #[test]
    fn what_ends_otherwise_is_not_timed() {
        for (archive, call) in spoiled::<OUTPUT>() {
            assert_eq!(is_timed(archive), call == "begin", "{call}");
        }
        // The replies of compile, decide and join are compared.
        for (archive, call) in spoiled::<REPLY>() {
            assert_eq!(
                is_timed(archive),
                !["compile", "decide", "join"].contains(&call),
                "{call}"
            );
        }
    }

    #[test]
    fn other_images_are_timed_of_contracts_with_until_alone() {
        let is_timed = |before| {
            let sides = sides(before, Archive::of_hosts());
            catch_unwind(|| measure(&Plan::new(true), &sides)).is_ok()
        };
        assert!(is_timed(with_longer_images::<UNTILS>()));
        assert!(!is_timed(with_longer_images::<ALL>()));
    }

    #[test]
    fn other_replies_are_not_timed_as_typing() {
        for (archive, call) in spoiled::<REPLY>() {
            let sides = sides(Archive::of_hosts(), archive);
            let typing = || {
                let plan = &Plan::new(true);
                Table::new(plan, &sides).typing(&contracts::duty_and_ban())
            };
            assert_eq!(catch_unwind(typing).is_ok(), call != "compile", "{call}");
        }
    }

    #[test]
    fn what_the_earlier_archive_refuses_or_lacks_is_not_timed() {
        let (plan, hosts) = (&Plan::new(true), Archive::of_hosts());
        let timed = |sides: &Sides| {
            let table = Table::new(plan, sides);
            let input = &rows::inputs(plan)[0];
            [
                table.run(input),
                table.step(input),
                table.compile(&FAMILIES[0], 8),
                table.typing(&contracts::duty_and_ban()),
                table.decide(input),
                table.join(&join::inputs(plan)[0]),
            ]
            .map(|ratios| ratios.is_some())
        };
        let [yes, no] = [true, false];
        assert_eq!(timed(&sides(hosts, hosts)), [yes; 6]);
        // Join takes no image and no contract.
        assert_eq!(timed(&sides(refusing(), hosts)), [no, no, no, no, no, yes]);
        let without_join = Archive {
            join: None,
            ..hosts
        };
        assert_eq!(
            timed(&sides(without_join, hosts)),
            [yes, yes, yes, yes, yes, no]
        );
        let without_both = Archive {
            decide: None,
            ..without_join
        };
        assert_eq!(
            timed(&sides(without_both, hosts)),
            [yes, yes, yes, yes, no, no]
        );
    }

    #[test]
    fn ratios_are_summed_up() {
        assert_eq!(summary("decide", vec![]), "decide: not timed");
        assert_eq!(
            summary("run", vec![[1.02, 1.0], [0.98, 1.01], [1.0, 0.99]]),
            "run, 3 inputs: ratios of the bests 0.98 to 1.02, medians of the turns 0.99 to 1.01"
        );
    }
}

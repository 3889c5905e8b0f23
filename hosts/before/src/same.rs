//! One case on both archives: every call leaves the same bytes. But they may compile contracts with
//! an `until` to other images: then the calls are made on each of the two.

use crate::archive::Archive;
use crate::untils::{compile_alike, has_until};
use compare::cases::{Call, Case, Start};
use compare::guard::Lent;
use compare::random::Random;
use compare::report::Difference;
use reference::contract::least_buffer;
use reference::records::four_bytes;
use std::fmt::{self, Display, Formatter};

/// How often each call was made with both archives.
#[derive(Debug, Default, PartialEq, Eq)]
pub struct Tally {
    pub cases: u64,
    pub compiles: u64,
    /// The compiles that were accepted.
    pub taken: u64,
    /// The contracts of which the archives have two images.
    pub two_images: u64,
    pub begins: u64,
    pub steps: u64,
    pub runs: u64,
    /// None where the earlier archive lacks the call; so the next.
    pub decides: u64,
    pub joins: u64,
}

impl Display for Tally {
    fn fmt(&self, to: &mut Formatter) -> fmt::Result {
        write!(
            to,
            "{} cases with {} compiles ({} taken), {} contracts with two images, {} begins, {} steps, \
             {} runs, {} decides, {} joins",
            self.cases,
            self.compiles,
            self.taken,
            self.two_images,
            self.begins,
            self.steps,
            self.runs,
            self.decides,
            self.joins
        )
    }
}

/// The images that the earlier archive and today's compile a contract to.
type Images = (Vec<u8>, Vec<u8>);

/// The two archives. Of each lent area the earlier one gets the copy of the reference.
#[derive(Clone, Copy)]
pub struct Pair {
    pub before: Archive,
    pub now: Archive,
    /// Whether they compile an `until` to the same image.
    pub alike: bool,
}

impl Pair {
    pub fn new(before: Archive, now: Archive) -> Pair {
        Pair {
            before,
            now,
            alike: compile_alike([&before, &now]),
        }
    }

    /// Runs the case; an error is the first difference.
    pub fn check(&self, case: &Case, tally: &mut Tally) -> Result<(), Difference> {
        tally.cases += 1;
        let checked = self.check_start(case, tally);
        checked.map_err(|difference| difference.between(&["before", "now"]))
    }

    fn check_start(&self, case: &Case, tally: &mut Tally) -> Result<(), Difference> {
        let mut random = Random::new(case.fill);
        match &case.start {
            Start::Contract {
                bytes,
                buffer,
                reply,
            } => {
                let contract = Lent::new("contract", bytes, &mut random);
                let images = self.compile(&contract, *buffer, *reply, &mut random, tally)?;
                let Some((before, now)) = images else {
                    return Ok(());
                };
                // Another compile, into a buffer of another length and content.
                let buffer = least_buffer(bytes) + random.below(100);
                self.compile(&contract, buffer, 2048, &mut random, tally)?;
                if before != now {
                    tally.two_images += 1;
                    let state = random.bytes(10 + before.len() / 8 - 1);
                    let on = " on the image that the earlier archive compiled";
                    let random = Random::new(case.fill);
                    self.check_calls(case, on, [&before, &state], random, tally)?;
                }
                let state = random.bytes(10 + now.len() / 8 - 1);
                self.check_calls(case, "", [&now, &state], random, tally)
            }
            Start::Image { bytes, state } => {
                self.check_calls(case, "", [bytes, state], random, tally)
            }
        }
    }

    /// The images, where compile accepts.
    fn compile(
        &self,
        contract: &Lent,
        buffer: usize,
        reply: usize,
        random: &mut Random,
        tally: &mut Tally,
    ) -> Result<Option<Images>, Difference> {
        let mut image = Lent::random("image buffer", buffer, random);
        let mut reply = Lent::random("reply area", reply, random);
        let held = image.product().to_vec();
        let results = [
            self.before.compile(
                contract.reference(),
                image.reference_mut(),
                reply.reference_mut(),
            ),
            self.now
                .compile(contract.product(), image.product_mut(), reply.product_mut()),
        ];
        tally.compiles += 1;
        let mut images = None;
        if results == [1, 1] {
            let before = written(image.reference(), reply.reference());
            images = before.zip(written(image.product(), reply.product()));
        }
        if let Some((before, now)) = &images {
            if !self.alike && has_until(contract.product()) {
                // The images and their numbers of rows aren't compared; all else is.
                image.reference_mut()[..before.len()].copy_from_slice(&held[..before.len()]);
                image.product_mut()[..now.len()].copy_from_slice(&held[..now.len()]);
                reply.reference_mut()[4..8].fill(0);
                reply.product_mut()[4..8].fill(0);
            }
        }
        same("compile", results, &[contract, &image, &reply])?;
        tally.taken += u64::from(images.is_some());
        Ok(images)
    }

    /// The case's calls on an image and a state; `on` is what is told of them with a difference.
    fn check_calls(
        &self,
        case: &Case,
        on: &'static str,
        [image, state]: [&[u8]; 2],
        mut random: Random,
        tally: &mut Tally,
    ) -> Result<(), Difference> {
        let image = Lent::new("image", image, &mut random);
        let state = Lent::new("state", state, &mut random);
        let mut calls = Calls {
            pair: self,
            on,
            image,
            state,
            random,
        };
        for (number, call) in case.calls.iter().enumerate() {
            calls.check(number, call, tally)?;
        }
        Ok(())
    }
}

/// The image in the buffer, if the reply is that of an accepted compile.
fn written(buffer: &[u8], reply: &[u8]) -> Option<Vec<u8>> {
    let [number, rows] = [0, 4].map(|at| four_bytes(reply, at));
    let image = buffer.get(..8 * (rows as usize + 1))?;
    (number == 0).then(|| image.to_vec())
}

/// Calls on one image and one state.
struct Calls<'a> {
    pair: &'a Pair,
    on: &'static str,
    image: Lent,
    state: Lent,
    random: Random,
}

/// Step or run.
type Taking = fn(&Archive, &[u8], &mut [u8], &[u8], &mut [u8]) -> u32;

impl Calls<'_> {
    fn check(&mut self, number: usize, call: &Call, tally: &mut Tally) -> Result<(), Difference> {
        let on = self.on;
        let name = |call: &str| format!("call {number}, {call}{on}");
        match call {
            Call::Begin { reply } => {
                tally.begins += 1;
                self.begin(&name("begin"), *reply)
            }
            Call::Step { period, reply } => {
                tally.steps += 1;
                self.take(&name("step"), Archive::step, period, *reply)
            }
            Call::Run { trace, reply } => {
                tally.runs += 1;
                self.take(&name("run"), Archive::run, trace, *reply)
            }
            Call::Decide { trace, reply } => self.decide(&name("decide"), trace, *reply, tally),
            Call::Join { logs, trace, reply } => {
                self.join(&name("join"), logs, [*trace, *reply], tally)
            }
        }
    }

    fn begin(&mut self, name: &str, reply: usize) -> Result<(), Difference> {
        let mut reply = Lent::random("reply area", reply, &mut self.random);
        let results = [
            self.pair.before.begin(
                self.image.reference(),
                self.state.reference_mut(),
                reply.reference_mut(),
            ),
            self.pair.now.begin(
                self.image.product(),
                self.state.product_mut(),
                reply.product_mut(),
            ),
        ];
        same(name, results, &[&reply, &self.state, &self.image])
    }

    fn take(
        &mut self,
        name: &str,
        taking: Taking,
        periods: &[u8],
        reply: usize,
    ) -> Result<(), Difference> {
        let periods = Lent::new("period records", periods, &mut self.random);
        let mut reply = Lent::random("reply area", reply, &mut self.random);
        let results = [
            taking(
                &self.pair.before,
                self.image.reference(),
                self.state.reference_mut(),
                periods.reference(),
                reply.reference_mut(),
            ),
            taking(
                &self.pair.now,
                self.image.product(),
                self.state.product_mut(),
                periods.product(),
                reply.product_mut(),
            ),
        ];
        same(name, results, &[&reply, &self.state, &self.image, &periods])
    }

    /// Decide, which is compared where both archives have it.
    fn decide(
        &mut self,
        name: &str,
        trace: &[u8],
        reply: usize,
        tally: &mut Tally,
    ) -> Result<(), Difference> {
        let trace = Lent::new("trace", trace, &mut self.random);
        let mut reply = Lent::random("reply area", reply, &mut self.random);
        let before = self.pair.before.decide(
            self.image.reference(),
            trace.reference(),
            reply.reference_mut(),
        );
        let now = self
            .pair
            .now
            .decide(self.image.product(), trace.product(), reply.product_mut());
        let (Some(before), Some(now)) = (before, now) else {
            return Ok(());
        };
        tally.decides += 1;
        same(name, [before, now], &[&reply, &self.image, &trace])
    }

    /// Join, which is compared where both archives have it.
    fn join(
        &mut self,
        name: &str,
        logs: &[Vec<u8>; 2],
        [trace, reply]: [usize; 2],
        tally: &mut Tally,
    ) -> Result<(), Difference> {
        let one = Lent::new("log 1", &logs[0], &mut self.random);
        let two = Lent::new("log 2", &logs[1], &mut self.random);
        let mut trace = Lent::random("trace buffer", trace, &mut self.random);
        let mut reply = Lent::random("reply area", reply, &mut self.random);
        let before = self.pair.before.join(
            one.reference(),
            two.reference(),
            trace.reference_mut(),
            reply.reference_mut(),
        );
        let now = self.pair.now.join(
            one.product(),
            two.product(),
            trace.product_mut(),
            reply.product_mut(),
        );
        let (Some(before), Some(now)) = (before, now) else {
            return Ok(());
        };
        tally.joins += 1;
        same(name, [before, now], &[&reply, &trace, &one, &two])
    }
}

/// That both archives gave the same result and left the same bytes.
fn same(call: &str, [before, now]: [u32; 2], lent: &[&Lent]) -> Result<(), Difference> {
    Difference::unless_same(call, "the result", &before, &now)?;
    lent.iter().try_for_each(|lent| lent.compare(call))
}

#[cfg(test)]
mod tests {
    use super::*;
    use crate::spoiled::{spoiled, spoiled_on_longer_images, with_longer_images};
    use crate::spoiled::{ALL, OUTPUT, REPLY, RESULT, UNTILS};

    fn pair(now: Archive) -> Pair {
        Pair::new(Archive::of_hosts(), now)
    }

    /// The first difference in such cases.
    fn difference_in(pair: &Pair, such: fn(&Case) -> bool) -> String {
        let cases = (0..1000).map(Case::of_seed).filter(such);
        let mut checks = cases.map(|case| pair.check(&case, &mut Tally::default()));
        let found = checks.find_map(Result::err);
        found.expect("there is a difference").to_string()
    }

    /// The first difference in some cases.
    fn difference(now: Archive) -> String {
        difference_in(&pair(now), |_| true)
    }

    /// Whether the case has a contract with an `until`.
    fn with_until(case: &Case) -> bool {
        matches!(&case.start, Start::Contract { bytes, .. } if has_until(bytes))
    }

    #[test]
    fn an_archive_agrees_with_itself() {
        let pair = pair(Archive::of_hosts());
        let mut tally = Tally::default();
        for seed in 0..1000 {
            pair.check(&Case::of_seed(seed), &mut tally).unwrap();
        }
        assert_eq!(tally.cases, 1000);
        assert!(0 < tally.taken && tally.taken < tally.compiles);
        let calls = [tally.begins, tally.steps, tally.runs, tally.decides];
        assert!(calls.iter().all(|n| *n > 300));
        assert!(tally.joins > 100);
    }

    #[test]
    fn what_the_earlier_archive_lacks_is_not_compared() {
        for (now, call) in spoiled::<RESULT>() {
            let mut pair = pair(now);
            (pair.before.decide, pair.before.join) = (None, None);
            let mut tally = Tally::default();
            let differs =
                (0..1000).any(|seed| pair.check(&Case::of_seed(seed), &mut tally).is_err());
            assert_eq!(differs, !["decide", "join"].contains(&call), "{call}");
            assert_eq!((tally.decides, tally.joins), (0, 0), "{call}");
        }
    }

    #[test]
    fn decide_is_compared_where_join_is_lacking() {
        let mut pair = pair(Archive::of_hosts());
        pair.before.join = None;
        let mut tally = Tally::default();
        for seed in 0..100 {
            pair.check(&Case::of_seed(seed), &mut tally).unwrap();
        }
        assert!(tally.decides > 0 && tally.joins == 0);
    }

    #[test]
    fn every_other_result_is_a_difference() {
        for (archive, call) in spoiled::<RESULT>() {
            let text = difference(archive);
            assert!(text.contains(call) && text.contains("the result"), "{text}");
        }
    }

    #[test]
    fn every_other_byte_is_a_difference() {
        for (archive, call) in spoiled::<OUTPUT>() {
            let area = match call {
                "compile" => "image buffer",
                "join" => "trace buffer",
                _ => "state",
            };
            let text = difference(archive);
            assert!(text.contains(call) && text.contains(area), "{text}");
            assert!(
                text.contains("\n  before ") && text.contains("\n  now "),
                "{text}"
            );
        }
        for (archive, call) in spoiled::<REPLY>() {
            let text = difference(archive);
            assert!(text.contains(call) && text.contains("reply area"), "{text}");
        }
    }

    #[test]
    fn other_images_of_contracts_with_until_are_no_difference() {
        let hosts = Archive::of_hosts();
        let mut made = Vec::new();
        for before in [hosts, with_longer_images::<UNTILS>()] {
            let mut tally = Tally::default();
            for seed in 0..1000 {
                let pair = Pair::new(before, hosts);
                pair.check(&Case::of_seed(seed), &mut tally).unwrap();
            }
            made.push(tally);
        }
        let [same, other] = [&made[0], &made[1]];
        assert!(same.two_images == 0 && other.two_images > 100);
        assert_eq!((same.compiles, same.taken), (other.compiles, other.taken));
        // On both images.
        assert!(same.begins + 100 < other.begins && same.steps + 1000 < other.steps);
        assert!(same.runs + 100 < other.runs && same.decides + 100 < other.decides);
    }

    #[test]
    fn other_images_of_other_contracts_are_a_difference() {
        let pair = Pair::new(with_longer_images::<ALL>(), Archive::of_hosts());
        let text = difference_in(&pair, |case| !with_until(case));
        assert!(text.contains("compile"), "{text}");
    }

    #[test]
    fn all_but_the_images_is_compared() {
        fn compile<const FAULT: u8>() -> Archive {
            let mut archives = spoiled::<FAULT>().into_iter();
            let found = archives.find(|(_, call)| *call == "compile");
            found.expect("compile can have it").0
        }
        for (now, what) in [
            (compile::<RESULT>(), "the result"),
            (compile::<OUTPUT>(), "image buffer"),
            (compile::<REPLY>(), "reply area"),
        ] {
            let pair = Pair::new(with_longer_images::<UNTILS>(), now);
            let text = difference_in(&pair, with_until);
            assert!(text.contains("compile") && text.contains(what), "{text}");
        }
    }

    #[test]
    fn both_images_are_compared() {
        let (longer, now) = (with_longer_images::<UNTILS>(), spoiled_on_longer_images());
        for (pair, place) in [
            (Pair::new(longer, now), "earlier archive compiled"),
            (Pair::new(now, longer), ", begin:"),
        ] {
            let text = difference_in(&pair, with_until);
            assert!(text.contains("begin") && text.contains(place), "{text}");
        }
    }
}

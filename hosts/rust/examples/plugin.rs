//! A host that runs one plugin in several spreadsheets, all under one contract.
//!
//! For each recalculation it steps the sheet's monitor with what the plugin tried and what the
//! host itself tried. It prints a line per period, as `watch` does: number, verdict, blame. Of a
//! stored trace it asks only what decides it.

use std::num::NonZeroU32;

use monitor::{
    Action, Blame, Clause, Contract, Expression, Image, Monitor, Party, Period, Record, Refusal,
};

/// The plugin is party 1, the host party 2.
const PLUGIN: Party = Party::One;

/// The plugin hands over its cells' values, the host takes them.
const VALUES: Action = Action::new(0).unwrap();
/// The plugin hands over a correction, the host takes it.
const CORRECTION: Action = Action::new(1).unwrap();
/// The plugin asks for memory, the host gives it.
const MEMORY: Action = Action::new(2).unwrap();
/// The plugin reads cells of another sheet, the host lets it.
const OTHER_SHEET: Action = Action::new(3).unwrap();
/// Both shut down because the user closes the sheet.
const CLOSE: Action = Action::new(4).unwrap();

/// Until the sheet is closed, in each recalculation:
/// - the plugin hands over its values, or else a correction in the next one;
/// - the host gives memory if the plugin asks for it;
/// - the plugin doesn't read another sheet's cells.
fn contract() -> Contract {
    let values = Clause::duty(PLUGIN, VALUES).repair(Clause::duty(PLUGIN, CORRECTION));
    let memory = Clause::power(PLUGIN, MEMORY);
    let own_sheet = Clause::ban(PLUGIN, OTHER_SHEET);
    let closed = Expression::succeeds(CLOSE);
    let clause = Clause::both(values.repeat(), memory.both(own_sheet).repeat()).until(closed);
    Contract::from(clause)
}

/// What the plugin tries in a recalculation, then what the host tries.
type Attempts<'a> = (&'a [Action], &'a [Action]);

fn recalculate(sheet: &mut Monitor, recalculations: &[Attempts]) -> Result<(), Refusal> {
    for (plugin, host) in recalculations {
        let reply = sheet.step(Period::from_actions(plugin, host))?;
        let blame = reply.blame.map_or(0, Blame::number);
        println!("{} {} {blame}", sheet.periods(), reply.verdict);
    }
    let decision = sheet.look().decision.map_or(0, NonZeroU32::get);
    println!("decided {decision}");
    Ok(())
}

fn main() -> Result<(), Refusal> {
    let image = Image::compile(contract())?;
    let mut budget = Monitor::begin(&image);
    let mut survey = Monitor::begin(&image);
    let mut ledger = Monitor::begin(&image);

    println!("budget: values, none, a correction and memory, values and the close, nothing");
    recalculate(
        &mut budget,
        &[
            (&[VALUES], &[VALUES]),
            (&[], &[VALUES]),
            (&[CORRECTION, MEMORY], &[CORRECTION, MEMORY]),
            (&[VALUES, CLOSE], &[VALUES, CLOSE]),
            (&[], &[]),
        ],
    )?;

    println!("survey: memory, then the host has none left, then another sheet is read");
    recalculate(
        &mut survey,
        &[
            (&[VALUES, MEMORY], &[VALUES, MEMORY]),
            (&[VALUES, MEMORY], &[VALUES]),
            (&[VALUES, OTHER_SHEET], &[VALUES, OTHER_SHEET]),
        ],
    )?;

    println!("ledger: values");
    recalculate(&mut ledger, &[(&[VALUES], &[VALUES])])?;

    // The host starts anew: image and state come back from storage.
    let (stored_image, stored_state) = (image.as_bytes().to_vec(), ledger.state().to_vec());
    let image = Image::from_bytes(stored_image)?;
    let mut ledger = Monitor::resume(&image, stored_state)?;

    println!("ledger, resumed: the host bars another sheet, then lets it be read");
    recalculate(
        &mut ledger,
        &[
            (&[VALUES, OTHER_SHEET], &[VALUES]),
            (&[VALUES, OTHER_SHEET], &[VALUES, OTHER_SHEET]),
        ],
    )?;

    // A stored trace needs no monitor: the image decides it, and reads no further than it must.
    let stored = [
        Period::from_actions(&[VALUES, MEMORY], &[VALUES]),
        Period::from_actions(&[VALUES], &[VALUES]),
        Period::default(),
    ];
    let decided = image.decide(&stored)?;
    let (blame, read) = (decided.blame.map_or(0, Blame::number), decided.records);
    println!("stored trace: memory is asked for and not given, values, nothing");
    println!(
        "{} {blame}, {read} of {} records read",
        decided.outcome,
        stored.len()
    );

    // Records by hand, operands before their operator. Repeat wants a clause, but succeeds is an
    // expression.
    let wrong = Contract::from_records(&[Record::Succeeds(CLOSE), Record::Repeat]);
    if let Err(refusal) = Image::compile(wrong) {
        println!("refused {} {}", refusal.fault.number(), refusal.place);
        println!("{refusal}");
    }
    Ok(())
}

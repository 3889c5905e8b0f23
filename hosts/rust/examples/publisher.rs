//! A publisher of verdicts: from the logs that plugin and host kept, each its own, to a line about
//! their contract.

use monitor::{join_bytes, Action, Clause, Contract, Image, Party, Refusal};

/// The plugin is party 1, the host party 2.
const PLUGIN: Party = Party::One;

/// The plugin hands over its cells' values, the host takes them.
const VALUES: Action = Action::new(0).unwrap();
/// The plugin hands over a correction, the host takes it.
const CORRECTION: Action = Action::new(1).unwrap();

/// The plugin's log, as its file holds it: for each record the mark, the period's number and the
/// actions that the plugin tries in it, one bit for each. It has no record of period 3.
const PLUGIN_LOG: [u8; 32] = [
    0x54, 0x4c, 1, 0, 0b01, 0, 0, 0, // period 1: values
    0x54, 0x4c, 2, 0, 0b01, 0, 0, 0, // period 2: values
    0x54, 0x4c, 4, 0, 0b10, 0, 0, 0, // period 4: a correction
    0x54, 0x4c, 5, 0, 0b01, 0, 0, 0, // period 5: values
];

/// The host's. It has no record of period 4.
const HOST_LOG: [u8; 32] = [
    0x54, 0x4c, 1, 0, 0b01, 0, 0, 0, // period 1: values
    0x54, 0x4c, 2, 0, 0b01, 0, 0, 0, // period 2: values
    0x54, 0x4c, 3, 0, 0b01, 0, 0, 0, // period 3: values
    0x54, 0x4c, 5, 0, 0b01, 0, 0, 0, // period 5: values
];

/// Again and again the plugin hands over its values, or else a correction one period later.
fn contract() -> Contract {
    let correction = Clause::duty(PLUGIN, CORRECTION);
    Contract::from(Clause::duty(PLUGIN, VALUES).repair(correction).repeat())
}

fn main() -> Result<(), Refusal> {
    let image = Image::compile(contract())?;

    let periods = join_bytes(&PLUGIN_LOG, &HOST_LOG)?;
    let decided = image.decide(&periods)?;
    print!("{} periods: {}", periods.len(), decided.outcome);
    if let (Some(blame), Some(period)) = (decided.blame, decided.decision) {
        print!(" by {blame} in period {period}");
    }
    println!();

    // A log whose file was appended twice is none: its numbers don't rise.
    if let Err(refusal) = join_bytes(&PLUGIN_LOG, &HOST_LOG.repeat(2)) {
        println!("{refusal}");
    }
    Ok(())
}

//! Narrow records, which the crate reads and doesn't write.

use monitor::{Party, Period};

/// The narrow records of these periods: of their attempts at actions 0 to 15.
pub fn narrow(periods: &[Period]) -> Vec<u8> {
    let record = |period: &Period| {
        let [one, two] = [Party::One, Party::Two].map(|party| period.mask(party).to_le_bytes());
        [0x54, 0x50, one[0], one[1], two[0], two[1]]
    };
    periods.iter().flat_map(record).collect()
}

//! Contracts with an `until`, which an archive may compile to other images than another: before its
//! expression could match from any period, it had fewer rows.

use crate::archive::Archive;
use bench::product::LONGEST_IMAGE;
use monitor::Record::{Duty, Repeat, Tries, Until};
use monitor::{Action, Contract, Party, Record};

/// Whether a contract has an `until`.
pub fn has_until(contract: &[u8]) -> bool {
    let mut records = contract.chunks_exact(Record::BYTES);
    records.any(|record| record[2] == Until.kind())
}

/// Whether both archives compile an `until` to the same image.
pub fn compile_alike(archives: [&Archive; 2]) -> bool {
    let [a, b] = [0, 1].map(|number| Action::new(number).expect("below 16"));
    let records = [
        Duty(Party::One.into(), a),
        Repeat,
        Tries(Party::One, b),
        Until,
    ];
    let contract = Contract::from_records(&records);
    let [before, now] = archives.map(|archive| {
        let (mut image, mut reply) = (vec![0; LONGEST_IMAGE], [0xff; 16]);
        archive.compile(contract.as_bytes(), &mut image, &mut reply);
        (image, reply)
    });
    before == now
}

#[cfg(test)]
mod tests {
    use super::*;
    use crate::spoiled::{with_longer_images, UNTILS};

    #[test]
    fn archives_are_asked() {
        let hosts = Archive::of_hosts();
        assert!(compile_alike([&hosts, &hosts]));
        let longer = with_longer_images::<UNTILS>();
        assert!(!compile_alike([&longer, &hosts]));
        assert!(!compile_alike([&hosts, &longer]));
    }

    #[test]
    fn untils_are_found() {
        let duty = [0x54, 0x43, 1, 1, 9, 0];
        let until = [0x54, 0x43, 9, 0, 0, 0];
        assert!(has_until(&[duty, duty, until, duty].concat()));
        assert!(!has_until(&[duty, duty].concat()));
        assert!(!has_until(&[&duty[..], &until[..5]].concat()));
    }
}

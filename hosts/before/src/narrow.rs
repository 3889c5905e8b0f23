//! Cases for an archive that reads no wide records and takes no action above 15.

use crate::archive::Archive;
use bench::{contracts, product};
use compare::cases::{Call, Case, Start};
use monitor::Period;

/// Bytes of a wide record.
const WIDE: usize = Period::BYTES;

/// Whether the archive reads wide records.
pub fn reads_wide(archive: &Archive) -> bool {
    let image = product::image_of(&contracts::duty());
    let (mut state, mut reply) = (product::begin(&image), [0xff; 24]);
    let record = Period::default().to_bytes();
    archive.step(&image, &mut state, &record, &mut reply);
    reply[..4] == [0; 4]
}

/// The case with narrow records in the place of wide ones, and lower actions in that of upper ones.
pub fn narrowed(mut case: Case) -> Case {
    match &mut case.start {
        Start::Contract { bytes, .. } => {
            let records = bytes.chunks_exact_mut(6);
            for record in records.filter(|record| compare::contracts::names_upper(record)) {
                record[4] -= 16;
            }
        }
        Start::Image { bytes, .. } => {
            let rows = bytes.chunks_exact_mut(8);
            for row in rows.filter(|row| compare::images::names_upper(row)) {
                row[6] -= 16;
            }
        }
    }
    let records = case.calls.iter_mut().filter_map(Call::records_mut);
    records.for_each(narrow);
    case
}

/// A trace that starts with a wide record becomes one that starts with a narrow one. Each mark of a
/// form becomes the other's, any other mark stays, and so does a bad length.
fn narrow(trace: &mut Vec<u8>) {
    if !trace.starts_with(&[0x54, 0x51]) {
        return;
    }
    let mut narrow = Vec::with_capacity(trace.len());
    for record in trace.chunks_mut(WIDE) {
        if let [0x54, form @ (0x50 | 0x51), ..] = record {
            *form ^= 1;
        }
        match *record {
            [mark, form, a, b, _, _, c, d, _, _] => narrow.extend([mark, form, a, b, c, d]),
            _ => narrow.extend(record.iter().take(5)),
        }
    }
    *trace = narrow;
}

#[cfg(test)]
mod tests {
    use super::*;
    use crate::spoiled::refusing;

    #[test]
    fn an_archive_is_asked() {
        assert!(reads_wide(&Archive::of_hosts()));
        assert!(!reads_wide(&refusing()));
    }

    #[test]
    fn wide_records_become_narrow_ones() {
        let narrowed = |trace: &[u8]| {
            let mut trace = trace.to_vec();
            narrow(&mut trace);
            trace
        };
        let wide = [0x54, 0x51, 1, 2, 3, 4, 5, 6, 7, 8];
        let other = [0x54, 0x50, 1, 2, 3, 4, 5, 6, 7, 8];
        let bad = [0x54, 0x43, 1, 2, 3, 4, 5, 6, 7, 8];
        assert_eq!(
            narrowed(&[wide, other, bad].concat()),
            [
                [0x54, 0x50, 1, 2, 5, 6],
                [0x54, 0x51, 1, 2, 5, 6],
                [0x54, 0x43, 1, 2, 5, 6],
            ]
            .concat()
        );
        for length in 11..20 {
            let trace = narrowed(&[wide, wide].concat()[..length]);
            assert_eq!(trace.len(), 6 + (length - 10).min(5));
        }
        for same in [&[][..], &[0x54], &other, &bad] {
            assert_eq!(narrowed(same), same);
        }
        assert_eq!(narrowed(&wide[..2]), [0x54, 0x50]);
    }

    /// Actions above 31, a kind without an action and an end record stay as they are.
    #[test]
    fn only_upper_actions_are_lowered() {
        let narrowed = |start| {
            let mut case = Case::of_seed(1);
            case.start = start;
            match narrowed(case).start {
                Start::Contract { bytes, .. } | Start::Image { bytes, .. } => bytes,
            }
        };
        let contract = |action: u8| {
            let duty = [0x54, 0x43, 1, 1, action, 0];
            [duty, [0x54, 0x43, 1, 1, 32, 0], [0x54, 0x43, 7, 0, 16, 0]].concat()
        };
        let start = Start::Contract {
            bytes: contract(31),
            buffer: 0,
            reply: 0,
        };
        assert_eq!(narrowed(start), contract(15));
        let image = |action: u8| {
            let row = [0x54, 0x52, 2, 0, 1, 0, action, 0];
            let bad = [0x54, 0x52, 2, 0, 1, 0, 16, 1];
            [row, bad, [0x54, 0x45, 2, 0, 1, 0, 16, 0]].concat()
        };
        let start = Start::Image {
            bytes: image(31),
            state: Vec::new(),
        };
        assert_eq!(narrowed(start), image(15));
    }

    /// No trace starts with a wide record, and no upper action is named.
    #[test]
    fn cases_are_narrowed() {
        let is_wide = |case: &Case| {
            let mut records = case.calls.iter().filter_map(Call::records);
            records.any(|records| records.starts_with(&[0x54, 0x51]))
        };
        let names_upper = |case: &Case| match &case.start {
            Start::Contract { bytes, .. } => {
                bytes.chunks_exact(6).any(compare::contracts::names_upper)
            }
            Start::Image { bytes, .. } => bytes.chunks_exact(8).any(compare::images::names_upper),
        };
        let mut changed = [0; 2];
        for case in (0..1000).map(Case::of_seed) {
            changed[0] += usize::from(is_wide(&case));
            changed[1] += usize::from(names_upper(&case));
            let case = narrowed(case);
            assert!(!is_wide(&case) && !names_upper(&case));
        }
        assert!(changed.iter().all(|count| *count > 100), "{changed:?}");
    }
}

//! Images and their rows, with refusal 9.

use crate::records::{refused, two_bytes, Party, Refusal, END_MARK, MAX_ACTION, ROW_MARK};

/// Bytes of a row, and of the end record.
pub const ROW_BYTES: usize = 8;
/// "An image may have 5,952 rows."
pub const MAX_ROWS: usize = 5952;
/// Bytes of the longest image: 47,624.
pub const MAX_BYTES: usize = ROW_BYTES * (MAX_ROWS + 1);

/// A row: "`54 52`, kind, a zero byte, two-byte fields x and y".
#[derive(Clone, Copy, Debug, PartialEq, Eq)]
pub enum Row {
    False,
    /// "True in period 1 only."
    First,
    /// "Party x tries action y."
    Tries(Party, u8),
    Not(usize),
    And(usize, usize),
    Or(usize, usize),
    /// "The value that row x had in the period before, false in period 1."
    Before(usize),
}

/// "Rows numbered from 0, then an end record": S, V1, V2 are numbers of rows.
#[derive(Clone, Debug, PartialEq, Eq)]
pub struct Image {
    pub rows: Vec<Row>,
    pub satisfied: usize,
    pub violated_one: usize,
    pub violated_two: usize,
}

/// The image of these bytes, or refusal 9: "image length no multiple of 8, under 16 or over" that
/// of the longest; "0. Then a row or the end record not as above; first bad row, row count for the
/// end record".
pub fn read(bytes: &[u8]) -> Result<Image, Refusal> {
    let length = bytes.len();
    if !length.is_multiple_of(ROW_BYTES) || !(16..=MAX_BYTES).contains(&length) {
        return refused(9, 0);
    }
    let count = length / ROW_BYTES - 1;
    let mut rows = Vec::with_capacity(count);
    for (number, row) in bytes.chunks(ROW_BYTES).take(count).enumerate() {
        match read_row(row, number, count) {
            Some(row) => rows.push(row),
            None => return refused(9, number),
        }
    }
    let end = &bytes[count * ROW_BYTES..];
    let [satisfied, violated_one, violated_two] = [2, 4, 6].map(|at| two_bytes(end, at) as usize);
    let names_rows = satisfied < count && violated_one < count && violated_two < count;
    if end[..2] != END_MARK || !names_rows {
        return refused(9, count);
    }
    Ok(Image {
        rows,
        satisfied,
        violated_one,
        violated_two,
    })
}

/// The row of that number in an image of `count` rows, if it is a good one: "in 3 to 5 the fields
/// name lower rows; in 6 any row of the image. Unused fields are 0."
fn read_row(row: &[u8], number: usize, count: usize) -> Option<Row> {
    if row[..2] != ROW_MARK || row[3] != 0 {
        return None;
    }
    let (x, y) = (two_bytes(row, 4) as usize, two_bytes(row, 6) as usize);
    let lower = |field: usize| field < number;
    match row[2] {
        0 if x == 0 && y == 0 => Some(Row::False),
        1 if x == 0 && y == 0 => Some(Row::First),
        2 if y <= MAX_ACTION.into() => Some(Row::Tries(Party::of_number(x)?, y as u8)),
        3 if lower(x) && y == 0 => Some(Row::Not(x)),
        4 if lower(x) && lower(y) => Some(Row::And(x, y)),
        5 if lower(x) && lower(y) => Some(Row::Or(x, y)),
        6 if x < count && y == 0 => Some(Row::Before(x)),
        _ => None,
    }
}

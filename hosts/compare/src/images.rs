//! Random images and states, good ones and damaged ones.

use crate::contracts;
use crate::random::Random;
use crate::traces::UPPER;
use reference::image::{MAX_BYTES, MAX_ROWS};

/// Bytes of a row.
pub const ROW: usize = 8;

/// The number of rows of an image of that length.
pub fn rows_of(image: &[u8]) -> usize {
    (image.len() / ROW).saturating_sub(1)
}

/// Whether a row names an upper action.
pub fn names_upper(row: &[u8]) -> bool {
    row[..3] == [0x54, 0x52, 2] && row[7] == 0 && UPPER.contains(&row[6])
}

fn push(out: &mut Vec<u8>, head: [u8; 4], x: usize, y: usize) {
    out.extend(head);
    out.extend((x as u16).to_le_bytes());
    out.extend((y as u16).to_le_bytes());
}

/// An image of a random number of rows, mostly small; at times one that compile wrote.
pub fn good(random: &mut Random) -> Vec<u8> {
    match random.below(100) {
        0..=24 => compiled(random),
        25..=79 => of_rows(random, 1, 24),
        80..=95 => of_rows(random, 1, 200),
        96..=98 => of_rows(random, 1, MAX_ROWS),
        _ => of_rows(random, MAX_ROWS - 2, MAX_ROWS),
    }
}

/// A good image of at most so many rows.
pub fn small(random: &mut Random, most: usize) -> Vec<u8> {
    of_rows(random, 1, most)
}

/// What compile writes for a random contract.
fn compiled(random: &mut Random) -> Vec<u8> {
    let contract = contracts::good(random);
    let mut image = vec![0; MAX_BYTES];
    let mut reply = [0; 16];
    monitor::calls::compile(&contract, &mut image, &mut reply);
    let rows = u32::from_le_bytes([reply[4], reply[5], reply[6], reply[7]]) as usize;
    image.truncate(ROW * (rows.clamp(1, MAX_ROWS) + 1));
    image
}

/// A good image of random rows.
fn of_rows(random: &mut Random, least: usize, most: usize) -> Vec<u8> {
    let rows = random.between(least, most);
    let actions = random.pick(&[1, 2, 16, 32, 32]);
    let mut out = Vec::with_capacity(ROW * (rows + 1));
    for number in 0..rows {
        row(random, number, rows, actions, &mut out);
    }
    let mut named = [0; 3].map(|_| random.below(rows) as u16);
    if random.percent(60) {
        // Row 0 is false in many images, so that decisions come late or never.
        named = named.map(|row| if random.percent(50) { 0 } else { row });
        out[..ROW].copy_from_slice(&[0x54, 0x52, 0, 0, 0, 0, 0, 0]);
    }
    out.extend([0x54, 0x45]);
    out.extend(named.iter().flat_map(|row| row.to_le_bytes()));
    out
}

fn row(random: &mut Random, number: usize, rows: usize, actions: usize, out: &mut Vec<u8>) {
    let kind = if number == 0 {
        random.pick(&[0, 1, 2, 6])
    } else {
        random.below(7) as u8
    };
    // Near rows make deep circuits.
    let lower = |random: &mut Random| {
        if random.percent(50) {
            number - 1 - random.below(number.min(4))
        } else {
            random.below(number)
        }
    };
    let (x, y) = match kind {
        2 => (random.between(1, 2), random.below(actions)),
        3 => (lower(random), 0),
        4 | 5 => (lower(random), lower(random)),
        6 => (random.below(rows), 0),
        _ => (0, 0),
    };
    push(out, [0x54, 0x52, kind, 0], x, y);
}

/// Bytes of a length that no image has, or of one with random content.
pub fn odd(random: &mut Random) -> Vec<u8> {
    let length = match random.below(4) {
        0 => random.between(0, 17),
        1 => MAX_BYTES - 1 + random.pick(&[0, 1, 2, 8, 9, 17]),
        2 => random.below(400),
        _ => 8 * random.below(40),
    };
    let mut out = Vec::with_capacity(length + ROW);
    while out.len() < length {
        push(&mut out, [0x54, 0x52, 0, 0], 0, 0);
    }
    out.truncate(length);
    if random.percent(50) && length >= ROW {
        let end = length - ROW;
        out[end..].copy_from_slice(&[0x54, 0x45, 0, 0, 0, 0, 0, 0]);
    }
    if random.percent(20) {
        out = random.bytes(length);
    }
    out
}

/// One fault in an image, mostly.
pub fn damage(random: &mut Random, image: &mut Vec<u8>) {
    let rows = rows_of(image);
    if rows == 0 {
        return image.extend(random.bytes(ROW));
    }
    let number = random.below(rows);
    let at = number * ROW;
    let end = rows * ROW;
    let field = |image: &mut [u8], at: usize, value: usize| {
        image[at..at + 2].copy_from_slice(&(value as u16).to_le_bytes());
    };
    match random.below(14) {
        0 => {
            let byte = random.below(image.len());
            image[byte] ^= 1 << random.below(8);
        }
        1 => image.truncate(random.below(image.len() + 1)),
        2 => image.extend(random.some_bytes(1, 9)),
        3 => drop(image.drain(at..at + ROW)),
        4 => image[at + 2] = random.byte(),
        5 => image[at + 3] = random.pick(&[1, 255]),
        6 => image[at + random.below(2)] = random.byte(),
        // Rows that name themselves, the next one, or none of the image.
        7 | 8 => {
            image[at + 2] = random.between(3, 6) as u8;
            let named = random.pick(&[number, number + 1, rows - 1, rows, rows + 1, 65535]);
            field(image, at + random.pick(&[4, 4, 6]), named);
        }
        9 => {
            image[at + 2] = 2;
            field(image, at + 4, random.pick(&[0, 1, 2, 3, 257, 65535]));
            let action = random.pick(&[0, 15, 16, 31, 32, 33, 256, 288, 65535]);
            field(image, at + 6, action);
        }
        10 => field(image, at + 6, random.pick(&[1, 256])),
        11 => field(image, at + 4, random.pick(&[1, 256])),
        12 => image[end + random.below(2)] = random.byte(),
        _ => field(
            image,
            end + random.pick(&[2, 4, 6]),
            random.pick(&[rows, rows + 1, 65535]),
        ),
    }
}

/// A sound state of that many rows.
pub fn state(random: &mut Random, rows: usize) -> Vec<u8> {
    let mut out = vec![0; 10 + rows];
    let periods = match random.below(10) {
        0..=2 => return out,
        3..=5 => random.between(1, 300) as u32,
        6 => u32::MAX,
        7 => u32::MAX - random.between(0, 12) as u32,
        8 => random.pick(&[
            0xff,
            0x100,
            0xffff,
            0x10000,
            0xff_ffff,
            0x100_0000,
            0x7fff_ffff,
        ]),
        _ => (random.next() as u32).max(1),
    };
    let outcome = random.pick(&[0, 0, 0, 1, 2]);
    let decision = match random.below(3) {
        _ if outcome == 0 => 0,
        0 => periods,
        1 => 1,
        _ => 1 + (random.next() % u64::from(periods)) as u32,
    };
    out[0] = outcome;
    out[1] = if outcome == 2 {
        random.between(1, 3) as u8
    } else {
        0
    };
    out[2..6].copy_from_slice(&periods.to_le_bytes());
    out[6..10].copy_from_slice(&decision.to_le_bytes());
    for value in &mut out[10..] {
        *value = random.below(2) as u8;
    }
    out
}

/// One fault in a state, mostly.
pub fn damage_state(random: &mut Random, state: &mut Vec<u8>) {
    if state.len() < 11 {
        return state.extend(random.bytes(1));
    }
    let rows = state.len() - 10;
    let periods = u32::from_le_bytes([state[2], state[3], state[4], state[5]]);
    match random.below(12) {
        0 => state[0] = random.pick(&[0, 1, 2, 3, 255]),
        1 => state[1] = random.pick(&[0, 1, 2, 3, 4, 255]),
        2 => state[2..6].fill(0),
        3 => state[6..10].fill(0),
        4 => state[6..10].copy_from_slice(&periods.wrapping_add(1).to_le_bytes()),
        5 => state[6 + random.below(4)] = random.pick(&[1, 255]),
        6 => state[10 + random.below(rows)] = random.pick(&[1, 2, 3, 128, 255]),
        7 => state[10 + rows - 1] = 2,
        8 => drop(state.pop()),
        9 => state.push(random.below(2) as u8),
        10 => state.truncate(random.below(state.len())),
        _ => {
            let byte = random.below(state.len());
            state[byte] ^= 1 << random.below(8);
        }
    }
}

#[cfg(test)]
mod tests {
    use super::*;
    use reference::image::read;
    use reference::state::State;

    #[test]
    fn upper_actions_are_named() {
        for action in 0..=65535 {
            let mut row = Vec::new();
            push(&mut row, [0x54, 0x52, 2, 0], 1, action);
            assert_eq!(names_upper(&row), (16..32).contains(&action), "{action}");
        }
        assert!(!names_upper(&[0x54, 0x52, 4, 0, 1, 0, 16, 0]), "of a row");
        // S is row 2, V1 row 1 and V2 row 16.
        let end = [0x54, 0x45, 2, 0, 1, 0, 16, 0];
        assert!(!names_upper(&end), "an end record");
    }

    #[test]
    fn good_images_and_states_are_good() {
        for seed in 0..3000 {
            let mut random = Random::new(seed);
            let bytes = good(&mut random);
            let image = read(&bytes).expect("a good image");
            let state = state(&mut random, image.rows.len());
            assert!(
                State::read(&state, &image).is_ok(),
                "seed {seed}: {state:02x?}"
            );
        }
    }
}

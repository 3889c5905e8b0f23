//! The row machine by hand, for good images only: nothing is checked. Written in several ways, and
//! each of them compiled four times, since its speed depends on where its loop comes to lie.

use crate::product::{rows_of, HEAD, PERIOD, ROW};
#[cfg(target_arch = "x86_64")]
use std::arch::asm;
use std::hint::unreachable_unchecked;
use std::mem::swap;

// The safety of every unchecked index: the image is good and names no upper action, so a row's fields
// name rows of the image, parties 1 and 2 or actions 0 to 15, its kind is at most 6, and each buffer
// has a value per row.

/// A row machine with its image.
pub trait Machine {
    fn name(&self) -> &'static str;
    /// Sets the state to zeros.
    fn begin(&mut self);
    /// Takes the periods of a narrow trace.
    fn run(&mut self, trace: &[u8]);
    /// The state as the calls write it.
    fn state(&self) -> Vec<u8>;
}

/// In how many places the code of each machine lies.
pub const PLACES: usize = 4;

/// Every machine, begun, once for each place.
pub fn machines(image: &[u8]) -> [Vec<Box<dyn Machine>>; PLACES] {
    [
        moved::<0>(image),
        moved::<16>(image),
        moved::<32>(image),
        moved::<48>(image),
    ]
}

fn moved<const MOVED: usize>(image: &[u8]) -> Vec<Box<dyn Machine>> {
    vec![
        Box::new(TwoBuffers::<MOVED>::new(image)),
        Box::new(OneBuffer::<MOVED>::new(image)),
        Box::new(Decoded::<MOVED>::new(image)),
        Box::new(Gates::<MOVED>::new(image)),
    ]
}

/// Moves the code that follows on by so many bytes.
#[inline(always)]
pub fn move_code<const BYTES: usize>() {
    // SAFETY: one-byte instructions that do nothing.
    #[cfg(target_arch = "x86_64")]
    unsafe {
        asm!(".skip {}, 0x90", const BYTES, options(nomem, nostack, preserves_flags));
    }
}

#[derive(Clone, Copy)]
#[repr(C)]
struct Row {
    _mark: [u8; 2],
    kind: u8,
    _zero: u8,
    x: u16,
    y: u16,
}

/// The rows named S, V1 and V2.
#[derive(Clone, Copy)]
struct End {
    s: usize,
    v1: usize,
    v2: usize,
}

fn two_bytes(bytes: &[u8], at: usize) -> u16 {
    u16::from_le_bytes([bytes[at], bytes[at + 1]])
}

fn read_rows(image: &[u8]) -> Vec<Row> {
    let rows = image.chunks_exact(ROW).take(rows_of(image));
    rows.map(|row| Row {
        _mark: [row[0], row[1]],
        kind: row[2],
        _zero: row[3],
        x: two_bytes(row, 4),
        y: two_bytes(row, 6),
    })
    .collect()
}

fn read_end(image: &[u8]) -> End {
    let at = image.len() - ROW;
    let named = |field| two_bytes(image, at + field) as usize;
    End {
        s: named(2),
        v1: named(4),
        v2: named(6),
    }
}

/// A state without its row values.
#[derive(Clone, Copy, Default)]
struct Head {
    outcome: u8,
    blame: u8,
    periods: u32,
    decision: u32,
}

impl Head {
    /// Decides as the values of S, V1 and V2 say.
    #[inline(always)]
    fn decide(&mut self, s: u8, v1: u8, v2: u8) {
        if s | v1 | v2 != 0 {
            self.blame = v1 + 2 * v2;
            self.outcome = if self.blame != 0 { 2 } else { 1 };
            self.decision = self.periods;
        }
    }

    fn state(&self, values: &[u8]) -> Vec<u8> {
        let mut state = Vec::with_capacity(HEAD + values.len());
        state.extend([self.outcome, self.blame]);
        state.extend(self.periods.to_le_bytes());
        state.extend(self.decision.to_le_bytes());
        state.extend(values);
        state
    }
}

/// Both parties' attempts in a narrow record, by the party's number.
#[inline(always)]
pub fn attempts(record: &[u8]) -> [u16; 3] {
    [0, two_bytes(record, 2), two_bytes(record, 4)]
}

/// The row values of the period before in one buffer, the new ones in another.
struct TwoBuffers<const MOVED: usize> {
    rows: Vec<Row>,
    end: End,
    head: Head,
    old: Vec<u8>,
    new: Vec<u8>,
}

impl<const MOVED: usize> TwoBuffers<MOVED> {
    fn new(image: &[u8]) -> TwoBuffers<MOVED> {
        TwoBuffers {
            rows: read_rows(image),
            end: read_end(image),
            head: Head::default(),
            old: vec![0; rows_of(image)],
            new: vec![0; rows_of(image)],
        }
    }
}

/// The new values of one period.
#[inline(always)]
unsafe fn compute(rows: &[Row], old: &[u8], new: &mut [u8], attempts: [u16; 3], first: bool) {
    for (k, row) in rows.iter().enumerate() {
        let (x, y) = (row.x as usize, row.y as usize);
        let value = match row.kind {
            0 => 0,
            1 => u8::from(first),
            2 => (*attempts.get_unchecked(x) >> (y & 15)) as u8 & 1,
            3 => *new.get_unchecked(x) ^ 1,
            4 => *new.get_unchecked(x) & *new.get_unchecked(y),
            5 => *new.get_unchecked(x) | *new.get_unchecked(y),
            6 => *old.get_unchecked(x),
            _ => unreachable_unchecked(),
        };
        *new.get_unchecked_mut(k) = value;
    }
}

impl<const MOVED: usize> Machine for TwoBuffers<MOVED> {
    fn name(&self) -> &'static str {
        "two buffers"
    }

    fn begin(&mut self) {
        self.head = Head::default();
        self.old.fill(0);
    }

    fn run(&mut self, trace: &[u8]) {
        move_code::<MOVED>();
        let (rows, end, mut head) = (&self.rows[..], self.end, self.head);
        let (mut old, mut new) = (&mut self.old[..], &mut self.new[..]);
        let mut swapped = false;
        for record in trace.chunks_exact(PERIOD) {
            head.periods += 1;
            if head.outcome != 0 {
                continue;
            }
            // SAFETY: the image is good, as said at the top.
            unsafe {
                compute(rows, old, new, attempts(record), head.periods == 1);
                swap(&mut old, &mut new);
                swapped = !swapped;
                head.decide(
                    *old.get_unchecked(end.s),
                    *old.get_unchecked(end.v1),
                    *old.get_unchecked(end.v2),
                );
            }
        }
        self.head = head;
        if swapped {
            swap(&mut self.old, &mut self.new);
        }
    }

    fn state(&self) -> Vec<u8> {
        self.head.state(&self.old)
    }
}

/// Old and new value of a row as two bits of one byte, with a pass that keeps the new ones.
struct OneBuffer<const MOVED: usize> {
    rows: Vec<Row>,
    end: End,
    head: Head,
    values: Vec<u8>,
}

impl<const MOVED: usize> OneBuffer<MOVED> {
    fn new(image: &[u8]) -> OneBuffer<MOVED> {
        OneBuffer {
            rows: read_rows(image),
            end: read_end(image),
            head: Head::default(),
            values: vec![0; rows_of(image)],
        }
    }
}

/// Each row's new value, beside the old one as old + 2 × new.
#[inline(always)]
unsafe fn compute_beside(rows: &[Row], values: &mut [u8], attempts: [u16; 3], first: bool) {
    for (k, row) in rows.iter().enumerate() {
        let (x, y) = (row.x as usize, row.y as usize);
        let value = match row.kind {
            0 => 0,
            1 => u8::from(first) << 1,
            2 => ((*attempts.get_unchecked(x) >> (y & 15)) as u8 & 1) << 1,
            3 => !*values.get_unchecked(x) & 2,
            4 => *values.get_unchecked(x) & *values.get_unchecked(y) & 2,
            5 => (*values.get_unchecked(x) | *values.get_unchecked(y)) & 2,
            6 => (*values.get_unchecked(x) << 1) & 2,
            _ => unreachable_unchecked(),
        };
        *values.get_unchecked_mut(k) |= value;
    }
}

impl<const MOVED: usize> Machine for OneBuffer<MOVED> {
    fn name(&self) -> &'static str {
        "one buffer"
    }

    fn begin(&mut self) {
        self.head = Head::default();
        self.values.fill(0);
    }

    fn run(&mut self, trace: &[u8]) {
        move_code::<MOVED>();
        let (rows, end, mut head) = (&self.rows[..], self.end, self.head);
        let values = &mut self.values[..];
        for record in trace.chunks_exact(PERIOD) {
            head.periods += 1;
            if head.outcome != 0 {
                continue;
            }
            // SAFETY: the image is good, as said at the top.
            unsafe {
                compute_beside(rows, values, attempts(record), head.periods == 1);
                for value in values.iter_mut() {
                    *value >>= 1;
                }
                head.decide(
                    *values.get_unchecked(end.s),
                    *values.get_unchecked(end.v1),
                    *values.get_unchecked(end.v2),
                );
            }
        }
        self.head = head;
    }

    fn state(&self) -> Vec<u8> {
        self.head.state(&self.values)
    }
}

#[derive(Clone, Copy)]
enum Decode {
    False,
    First,
    One(u8),
    Two(u8),
    Not(u16),
    And(u16, u16),
    Or(u16, u16),
    Before(u16),
}

/// Two buffers, and the rows read into an enum beforehand.
struct Decoded<const MOVED: usize> {
    rows: Vec<Decode>,
    end: End,
    head: Head,
    old: Vec<u8>,
    new: Vec<u8>,
}

impl<const MOVED: usize> Decoded<MOVED> {
    fn new(image: &[u8]) -> Decoded<MOVED> {
        let rows = read_rows(image).into_iter().map(|row| match row.kind {
            0 => Decode::False,
            1 => Decode::First,
            2 if row.x == 1 => Decode::One(row.y as u8),
            2 => Decode::Two(row.y as u8),
            3 => Decode::Not(row.x),
            4 => Decode::And(row.x, row.y),
            5 => Decode::Or(row.x, row.y),
            _ => Decode::Before(row.x),
        });
        Decoded {
            rows: rows.collect(),
            end: read_end(image),
            head: Head::default(),
            old: vec![0; rows_of(image)],
            new: vec![0; rows_of(image)],
        }
    }
}

/// The new values of one period.
#[inline(always)]
unsafe fn compute_decoded(
    rows: &[Decode],
    old: &[u8],
    new: &mut [u8],
    [_, one, two]: [u16; 3],
    first: bool,
) {
    for (k, row) in rows.iter().enumerate() {
        let value = match *row {
            Decode::False => 0,
            Decode::First => u8::from(first),
            Decode::One(action) => (one >> (action & 15)) as u8 & 1,
            Decode::Two(action) => (two >> (action & 15)) as u8 & 1,
            Decode::Not(x) => *new.get_unchecked(x as usize) ^ 1,
            Decode::And(x, y) => *new.get_unchecked(x as usize) & *new.get_unchecked(y as usize),
            Decode::Or(x, y) => *new.get_unchecked(x as usize) | *new.get_unchecked(y as usize),
            Decode::Before(x) => *old.get_unchecked(x as usize),
        };
        *new.get_unchecked_mut(k) = value;
    }
}

impl<const MOVED: usize> Machine for Decoded<MOVED> {
    fn name(&self) -> &'static str {
        "decoded"
    }

    fn begin(&mut self) {
        self.head = Head::default();
        self.old.fill(0);
    }

    fn run(&mut self, trace: &[u8]) {
        move_code::<MOVED>();
        let (rows, end, mut head) = (&self.rows[..], self.end, self.head);
        let (mut old, mut new) = (&mut self.old[..], &mut self.new[..]);
        let mut swapped = false;
        for record in trace.chunks_exact(PERIOD) {
            head.periods += 1;
            if head.outcome != 0 {
                continue;
            }
            // SAFETY: the image is good, as said at the top.
            unsafe {
                compute_decoded(rows, old, new, attempts(record), head.periods == 1);
                swap(&mut old, &mut new);
                swapped = !swapped;
                head.decide(
                    *old.get_unchecked(end.s),
                    *old.get_unchecked(end.v1),
                    *old.get_unchecked(end.v2),
                );
            }
        }
        self.head = head;
        if swapped {
            swap(&mut self.old, &mut self.new);
        }
    }

    fn state(&self) -> Vec<u8> {
        self.head.state(&self.old)
    }
}

/// A row as a gate: the bit of `table` that the values of cells x and y pick.
#[derive(Clone, Copy)]
struct Gate {
    x: u16,
    y: u16,
    table: u32,
}

/// Cells 0 to 15 are party 1's attempts, 16 to 31 party 2's, 32 is true in period 1 only, 33 is
/// false; then come the old values, then the new ones.
const FIRST: usize = 32;
const FALSE: usize = 33;
const OLD: usize = 34;

/// Without branches: every row is read beforehand into a gate on cells, and every gate is computed
/// alike.
struct Gates<const MOVED: usize> {
    gates: Vec<Gate>,
    end: End,
    head: Head,
    cells: Vec<u8>,
}

/// Bit y + 2x of each table is the value for x and y.
fn gate(row: Row, rows: usize) -> Gate {
    const COPY: u32 = 0b1100;
    let (x, y) = (row.x as usize, row.y as usize);
    let (old, new) = (OLD, OLD + rows);
    let (x, y, table) = match row.kind {
        0 => (FALSE, FALSE, COPY),
        1 => (FIRST, FALSE, COPY),
        2 => (16 * (x - 1) + y, FALSE, COPY),
        3 => (new + x, FALSE, 0b0011),
        4 => (new + x, new + y, 0b1000),
        5 => (new + x, new + y, 0b1110),
        _ => (old + x, FALSE, COPY),
    };
    Gate {
        x: x as u16,
        y: y as u16,
        table,
    }
}

impl<const MOVED: usize> Gates<MOVED> {
    fn new(image: &[u8]) -> Gates<MOVED> {
        let rows = rows_of(image);
        Gates {
            gates: read_rows(image)
                .into_iter()
                .map(|row| gate(row, rows))
                .collect(),
            end: read_end(image),
            head: Head::default(),
            cells: vec![0; OLD + 2 * rows],
        }
    }
}

/// Eight bits as eight bytes of 0 or 1.
#[inline(always)]
fn spread(bits: u8) -> [u8; 8] {
    let picked = (u64::from(bits) * 0x0101_0101_0101_0101) & 0x8040_2010_0804_0201;
    let ones = ((picked + 0x7f7f_7f7f_7f7f_7f7f) >> 7) & 0x0101_0101_0101_0101;
    ones.to_le_bytes()
}

impl<const MOVED: usize> Machine for Gates<MOVED> {
    fn name(&self) -> &'static str {
        "gates"
    }

    fn begin(&mut self) {
        self.head = Head::default();
        self.cells.fill(0);
    }

    fn run(&mut self, trace: &[u8]) {
        move_code::<MOVED>();
        let (gates, end, mut head) = (&self.gates[..], self.end, self.head);
        let (cells, new) = (&mut self.cells[..], OLD + self.gates.len());
        for record in trace.chunks_exact(PERIOD) {
            head.periods += 1;
            if head.outcome != 0 {
                continue;
            }
            for (byte, bits) in record[2..].iter().enumerate() {
                cells[8 * byte..8 * byte + 8].copy_from_slice(&spread(*bits));
            }
            cells[FIRST] = u8::from(head.periods == 1);
            // SAFETY: the image is good, as said at the top.
            unsafe {
                for (k, gate) in gates.iter().enumerate() {
                    let x = *cells.get_unchecked(gate.x as usize);
                    let y = *cells.get_unchecked(gate.y as usize);
                    *cells.get_unchecked_mut(new + k) = (gate.table >> (y + 2 * x)) as u8 & 1;
                }
                head.decide(
                    *cells.get_unchecked(new + end.s),
                    *cells.get_unchecked(new + end.v1),
                    *cells.get_unchecked(new + end.v2),
                );
            }
            cells.copy_within(new.., OLD);
        }
        self.head = head;
    }

    fn state(&self) -> Vec<u8> {
        self.head.state(&self.cells[OLD..OLD + self.gates.len()])
    }
}

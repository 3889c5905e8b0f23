//! Areas lent to a call, between guard bytes.

use crate::random::Random;
use crate::report::{hex, Difference};
use std::ops::Range;

/// Guard bytes on each side.
const GUARD: usize = 64;
/// Most bytes of an area that is printed whole, and of the part that is printed of a longer one.
const MAX_WHOLE: usize = 2100;
const MAX_PART: usize = 300;

/// An area lent to both: the product gets one copy, the reference the other. Both copies lie
/// between the same random bytes and must be the same after each call.
pub struct Lent {
    name: &'static str,
    product: Vec<u8>,
    reference: Vec<u8>,
    from: usize,
    to: usize,
}

impl Lent {
    /// An area with that content, at any alignment.
    pub fn new(name: &'static str, content: &[u8], random: &mut Random) -> Lent {
        let from = GUARD + random.below(8);
        let to = from + content.len();
        let mut product = random.bytes(from);
        product.extend(content);
        product.extend(random.bytes(GUARD));
        Lent {
            name,
            reference: product.clone(),
            product,
            from,
            to,
        }
    }

    /// An area of that length with random content.
    pub fn random(name: &'static str, length: usize, random: &mut Random) -> Lent {
        let content = random.bytes(length);
        Lent::new(name, &content, random)
    }

    pub fn product(&self) -> &[u8] {
        &self.product[self.from..self.to]
    }

    pub fn product_mut(&mut self) -> &mut [u8] {
        &mut self.product[self.from..self.to]
    }

    pub fn reference(&self) -> &[u8] {
        &self.reference[self.from..self.to]
    }

    pub fn reference_mut(&mut self) -> &mut [u8] {
        &mut self.reference[self.from..self.to]
    }

    /// That the call left area and guard bytes as the reference did.
    pub fn compare(&self, call: &str) -> Result<(), Difference> {
        if self.product == self.reference {
            return Ok(());
        }
        let all = 0..self.product.len();
        let differs: Vec<usize> = all
            .filter(|at| self.product[*at] != self.reference[*at])
            .collect();
        let (first, last) = (differs[0], differs[differs.len() - 1]);
        let inside = self.from..self.to;
        let what = if inside.contains(&first) && inside.contains(&last) {
            format!(
                "bytes {} to {} of the {}",
                first - self.from,
                last - self.from,
                self.name
            )
        } else {
            format!("guard bytes of the {}", self.name)
        };
        let printed = self.printed(first, last);
        Err(Difference::new(
            call,
            &what,
            hex(&self.reference[printed.clone()]),
            hex(&self.product[printed]),
        ))
    }

    /// What is printed where bytes from `first` to `last` differ: the whole area, with guard bytes
    /// that differ; of a long one only what differs, or its beginning.
    fn printed(&self, first: usize, last: usize) -> Range<usize> {
        let whole = first.min(self.from)..(last + 1).max(self.to);
        if whole.len() <= MAX_WHOLE {
            whole
        } else {
            first..(last + 1).min(first + MAX_PART)
        }
    }
}

#[cfg(test)]
mod tests {
    use super::*;

    /// What is printed after a change of the product's byte at that place from the area's start.
    fn changed(length: usize, place: isize) -> String {
        let mut lent = Lent::random("reply area", length, &mut Random::new(1));
        assert!(lent.compare("step").is_ok());
        let at = lent.from.checked_add_signed(place).expect("a guard byte");
        lent.product[at] ^= 1;
        lent.compare("step").unwrap_err().to_string()
    }

    #[test]
    fn a_changed_byte_inside_is_a_difference() {
        for place in [0, 7, 23] {
            let what = format!("bytes {place} to {place} of the reply area");
            assert!(changed(24, place).contains(&what));
        }
    }

    /// How many bytes are printed of each side where the product's bytes from that place on differ.
    fn printed(length: usize, place: usize, bytes: usize) -> usize {
        let mut lent = Lent::random("trace buffer", length, &mut Random::new(1));
        let from = lent.from + place;
        lent.product[from..from + bytes]
            .iter_mut()
            .for_each(|byte| *byte ^= 1);
        let difference = lent.compare("join").unwrap_err().to_string();
        let last = difference.lines().last().expect("a line for each side");
        last.split_whitespace().count() - 1
    }

    #[test]
    fn of_a_long_area_the_difference_is_printed() {
        assert_eq!(printed(40, 20, 2), 40);
        assert_eq!(printed(MAX_WHOLE, 20, 2), MAX_WHOLE);
        assert_eq!(printed(MAX_WHOLE + 1, 20, 2), 2);
        assert_eq!(printed(655_350, 655_340, 10), 10);
        assert_eq!(printed(655_350, 0, 655_350), MAX_PART);
    }

    #[test]
    fn a_changed_guard_byte_is_a_difference() {
        for length in [0, 24] {
            let (first, after) = (-(GUARD as isize), length as isize);
            for place in [first, -1, after, after + GUARD as isize - 1] {
                assert!(changed(length, place).contains("guard bytes of the reply area"));
            }
        }
    }
}

//! How much stack a call uses: it is made on a stack painted beforehand.

use crate::archive::Archive;
use std::arch::asm;

/// Bytes of the painted stack, far more than any call needs.
const STACK: usize = 1 << 20;
/// Two paints: a byte that is written differs from one of them at least.
const PAINTS: [u8; 2] = [0x5a, 0xa5];
/// Bytes that the caller puts on the stack: the words that registers have no room for.
const PASSED: usize = 16;

/// A call as the machine makes it: its code, and pointer and length of each lent area.
struct Call {
    code: *const (),
    words: [usize; 8],
}

type Area = (*const u8, usize);

fn read(area: &[u8]) -> Area {
    (area.as_ptr(), area.len())
}

fn written(area: &mut [u8]) -> Area {
    (area.as_mut_ptr(), area.len())
}

impl Call {
    fn new(code: *const (), areas: &[Area]) -> Call {
        let mut words = [0; 8];
        for (words, (pointer, length)) in words.chunks_exact_mut(2).zip(areas) {
            words.copy_from_slice(&[*pointer as usize, *length]);
        }
        Call { code, words }
    }

    /// Bytes of stack that the call uses, its return address among them.
    ///
    /// # Safety
    /// The code is a function of these words that ends, writes nothing but the areas, and needs less
    /// stack than there is.
    unsafe fn stack(&self) -> usize {
        let used = PAINTS.map(|paint| {
            let mut stack = vec![paint; STACK];
            let top = STACK - stack.as_ptr() as usize % 16;
            self.make(stack.as_mut_ptr().add(top));
            let lowest = stack.iter().position(|byte| *byte != paint);
            top - PASSED - lowest.expect("the caller's words are on the stack")
        });
        used[0].max(used[1])
    }

    /// Makes the call on the stack that ends at `top`, a multiple of 16.
    unsafe fn make(&self, top: *mut u8) {
        let [one, two, three, four, five, six, seven, eight] = self.words;
        asm!(
            "mov r12, rsp",
            "mov rsp, {top}",
            "push {eight}",
            "push {seven}",
            "call {code}",
            "mov rsp, r12",
            top = in(reg) top,
            code = in(reg) self.code,
            seven = in(reg) seven,
            eight = in(reg) eight,
            in("rdi") one,
            in("rsi") two,
            in("rdx") three,
            in("rcx") four,
            in("r8") five,
            in("r9") six,
            out("r12") _,
            clobber_abi("C"),
        );
    }
}

/// Bytes of stack that compile uses on a contract, if its reply has this number.
pub fn compile(archive: &Archive, contract: &[u8], image: &mut [u8], number: u32) -> Option<usize> {
    let mut reply = [0xff; 16];
    let areas = [read(contract), written(image), written(&mut reply)];
    let call = Call::new(archive.compile as *const (), &areas);
    // SAFETY: the areas are those of slices that live through the call, and the archive's code is
    // proved to end and to write nothing else.
    replied(unsafe { call.stack() }, &reply, number)
}

pub fn begin(archive: &Archive, image: &[u8], state: &mut [u8]) -> Option<usize> {
    let mut reply = [0xff; 16];
    let areas = [read(image), written(state), written(&mut reply)];
    let call = Call::new(archive.begin as *const (), &areas);
    // SAFETY: as in `compile`.
    accepted(unsafe { call.stack() }, &reply)
}

pub fn step(archive: &Archive, image: &[u8], state: &mut [u8], period: &[u8]) -> Option<usize> {
    let mut reply = [0xff; 24];
    let areas = [
        read(image),
        written(state),
        read(period),
        written(&mut reply),
    ];
    let call = Call::new(archive.step as *const (), &areas);
    // SAFETY: as in `compile`.
    accepted(unsafe { call.stack() }, &reply)
}

pub fn run(archive: &Archive, image: &[u8], state: &mut [u8], trace: &[u8]) -> Option<usize> {
    let mut reply = [0xff; 24];
    let areas = [
        read(image),
        written(state),
        read(trace),
        written(&mut reply),
    ];
    let call = Call::new(archive.run as *const (), &areas);
    // SAFETY: as in `compile`.
    accepted(unsafe { call.stack() }, &reply)
}

/// As `compile`; none where the archive lacks the call too.
pub fn decide(archive: &Archive, image: &[u8], trace: &[u8]) -> Option<usize> {
    let mut reply = [0xff; 32];
    let areas = [read(image), read(trace), written(&mut reply)];
    let call = Call::new(archive.decide? as *const (), &areas);
    // SAFETY: as in `compile`.
    accepted(unsafe { call.stack() }, &reply)
}

/// As `decide`.
pub fn join(archive: &Archive, logs: [&[u8]; 2], trace: &mut [u8]) -> Option<usize> {
    let mut reply = [0xff; 16];
    let areas = [
        read(logs[0]),
        read(logs[1]),
        written(trace),
        written(&mut reply),
    ];
    let call = Call::new(archive.join? as *const (), &areas);
    // SAFETY: as in `compile`.
    accepted(unsafe { call.stack() }, &reply)
}

/// The bytes of a call, if it was accepted.
fn accepted(bytes: usize, reply: &[u8]) -> Option<usize> {
    replied(bytes, reply, 0)
}

/// The bytes of a call, if its reply has this number.
fn replied(bytes: usize, reply: &[u8], number: u32) -> Option<usize> {
    (reply[..4] == number.to_le_bytes()).then_some(bytes)
}

#[cfg(test)]
mod tests {
    use super::*;
    use std::hint::black_box;

    extern "C" fn nothing() {}

    extern "C" fn some<const BYTES: usize>() {
        black_box([1u8; BYTES]);
    }

    /// The sum of eight words, through the first one's pointer.
    unsafe extern "C" fn sum(
        to: *mut usize,
        b: usize,
        c: usize,
        d: usize,
        e: usize,
        f: usize,
        g: usize,
        h: usize,
    ) {
        *to = b + c + d + e + f + g + h;
    }

    fn stack(code: *const ()) -> usize {
        // SAFETY: `nothing` and `some` end, and write nothing but their own part of the stack.
        unsafe { Call::new(code, &[]).stack() }
    }

    #[test]
    fn what_a_function_needs_is_seen() {
        let least = stack(nothing as *const ());
        assert!((8..200).contains(&least), "{least}");
        for (code, bytes) in [
            (some::<1000> as *const (), 1000),
            (some::<30000> as *const (), 30000),
        ] {
            let used = stack(code);
            assert!((bytes..4 * bytes).contains(&used), "{used}");
        }
    }

    #[test]
    fn all_words_arrive() {
        let mut to = 0usize;
        let words = [&raw mut to as usize, 1, 2, 4, 8, 16, 32, 64];
        let call = Call {
            code: sum as *const (),
            words,
        };
        // SAFETY: `sum` writes nothing but what its first word points to.
        unsafe { call.stack() };
        assert_eq!(to, 127);
    }
}

//! Today's archive with one fault, for tests.

use crate::archive::Archive;
use crate::untils::has_until;
use reference::records::four_bytes;
use std::{ptr, slice};

/// The result is another one.
pub const RESULT: u8 = 0;
/// The last byte of the image buffer, of the state or of the trace buffer is another one.
pub const OUTPUT: u8 = 1;
/// The last byte of the reply area is another one.
pub const REPLY: u8 = 2;
/// Compile puts an unused row before the end record: of contracts with an `until`, of all contracts.
pub const UNTILS: u8 = 3;
pub const ALL: u8 = 4;
/// The result of begin is another one on images that end with such a row.
const LONGER: u8 = 5;

/// An archive with the fault in each call that can have it, and the call's name.
pub fn spoiled<const FAULT: u8>() -> Vec<(Archive, &'static str)> {
    let mut archives = [Archive::of_hosts(); 6];
    archives[0].compile = compile::<FAULT>;
    archives[1].begin = begin::<FAULT>;
    archives[2].step = step::<FAULT>;
    archives[3].run = run::<FAULT>;
    archives[4].decide = Some(decide::<FAULT>);
    archives[5].join = Some(join::<FAULT>);
    let calls = ["compile", "begin", "step", "run", "decide", "join"];
    // Decide writes nothing but its reply.
    let can_have = |(_, call): &(Archive, &str)| FAULT != OUTPUT || *call != "decide";
    archives.into_iter().zip(calls).filter(can_have).collect()
}

/// Today's archive, but compile, begin and step refuse whatever they are given.
pub fn refusing() -> Archive {
    Archive {
        compile: refuse,
        begin: refuse,
        step: refuse_period,
        ..Archive::of_hosts()
    }
}

/// Today's archive, but its images of such contracts are longer: `UNTILS` or `ALL`.
pub fn with_longer_images<const FAULT: u8>() -> Archive {
    Archive {
        compile: compile::<FAULT>,
        ..Archive::of_hosts()
    }
}

/// Today's archive, but for begin on longer images.
pub fn spoiled_on_longer_images() -> Archive {
    Archive {
        begin: begin::<LONGER>,
        ..Archive::of_hosts()
    }
}

/// A row that no other uses.
const UNUSED: [u8; 8] = [0x54, 0x52, 0, 0, 0, 0, 0, 0];

/// Puts an unused row before the end record of the image that compile left.
fn lengthen(image: &mut [u8], reply: &mut [u8]) {
    let rows = four_bytes(reply, 4);
    let end = UNUSED.len() * rows as usize;
    image.copy_within(end..end + UNUSED.len(), end + UNUSED.len());
    image[end..end + UNUSED.len()].copy_from_slice(&UNUSED);
    reply[4..8].copy_from_slice(&(rows + 1).to_le_bytes());
}

fn is_longer(image: &[u8]) -> bool {
    let mut rows = image.chunks_exact(UNUSED.len()).rev();
    rows.nth(1).is_some_and(|last| last == UNUSED)
}

// Safety of what follows: the pointers and lengths are those of slices that live through the call.

unsafe extern "C" fn refuse(
    _: *const u8,
    _: usize,
    _: *mut u8,
    _: usize,
    reply: *mut u8,
    _: usize,
) -> u32 {
    *reply = 1;
    1
}

unsafe extern "C" fn refuse_period(
    _: *const u8,
    _: usize,
    _: *mut u8,
    _: usize,
    _: *const u8,
    _: usize,
    reply: *mut u8,
    _: usize,
) -> u32 {
    *reply = 11;
    1
}

unsafe fn flip_last(area: *mut u8, length: usize) {
    if length > 0 {
        *area.add(length - 1) ^= 1;
    }
}

unsafe fn spoil<const FAULT: u8>(
    result: u32,
    output: *mut u8,
    output_length: usize,
    reply: *mut u8,
    reply_length: usize,
) -> u32 {
    match FAULT {
        RESULT => return result ^ 1,
        OUTPUT => flip_last(output, output_length),
        _ => flip_last(reply, reply_length),
    }
    result
}

unsafe extern "C" fn compile<const FAULT: u8>(
    contract: *const u8,
    contract_length: usize,
    image: *mut u8,
    image_length: usize,
    reply: *mut u8,
    reply_length: usize,
) -> u32 {
    let result = (Archive::of_hosts().compile)(
        contract,
        contract_length,
        image,
        image_length,
        reply,
        reply_length,
    );
    if FAULT != UNTILS && FAULT != ALL {
        return spoil::<FAULT>(result, image, image_length, reply, reply_length);
    }
    let reply = slice::from_raw_parts_mut(reply, reply_length);
    let is_taken = result == 1 && four_bytes(reply, 0) == 0;
    if is_taken && (FAULT == ALL || has_until(slice::from_raw_parts(contract, contract_length))) {
        lengthen(slice::from_raw_parts_mut(image, image_length), reply);
    }
    result
}

unsafe extern "C" fn begin<const FAULT: u8>(
    image: *const u8,
    image_length: usize,
    state: *mut u8,
    state_length: usize,
    reply: *mut u8,
    reply_length: usize,
) -> u32 {
    let result = (Archive::of_hosts().begin)(
        image,
        image_length,
        state,
        state_length,
        reply,
        reply_length,
    );
    if FAULT == LONGER {
        return result ^ u32::from(is_longer(slice::from_raw_parts(image, image_length)));
    }
    spoil::<FAULT>(result, state, state_length, reply, reply_length)
}

unsafe extern "C" fn step<const FAULT: u8>(
    image: *const u8,
    image_length: usize,
    state: *mut u8,
    state_length: usize,
    period: *const u8,
    period_length: usize,
    reply: *mut u8,
    reply_length: usize,
) -> u32 {
    let result = (Archive::of_hosts().step)(
        image,
        image_length,
        state,
        state_length,
        period,
        period_length,
        reply,
        reply_length,
    );
    spoil::<FAULT>(result, state, state_length, reply, reply_length)
}

unsafe extern "C" fn run<const FAULT: u8>(
    image: *const u8,
    image_length: usize,
    state: *mut u8,
    state_length: usize,
    trace: *const u8,
    trace_length: usize,
    reply: *mut u8,
    reply_length: usize,
) -> u32 {
    let result = (Archive::of_hosts().run)(
        image,
        image_length,
        state,
        state_length,
        trace,
        trace_length,
        reply,
        reply_length,
    );
    spoil::<FAULT>(result, state, state_length, reply, reply_length)
}

unsafe extern "C" fn decide<const FAULT: u8>(
    image: *const u8,
    image_length: usize,
    trace: *const u8,
    trace_length: usize,
    reply: *mut u8,
    reply_length: usize,
) -> u32 {
    let decide = Archive::of_hosts().decide.expect("today's archive has it");
    let result = decide(
        image,
        image_length,
        trace,
        trace_length,
        reply,
        reply_length,
    );
    spoil::<FAULT>(result, ptr::null_mut(), 0, reply, reply_length)
}

unsafe extern "C" fn join<const FAULT: u8>(
    log1: *const u8,
    log1_length: usize,
    log2: *const u8,
    log2_length: usize,
    trace: *mut u8,
    trace_length: usize,
    reply: *mut u8,
    reply_length: usize,
) -> u32 {
    let join = Archive::of_hosts().join.expect("today's archive has it");
    let result = join(
        log1,
        log1_length,
        log2,
        log2_length,
        trace,
        trace_length,
        reply,
        reply_length,
    );
    spoil::<FAULT>(result, trace, trace_length, reply, reply_length)
}

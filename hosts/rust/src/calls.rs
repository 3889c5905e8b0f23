//! The six calls as the archive has them, on byte slices of any length.
//!
//! The result is 1, or 0 where the reply area is too short: then nothing is written. A refusal
//! writes the reply alone. Every field is low byte first:
//!
//! | reply of | bytes 0 to 3 | 4 to 7 | 8 to 15 | 16 to 19 | 20 to 23 | 24 to 27 | 28 to 31 |
//! |---|---|---|---|---|---|---|---|
//! | compile | number | rows | place | | | | |
//! | begin | number | 0 | place | | | | |
//! | step, run | number | verdict | place | blame | decision period | | |
//! | decide | number | outcome | place | blame | decision period | records read | 0 |
//! | join | number | records | place | | | | |
//!
//! That the areas of one call don't overlap, the borrow checker sees to.

mod archive {
    extern "C" {
        pub fn monitor_compile(
            contract: *const u8,
            contract_length: usize,
            image: *mut u8,
            image_length: usize,
            reply: *mut u8,
            reply_length: usize,
        ) -> u32;

        pub fn monitor_begin(
            image: *const u8,
            image_length: usize,
            state: *mut u8,
            state_length: usize,
            reply: *mut u8,
            reply_length: usize,
        ) -> u32;

        pub fn monitor_step(
            image: *const u8,
            image_length: usize,
            state: *mut u8,
            state_length: usize,
            period: *const u8,
            period_length: usize,
            reply: *mut u8,
            reply_length: usize,
        ) -> u32;

        pub fn monitor_run(
            image: *const u8,
            image_length: usize,
            state: *mut u8,
            state_length: usize,
            trace: *const u8,
            trace_length: usize,
            reply: *mut u8,
            reply_length: usize,
        ) -> u32;

        pub fn monitor_decide(
            image: *const u8,
            image_length: usize,
            trace: *const u8,
            trace_length: usize,
            reply: *mut u8,
            reply_length: usize,
        ) -> u32;

        pub fn monitor_join(
            log1: *const u8,
            log1_length: usize,
            log2: *const u8,
            log2_length: usize,
            trace: *mut u8,
            trace_length: usize,
            reply: *mut u8,
            reply_length: usize,
        ) -> u32;
    }
}

/// Writes the contract's image into the first bytes of the buffer. Its reply has 16 bytes.
pub fn compile(contract: &[u8], image: &mut [u8], reply: &mut [u8]) -> u32 {
    // SAFETY: each pointer and length are those of a slice that lives through the call, those written
    // through are borrowed by nobody else, and the archive's code is proved to read and write
    // nothing but these slices.
    unsafe {
        archive::monitor_compile(
            contract.as_ptr(),
            contract.len(),
            image.as_mut_ptr(),
            image.len(),
            reply.as_mut_ptr(),
            reply.len(),
        )
    }
}

/// Sets the state to zeros. Its reply has 16 bytes.
pub fn begin(image: &[u8], state: &mut [u8], reply: &mut [u8]) -> u32 {
    // SAFETY: as in `compile`.
    unsafe {
        archive::monitor_begin(
            image.as_ptr(),
            image.len(),
            state.as_mut_ptr(),
            state.len(),
            reply.as_mut_ptr(),
            reply.len(),
        )
    }
}

/// Takes one period record of either form. Its reply has 24 bytes.
pub fn step(image: &[u8], state: &mut [u8], period: &[u8], reply: &mut [u8]) -> u32 {
    // SAFETY: as in `compile`.
    unsafe {
        archive::monitor_step(
            image.as_ptr(),
            image.len(),
            state.as_mut_ptr(),
            state.len(),
            period.as_ptr(),
            period.len(),
            reply.as_mut_ptr(),
            reply.len(),
        )
    }
}

/// Takes a trace of zero or more period records of one form. Its reply has 24 bytes.
pub fn run(image: &[u8], state: &mut [u8], trace: &[u8], reply: &mut [u8]) -> u32 {
    // SAFETY: as in `compile`.
    unsafe {
        archive::monitor_run(
            image.as_ptr(),
            image.len(),
            state.as_mut_ptr(),
            state.len(),
            trace.as_ptr(),
            trace.len(),
            reply.as_mut_ptr(),
            reply.len(),
        )
    }
}

/// Reads such a trace from its first record to the decision. Its reply has 32 bytes.
pub fn decide(image: &[u8], trace: &[u8], reply: &mut [u8]) -> u32 {
    // SAFETY: as in `compile`.
    unsafe {
        archive::monitor_decide(
            image.as_ptr(),
            image.len(),
            trace.as_ptr(),
            trace.len(),
            reply.as_mut_ptr(),
            reply.len(),
        )
    }
}

/// Joins two logs into a trace of wide records, in the first bytes of the buffer. Its reply has 16
/// bytes.
pub fn join(log1: &[u8], log2: &[u8], trace: &mut [u8], reply: &mut [u8]) -> u32 {
    // SAFETY: as in `compile`.
    unsafe {
        archive::monitor_join(
            log1.as_ptr(),
            log1.len(),
            log2.as_ptr(),
            log2.len(),
            trace.as_mut_ptr(),
            trace.len(),
            reply.as_mut_ptr(),
            reply.len(),
        )
    }
}

//! The calls of each archive.

type Read = *const u8;
type Written = *mut u8;
/// Compile and begin.
type Short = unsafe extern "C" fn(Read, usize, Written, usize, Written, usize) -> u32;
/// Step and run.
type Long = unsafe extern "C" fn(Read, usize, Written, usize, Read, usize, Written, usize) -> u32;
/// Decide.
type Deciding = unsafe extern "C" fn(Read, usize, Read, usize, Written, usize) -> u32;
/// Join.
type Joining =
    unsafe extern "C" fn(Read, usize, Read, usize, Written, usize, Written, usize) -> u32;

/// An archive's calls, on byte slices as in `monitor::calls`.
#[derive(Clone, Copy)]
pub struct Archive {
    pub compile: Short,
    pub begin: Short,
    pub step: Long,
    pub run: Long,
    /// An earlier archive may lack it, and the next.
    pub decide: Option<Deciding>,
    pub join: Option<Joining>,
}

/// The archive whose calls have these names.
macro_rules! archive {
    ($compile:ident $begin:ident $step:ident $run:ident $($decide:ident $($join:ident)?)?) => {{
        extern "C" {
            fn $compile(a: Read, b: usize, c: Written, d: usize, e: Written, f: usize) -> u32;
            fn $begin(a: Read, b: usize, c: Written, d: usize, e: Written, f: usize) -> u32;
            fn $step(
                a: Read,
                b: usize,
                c: Written,
                d: usize,
                e: Read,
                f: usize,
                g: Written,
                h: usize,
            ) -> u32;
            fn $run(
                a: Read,
                b: usize,
                c: Written,
                d: usize,
                e: Read,
                f: usize,
                g: Written,
                h: usize,
            ) -> u32;
            $(
                fn $decide(a: Read, b: usize, c: Read, d: usize, e: Written, f: usize) -> u32;
                $(
                    fn $join(
                        a: Read,
                        b: usize,
                        c: Read,
                        d: usize,
                        e: Written,
                        f: usize,
                        g: Written,
                        h: usize,
                    ) -> u32;
                )?
            )?
        }
        let decides: &[Deciding] = &[$($decide)?];
        let joins: &[Joining] = &[$($($join)?)?];
        Archive {
            compile: $compile,
            begin: $begin,
            step: $step,
            run: $run,
            decide: decides.first().copied(),
            join: joins.first().copied(),
        }
    }};
}

/// An archive that has decide and join just where the earlier one has them. Join came after decide.
#[cfg(all(earlier, earlier_join))]
macro_rules! earlier {
    ($($name:ident)*) => {
        archive!($($name)*)
    };
}
#[cfg(all(earlier, earlier_decide, not(earlier_join)))]
macro_rules! earlier {
    ($compile:ident $begin:ident $step:ident $run:ident $decide:ident $join:ident) => {
        archive!($compile $begin $step $run $decide)
    };
}
#[cfg(all(earlier, not(earlier_decide)))]
macro_rules! earlier {
    ($compile:ident $begin:ident $step:ident $run:ident $decide:ident $join:ident) => {
        archive!($compile $begin $step $run)
    };
}

/// In how many places the code of each archive is linked to be timed.
pub const PLACES: usize = 4;

/// An archive in every place.
pub struct Copies {
    /// The files that it was made of.
    pub files: &'static str,
    pub places: [Archive; PLACES],
}

/// The earlier archive and today's.
pub struct Sides {
    pub before: Copies,
    pub now: Copies,
    /// Whether the files hold the same code under the same names.
    pub alike: bool,
}

/// What the build linked, if it was given an earlier archive.
#[cfg(not(earlier))]
pub fn sides() -> Option<Sides> {
    None
}

#[cfg(earlier)]
pub fn sides() -> Option<Sides> {
    let before = Copies {
        files: env!("ARCHIVES_BEFORE"),
        places: [
            earlier!(
                before_0_compile before_0_begin before_0_step before_0_run before_0_decide before_0_join
            ),
            earlier!(
                before_1_compile before_1_begin before_1_step before_1_run before_1_decide before_1_join
            ),
            earlier!(
                before_2_compile before_2_begin before_2_step before_2_run before_2_decide before_2_join
            ),
            earlier!(
                before_3_compile before_3_begin before_3_step before_3_run before_3_decide before_3_join
            ),
        ],
    };
    let now = Copies {
        files: env!("ARCHIVES_NOW"),
        places: [
            archive!(
                now_0_compile now_0_begin now_0_step now_0_run now_0_decide now_0_join
            ),
            archive!(
                now_1_compile now_1_begin now_1_step now_1_run now_1_decide now_1_join
            ),
            archive!(
                now_2_compile now_2_begin now_2_step now_2_run now_2_decide now_2_join
            ),
            archive!(
                now_3_compile now_3_begin now_3_step now_3_run now_3_decide now_3_join
            ),
        ],
    };
    Some(Sides {
        before,
        now,
        alike: env!("ARCHIVES_ALIKE") == "true",
    })
}

impl Sides {
    /// Whether each call of each copy, and of today's archive as hosts link it, is code of its own.
    pub fn are_apart(&self) -> bool {
        let copies = [self.before.places, self.now.places].concat();
        apart(&[&copies[..], &[Archive::of_hosts()]].concat())
    }
}

fn apart(archives: &[Archive]) -> bool {
    let mut addresses: Vec<usize> = archives.iter().flat_map(Archive::addresses).collect();
    let all = addresses.len();
    addresses.sort_unstable();
    addresses.dedup();
    addresses.len() == all
}

impl Archive {
    /// Today's archive, as hosts link it.
    pub fn of_hosts() -> Archive {
        archive!(
            monitor_compile monitor_begin monitor_step monitor_run monitor_decide monitor_join
        )
    }

    pub fn compile(&self, contract: &[u8], image: &mut [u8], reply: &mut [u8]) -> u32 {
        // SAFETY: the archive's code is proved to read and write nothing but what it is lent.
        unsafe { short(self.compile, contract, image, reply) }
    }

    pub fn begin(&self, image: &[u8], state: &mut [u8], reply: &mut [u8]) -> u32 {
        // SAFETY: as in `compile`.
        unsafe { short(self.begin, image, state, reply) }
    }

    pub fn step(&self, image: &[u8], state: &mut [u8], period: &[u8], reply: &mut [u8]) -> u32 {
        // SAFETY: as in `compile`.
        unsafe { long(self.step, image, state, period, reply) }
    }

    pub fn run(&self, image: &[u8], state: &mut [u8], trace: &[u8], reply: &mut [u8]) -> u32 {
        // SAFETY: as in `compile`.
        unsafe { long(self.run, image, state, trace, reply) }
    }

    /// The result, if the archive has the call.
    pub fn decide(&self, image: &[u8], trace: &[u8], reply: &mut [u8]) -> Option<u32> {
        let decide = self.decide?;
        // SAFETY: as in `compile`. Each pointer and length are those of a slice that lives through
        // the call.
        let result = unsafe {
            decide(
                image.as_ptr(),
                image.len(),
                trace.as_ptr(),
                trace.len(),
                reply.as_mut_ptr(),
                reply.len(),
            )
        };
        Some(result)
    }

    /// The result, if the archive has the call.
    pub fn join(
        &self,
        log1: &[u8],
        log2: &[u8],
        trace: &mut [u8],
        reply: &mut [u8],
    ) -> Option<u32> {
        let join = self.join?;
        // SAFETY: as in `decide`.
        let result = unsafe {
            join(
                log1.as_ptr(),
                log1.len(),
                log2.as_ptr(),
                log2.len(),
                trace.as_mut_ptr(),
                trace.len(),
                reply.as_mut_ptr(),
                reply.len(),
            )
        };
        Some(result)
    }

    /// Where the code of each call begins.
    fn addresses(&self) -> impl Iterator<Item = usize> {
        let always = [
            self.compile as usize,
            self.begin as usize,
            self.step as usize,
            self.run as usize,
        ];
        let decide = self.decide.map(|decide| decide as usize);
        let join = self.join.map(|join| join as usize);
        always.into_iter().chain(decide).chain(join)
    }
}

/// Each pointer and length are those of a slice that lives through the call.
///
/// # Safety
/// The code reads and writes nothing but these.
unsafe fn short(call: Short, input: &[u8], output: &mut [u8], reply: &mut [u8]) -> u32 {
    call(
        input.as_ptr(),
        input.len(),
        output.as_mut_ptr(),
        output.len(),
        reply.as_mut_ptr(),
        reply.len(),
    )
}

/// As `short`.
///
/// # Safety
/// The code reads and writes nothing but the slices.
unsafe fn long(
    call: Long,
    image: &[u8],
    state: &mut [u8],
    periods: &[u8],
    reply: &mut [u8],
) -> u32 {
    call(
        image.as_ptr(),
        image.len(),
        state.as_mut_ptr(),
        state.len(),
        periods.as_ptr(),
        periods.len(),
        reply.as_mut_ptr(),
        reply.len(),
    )
}

#[cfg(test)]
mod tests {
    use super::*;

    #[test]
    fn code_that_is_shared_is_seen() {
        let hosts = Archive::of_hosts();
        assert!(apart(&[hosts]));
        assert!(!apart(&[hosts, hosts]));
    }
}

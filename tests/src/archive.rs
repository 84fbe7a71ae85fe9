//! Safe wrappers over the static library, one function each. A slice passes
//! as a pointer and a length. This is the only file with `unsafe`.

use std::ops::Range;

/// A packed answer: number (0 accepted) in bits 0–15, place or record in
/// 16–31, cell in 32–47, the file's kind (0 if not opened) in 48–55.
#[derive(Clone, Copy, Debug, PartialEq, Eq)]
pub struct Answer {
    pub number: u16,
    pub place: u16,
    pub cell: u16,
    pub kind: u8,
}

impl Answer {
    fn unpack(packed: u64) -> Answer {
        // The highest byte carries nothing.
        assert_eq!(packed >> 56, 0, "stray bits in the answer {packed:#x}");
        Answer {
            number: packed as u16,
            place: (packed >> 16) as u16,
            cell: (packed >> 32) as u16,
            kind: (packed >> 48) as u8,
        }
    }
}

// ---- Opening and body view ----

extern "C" {
    fn plan_open(plan: *const u8, plan_length: usize) -> u64;
    fn plan_body_view(plan: *const u8, plan_length: usize, body: u64) -> u64;
}

pub fn open(plan: &[u8]) -> Answer {
    Answer::unpack(unsafe { plan_open(plan.as_ptr(), plan.len()) })
}

/// Where the body's bytes stand in the file, or the number that refuses it.
pub fn body_view(plan: &[u8], body: u64) -> Result<Range<usize>, u16> {
    let packed = unsafe { plan_body_view(plan.as_ptr(), plan.len(), body) };
    assert_eq!(packed >> 48, 0, "stray bits in the body view {packed:#x}");
    let number = packed as u16;
    let offset = (packed >> 16) as u16 as usize;
    let length = (packed >> 32) as u16 as usize;
    if number == 0 {
        return Ok(offset..offset + length);
    }
    // "A refused view is empty".
    assert_eq!(length, 0, "a refused view is not empty");
    Err(number)
}

// ---- The later services, a module each ----

mod summing {
    extern "C" {
        fn plan_back_sums(back: *const u8, back_length: usize) -> u64;
        fn plan_joined_sums(front: *const u8, front_length: usize, back_sums: u64) -> u64;
    }

    /// Two sums as a number: the plain one in bits 0–15, the weighted in 16–31.
    pub fn packed([plain, weighted]: [u8; 2]) -> u64 {
        u64::from(plain) | u64::from(weighted) << 16
    }

    /// The two sums in a number that the library gave.
    fn unpack(packed: u64) -> [u8; 2] {
        let [plain, weighted] = [packed as u16, (packed >> 16) as u16];
        assert_eq!(packed >> 32, 0, "stray bits in the sums {packed:#x}");
        assert!(plain < 251 && weighted < 251, "sums of {plain} and {weighted}");
        [plain as u8, weighted as u8]
    }

    /// The two check sums of any bytes.
    pub fn back_sums(back: &[u8]) -> [u8; 2] {
        unpack(unsafe { plan_back_sums(back.as_ptr(), back.len()) })
    }

    /// The two check sums of a front and a back. The back's are a number of any
    /// value: 16 bits for each, the rest ignored.
    pub fn joined_sums(front: &[u8], back_sums: u64) -> [u8; 2] {
        unpack(unsafe { plan_joined_sums(front.as_ptr(), front.len(), back_sums) })
    }
}
pub use summing::*;

mod checking {
    use super::Answer;

    extern "C" {
        fn plan_check(plan: *const u8, plan_length: usize) -> u64;
    }

    pub fn check(plan: &[u8]) -> Answer {
        Answer::unpack(unsafe { plan_check(plan.as_ptr(), plan.len()) })
    }
}
pub use checking::*;

mod judging {
    use super::Answer;

    extern "C" {
        fn plan_judge(plan: *const u8, plan_length: usize) -> u64;
        fn plan_expand(plan: *const u8, plan_length: usize, out: *mut u8, out_length: usize) -> u64;
        fn plan_expansion_length(plan: *const u8, plan_length: usize) -> u64;
    }

    pub fn judge(plan: &[u8]) -> Answer {
        Answer::unpack(unsafe { plan_judge(plan.as_ptr(), plan.len()) })
    }

    pub fn expand(plan: &[u8], out: &mut [u8]) -> Answer {
        let packed = unsafe { plan_expand(plan.as_ptr(), plan.len(), out.as_mut_ptr(), out.len()) };
        Answer::unpack(packed)
    }

    /// The length of the expansion's file with the file's kind, or the answer
    /// that refuses it.
    pub fn expansion_length(plan: &[u8]) -> Result<(usize, u8), Answer> {
        let packed = unsafe { plan_expansion_length(plan.as_ptr(), plan.len()) };
        assert_eq!(packed >> 56, 0, "stray bits in the length {packed:#x}");
        if packed as u16 == 0 {
            return Ok(((packed >> 16) as u32 as usize, (packed >> 48) as u8));
        }
        Err(Answer::unpack(packed))
    }
}
pub use judging::*;

mod running {
    use super::Answer;

    extern "C" {
        // `tally` points to three numbers, `figures` to five; neither has a length.
        fn plan_run(
            plan: *const u8,
            plan_length: usize,
            host: *mut u64,
            host_length: usize,
            card: *mut u64,
            card_length: usize,
            latest: *mut u64,
            latest_length: usize,
            choices: *const u8,
            choices_length: usize,
            tally: *mut u64,
            figures: *mut u64,
        ) -> u64;
        fn plan_memory_view(
            host: *const u64,
            host_length: usize,
            card: *const u64,
            card_length: usize,
            latest: *const u64,
            latest_length: usize,
            first: u64,
            end: u64,
        ) -> u64;
    }

    /// `tally`: reads, writes, moved. `figures`, written at done only: choices
    /// used, host flags, card flags, arrays current on the host, on the card.
    pub fn run(
        plan: &[u8],
        [host, card, latest]: [&mut [u64]; 3],
        choices: &[u8],
        tally: &mut [u64; 3],
        figures: &mut [u64; 5],
    ) -> Answer {
        Answer::unpack(unsafe {
            plan_run(
                plan.as_ptr(),
                plan.len(),
                host.as_mut_ptr(),
                host.len(),
                card.as_mut_ptr(),
                card.len(),
                latest.as_mut_ptr(),
                latest.len(),
                choices.as_ptr(),
                choices.len(),
                tally.as_mut_ptr(),
                figures.as_mut_ptr(),
            )
        })
    }

    /// The side whose part it is, or the number that refuses it.
    pub fn memory_view(
        host: &[u64],
        card: &[u64],
        latest: &[u64],
        first: u64,
        end: u64,
    ) -> Result<usize, u16> {
        let packed = unsafe {
            plan_memory_view(
                host.as_ptr(),
                host.len(),
                card.as_ptr(),
                card.len(),
                latest.as_ptr(),
                latest.len(),
                first,
                end,
            )
        };
        assert_eq!(packed >> 32, 0, "stray bits in the memory view {packed:#x}");
        match packed as u16 {
            0 => Ok((packed >> 16) as usize),
            number => Err(number),
        }
    }
}
pub use running::*;

mod sheets {
    extern "C" {
        // `figures` points to 25 numbers.
        fn plan_sheet(n: u64, figures: *mut u64) -> u64;
    }

    /// The first n + 1 figures are written, or the number that refuses it is given.
    pub fn sheet(n: u64, figures: &mut [u64; 25]) -> Result<(), u16> {
        let packed = unsafe { plan_sheet(n, figures.as_mut_ptr()) };
        assert_eq!(packed >> 16, 0, "stray bits in the answer of a sheet {packed:#x}");
        match packed as u16 {
            0 => Ok(()),
            number => Err(number),
        }
    }
}
pub use sheets::*;

mod logging {
    use super::Answer;

    extern "C" {
        fn plan_log(plan: *const u8, plan_length: usize, log: *const u8, log_length: usize) -> u64;
        fn plan_log_entry(plan: *const u8, plan_length: usize, log: *const u8, log_length: usize) -> u64;
    }

    /// The answer, and the entry that 30 and 31 name.
    pub fn log(plan: &[u8], log: &[u8]) -> (Answer, u64) {
        (log_answer(plan, log), log_entry(plan, log))
    }

    fn log_entry(plan: &[u8], log: &[u8]) -> u64 {
        unsafe { plan_log_entry(plan.as_ptr(), plan.len(), log.as_ptr(), log.len()) }
    }

    /// The answer alone.
    pub fn log_answer(plan: &[u8], log: &[u8]) -> Answer {
        Answer::unpack(unsafe { plan_log(plan.as_ptr(), plan.len(), log.as_ptr(), log.len()) })
    }
}
pub use logging::*;

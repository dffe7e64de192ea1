//! The proved library's calls, declared as in crates/capacity_c/include/eak_capacity.h, with the reference's answers.
//! Assumes that libcapacity_c.a is linked.

#![allow(dead_code)]

pub mod write;

use crate::reference::{Fault, Printed, Refusal, Totals};

#[repr(C)]
struct JobAnswer {
    accepted: bool,
    number: u32,
    offset: usize,
    rows: usize,
}

/// The answer of run, with every field that the library gives.
#[repr(C)]
#[derive(Clone, Copy, Debug, PartialEq, Eq)]
pub struct RunAnswer {
    pub accepted: bool,
    pub number: u32,
    pub offset: usize,
    pub rows: usize,
    pub failed: u64,
    pub checks: u64,
    pub needed: usize,
}

#[repr(C)]
struct FaultAnswer {
    number: u32,
    offset: usize,
    command: u32,
    operand: u32,
}

#[repr(C)]
struct SoilAnswer {
    number: u32,
    offset: u32,
    value: u32,
}

#[repr(C)]
struct PageAnswer {
    number: u32,
    offset: usize,
    rows: usize,
    bytes: usize,
}

#[link(name = "capacity_c", kind = "static")]
extern "C" {
    fn eak_size(job: *const u8, job_bytes: usize) -> JobAnswer;
    fn eak_fault(job: *const u8, job_bytes: usize) -> FaultAnswer;
    fn eak_run(job: *const u8, job_bytes: usize, rows: *mut i64, row_words: usize) -> RunAnswer;
    fn eak_take_down(kind: u8, value: f32) -> SoilAnswer;
    fn eak_page(
        rows: *const i64,
        row_words: usize,
        n: usize,
        bytes: *mut u8,
        room: usize,
    ) -> PageAnswer;
}

/// The result, or the refusal with its number, offset and rows needed; no other field may be set.
fn answer<T>(
    result: T,
    unset: bool,
    number: u32,
    offset: usize,
    needed: usize,
) -> Result<T, Refusal> {
    assert!(
        unset,
        "refusal {number} with a result, or no refusal with an offset"
    );
    if number == 0 {
        Ok(result)
    } else {
        Err(Refusal {
            number: number.try_into().expect("a refusal's number"),
            offset,
            needed,
        })
    }
}

impl RunAnswer {
    /// The answer that the library is to give where the reference gives this one.
    pub fn of(result: Result<Totals, Refusal>) -> RunAnswer {
        let refusal = result.err();
        let totals = result.unwrap_or_default();
        RunAnswer {
            accepted: refusal.is_none(),
            number: refusal.map_or(0, |refusal| u32::from(refusal.number)),
            offset: refusal.map_or(0, |refusal| refusal.offset),
            rows: totals.rows,
            failed: totals.failed,
            checks: totals.checks,
            needed: refusal.map_or(0, |refusal| refusal.needed),
        }
    }

    fn result(self) -> Result<Totals, Refusal> {
        let totals = Totals {
            rows: self.rows,
            failed: self.failed,
            checks: self.checks,
        };
        let unset = if self.number == 0 {
            self.accepted && self.offset == 0 && self.needed == 0
        } else {
            !self.accepted && totals == Totals::default()
        };
        answer(totals, unset, self.number, self.offset, self.needed)
    }
}

#[inline(always)]
pub fn size(job: &[u8]) -> Result<usize, Refusal> {
    let found = unsafe { eak_size(job.as_ptr(), job.len()) };
    let unset = if found.number == 0 {
        found.accepted && found.offset == 0
    } else {
        !found.accepted && found.rows == 0
    };
    answer(found.rows, unset, found.number, found.offset, 0)
}

#[inline(always)]
pub fn fault(job: &[u8]) -> Fault {
    let found = unsafe { eak_fault(job.as_ptr(), job.len()) };
    Fault {
        number: found.number,
        offset: found.offset,
        command: found.command,
        operand: found.operand,
    }
}

#[inline(always)]
pub fn run(job: &[u8], rows: &mut [i64]) -> Result<Totals, Refusal> {
    answer_of_run(job, rows).result()
}

#[inline(always)]
pub fn answer_of_run(job: &[u8], rows: &mut [i64]) -> RunAnswer {
    unsafe { eak_run(job.as_ptr(), job.len(), rows.as_mut_ptr(), rows.len()) }
}

#[inline(always)]
pub fn take_down(kind: u8, value: f32) -> Result<u32, Refusal> {
    let found = unsafe { eak_take_down(kind, value) };
    let unset = found.offset == 0 && (found.number == 0 || found.value == 0);
    answer(found.value, unset, found.number, found.offset as usize, 0)
}

#[inline(always)]
pub fn page(rows: &[i64], n: usize, bytes: &mut [u8]) -> Printed {
    let (words, room) = (rows.len(), bytes.len());
    let found = unsafe { eak_page(rows.as_ptr(), words, n, bytes.as_mut_ptr(), room) };
    Printed {
        number: found.number,
        offset: found.offset,
        rows: found.rows,
        bytes: found.bytes,
    }
}

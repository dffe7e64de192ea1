//! What the library's calls say of one job together: the rows of an accepted one, or the same refusal by each of them.
//! Assumes nothing.

#![allow(dead_code)]

use crate::library;
use crate::reference::{Fault, Refusal, ROW};
use crate::rounds::hexadecimal;

/// The words of a row.
pub type Row = [i64; ROW];

/// A word as lent.
pub const AS_LENT: i64 = -77;

/// The rows of a job, which is accepted by each call.
pub fn rows(job: &[u8]) -> Result<Vec<Row>, String> {
    let mut words = vec![AS_LENT; ROW * library::size(job).unwrap_or(0)];
    let ran = library::run(job, &mut words);
    let rows = words.as_chunks::<ROW>().0.to_vec();
    let fault = library::fault(job);
    match ran {
        Ok(totals) if totals.rows == rows.len() && fault == Fault::default() => Ok(rows),
        _ => Err(format!("{ran:?}, {fault:?} for {}", hexadecimal(job))),
    }
}

/// Whether a job has these rows.
pub fn same(what: &str, job: &[u8], expected: &[Row]) -> Result<(), String> {
    let found = rows(job)?;
    if found == expected {
        return Ok(());
    }
    let counts = [found.len(), expected.len()];
    let differ = found.iter().zip(expected).find(|(one, other)| one != other);
    let job = hexadecimal(job);
    Err(format!("{what}, rows {counts:?}: {differ:?}\n{job}"))
}

/// Whether a job is refused for this fault by each call, and no word is written.
pub fn refused(job: &[u8], fault: &Fault) -> Result<(), String> {
    let refusal = Refusal {
        number: fault.number as u8,
        offset: fault.offset,
        needed: 0,
    };
    let mut words = [AS_LENT; 2 * ROW];
    let ran = library::run(job, &mut words);
    let answers = [library::size(job), ran.map(|totals| totals.rows)];
    let found = library::fault(job);
    if answers == [Err(refusal); 2] && found == *fault && words == [AS_LENT; 2 * ROW] {
        return Ok(());
    }
    let job = hexadecimal(job);
    Err(format!("{answers:?}, {found:?}, expected {fault:?}\n{job}"))
}

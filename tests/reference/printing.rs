//! Request No. 3 of document 02: rows on a printed page.
//! Assumes nothing of the words, their number, the number of rows or the bytes lent.

#![allow(dead_code)]

use super::ROW;

/// What the page call answers: the refusal or 0, the offset, for 9 the rows asked for, the length of the page.
#[derive(Clone, Copy, Debug, Default, PartialEq, Eq)]
pub struct Printed {
    pub number: u32,
    pub offset: usize,
    pub rows: usize,
    pub bytes: usize,
}

/// The characters of words 0 to 7.
pub const WIDTHS: [usize; ROW] = [7, 3, 13, 13, 13, 13, 13, 5];

/// Lines between form feeds.
const LINES: usize = 50;

/// Prints the first `n` rows to the first bytes and tells the length of the page; on a refusal nothing is written.
pub fn page(rows: &[i64], n: usize, bytes: &mut [u8]) -> Printed {
    if ROW as u128 * n as u128 > rows.len() as u128 {
        return Printed {
            number: 9,
            rows: n,
            ..Printed::default()
        };
    }
    let refused = |number| Printed {
        number,
        ..Printed::default()
    };
    let rows = &rows.as_chunks::<ROW>().0[..n];
    if rows.iter().any(too_wide) {
        return refused(12);
    }
    let text = text(rows);
    let Some(room) = bytes.get_mut(..text.len()) else {
        return refused(11);
    };
    room.copy_from_slice(text.as_bytes());
    Printed {
        bytes: text.len(),
        ..Printed::default()
    }
}

/// Whether a value of a row needs more than its width less one character.
fn too_wide(row: &[i64; ROW]) -> bool {
    let mut pairs = row.iter().zip(WIDTHS);
    pairs.any(|(value, width)| value.to_string().len() > width - 1)
}

/// The lines of the rows, with a form feed between one fifty and the next.
fn text(rows: &[[i64; ROW]]) -> String {
    let fifties = rows.chunks(LINES);
    let lines = fifties.map(|fifty| fifty.iter().map(line).collect::<String>());
    lines.collect::<Vec<_>>().join("\x0C")
}

/// 80 characters and a line feed.
fn line(row: &[i64; ROW]) -> String {
    let values = row.iter().zip(WIDTHS);
    let line: String = values
        .map(|(value, width)| format!("{value:>width$}"))
        .collect();
    line + "\n"
}

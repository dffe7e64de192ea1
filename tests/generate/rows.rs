//! Random words of rows for a printed page: values that fit their columns, often at the limits, and values that do not.
//! Assumes of a place that it is one of the eight words of a row.

use super::values::Random;
use crate::reference::{ROW, WIDTHS};

/// The least and the greatest value that leave a blank before them: a width of 7 takes −99999 to 999999.
pub fn limits(place: usize) -> [i64; 2] {
    let nines = |digits: usize| 10i64.pow(digits as u32) - 1;
    [-nines(WIDTHS[place] - 2), nines(WIDTHS[place] - 1)]
}

/// So many words that fit, from word 0 of a row on.
pub fn fitting(random: &mut Random, words: usize) -> Vec<i64> {
    (0..words).map(|word| fits(random, word % ROW)).collect()
}

fn fits(random: &mut Random, place: usize) -> i64 {
    let [least, most] = limits(place);
    match random.below(8) {
        0 => 0,
        1 => most,
        2 => least,
        3 | 4 => random.between(0, (most - least) as u64) as i64 + least,
        _ => {
            let order = 1 << random.below(40);
            (random.below(2 * order) as i64 - order as i64).clamp(least, most)
        }
    }
}

/// A value that does not fit.
pub fn too_wide(random: &mut Random, place: usize) -> i64 {
    let [least, most] = limits(place);
    match random.below(8) {
        0 => most + 1,
        1 => least - 1,
        2 => i64::MIN,
        3 => i64::MAX,
        4 => most + 1 + random.below(most as u64) as i64,
        5 => least - 1 - random.below(most as u64) as i64,
        _ => outside(any(random), least, most),
    }
}

/// A value of 64 random bits.
pub fn any(random: &mut Random) -> i64 {
    (random.next() << 32 ^ random.next()) as i64
}

/// A value; where it lies between two, with bit 62 turned, which takes it far outside.
fn outside(value: i64, least: i64, most: i64) -> i64 {
    if (least..=most).contains(&value) {
        value ^ 1 << 62
    } else {
        value
    }
}

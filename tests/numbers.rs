//! The three numbers of a run (02, No. 8), counted in its rows, and what a run is a case of.
//! Assumes of words that they make whole rows.

use crate::reference::ROW;

/// Rows, rows failed and checks failed, counted row by row and bit by bit. Each verdict is within 0 to 255.
pub fn counted(words: &[i64]) -> Result<(usize, u64, u64), String> {
    let (mut rows, mut failed, mut checks) = (0, 0, 0);
    for verdict in verdicts(words) {
        if !(0..256).contains(&verdict) {
            return Err(format!("row {rows} has the verdict {verdict}"));
        }
        rows += 1;
        if verdict != 0 {
            failed += 1;
        }
        for bit in BITS {
            if verdict & bit != 0 {
                checks += 1;
            }
        }
    }
    Ok((rows, failed, checks))
}

const BITS: [i64; 8] = [1, 2, 4, 8, 16, 32, 64, 128];

fn verdicts(words: &[i64]) -> impl Iterator<Item = i64> + '_ {
    words.as_chunks::<ROW>().0.iter().map(|row| row[7])
}

// The cases.

/// What a run on so many words, accepted or refused with 9, is a case of: the words lent, and what fails in the rows of its job.
pub fn cases(number: u32, lent: usize, rows: &[i64]) -> Vec<String> {
    if ![0, 9].contains(&number) {
        return vec![];
    }
    let room = match lent {
        _ if lent > rows.len() => MORE,
        _ if lent == rows.len() => EXACT,
        0 => NO_WORDS,
        _ if lent + 1 == rows.len() => SHORT,
        _ => FEWER,
    };
    let count = verdicts(rows).count();
    let failed = verdicts(rows).filter(|&verdict| verdict != 0).count();
    let fails = match (count, failed) {
        (0, _) => NO_ROWS,
        (_, 0) => NONE_FAILED,
        (1, _) => ONLY_FAILED,
        _ if failed == count => ALL_FAILED,
        _ => SOME_FAILED,
    };
    let mut cases = vec![case(number, room), case(number, fails)];
    if count == MOST_ROWS {
        cases.push(case(number, MOST));
    }
    if failed > 255 {
        cases.push(case(number, MANY_FAILED));
    }
    for bits in SEVERAL {
        if verdicts(rows).any(|verdict| verdict == bits) {
            cases.push(case(number, &several(bits)));
        }
    }
    cases
}

const EXACT: &str = "exact room";
const MORE: &str = "more room";
const SHORT: &str = "one word short";
const FEWER: &str = "fewer words";
const NO_WORDS: &str = "no words";
const NO_ROWS: &str = "no rows";
const NONE_FAILED: &str = "no row failed";
const ONLY_FAILED: &str = "the only row failed";
const ALL_FAILED: &str = "every row failed";
const SOME_FAILED: &str = "some rows failed";
const MANY_FAILED: &str = "more than 255 rows failed";
const MOST: &str = "the most rows";

/// The rows that a job has at most: settings, a wall base and 4,094 basement members.
const MOST_ROWS: usize = 8189;

/// The verdicts of several checks failed in one row: of a storey, a footing, a detail and a wall base.
const SEVERAL: [i64; 4] = [1 + 2, 4 + 8, 32 + 64, 1 + 128];

fn several(bits: i64) -> String {
    format!("a row with verdict {bits}")
}

fn case(number: u32, case: &str) -> String {
    format!("run, {number}: {case}")
}

/// The cases that must be met.
pub fn wanted() -> Vec<String> {
    let mut wanted = [EXACT, MORE, NO_ROWS].map(|name| case(0, name)).to_vec();
    wanted.extend([SHORT, FEWER, NO_WORDS].map(|name| case(9, name)));
    for number in [0, 9] {
        let fails = [
            NONE_FAILED,
            ONLY_FAILED,
            ALL_FAILED,
            SOME_FAILED,
            MANY_FAILED,
            MOST,
        ];
        wanted.extend(fails.map(|name| case(number, name)));
        wanted.extend(SEVERAL.map(|bits| case(number, &several(bits))));
    }
    wanted
}

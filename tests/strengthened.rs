//! Tries strengths raised (02, No. 11) from outside, on random accepted files: a file is given again with one strength greater, alike in
//! every byte but the four of that operand. It is VR of a column, beam or member without hinges; VR of a wall base; VR or MS of a storey,
//! singly or in a block; VR or MR of a basement member; or P of a footing. The second file is accepted too, and has as many rows.
//! - All rows but those that tell of the strength are the same in every word.
//! - The row of a VR, MS or MR has the strength in its word, and its verdict bit is set where a demand exceeds it; the bit may go, and it
//!   never comes. Every other word is the same, and so is every other bit.
//! - Where the contact is declared and N is not too small, R of the footing's two rows grows by what two fifths of P, down, have grown, and
//!   bit 8 is H > R; it may go, and it never comes. Nothing else moves. Elsewhere P moves nothing.
//! - The rows failed and the checks failed are fewer by those that no longer fail, and so never more.
//!
//! Each round has a pair of columns too, each in a file of its own: length and q are the same, VE and the four strengths of the second at
//! least as great, VR, gj and gf any. The shear of the second is at least as great.
//! All of this is asked of the library, by its calls alone, and again of the reference.
//! Arguments: strengths, seed. Prints `N strengths agree`, or the first disagreement with its files in hexadecimal. A run of 100,000
//! strengths or more fails too when fewer than 20,000 of them are VR of a column, beam or member without hinges, or when another of the
//! cases that `wanted` lists was met fewer than ten times.
//! Assumes nothing. Built by tests/run.

#![allow(dead_code)]

mod generate;
mod library;
mod reference;
mod rounds;
mod shears;
mod strengths;

use generate::{Mix, Random, LIMIT, MOST_COMMANDS};
use reference::{Refusal, Totals, ROW};
use rounds::{hexadecimal, often};
use std::ops::Range;
use strengths::{Kind, Row, Strength, COLUMN, KINDS, REQUESTED};

/// How often each of the commands 02 to 0C is drawn: mostly those with strengths, and what they ask for.
const MIX: Mix = Mix([2, 3, 3, 3, 1, 3, 1, 3, 1, 1, 3]);

/// How many of 100,000 strengths are VR of the members of the request, at least.
const MANY_REQUESTED: u64 = 20_000;

fn main() {
    rounds::compared_so_often("strengths", wanted(), |random, met| {
        let file = draw(random);
        let strengths = strengths::of(&file);
        let Some(strength) = pick(random, &strengths) else {
            return Ok(0);
        };
        met.add(raised(random, &file, strength)?);
        met.add(columns(random)?);
        if full(&file) {
            met.add(vec![FULL.to_string()]);
        }
        Ok(1)
    });
}

// The files.

/// An accepted file of one building or of several; in three of four the strengths are at the demand. Now and then it has all commands that
/// there may be.
fn draw(random: &mut Random) -> Vec<u8> {
    let all = random.one_in(500);
    let (draw, most) = if random.one_in(2) {
        (generate::valid as Draw, 40)
    } else {
        (generate::campus as Draw, 80)
    };
    let commands = if all {
        MOST_COMMANDS
    } else {
        random.between(2, most) as usize
    };
    let mut file = draw(random, commands, &MIX);
    if !random.one_in(4) {
        generate::at_demand(random, &mut file);
    }
    file
}

/// Draws an accepted file of so many commands.
type Draw = fn(&mut Random, usize, &Mix) -> Vec<u8>;

/// Whether a file has all commands that there may be.
fn full(file: &[u8]) -> bool {
    let commands = generate::split(file).into_iter();
    let weights = commands.map(|command| generate::weight(&command));
    weights.sum::<usize>() == MOST_COMMANDS
}

const FULL: &str = "a file of 4,096 commands";

/// A strength that can be raised: in half of the rounds one of the request, else another. Each kind that the file has is as likely as
/// another.
fn pick<'s>(random: &mut Random, strengths: &'s [Strength]) -> Option<&'s Strength> {
    let requested = random.one_in(2);
    let left: Vec<&Strength> = strengths
        .iter()
        .filter(|one| one.kind.requested() == requested && u64::from(one.value) < LIMIT)
        .collect();
    let of_kind = |kind: &Kind| {
        let alike = left.iter().filter(|one| one.kind.name == kind.name);
        alike.copied().collect::<Vec<_>>()
    };
    let kinds = KINDS.iter().map(of_kind);
    let present = kinds.filter(|alike| !alike.is_empty()).collect();
    let alike = one_of(random, present)?;
    one_of(random, alike)
}

fn one_of<T>(random: &mut Random, mut all: Vec<T>) -> Option<T> {
    let count = all.len() as u64;
    (count > 0).then(|| all.swap_remove(random.below(count) as usize))
}

/// A greater value within range: by 1 or a little more, the greatest, the one at the demand of a row or 1 below it, or any.
fn greater(random: &mut Random, strength: &Strength, row: &Row) -> u32 {
    let least = u64::from(strength.value) + 1;
    let enough = strength.enough(row).max(0) as u64;
    let wanted = match random.below(8) {
        0 => least,
        1 => least + random.below(5),
        2 => LIMIT,
        3 | 4 => enough,
        5 => enough.saturating_sub(1),
        _ => 0,
    };
    if (least..=LIMIT).contains(&wanted) {
        wanted as u32
    } else {
        random.between(least, LIMIT) as u32
    }
}

// The library and the reference.

struct Calls {
    name: &'static str,
    size: fn(&[u8]) -> Result<usize, Refusal>,
    run: fn(&[u8], &mut [i64]) -> Result<Totals, Refusal>,
}

const LIBRARY: Calls = Calls {
    name: "the library",
    size: library::size,
    run: library::run,
};

const REFERENCE: Calls = Calls {
    name: "the reference",
    size: reference::size,
    run: reference::run,
};

/// The rows of an accepted file, and run's three numbers.
struct Ran {
    rows: Vec<Row>,
    totals: Totals,
}

impl Calls {
    /// What run gives for a file, which is accepted.
    fn ran(&self, file: &[u8]) -> Result<Ran, String> {
        let size = (self.size)(file);
        let mut words = vec![0; ROW * size.unwrap_or(0)];
        let ran = (self.run)(file, &mut words);
        match ran {
            Ok(totals) if size == Ok(totals.rows) => Ok(Ran {
                rows: words.as_chunks().0.to_vec(),
                totals,
            }),
            _ => Err(format!("{}: {ran:?}\n{}", self.name, hexadecimal(file))),
        }
    }
}

// A strength raised.

/// What a strength of a file is a case of where it is raised, or the first disagreement in words.
fn raised(random: &mut Random, file: &[u8], strength: &Strength) -> Result<Vec<String>, String> {
    let before = LIBRARY.ran(file)?;
    let places = strength.places(&before.rows);
    let Some(place) = one_of(random, places.clone()) else {
        return Err(format!("no row of a strength\n{}", hexadecimal(file)));
    };
    let to = greater(random, strength, &before.rows[place]);
    let second = strength.put(file, to);
    let after = LIBRARY.ran(&second)?;
    for (calls, before, after) in [
        (LIBRARY, &before, &after),
        (REFERENCE, &REFERENCE.ran(file)?, &REFERENCE.ran(&second)?),
    ] {
        if let Err(words) = compare(strength, to, before, after) {
            let (calls, kind, old) = (calls.name, strength.kind.name, strength.value);
            let files = [file, &second].map(hexadecimal).join("\n");
            return Err(format!(
                "{calls}, {kind} from {old} to {to}: {words}\n{files}"
            ));
        }
    }
    let pairs = places.iter();
    let pairs = pairs.map(|&place| [&before.rows[place], &after.rows[place]]);
    Ok(strength.cases(to, &pairs.collect::<Vec<_>>()))
}

/// Every word of all rows, and the three numbers.
fn compare(strength: &Strength, to: u32, before: &Ran, after: &Ran) -> Result<(), String> {
    if before.rows.len() != after.rows.len() {
        return Err("another number of rows".to_string());
    }
    let places = strength.places(&before.rows);
    let mut expected = before.totals;
    for (place, (old, new)) in before.rows.iter().zip(&after.rows).enumerate() {
        let same = if places.contains(&place) {
            row_of_strength(strength, to, old, new)
        } else if old != new {
            Err("a row that does not tell of it".to_string())
        } else {
            Ok(())
        };
        same.map_err(|words| format!("{words}, {new:?}, before {old:?}"))?;
        expected.failed -= u64::from(old[7] != 0 && new[7] == 0);
        expected.checks -= u64::from(old[7] != new[7]);
    }
    if after.totals != expected {
        return Err(format!("{:?}, before {:?}", after.totals, before.totals));
    }
    Ok(())
}

/// A row that tells of the strength.
fn row_of_strength(strength: &Strength, to: u32, old: &Row, new: &Row) -> Result<(), String> {
    let (word, bit) = (strength.kind.word, strength.kind.bit);
    let other = (0..7).find(|&other| other != word && old[other] != new[other]);
    let counted = [strength.value, to].map(|value| strength.kind.counted(value, old));
    let stands = !strength.kind.alone() || old[word] == counted[0];
    let verdicts = [old, new].map(|row| row[7]);
    if let Some(other) = other {
        Err(format!("word {other}"))
    } else if !stands || new[word] - old[word] != counted[1] - counted[0] {
        Err(format!("word {word}, which has it"))
    } else if verdicts[0] & !bit != verdicts[1] & !bit {
        Err("another bit".to_string())
    } else if verdicts[0] & bit < verdicts[1] & bit {
        Err("a new failure".to_string())
    } else if [old, new].map(|row| strength.kind.told(row)) != verdicts.map(|one| one & bit) {
        Err("the bit, which the words do not tell".to_string())
    } else {
        Ok(())
    }
}

// A column with greater strengths.

/// In a file of a column the bytes of gj and gf, and those of the column.
const OVERSTRENGTHS: [Range<usize>; 2] = [3..5, 5..7];
const OF_COLUMN: Range<usize> = 7..36;

/// The place of VR among a column's operands.
const VR: usize = 6;

/// What a pair of columns is a case of, or the first disagreement in words.
fn columns(random: &mut Random) -> Result<Vec<String>, String> {
    let first = generate::valid(random, 2, &Mix::only(COLUMN));
    let second = at_least_as_great(random, &first);
    let mut rows = Vec::new();
    for calls in [REFERENCE, LIBRARY] {
        let [one, other] = [calls.ran(&first)?, calls.ran(&second)?];
        rows = [one.rows, other.rows].concat();
        if rows.len() != 2 || rows[0][2] > rows[1][2] {
            let files = [first, second].map(|file| hexadecimal(&file)).join("\n");
            return Err(format!("{}, columns {rows:?}\n{files}", calls.name));
        }
    }
    let columns = [&first, &second].map(|file| &file[OF_COLUMN]);
    Ok(cases_of_columns(columns, [rows[0], rows[1]]))
}

/// A file of a column with VE, the strengths or both as great or greater, and any VR, gj and gf.
fn at_least_as_great(random: &mut Random, file: &[u8]) -> Vec<u8> {
    let mut file = file.to_vec();
    for bytes in OVERSTRENGTHS {
        let factor = random.between(100, 200) as u16;
        file[bytes].copy_from_slice(&factor.to_be_bytes());
    }
    let column = &mut file[OF_COLUMN];
    let [strengths, seismic_shear] = [(); 2].map(|()| random.one_in(2));
    for place in shears::strengths(COLUMN).filter(|_| strengths) {
        let value = as_great(random, operand(column, place));
        put(column, place, value);
    }
    for place in shears::seismic_shear(COLUMN).filter(|_| seismic_shear) {
        let value = as_great(random, operand(column, place));
        put(column, place, value);
    }
    put(column, VR, random.between(0, LIMIT) as u32);
    file
}

/// A value or a greater one: by a little, up to its double, or any.
fn as_great(random: &mut Random, value: u32) -> u32 {
    let value = u64::from(value);
    let most = [value, value + 3, 2 * value, LIMIT][random.below(4) as usize];
    random.between(value, most.min(LIMIT)) as u32
}

fn operand(column: &[u8], place: usize) -> u32 {
    u32::from_be_bytes(column[shears::bytes(place)].try_into().expect("four bytes"))
}

fn put(column: &mut [u8], place: usize, value: u32) {
    column[shears::bytes(place)].copy_from_slice(&value.to_be_bytes());
}

// The cases of columns.

const EQUAL: &str = "equal";
const GREATER: &str = "greater";

/// Where the cap governs.
const GOVERNS: [&str; 4] = ["both", "the first alone", "the second alone", "neither"];

const TURNED: &str = "columns: the larger S in the other direction";
const VR_GREATER: &str = "columns: VR as great or greater";
const VR_SMALLER: &str = "columns: VR smaller";

fn cases_of_columns(columns: [&[u8]; 2], rows: [Row; 2]) -> Vec<String> {
    let governs = match rows.map(|row| row[6]) {
        [1, 1] => 0,
        [1, _] => 1,
        [_, 1] => 2,
        _ => 3,
    };
    let shear = if rows[0][2] == rows[1][2] {
        EQUAL
    } else {
        GREATER
    };
    let [one, other] = columns.map(|column| {
        let [a, b, c, d] = [1, 2, 3, 4].map(|place| operand(column, place));
        (a + b).cmp(&(c + d))
    });
    let [before, after] = columns.map(|column| operand(column, VR));
    let vr = if before > after {
        VR_SMALLER
    } else {
        VR_GREATER
    };
    let mut cases = vec![of_columns(shear, GOVERNS[governs]), vr.to_string()];
    if one.is_ne() && one == other.reverse() {
        cases.push(TURNED.to_string());
    }
    cases
}

fn of_columns(shear: &str, governs: &str) -> String {
    format!("columns: shear {shear}, cap in {governs}")
}

/// The cases that must be met, and how often.
fn wanted() -> Vec<(String, u64)> {
    let mut wanted = strengths::wanted();
    for shear in [EQUAL, GREATER] {
        wanted.extend(GOVERNS.map(|governs| of_columns(shear, governs)));
    }
    wanted.extend([TURNED, VR_GREATER, VR_SMALLER, FULL].map(str::to_string));
    let mut wanted = often(wanted);
    wanted.push((REQUESTED.to_string(), MANY_REQUESTED));
    wanted
}

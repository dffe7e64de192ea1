//! Tries the contact of footings (02, No. 6) from outside, on random accepted jobs and by the library's calls alone. With the contact
//! declared, R is greater by two fifths of P, down, and bit 8 is H > R as before; every other word of the job stays. Without it another P
//! changes no word, and P above its limit is refused; with it and without P the rows are those without it. Flags above 7 are refused.
//! Arguments: footings, seed. Prints `N footings agree`, or the first disagreement with its job in hexadecimal. A run of 100,000
//! footings or more fails too when one of the cases that `wanted` lists was met fewer than ten times.
//! Assumes nothing. Built by tests/run.

#![allow(dead_code)]

mod answers;
mod footings;
mod generate;
mod library;
mod reference;
mod rounds;

use answers::{refused, rows, same, Row};
use footings::{Footing, CONTACT, FLAGS, MOST_FLAGS, SLIDES, THRUST};
use generate::{Mix, Random, LIMIT};
use reference::Fault;
use rounds::{hexadecimal, Met};

/// How often each of the commands 02 to 0C is drawn: mostly soils and footings.
const MIX: Mix = Mix([1, 1, 1, 1, 1, 1, 4, 12, 1, 0, 1]);

/// The command of a footing, and the places of P and the flags among its operands.
const FOOTING: u32 = 9;
const THRUST_OPERAND: u32 = 13;
const FLAGS_OPERAND: u32 = 14;

/// The verdict of a row whose normal force is too small.
const LIGHT: i64 = 16;

fn main() {
    rounds::compared("footings", wanted(), |random, met| {
        let job = generate::often_at_demand(random, &MIX);
        compare(random, &job, met)
    });
}

/// The job with these flags and this thrust in a footing.
fn given(job: &[u8], footing: &Footing, flags: u8, thrust: u32) -> Vec<u8> {
    let mut job = job.to_vec();
    let command = &mut job[footing.at..];
    command[THRUST..THRUST + 4].copy_from_slice(&thrust.to_be_bytes());
    command[FLAGS] = flags;
    job
}

// The comparison.

/// The footings of a job, counted, or the first disagreement in words.
fn compare(random: &mut Random, job: &[u8], met: &mut Met) -> Result<u64, String> {
    let footings = footings::of(job);
    for footing in &footings {
        met.add(declared(job, footing)?);
        not_declared(random, job, footing)?;
        met.add(out_of_range(random, job, footing)?);
    }
    Ok(footings.len() as u64)
}

/// Declares the contact of a footing: the rows of other commands stay, and its own are those that `with_contact` tells. What they are
/// cases of.
fn declared(job: &[u8], footing: &Footing) -> Result<Vec<String>, String> {
    let (flags, thrust) = (footing.flags(), footing.thrust());
    let without = given(job, footing, flags & !CONTACT, thrust);
    let with = given(job, footing, flags | CONTACT, thrust);
    let before = rows(&without)?;
    let its_own = |row: &Row| row[0] == footing.at as i64;
    let own: Vec<&Row> = before.iter().filter(|row| its_own(row)).collect();
    if own.len() != 2 || !own.iter().all(|row| sliding_told(row)) {
        return Err(format!("rows {own:?}\n{}", hexadecimal(&without)));
    }
    let declared = |row: &Row| {
        if its_own(row) {
            with_contact(row, footing.two_fifths())
        } else {
            *row
        }
    };
    let expected: Vec<Row> = before.iter().map(declared).collect();
    same("the contact declared", &with, &expected)?;
    Ok(own.iter().flat_map(|row| cases(footing, row)).collect())
}

/// Whether bit 8 of a footing's row is H > R; where N is too small, whether there is no R and bit 16 alone.
fn sliding_told(row: &Row) -> bool {
    if footings::reported(row) {
        row[7] & SLIDES == slides(row)
    } else {
        [row[6], row[7]] == [0, LIGHT]
    }
}

/// Bit 8 where H > R.
fn slides(row: &Row) -> i64 {
    SLIDES * i64::from(row[5] > row[6])
}

/// The row of a footing with the contact, by the one without: R is greater by so much, and bit 8 alone may go.
fn with_contact(row: &Row, more: i64) -> Row {
    let mut row = *row;
    if footings::reported(&row) {
        row[6] += more;
        row[7] = row[7] & !SLIDES | slides(&row);
    }
    row
}

/// Without the contact the rows stay whatever P is; with it they are the same where P is 0.
fn not_declared(random: &mut Random, job: &[u8], footing: &Footing) -> Result<(), String> {
    let flags = footing.flags() & !CONTACT;
    let expected = rows(&given(job, footing, flags, footing.thrust()))?;
    let another = random.between(0, LIMIT) as u32;
    for thrust in [0, LIMIT as u32, another] {
        let other = given(job, footing, flags, thrust);
        same("another P without the contact", &other, &expected)?;
    }
    let none = given(job, footing, flags | CONTACT, 0);
    same("the contact without P", &none, &expected)
}

/// Flags above 7 are refused in each call, 8 and others; so is P above its limit where it does not count. No word is written. What they
/// are cases of.
fn out_of_range(random: &mut Random, job: &[u8], footing: &Footing) -> Result<Vec<String>, String> {
    let (flags, thrust) = (footing.flags() & !CONTACT, footing.thrust());
    let least = MOST_FLAGS + 1;
    let another = random.between(u64::from(least), 255) as u8;
    for (flags, thrust, operand) in [
        (least, thrust, FLAGS_OPERAND),
        (another, thrust, FLAGS_OPERAND),
        (flags, LIMIT as u32 + 1, THRUST_OPERAND),
    ] {
        let fault = Fault {
            number: 5,
            offset: footing.at,
            command: FOOTING,
            operand,
        };
        refused(&given(job, footing, flags, thrust), &fault)?;
    }
    Ok(vec![format!("flags refused: {another}")])
}

// The cases.

/// What a row without the contact is a case of, beside the one with it.
fn cases(footing: &Footing, row: &Row) -> Vec<String> {
    let kind = if footing.cohesive { COHESIVE } else { GRANULAR };
    if !footings::reported(row) {
        return vec![format!("{kind}: {TOO_LIGHT}")];
    }
    let after = with_contact(row, footing.two_fifths());
    let soil = if footing.sensitive { SENSITIVE } else { OTHER };
    let slides = match [row, &after].map(|row| row[7] & SLIDES != 0) {
        [true, false] => LOST,
        [true, true] => IN_BOTH,
        _ => IN_NEITHER,
    };
    let flags = footing.flags() & !CONTACT;
    let mut cases = vec![
        format!("{kind}: {slides}"),
        format!("{soil}: {slides}"),
        format!("flags {flags}: {slides}"),
        format!("flags {flags}: bits {}", row[7] & !SLIDES),
        format!("P: {}", size_of(footing.thrust())),
    ];
    for (name, row) in [(BEFORE, row), (AFTER, &after)] {
        let over = row[5] - row[6];
        if NEAR.contains(&over) && footing.two_fifths() > 0 {
            cases.push(format!("{name}: H - R is {over}"));
        }
    }
    cases
}

const GRANULAR: &str = "granular";
const COHESIVE: &str = "cohesive";
const SENSITIVE: &str = "sensitive";
const OTHER: &str = "not sensitive";
const TOO_LIGHT: &str = "N below 20,000";
const LOST: &str = "bit 8 lost";
const IN_BOTH: &str = "bit 8 in both";
const IN_NEITHER: &str = "bit 8 in neither";
const BEFORE: &str = "without the contact";
const AFTER: &str = "with the contact";

/// H less R, close to where bit 8 changes.
const NEAR: std::ops::RangeInclusive<i64> = -1..=1;

/// The thrusts by their names: two fifths of 1 and 2 are 0, down, those of 3 and 4 are 1.
const SIZES: [&str; 6] = ["0", "1 or 2", "3 or 4", "others", "large", "at the limit"];

fn size_of(thrust: u32) -> &'static str {
    SIZES[match u64::from(thrust) {
        0 => 0,
        1 | 2 => 1,
        3 | 4 => 2,
        LIMIT => 5,
        50_000_000.. => 4,
        _ => 3,
    }]
}

/// The cases that must be met.
fn wanted() -> Vec<String> {
    let mut wanted: Vec<String> = SIZES.map(|size| format!("P: {size}")).to_vec();
    wanted.extend([GRANULAR, COHESIVE].map(|kind| format!("{kind}: {TOO_LIGHT}")));
    for slides in [LOST, IN_BOTH, IN_NEITHER] {
        for soil in [GRANULAR, COHESIVE, SENSITIVE, OTHER] {
            wanted.push(format!("{soil}: {slides}"));
        }
        wanted.extend((0..CONTACT).map(|flags| format!("flags {flags}: {slides}")));
    }
    for bits in [0, 4] {
        wanted.extend((0..CONTACT).map(|flags| format!("flags {flags}: bits {bits}")));
    }
    for name in [BEFORE, AFTER] {
        wanted.extend(NEAR.map(|over| format!("{name}: H - R is {over}")));
    }
    wanted.extend((MOST_FLAGS + 1..=255).map(|flags| format!("flags refused: {flags}")));
    wanted
}

//! Tries basement members (02, No. 9) from outside, on random accepted jobs and by the library's calls alone. A member has a shear row and
//! then a moment row: upper is the least whole number not below V + a·E, lower the greatest not above V − a·E, as exact fractions by the
//! joint or the wall base that holds, and the verdict is theirs. It has the same rows in a job of its own, with that hinge given last, and
//! without it all other rows stay, with their offsets moved. Where V changes its sign upper and lower change places; where shear and
//! moment are exchanged the rows are. A place above 1, an id for a wall, and a joint or a wall that is not given are refused.
//! Arguments: members, seed. Prints `N members agree`, or the first disagreement with its job in hexadecimal. A run of 100,000 members or
//! more fails too when one of the cases that `wanted` lists was met fewer than ten times.
//! Assumes nothing. Built by tests/run.

#![allow(dead_code)]

mod answers;
mod generate;
mod hinges;
mod library;
mod reference;
mod rounds;

use answers::{refused, rows, same, Row};
use generate::{Mix, Random, BASEMENT};
use hinges::{Member, BYTES, ID, MOMENT, PLACE, SHEAR};
use reference::Fault;
use rounds::{hexadecimal, Met};

/// How often each of the commands 02 to 0C is drawn: mostly joints, wall bases and basement members.
const MIX: Mix = Mix([5, 1, 1, 1, 3, 1, 1, 1, 1, 1, 8]);

/// The bytes of settings.
const SETTINGS: usize = 7;

/// The command of a joint, and of a wall base.
const JOINT: u8 = 2;
const WALL_BASE: u8 = 6;

fn main() {
    rounds::compared("members", wanted(), |random, met| {
        let job = generate::often_at_demand(random, &MIX);
        compare(random, &job, met)
    });
}

/// The basement members of a job, counted, or the first disagreement in words.
fn compare(random: &mut Random, job: &[u8], met: &mut Met) -> Result<u64, String> {
    let all = rows(job)?;
    let members = hinges::of(job);
    for member in &members {
        let own = own(&all, member);
        if !member.exact(&own) {
            return Err(format!("{own:?} are not exact\n{}", hexadecimal(job)));
        }
        met.add(member.cases(&own));
        met.add(alone(random, job, member, &own)?);
        met.add(removed(job, member, &all)?);
        mirrored(job, member, &all)?;
        exchanged(job, member, &all)?;
        met.add(not_accepted(random, job, member)?);
    }
    Ok(members.len() as u64)
}

/// The rows that have the member's offset.
fn own(all: &[Row], member: &Member) -> Vec<Row> {
    let own = all.iter().filter(|row| row[0] == member.at as i64);
    own.copied().collect()
}

// In a job of its own.

/// After the settings and the hinge that holds, with other hinges given before, the member has the same words.
fn alone(
    random: &mut Random,
    job: &[u8],
    member: &Member,
    own: &[Row],
) -> Result<Vec<String>, String> {
    let others = generate::split(job).into_iter();
    let others: Vec<Vec<u8>> = others
        .filter(|other| [JOINT, WALL_BASE].contains(&other[0]) && random.one_in(2))
        .collect();
    let before = [&job[..SETTINGS], &others.concat(), &member.hinge].concat();
    let found = rows(&[&before, &member.bytes[..], &[0]].concat())?;
    let moved: Vec<Row> = own.iter().map(|row| at(row, before.len())).collect();
    if !found.ends_with(&moved) {
        let job = hexadecimal(job);
        return Err(format!("alone {found:?}, in its job {own:?}\n{job}"));
    }
    let place = ["a joint", "a wall"][usize::from(member.bytes[PLACE])];
    let named = 1 + usize::from(member.hinge[0] == JOINT);
    let again = |other: &Vec<u8>| other.starts_with(&member.hinge[..named]);
    let given = if others.iter().any(again) {
        AGAIN
    } else {
        ONCE
    };
    Ok(vec![format!("alone, {place} given {given}")])
}

/// The row at another offset.
fn at(row: &Row, offset: usize) -> Row {
    let mut row = *row;
    row[0] = offset as i64;
    row
}

const AGAIN: &str = "again";
const ONCE: &str = "once";

// The other rows.

/// Without the member the job has all other rows; those behind it have moved by its bytes.
fn removed(job: &[u8], member: &Member, all: &[Row]) -> Result<Vec<String>, String> {
    let end = member.at + BYTES;
    let rest = [&job[..member.at], &job[end..]].concat();
    let others = all.iter().filter(|row| row[0] != member.at as i64);
    let moved = |row: &Row| match row[0] as usize {
        offset if offset > member.at => at(row, offset - BYTES),
        _ => *row,
    };
    let expected: Vec<Row> = others.map(moved).collect();
    same("without the member", &rest, &expected)?;
    Ok(vec![format!("removed before {:02X}", job[end])])
}

// Other operands.

/// The job with other bytes for the member.
fn with(job: &[u8], member: &Member, bytes: &[u8]) -> Vec<u8> {
    let mut job = job.to_vec();
    job[member.at..member.at + BYTES].copy_from_slice(bytes);
    job
}

/// All rows, with others for the member.
fn with_rows(all: &[Row], member: &Member, others: [Row; 2]) -> Vec<Row> {
    let mut others = others.into_iter();
    let one = |row: &Row| match row[0] == member.at as i64 {
        true => others.next().expect("two rows"),
        false => *row,
    };
    all.iter().map(one).collect()
}

/// With −V for V, upper is minus what lower was, and lower minus what upper was.
fn mirrored(job: &[u8], member: &Member, all: &[Row]) -> Result<(), String> {
    let mut bytes = member.bytes.clone();
    for [v, ..] in [SHEAR, MOMENT] {
        let value = i32::from_be_bytes(bytes[v..v + 4].try_into().expect("four bytes"));
        bytes[v..v + 4].copy_from_slice(&(-value).to_be_bytes());
    }
    let mut rows = own(all, member);
    for row in &mut rows {
        [row[2], row[3]] = [-row[3], -row[2]];
    }
    let expected = with_rows(all, member, [rows[0], rows[1]]);
    same("with -V for V", &with(job, member, &bytes), &expected)
}

/// With the operands of shear and moment exchanged so are the rows, and the bits of their verdicts.
fn exchanged(job: &[u8], member: &Member, all: &[Row]) -> Result<(), String> {
    let mut bytes = member.bytes.clone();
    for (one, other) in SHEAR.into_iter().zip(MOMENT) {
        bytes[one..one + 4].copy_from_slice(&member.bytes[other..other + 4]);
        bytes[other..other + 4].copy_from_slice(&member.bytes[one..one + 4]);
    }
    let mut rows = own(all, member);
    rows.swap(0, 1);
    rows[0][7] /= 2;
    rows[1][7] *= 2;
    let expected = with_rows(all, member, [rows[0], rows[1]]);
    same("shear for moment", &with(job, member, &bytes), &expected)
}

// Refusals.

/// The member with other places and ids that are refused: 5 for the place, 5 for the id of a wall, 6 for what is not given. What they are
/// cases of.
fn not_accepted(random: &mut Random, job: &[u8], member: &Member) -> Result<Vec<String>, String> {
    let before = generate::split(&job[..member.at]);
    let given = |start: &[u8]| before.iter().any(|command| command.starts_with(start));
    let wall = if given(&[WALL_BASE]) {
        "a wall"
    } else {
        "no wall"
    };
    let place = [2, random.between(2, 255) as u8, 255][random.below(3) as usize];
    let [any, not_0] = [random.below(256) as u8, random.between(1, 255) as u8];
    let missing = (0..=255).cycle().skip(any.into()).take(256);
    let missing = missing.into_iter().find(|&id| !given(&[JOINT, id]));
    let mut tried = vec![([place, any], 5, 0), ([1, not_0], 5, 1)];
    tried.extend(missing.map(|id| ([0, id], 6, 0)));
    if wall == "no wall" {
        tried.push(([1, 0], 6, 0));
    }
    let mut cases = Vec::new();
    for ([place, id], number, operand) in tried {
        let mut bytes = member.bytes.clone();
        [bytes[PLACE], bytes[ID]] = [place, id];
        let fault = Fault {
            number,
            offset: member.at,
            command: u32::from(BASEMENT),
            operand,
        };
        refused(&with(job, member, &bytes), &fault)?;
        cases.push(format!(
            "refused {number} {operand}, place {}, {wall}",
            place.min(2)
        ));
    }
    Ok(cases)
}

/// The cases that must be met.
fn wanted() -> Vec<String> {
    let mut wanted = hinges::wanted();
    for place in ["a joint", "a wall"] {
        wanted.extend([ONCE, AGAIN].map(|given| format!("alone, {place} given {given}")));
    }
    wanted.extend(
        (0..=BASEMENT)
            .filter(|&code| code != 1)
            .map(|code| format!("removed before {code:02X}")),
    );
    for refusal in ["5 0, place 2", "5 1, place 1", "6 0, place 0"] {
        wanted.extend(["a wall", "no wall"].map(|wall| format!("refused {refusal}, {wall}")));
    }
    wanted.push("refused 6 0, place 1, no wall".to_string());
    wanted
}

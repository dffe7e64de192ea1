//! Tries tall walls (02, No. 4) from outside, on random accepted jobs and by the library's calls alone: words 2 to 7 of a storey are
//! those that it has in a job of its own, after the settings and its latest wall base. They stay where commands other than wall bases
//! come and go, and where the bases have another length, thickness and VR and the settings other overstrengths.
//! Arguments: storeys, seed. Prints `N storeys agree`, or the first disagreement with its job in hexadecimal. A run of 100,000 storeys or
//! more fails too when one of the cases that `wanted` lists was met fewer than ten times.
//! Assumes nothing. Built by tests/run.

#![allow(dead_code)]

mod generate;
mod library;
mod reference;
mod rounds;

use generate::{Mix, Random};
use reference::ROW;
use rounds::{hexadecimal, Met};
use std::ops::Range;

const BASE: u8 = 6;
const STOREY: u8 = 7;

/// The commands that may stand between a wall base and its storey.
const BETWEEN: [u8; 9] = [2, 3, 4, 5, STOREY, 8, 9, 10, 12];

/// How often each of the commands 02 to 0C is drawn: walls apart.
const OTHERS: Mix = Mix([2, 1, 1, 2, 0, 0, 1, 2, 1, 0, 2]);

/// The bytes of what a storey depends on in other commands: q of the settings; MR, ME and VE of the wall base.
const Q: Range<usize> = 1..3;
const MR_TO_VE: Range<usize> = 9..21;

/// A command's bytes.
type Command = Vec<u8>;

/// Words 2 to 7 of a row.
type Words = [i64; 6];

fn main() {
    rounds::compared("storeys", wanted(), |random, met| {
        let job = draw(random);
        compare(random, &job, met)
    });
}

// The jobs.

/// One to six walls of up to 60 storeys, one in five without any, and other commands between them.
fn draw(random: &mut Random) -> Vec<Command> {
    let storeys: Vec<usize> = (0..random.between(1, 6))
        .map(|_| random.below(76).saturating_sub(15) as usize)
        .collect();
    let walls = generate::split(&generate::walls(random, &storeys));
    with_others(random, &walls)
}

/// A job with other commands, drawn anew, between its own.
fn with_others(random: &mut Random, job: &[Command]) -> Vec<Command> {
    let count = random.between(1, 80) as usize;
    let others = generate::split(&generate::valid(random, count, &OTHERS));
    let [settings, own @ .., end] = job else {
        unreachable!("a job has settings and an end");
    };
    let own = merged(random, own, &others[1..count]);
    [vec![settings.clone()], own, vec![end.clone()]].concat()
}

/// Two lists as one, each in its order.
fn merged(random: &mut Random, one: &[Command], other: &[Command]) -> Vec<Command> {
    let (mut one, mut other) = (one.iter(), other.iter());
    let mut all = Vec::new();
    while one.len() + other.len() > 0 {
        let place = random.below((one.len() + other.len()) as u64);
        let next = if place < one.len() as u64 {
            one.next()
        } else {
            other.next()
        };
        all.extend(next.cloned());
    }
    all
}

/// The job with other operands where no storey depends on them, with storeys left out and put in, and with other commands between. And
/// for each of its storeys the words that it had before; none for one put in.
fn changed(
    random: &mut Random,
    job: &[Command],
    words: &[Words],
) -> (Vec<Command>, Vec<Option<Words>>) {
    let mut walls = Vec::new();
    let mut had = Vec::new();
    let mut words = words.iter().copied();
    for command in job {
        match command[0] {
            0 => walls.push(command.clone()),
            1 => walls.push(other(random, command, Q)),
            BASE => walls.push(other(random, command, MR_TO_VE)),
            STOREY => {
                let its_own = words.next();
                if random.one_in(8) {
                    continue;
                }
                if random.one_in(8) {
                    walls.push(drawn(random, STOREY));
                    had.push(None);
                }
                walls.push(command.clone());
                had.push(its_own);
            }
            _ => (),
        }
    }
    (with_others(random, &walls), had)
}

/// Another command of the kind, with these bytes kept.
fn other(random: &mut Random, command: &Command, kept: Range<usize>) -> Command {
    let mut other = drawn(random, command[0]);
    other[kept.clone()].copy_from_slice(&command[kept]);
    other
}

/// Settings, a wall base or a storey.
fn drawn(random: &mut Random, code: u8) -> Command {
    let wall = generate::split(&generate::walls(random, &[1]));
    let found = wall.into_iter().find(|command| command[0] == code);
    found.expect("a command of a wall")
}

// The comparison.

/// The storeys of a job, counted, or the first disagreement in words.
fn compare(random: &mut Random, job: &[Command], met: &mut Met) -> Result<u64, String> {
    let words = storeys(job)?;
    for (at, words) in places(job).zip(&words) {
        let mut bases = bases(job, at);
        let base = bases.next().expect("a storey has a base");
        let had = alone(job, base, at)?;
        same("in a job of its own", &had, words, job, at)?;
        met.add(cases("drawn", job, at));
        if let Some(earlier) = bases.next() {
            met.add(differing(&alone(job, earlier, at)?, words));
        }
    }
    let (changed, had) = changed(random, job, &words);
    for ((at, found), had) in places(&changed).zip(storeys(&changed)?).zip(had) {
        if let Some(words) = had {
            same("before the changes", &words, &found, &changed, at)?;
            met.add(cases("changed", &changed, at));
        }
    }
    Ok(words.len() as u64)
}

fn same(when: &str, had: &Words, found: &Words, job: &[Command], at: usize) -> Result<(), String> {
    if had == found {
        return Ok(());
    }
    let job = hexadecimal(&job.concat());
    Err(format!(
        "the storey that is command {at} has {found:?}, {when} {had:?}\n{job}"
    ))
}

/// Words 2 to 7 of a storey in a job with a wall base and without the others.
fn alone(job: &[Command], base: usize, storey: usize) -> Result<Words, String> {
    let own = [&job[0], &job[base], &job[storey], &vec![0]];
    storeys(&own.map(Vec::clone)).map(|words| words[0])
}

/// Words 2 to 7 of each storey of a job, which has a row for each.
fn storeys(job: &[Command]) -> Result<Vec<Words>, String> {
    let bytes = job.concat();
    let mut rows = vec![0; ROW * library::size(&bytes).unwrap_or(0)];
    let ran = library::run(&bytes, &mut rows);
    let rows = rows.as_chunks::<ROW>().0.iter();
    let storeys = rows.filter(|row| row[1] == i64::from(STOREY));
    let words: Vec<Words> = storeys.map(|[_, _, words @ ..]| *words).collect();
    if ran.is_err() || words.len() != places(job).count() {
        return Err(format!("{ran:?} for {}", hexadecimal(&bytes)));
    }
    Ok(words)
}

/// The places of the storeys among the commands.
fn places(job: &[Command]) -> impl Iterator<Item = usize> + '_ {
    (0..job.len()).filter(|&at| job[at][0] == STOREY)
}

/// The places of the wall bases before a command, the latest first.
fn bases(job: &[Command], at: usize) -> impl Iterator<Item = usize> + '_ {
    (0..at).rev().filter(|&place| job[place][0] == BASE)
}

// The cases.

/// What a storey of a job, drawn or changed, is a case of.
fn cases(kind: &str, job: &[Command], at: usize) -> Vec<String> {
    let mut bases = bases(job, at);
    let between = &job[bases.next().expect("a storey has a base") + 1..at];
    let stands = |code| {
        between
            .iter()
            .filter(move |command| command[0] == code)
            .count()
    };
    let mut cases = vec![format!("{kind}, a storey")];
    if bases.next().is_some() {
        cases.push(format!("{kind}, a later wall"));
    }
    if stands(STOREY) >= 39 {
        cases.push(format!("{kind}, forty storeys"));
    }
    let codes = BETWEEN.into_iter().filter(|&code| stands(code) > 0);
    cases.extend(codes.map(|code| format!("{kind}, {code:02X} between")));
    cases
}

/// The words that another wall base gives otherwise.
fn differing(other: &Words, words: &Words) -> Vec<String> {
    (0..6)
        .filter(|&place| other[place] != words[place])
        .map(|place| format!("word {} by the wall before", place + 2))
        .collect()
}

/// The cases that must be met.
fn wanted() -> Vec<String> {
    let mut wanted: Vec<String> = [2, 4, 7]
        .map(|word| format!("word {word} by the wall before"))
        .to_vec();
    for kind in ["drawn", "changed"] {
        for case in ["a storey", "a later wall", "forty storeys"] {
            wanted.push(format!("{kind}, {case}"));
        }
        wanted.extend(BETWEEN.map(|code| format!("{kind}, {code:02X} between")));
    }
    wanted
}

//! Tries where q governs (02, No. 5) from outside, on random accepted jobs and by the library's calls alone. The word that tells of a shear
//! is 1 where the cap is strictly smaller than the strengths' term, as exact fractions, else 0; and the shear is that of the term which
//! the word names. Where it is 1, both stay when the strengths of the command are raised; where it is 0, both stay when VE of a column
//! or beam is raised. What a wall base tells stays when its VE is raised.
//! Arguments: shears, seed. Prints `N shears agree`, or the first disagreement with its job in hexadecimal. A run of 100,000 shears or more
//! fails too when one of the cases that `wanted` lists was met fewer than ten times.
//! Assumes nothing. Built by tests/run.

#![allow(dead_code)]

mod generate;
mod library;
mod reference;
mod rounds;
mod shears;

use generate::{Mix, Random, LIMIT};
use reference::ROW;
use rounds::{hexadecimal, Met};
use shears::{Shear, EQUAL, KINDS, LARGER, SMALLER, WALL_BASE};
use std::ops::Range;

/// How often each of the commands 02 to 0C is drawn: mostly columns, beams and wall bases.
const MIX: Mix = Mix([1, 6, 6, 1, 6, 1, 1, 1, 1, 0, 1]);

/// A command's bytes.
type Command = Vec<u8>;

/// The words of a row.
type Row = [i64; ROW];

fn main() {
    rounds::compared("shears", wanted(), |random, met| {
        let commands = random.between(2, 40) as usize;
        let job = generate::split(&generate::valid(random, commands, &MIX));
        compare(random, &job, met)
    });
}

// The changes.

/// What is raised in each column, beam and wall base of a job.
#[derive(Clone, Copy)]
enum Raised {
    Strengths,
    SeismicShear,
}

use Raised::{SeismicShear, Strengths};

/// The changes of a job by their names, and the value that takes the place of another.
const CHANGES: [(&str, Raised, fn(&mut Random, u64) -> u64); 4] = [
    ("strengths raised", Strengths, at_least),
    ("strengths at the limit", Strengths, |_, _| LIMIT),
    ("VE raised", SeismicShear, at_least),
    ("VE at the limit", SeismicShear, |_, _| LIMIT),
];

/// A value or a greater one.
fn at_least(random: &mut Random, value: u64) -> u64 {
    let most = match random.below(4) {
        0 => value,
        1 => value + 5,
        2 => 2 * value,
        _ => LIMIT,
    };
    random.between(value, most.min(LIMIT))
}

impl Raised {
    fn operands(self, code: u8) -> Range<usize> {
        match self {
            Strengths => shears::strengths(code),
            SeismicShear => shears::seismic_shear(code),
        }
    }

    /// The words of a row that stay, of those that belong to a shear.
    fn leaves(self, shear: &Shear, row: &Row) -> Vec<usize> {
        match (self, row[1] == i64::from(WALL_BASE), row[shear.flag]) {
            (Strengths, _, 1) | (SeismicShear, false, 0) => vec![shear.word, shear.flag],
            (SeismicShear, true, _) => vec![shear.flag],
            _ => vec![],
        }
    }

    fn raise(
        self,
        random: &mut Random,
        command: &Command,
        value: fn(&mut Random, u64) -> u64,
    ) -> Command {
        let mut command = command.clone();
        for place in self.operands(command[0]) {
            let bytes = &mut command[shears::bytes(place)];
            let before = u32::from_be_bytes(bytes[..].try_into().expect("four bytes"));
            let after = value(random, u64::from(before)) as u32;
            bytes.copy_from_slice(&after.to_be_bytes());
        }
        command
    }
}

// The comparison.

/// The shears of a job, counted, or the first disagreement in words.
fn compare(random: &mut Random, job: &[Command], met: &mut Met) -> Result<u64, String> {
    let before = shears_of(job)?;
    for command in job {
        met.add(shears::cases(q(job), command));
    }
    for (name, raised, value) in CHANGES {
        let changed: Vec<Command> = job
            .iter()
            .map(|command| raised.raise(random, command, value))
            .collect();
        for ((shear, row), (other, found)) in before.iter().zip(shears_of(&changed)?) {
            let stay = raised.leaves(shear, row);
            if stay.iter().any(|&word| found[word] != row[word]) {
                let [job, changed] = [job, &changed].map(|job| hexadecimal(&job.concat()));
                return Err(format!(
                    "{}, {name}: {found:?}, before {row:?}\n{changed}\n{job}",
                    shear.name
                ));
            }
            if !stay.is_empty() && other != *shear {
                met.add(vec![case(shear.name, shear.cap(), name)]);
            }
        }
    }
    Ok(before.len() as u64)
}

/// The shears of a job, each with its row; the job has a row for each column, beam and wall base, and what the rows tell is exact.
fn shears_of(job: &[Command]) -> Result<Vec<(Shear, Row)>, String> {
    let bytes = job.concat();
    let mut words = vec![0; ROW * library::size(&bytes).unwrap_or(0)];
    let ran = library::run(&bytes, &mut words);
    let commands: Vec<&Command> = job
        .iter()
        .filter(|command| KINDS.contains(&command[0]))
        .collect();
    let kinds = KINDS.map(i64::from);
    let rows = words.as_chunks::<ROW>().0.iter();
    let rows: Vec<&Row> = rows.filter(|row| kinds.contains(&row[1])).collect();
    if ran.is_err() || commands.len() != rows.len() {
        return Err(format!("{ran:?} for {}", hexadecimal(&bytes)));
    }
    let mut shears = Vec::new();
    for (command, row) in commands.into_iter().zip(rows) {
        for shear in shears::of(q(job), command) {
            if !exact(&shear, row) {
                let job = hexadecimal(&bytes);
                return Err(format!("{} is not exact: {row:?}\n{job}", shear.name));
            }
            shears.push((shear, *row));
        }
    }
    Ok(shears)
}

/// Whether a row tells what the terms of a shear say, and has the shear of the term that it names.
fn exact(shear: &Shear, row: &Row) -> bool {
    if shear.capped() {
        row[shear.flag] == 1 && row[shear.word] == shear.by_cap()
    } else {
        row[shear.flag] == 0 && row[shear.word] == shear.by_strengths()
    }
}

fn q(job: &[Command]) -> u64 {
    u64::from(u16::from_be_bytes([job[0][1], job[0][2]]))
}

// The cases.

/// A shear whose terms a change has changed, while the words that `leaves` names stayed.
fn case(shear: &str, cap: &str, change: &str) -> String {
    format!("{shear}: {cap}, {change}")
}

/// The cases that must be met.
fn wanted() -> Vec<String> {
    let mut wanted = shears::wanted();
    for (change, raised, _) in CHANGES {
        for shear in ["column", "beam, plus", "beam, minus", "wall base"] {
            let caps = match (raised, shear) {
                (Strengths, _) => vec![SMALLER],
                (SeismicShear, "wall base") => vec![SMALLER, EQUAL, LARGER],
                (SeismicShear, _) => vec![EQUAL, LARGER],
            };
            wanted.extend(caps.into_iter().map(|cap| case(shear, cap, change)));
        }
    }
    wanted
}

//! Times the proved library against the reference, both built for release, on the same jobs in one process with warm buffers; in
//! writing commands and printing pages against plain Rust (tests/plain.rs), on the same values, each command behind the last.
//! In run the library's one call stands beside the reference's two passes, which write the rows and then count them.
//! Arguments: rounds, of which the best counts; one call, where not all are wanted (run, size, fault, take-down, write, page), or walls:
//! run for a wall of forty storeys beside forty walls of one; or blocks: storeys in blocks beside storeys singly.
//! Prints tables in markdown: ns a command (a row, a value, a job) of both, and the ratio.
//! Assumes nothing. After `rt lib` in crates/capacity_c, built at the root of the repository by
//! rustc --edition 2021 -O -L crates/capacity_c/out -o target/tests/benchmark tests/benchmark.rs.

#![allow(dead_code)]

mod generate;
mod library;
mod plain;
mod reference;

use generate::{Mix, Random, BLOCK, MOST_SETS};
use library::write as commands;
use library::write::WriteAnswer;
use plain::Plain;
use std::hint::black_box;
use std::time::Instant;

const COMMANDS: [usize; 4] = [10, 100, 1000, 4096];

const KINDS: [(&str, Mix); 9] = [
    ("column", Mix::only(3)),
    ("beam", Mix::only(4)),
    ("no hinges", Mix([1, 0, 0, 9, 0, 0, 0, 0, 0, 0, 0])),
    ("wall base", Mix::only(6)),
    ("storey", Mix::only(7)),
    ("footing", Mix::only(9)),
    ("detail", Mix::only(10)),
    ("basement", Mix([1, 0, 0, 0, 1, 0, 0, 0, 0, 0, 18])),
    ("even mix", Mix::EVEN),
];

/// The calls on a job.
const CALLS: [(&str, Both); 3] = [("run", run), ("size", size), ("fault", fault)];

/// The example whose first wall has forty storeys, and how often this wall is written.
const TOWER: &[u8] = include_bytes!("../examples/tower.job");
const STOREYS: usize = 40;
const TIMES: usize = 50;

/// The storeys of a wall that stand singly or in blocks, and how many of them a block has; 0 for a storey by itself.
const IN_BLOCKS: usize = 63 * MOST_SETS;
const GROUPS: [(&str, usize); 4] = [
    ("storey singly", 0),
    ("block of 1", 1),
    ("block of 8", 8),
    ("block of 64", MOST_SETS),
];

/// The rows of a page, and the most.
const PAGES: [usize; 4] = [10, 100, 1024, 4096];
const PRINTED: usize = 4096;

/// The rows that are printed: those of jobs, rows with each value 0, rows with each value as wide as it may be.
const PRINTS: [(&str, fn() -> Vec<i64>); 3] = [
    ("even mix", mixed_rows),
    ("zeros", || vec![0; 8 * PRINTED]),
    ("widest", widest_rows),
];

/// The commands written one after the other.
const WRITTEN: usize = 1000;

/// The commands by their bytes, each with the race of its two writers.
const WRITES: [(&str, u8, fn(usize, u8) -> [f64; 2]); 13] = [
    ("settings", 1, write::<commands::Settings>),
    ("joint", 2, write::<commands::Joint>),
    ("column", 3, write::<commands::Column>),
    ("beam", 4, write::<commands::Beam>),
    ("no hinges", 5, write::<commands::Hingeless>),
    ("wall base", 6, write::<commands::WallBase>),
    ("storey", 7, write::<commands::Storey>),
    ("soil", 8, write::<commands::Soil>),
    ("footing", 9, write::<commands::Footing>),
    ("detail", 10, write::<commands::Detail>),
    ("basement", 12, write::<commands::Basement>),
    ("building", 13, write::<commands::Building>),
    ("end", 0, write::<commands::End>),
];

fn main() {
    let mut arguments = std::env::args().skip(1);
    let rounds = arguments
        .next()
        .map_or(40, |text| text.parse().expect("a number"));
    let picked = arguments.next();
    let wanted = |call: &str| picked.as_deref().is_none_or(|name| name == call);
    let calls = CALLS.iter().map(|(call, _)| *call);
    if !calls
        .chain(["take-down", "write", "page", "walls", "blocks"])
        .any(wanted)
    {
        eprintln!("the calls are run, size, fault, take-down, write, page; or walls, blocks");
        std::process::exit(2);
    }
    for (call, both) in CALLS.into_iter().filter(|(call, _)| wanted(call)) {
        println!("\n| {call}, ns a command | commands | library | reference | ratio |\n|---|---:|---:|---:|---:|");
        for (kind, mix) in KINDS {
            for commands in COMMANDS {
                let jobs = Jobs::new(commands, &mix);
                print(kind, &commands.to_string(), both(rounds, &jobs));
            }
        }
    }
    if wanted("take-down") {
        println!("\n| take-down, ns a value | values | library | reference | ratio |\n|---|---:|---:|---:|---:|");
        for (kind, name) in ["tangent", "strength"].into_iter().enumerate() {
            print(name, "4096", take_down(rounds, kind as u8));
        }
    }
    if wanted("write") {
        println!("\n| write, ns a command | commands | library | plain Rust | ratio |\n|---|---:|---:|---:|---:|");
        for (kind, code, both) in WRITES {
            print(kind, &WRITTEN.to_string(), both(rounds, code));
        }
        let sets = (WRITTEN / MOST_SETS * MOST_SETS).to_string();
        print("set of a block of 64", &sets, write_blocks(rounds));
    }
    if wanted("page") {
        println!(
            "\n| page, ns a row | rows | library | plain Rust | ratio |\n|---|---:|---:|---:|---:|"
        );
        for (kind, words) in PRINTS {
            for rows in PAGES {
                print(kind, &rows.to_string(), page(rounds, &words(), rows));
            }
        }
    }
    if wanted("walls") {
        println!("\n| walls, ns | walls of storeys | library | reference | ratio |\n|---|---:|---:|---:|---:|");
        for (timed, shape, ns) in walls(rounds) {
            print(timed, shape, ns);
        }
    }
    if wanted("blocks") {
        println!("\n| blocks, ns a storey | storeys | library | reference | ratio |\n|---|---:|---:|---:|---:|");
        for (call, both) in CALLS {
            for (name, count) in GROUPS {
                print(
                    &format!("{call}, {name}"),
                    &IN_BLOCKS.to_string(),
                    both(rounds, &in_blocks(count)),
                );
            }
        }
    }
}

fn print(name: &str, count: &str, [library, reference]: [f64; 2]) {
    println!(
        "| {name} | {count} | {library:.2} | {reference:.2} | {:.2} |",
        library / reference
    );
}

/// Some jobs of a kind and the rows of the longest; at most some 4,096 commands together. The time is divided by the units.
struct Jobs {
    jobs: Vec<Vec<u8>>,
    units: usize,
    rows: Vec<i64>,
}

impl Jobs {
    /// By commands.
    fn new(commands: usize, mix: &Mix) -> Jobs {
        let mut random = Random::new(1);
        let count = (4096 / commands).max(1);
        let jobs = (0..count).map(|_| generate::valid(&mut random, commands, mix));
        Jobs::by(count * commands, jobs.collect())
    }

    fn by(units: usize, jobs: Vec<Vec<u8>>) -> Jobs {
        Jobs {
            jobs,
            units,
            rows: vec![0; 2 * 4096 * reference::ROW],
        }
    }

    fn each(&self, call: impl FnMut(&[u8])) {
        self.jobs
            .iter()
            .map(|job| black_box(job.as_slice()))
            .for_each(call)
    }
}

/// Times both implementations: ns a unit.
type Both = fn(usize, &Jobs) -> [f64; 2];

fn run(rounds: usize, jobs: &Jobs) -> [f64; 2] {
    let mut rows = jobs.rows.clone();
    let mut other = jobs.rows.clone();
    race(
        rounds,
        jobs.units,
        || jobs.each(|job| keep(library::run(job, &mut rows))),
        || jobs.each(|job| keep(reference::run(job, &mut other))),
    )
}

/// The storeys of the tall wall with its base before every so many, 40 for one wall and 1 for forty; of these commands those wanted.
fn tall_wall(every: usize, wanted: &[u8]) -> Vec<u8> {
    let commands = generate::split(TOWER);
    let storeys = commands[2..][..STOREYS].chunks(every);
    let walls = storeys.flat_map(|storeys| [&commands[1..2], storeys].concat());
    walls
        .filter(|command| wanted.contains(&command[0]))
        .flatten()
        .collect()
}

/// ns a job, of so many with the settings, these walls and the end.
fn run_walls(rounds: usize, count: usize, walls: &[u8]) -> [f64; 2] {
    let job = [&generate::split(TOWER)[0], walls, &[0]].concat();
    run(rounds, &Jobs::by(count, vec![job; count]))
}

/// A wall of forty storeys beside forty walls of one: what is timed, in how many walls of how many storeys, and its ns.
/// In a long job the storeys take its time less that of its bases alone. The table of cubes, which the library makes once a job with
/// storeys, is spread over all of them there; a short job has it whole.
fn walls(rounds: usize) -> [(&'static str, &'static str, [f64; 2]); 6] {
    let shapes = [STOREYS, 1];
    let long = |wall: Vec<u8>| run_walls(rounds, 1, &wall.repeat(TIMES));
    let [few, many] = shapes.map(|every| long(tall_wall(every, &[6])));
    let [tall, low] = shapes.map(|every| long(tall_wall(every, &[6, 7])));
    let [one, forty] = shapes.map(|every| run_walls(rounds, TIMES, &tall_wall(every, &[6, 7])));
    let each = |more, less| apart(more, less, STOREYS * TIMES);
    let further = apart(forty, one, STOREYS - 1);
    [
        ("wall base", "2000 of 0", each(many, [0.0; 2])),
        ("storey of a tall wall", "50 of 40", each(tall, few)),
        ("storey of a low wall", "2000 of 1", each(low, many)),
        ("job of one tall wall", "1 of 40", one),
        ("job of forty low walls", "40 of 1", forty),
        ("each of its 39 further bases", "", further),
    ]
}

/// A job of one wall with its storeys in blocks of so many, by storeys.
fn in_blocks(count: usize) -> Jobs {
    let mut commands = generate::split(&generate::walls(&mut Random::new(1), &[IN_BLOCKS]));
    if count > 0 {
        let blocks: Vec<Vec<u8>> = commands[2..][..IN_BLOCKS]
            .chunks(count)
            .map(|storeys| {
                let sets = storeys.iter().flat_map(|storey| &storey[1..]);
                [BLOCK, count as u8].iter().chain(sets).copied().collect()
            })
            .collect();
        commands.splice(2..2 + IN_BLOCKS, blocks);
    }
    Jobs::by(IN_BLOCKS, vec![commands.concat()])
}

/// The further time of the first of two, by units.
fn apart(more: [f64; 2], less: [f64; 2], units: usize) -> [f64; 2] {
    [0, 1].map(|side| (more[side] - less[side]) / units as f64)
}

fn size(rounds: usize, jobs: &Jobs) -> [f64; 2] {
    race(
        rounds,
        jobs.units,
        || jobs.each(|job| keep(library::size(job))),
        || jobs.each(|job| keep(reference::size(job))),
    )
}

fn fault(rounds: usize, jobs: &Jobs) -> [f64; 2] {
    race(
        rounds,
        jobs.units,
        || jobs.each(|job| keep(library::fault(job))),
        || jobs.each(|job| keep(reference::fault(job))),
    )
}

fn take_down(rounds: usize, kind: u8) -> [f64; 2] {
    let mut random = Random::new(1);
    let top = [2.0f32, 1000.0][usize::from(kind)];
    let values: Vec<f32> = (0..4096)
        .map(|_| random.below(1 << 24) as f32 / (1 << 24) as f32 * top)
        .collect();
    race(
        rounds,
        values.len(),
        || {
            values
                .iter()
                .for_each(|&value| keep(library::take_down(kind, black_box(value))))
        },
        || {
            values
                .iter()
                .for_each(|&value| keep(reference::take_down(kind, black_box(value))))
        },
    )
}

/// Of commands in range with random values, into a buffer of its own for each of the two.
fn write<C: Plain>(rounds: usize, code: u8) -> [f64; 2] {
    let mut random = Random::new(1);
    let values: Vec<C> = std::iter::repeat_with(|| generate::command(&mut random, code))
        .filter(|command| command.at_fault().is_none())
        .take(WRITTEN)
        .map(|command| C::of(&command.values))
        .collect();
    let mut bytes = vec![0; 58 * WRITTEN];
    let mut other = bytes.clone();
    let ns = race(
        rounds,
        WRITTEN,
        || one_after_the_other(&values, &mut bytes, C::write),
        || one_after_the_other(&values, &mut other, C::write_plainly),
    );
    assert_eq!(bytes, other, "the bytes of the two writers");
    ns
}

/// Of blocks of 64 storeys in range, by sets.
fn write_blocks(rounds: usize) -> [f64; 2] {
    let mut random = Random::new(1);
    let storeys = std::iter::repeat_with(|| generate::command(&mut random, 7))
        .filter(|command| command.at_fault().is_none())
        .take(WRITTEN / MOST_SETS * MOST_SETS);
    let words: Vec<u32> = storeys
        .flat_map(|storey| storey.values)
        .map(|value| value as u32)
        .collect();
    let blocks: Vec<&[u32]> = words.chunks(6 * MOST_SETS).collect();
    let mut bytes = vec![0; 58 * WRITTEN];
    let mut other = bytes.clone();
    let count = MOST_SETS as u32;
    let ns = race(
        rounds,
        words.len() / 6,
        || {
            one_after_the_other(&blocks, &mut bytes, |sets, room| {
                commands::block(count, sets, room)
            })
        },
        || {
            one_after_the_other(&blocks, &mut other, |sets, room| {
                plain::block(count, sets, room)
            })
        },
    );
    assert_eq!(bytes, other, "the bytes of the two writers");
    ns
}

#[inline(always)]
fn one_after_the_other<C: Copy>(
    values: &[C],
    bytes: &mut [u8],
    write: impl Fn(C, &mut [u8]) -> WriteAnswer,
) {
    let mut at = 0;
    for value in black_box(values) {
        at += write(*value, &mut bytes[at..]).bytes;
    }
    keep(at);
}

/// The rows of jobs of an even mix.
fn mixed_rows() -> Vec<i64> {
    let mut random = Random::new(1);
    let mut words = Vec::new();
    while words.len() < 8 * PRINTED {
        let job = generate::valid(&mut random, 1000, &Mix::EVEN);
        let mut rows = vec![0; 8 * reference::size(&job).expect("an accepted job")];
        reference::run(&job, &mut rows).expect("an accepted job");
        words.extend(rows);
    }
    words.truncate(8 * PRINTED);
    words
}

fn widest_rows() -> Vec<i64> {
    let limits: Vec<i64> = (0..8)
        .map(|place| generate::rows::limits(place)[place % 2])
        .collect();
    limits.repeat(PRINTED)
}

/// Of pages of so many rows each, into a buffer of its own for each of the two.
fn page(rounds: usize, words: &[i64], rows: usize) -> [f64; 2] {
    let pages: Vec<&[i64]> = words.chunks_exact(8 * rows).collect();
    let mut bytes = vec![0; 82 * rows];
    let mut other = bytes.clone();
    let ns = race(
        rounds,
        pages.len() * rows,
        || {
            pages
                .iter()
                .for_each(|page| keep(library::page(black_box(page), rows, &mut bytes)))
        },
        || {
            pages
                .iter()
                .for_each(|page| keep(plain::page(black_box(page), rows, &mut other)))
        },
    );
    assert_eq!(bytes, other, "the bytes of the two pages");
    ns
}

/// Lets no result be left out.
fn keep<T>(result: T) {
    black_box(result);
}

/// The best time of each, by units; who goes first changes from round to round.
fn race(
    rounds: usize,
    units: usize,
    mut library: impl FnMut(),
    mut reference: impl FnMut(),
) -> [f64; 2] {
    let mut best = [f64::INFINITY; 2];
    let calls: [&mut dyn FnMut(); 2] = [&mut library, &mut reference];
    for round in 0..rounds {
        for turn in [round % 2, 1 - round % 2] {
            best[turn] = best[turn].min(time(calls[turn]));
        }
    }
    best.map(|ns| ns / units as f64)
}

/// ns of a call, made once before it is timed.
fn time(call: &mut dyn FnMut()) -> f64 {
    call();
    let start = Instant::now();
    call();
    start.elapsed().as_nanos() as f64
}

//! Tries blocks of storeys (02, No. 7) from outside, on random jobs and by the library's calls alone. A job whose storeys stand in blocks,
//! of whatever counts, has the rows of the job with its storeys singly, word 0 aside: there a storey of a block has the offset of its set's
//! first byte. It is accepted exactly where that job is; else it is refused at the command that has the storey at fault, a block by its own
//! order: 8, 4, 6, then 5 with the operand of the set.
//! Arguments: blocks, seed. Prints `N blocks agree`, or the first disagreement with its job in hexadecimal. A run of 100,000 blocks or more
//! fails too when one of the cases that `wanted` lists was met fewer than ten times.
//! Assumes nothing. Built by tests/run.

#![allow(dead_code)]

mod answers;
mod generate;
mod library;
mod reference;
mod rounds;

use answers::{refused, rows, same, AS_LENT};
use generate::{Mix, Random, BLOCK, MOST_COMMANDS, MOST_SETS};
use reference::{Fault, Refusal, ROW};
use rounds::hexadecimal;

const WALL_BASE: u8 = 6;
const STOREY: u8 = 7;
const SOIL: u8 = 8;

/// How often each of the commands 02 to 0C is drawn: walls apart.
const OTHERS: Mix = Mix([2, 1, 1, 2, 0, 0, 1, 2, 1, 0, 2]);

/// A command's bytes.
type Command = Vec<u8>;

fn main() {
    rounds::compared("blocks", wanted(), |random, met| {
        let singly = draw(random);
        let (name, grouping) = GROUPINGS[[0, 1, 1, 2, 2, 2][random.below(6) as usize]];
        let job = Blocked::new(random, &singly, grouping);
        met.add(job.compare(&singly)?);
        if job.blocks() > 0 {
            met.add(vec![name.to_string()]);
        }
        Ok(job.blocks() as u64)
    });
}

// The jobs.

/// A job of walls with their storeys singly, accepted or with a fault, other commands between them here and there.
fn draw(random: &mut Random) -> Vec<Command> {
    if random.one_in(8) {
        return at_limit(random);
    }
    let storeys: Vec<usize> = (0..random.between(1, 4))
        .map(|_| match random.below(4) {
            0 => random.below(3) as usize,
            1 => random.between(60, 140) as usize,
            _ => random.below(20) as usize,
        })
        .collect();
    let walls = generate::split(&generate::walls(random, &storeys));
    let mut job = with_others(random, walls);
    with_fault(random, &mut job);
    job
}

/// A job of soils and one wall whose storeys fill the 4,096 commands or pass them; at times a storey is out of range.
fn at_limit(random: &mut Random) -> Vec<Command> {
    let storeys = random.between(60, 140) as usize;
    let above = [0, 0, 1, random.below(60) as usize][random.below(4) as usize];
    let soils = MOST_COMMANDS - 2 - storeys + above;
    let others = generate::split(&generate::valid(random, 1 + soils, &Mix::only(SOIL)));
    let mut job = generate::split(&generate::walls(random, &[storeys]));
    job.splice(1..1, others[1..1 + soils].to_vec());
    if random.one_in(2) {
        let place = job.len() - 2 - random.below(60) as usize;
        generate::put_faults(random, &mut job[place]);
    }
    job
}

/// A job with a few other commands between its own.
fn with_others(random: &mut Random, mut job: Vec<Command>) -> Vec<Command> {
    let count = random.between(1, 12) as usize;
    let others = generate::split(&generate::valid(random, count, &OTHERS));
    let mut at = 1;
    for other in &others[1..count] {
        at = random.between(at as u64, job.len() as u64 - 1) as usize;
        job.insert(at, other.clone());
    }
    job
}

/// Puts a fault into some jobs: a storey out of range, or two; wall bases left out; settings and wall bases left out.
fn with_fault(random: &mut Random, job: &mut Vec<Command>) {
    let fault = random.below(8);
    if fault <= 2 {
        let storeys: Vec<usize> = places(job, STOREY).collect();
        for _ in 0..random.between(1, 2) {
            if !storeys.is_empty() {
                let place = storeys[random.below(storeys.len() as u64) as usize];
                generate::put_faults(random, &mut job[place]);
            }
        }
    }
    if fault == 2 || fault == 3 {
        job.retain(|command| command[0] != WALL_BASE);
    }
    if fault == 4 {
        job.retain(|command| [STOREY, 0].contains(&command[0]));
    }
}

fn places(job: &[Command], code: u8) -> impl Iterator<Item = usize> + '_ {
    (0..job.len()).filter(move |&place| job[place][0] == code)
}

/// The ways in which storeys that follow each other are put into blocks: how many the next one takes of those left, none for a storey
/// that stays single.
const GROUPINGS: [(&str, fn(&mut Random, usize) -> Option<usize>); 3] = [
    ("blocks of one", |_, _| Some(1)),
    ("blocks as large as may be", |_, left| {
        Some(left.min(MOST_SETS))
    }),
    ("blocks of any count", |random, left| {
        match random.below(8) {
            0 | 1 => None,
            2 => Some(left.min(2)),
            3 => Some(left.min(MOST_SETS - 1)),
            _ => Some(random.between(1, left.min(MOST_SETS) as u64) as usize),
        }
    }),
];

/// A command of the job with blocks.
struct Piece {
    /// Its offset, its bytes, and the place among the single commands of the first that it has.
    at: usize,
    bytes: Vec<u8>,
    first: usize,
}

impl Piece {
    fn is_block(&self) -> bool {
        self.bytes[0] == BLOCK
    }

    /// How many of the single commands it has.
    fn count(&self) -> usize {
        if self.is_block() {
            usize::from(self.bytes[1])
        } else {
            1
        }
    }

    /// Word 0 of the rows of a single command that it has.
    fn offset(&self, place: usize) -> usize {
        if self.is_block() {
            self.at + 2 + 24 * (place - self.first)
        } else {
            self.at
        }
    }
}

/// A job with its storeys in blocks.
struct Blocked(Vec<Piece>);

impl Blocked {
    fn new(
        random: &mut Random,
        singly: &[Command],
        grouping: fn(&mut Random, usize) -> Option<usize>,
    ) -> Blocked {
        let mut pieces = Vec::new();
        let (mut at, mut first) = (0, 0);
        while first < singly.len() {
            let left = singly[first..]
                .iter()
                .take_while(|command| command[0] == STOREY);
            let count = match left.count() {
                0 => None,
                left => grouping(random, left),
            };
            let bytes = count.map_or(singly[first].clone(), |count| {
                let sets = singly[first..first + count].iter();
                let sets: Vec<&[u8]> = sets.map(|storey| &storey[1..]).collect();
                [&[BLOCK, count as u8], &sets.concat()[..]].concat()
            });
            let piece = Piece { at, bytes, first };
            at += piece.bytes.len();
            first += piece.count();
            pieces.push(piece);
        }
        Blocked(pieces)
    }

    fn blocks(&self) -> usize {
        self.0.iter().filter(|piece| piece.is_block()).count()
    }

    fn bytes(&self) -> Vec<u8> {
        self.0
            .iter()
            .flat_map(|piece| piece.bytes.clone())
            .collect()
    }

    /// The command that has a single one.
    fn piece(&self, place: usize) -> (usize, &Piece) {
        let after = self.0.partition_point(|piece| piece.first <= place);
        (after - 1, &self.0[after - 1])
    }

    // The comparison.

    /// What the blocks are cases of, or the first disagreement in words.
    fn compare(&self, singly: &[Command]) -> Result<Vec<String>, String> {
        let job = self.bytes();
        let alone = library::fault(&singly.concat());
        let expected = self.fault(singly, &alone);
        if expected.number == 0 {
            self.same_rows(&job, singly)?;
            Ok(self.accepted())
        } else {
            refused(&job, &expected)?;
            Ok(self.at_fault(singly, &alone, &expected))
        }
    }

    /// The fault of the job by that of the job with its storeys singly.
    fn fault(&self, singly: &[Command], alone: &Fault) -> Fault {
        if alone.number == 0 {
            return *alone;
        }
        let place = place_at(singly, alone.offset);
        let (_, piece) = self.piece(place);
        let mut fault = Fault {
            offset: piece.at,
            ..*alone
        };
        if piece.is_block() {
            let before = &singly[..piece.first];
            fault.command = u32::from(BLOCK);
            fault.number = if piece.first + piece.count() > MOST_COMMANDS {
                8
            } else if before.is_empty() {
                4
            } else if places(before, WALL_BASE).count() == 0 {
                6
            } else {
                5
            };
            fault.operand = match fault.number {
                5 => 1 + 6 * (place - piece.first) as u32 + alone.operand,
                _ => 0,
            };
        }
        fault
    }

    /// Both jobs have the same rows, word 0 aside; and refusal 9 asks for as many.
    fn same_rows(&self, job: &[u8], singly: &[Command]) -> Result<(), String> {
        let mut expected = rows(&singly.concat())?;
        for row in &mut expected {
            let place = place_at(singly, row[0] as usize);
            row[0] = self.piece(place).1.offset(place) as i64;
        }
        same("the storeys in blocks", job, &expected)?;
        if expected.is_empty() {
            return Ok(());
        }
        let mut short = vec![AS_LENT; ROW * expected.len() - 1];
        let ran = library::run(job, &mut short);
        let needed = Refusal {
            number: 9,
            offset: 0,
            needed: expected.len(),
        };
        if ran != Err(needed) || short.iter().any(|&word| word != AS_LENT) {
            return Err(format!("a word short: {ran:?}\n{}", hexadecimal(job)));
        }
        Ok(())
    }

    // The cases.

    fn accepted(&self) -> Vec<String> {
        let mut cases = Vec::new();
        for (place, piece) in self.0.iter().enumerate() {
            if !piece.is_block() {
                continue;
            }
            let bases = self.0[..place].iter();
            let bases = bases.filter(|piece| piece.bytes[0] == WALL_BASE).count();
            cases.push(counted(piece.count()).to_string());
            cases.push(format!(
                "accepted, before {:02X}",
                self.0[place + 1].bytes[0]
            ));
            if bases > 1 {
                cases.push(LATER_WALL.to_string());
            }
            if piece.first + piece.count() == MOST_COMMANDS {
                cases.push(FILLS.to_string());
            }
        }
        cases
    }

    fn at_fault(&self, singly: &[Command], alone: &Fault, fault: &Fault) -> Vec<String> {
        let place = place_at(singly, alone.offset);
        let (number, piece) = self.piece(place);
        if !piece.is_block() {
            let before = self.0[..number].iter().any(Piece::is_block);
            return vec![if before { BEHIND } else { ELSEWHERE }.to_string()];
        }
        let set = match place - piece.first {
            _ if piece.count() == 1 => "only",
            0 => "first",
            set if set + 1 == piece.count() => "last",
            _ => "another",
        };
        vec![
            in_place_of(fault.number, alone.number),
            format!("{}, {set} set", fault.number),
        ]
    }
}

/// The place of the command at an offset.
fn place_at(job: &[Command], offset: usize) -> usize {
    let mut at = 0;
    let found = job.iter().position(|command| {
        at += command.len();
        at > offset
    });
    found.expect("a command at the offset")
}

const LATER_WALL: &str = "accepted, of a later wall";
const FILLS: &str = "accepted, fills the commands";
const BEHIND: &str = "a fault behind a block";
const ELSEWHERE: &str = "a fault without a block before";

fn counted(count: usize) -> &'static str {
    match count {
        1 => "accepted, 1 set",
        2 => "accepted, 2 sets",
        63 => "accepted, 63 sets",
        64 => "accepted, 64 sets",
        _ => "accepted, other sets",
    }
}

fn in_place_of(number: u32, singly: u32) -> String {
    format!("{number}, singly {singly}")
}

/// The cases that must be met.
fn wanted() -> Vec<String> {
    let mut wanted = [LATER_WALL, FILLS, BEHIND].map(str::to_string).to_vec();
    wanted.extend(GROUPINGS.map(|(name, _)| name.to_string()));
    wanted.extend([1, 2, 3, 63, 64].map(|count| counted(count).to_string()));
    for code in [0, 2, 3, 4, 5, 6, 7, 8, 9, 10, BLOCK, 12] {
        wanted.push(format!("accepted, before {code:02X}"));
    }
    for (number, singly) in [(4, 4), (5, 5), (6, 5), (6, 6), (8, 5), (8, 8)] {
        wanted.push(in_place_of(number, singly));
    }
    for set in ["only", "first", "another", "last"] {
        wanted.push(format!("5, {set} set"));
    }
    wanted
}

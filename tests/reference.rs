//! Document 01 with requests No. 1 to 3 and 5 to 10 of document 02 in plain Rust: size, run, take-down, writing a command and printing
//! a page, written from the papers; and the operand at fault.
//! Assumes nothing of the job's bytes, the rows or the number of rows.

mod basement;
mod blocks;
mod footing;
mod members;
mod operands;
mod printing;
#[cfg(test)]
mod tests;
mod writing;

use basement::BasementMember;
use footing::{Footing, Soil, SoilGiven};
use members::{Beam, Column, Detail, Joint, NoHinges, Settings, Storey, Wall, WallBase};
use operands::Operands;
#[allow(unused_imports)]
pub use printing::{page, Printed, WIDTHS};
#[allow(unused_imports)]
pub use writing::{commands, layout, read_command, write_block, write_command, Command, Written};

/// Words of a row.
pub const ROW: usize = 8;

const END: u8 = 0x00;
const SETTINGS: u8 = 0x01;
const JOINT: u8 = 0x02;
const COLUMN: u8 = 0x03;
const BEAM: u8 = 0x04;
const NO_HINGES: u8 = 0x05;
const WALL_BASE: u8 = 0x06;
const STOREY: u8 = 0x07;
const SOIL: u8 = 0x08;
const FOOTING: u8 = 0x09;
const DETAIL: u8 = 0x0A;
const BLOCK: u8 = 0x0B;
const BASEMENT: u8 = 0x0C;
const BUILDING: u8 = 0x0D;

/// Commands of a job, end not counted; a block counts as so many as it has sets. The buildings of a job have this limit together.
const MOST_COMMANDS: usize = 4096;

/// Buildings of a job.
const MOST_BUILDINGS: usize = 16;

/// Why a call gave no result: 01's number, the offset and, for 9, the rows needed; else these are 0.
#[derive(Clone, Copy, Debug, PartialEq, Eq)]
pub struct Refusal {
    pub number: u8,
    pub offset: usize,
    pub needed: usize,
}

impl Refusal {
    fn at(number: u8, offset: usize) -> Refusal {
        Refusal {
            number,
            offset,
            needed: 0,
        }
    }

    fn short(needed: usize) -> Refusal {
        Refusal {
            number: 9,
            offset: 0,
            needed,
        }
    }
}

/// A refusal with the byte at its offset and, for 5, the place of the operand at fault, counted from 0 in the order of the file.
/// All are 0 for an accepted job; the byte is 0 where the offset is the job's length, the operand in each refusal but 5.
#[derive(Clone, Copy, Debug, Default, PartialEq, Eq)]
pub struct Fault {
    pub number: u32,
    pub offset: usize,
    pub command: u32,
    pub operand: u32,
}

/// Rows; of these the rows failed; and their checks failed.
#[derive(Clone, Copy, Debug, Default, PartialEq, Eq)]
pub struct Totals {
    pub rows: usize,
    pub failed: u64,
    pub checks: u64,
}

/// The number of rows of a job.
pub fn size(job: &[u8]) -> Result<usize, Refusal> {
    check(job)
}

/// Writes the rows of a job and then counts them; on a refusal nothing is written.
pub fn run(job: &[u8], rows: &mut [i64]) -> Result<Totals, Refusal> {
    let needed = check(job)?;
    if rows.len() / ROW < needed {
        return Err(Refusal::short(needed));
    }
    let rows = &mut rows.as_chunks_mut().0[..needed];
    write(job, rows);
    Ok(count(rows))
}

/// Why a job is refused, and which operand of the command is at fault.
pub fn fault(job: &[u8]) -> Fault {
    let Err(Refusal { number, offset, .. }) = check(job) else {
        return Fault::default();
    };
    let command = job.get(offset).copied().unwrap_or(0);
    let operand = match number {
        5 => at_fault(&job[offset..]).expect("an operand out of range"),
        _ => 0,
    };
    Fault {
        number: u32::from(number),
        offset,
        command: u32::from(command),
        operand: operand as u32,
    }
}

/// The place of the operand at fault in the whole command that bytes begin with.
fn at_fault(bytes: &[u8]) -> Option<usize> {
    let code = bytes[0];
    if code == BLOCK {
        return blocks::at_fault(bytes);
    }
    let operands = &bytes[1..][..width(code)?];
    match code {
        END | BUILDING => None,
        SETTINGS => Settings::read(fixed(operands)).at_fault(),
        JOINT => Joint::read(fixed(operands)).1.at_fault(),
        COLUMN => Column::read(fixed(operands)).at_fault(),
        BEAM => Beam::read(fixed(operands)).at_fault(),
        NO_HINGES => NoHinges::read(fixed(operands)).at_fault(),
        WALL_BASE => WallBase::read(fixed(operands)).at_fault(),
        STOREY => Storey::read(fixed(operands)).at_fault(),
        SOIL => SoilGiven::read(fixed(operands)).at_fault(),
        FOOTING => Footing::read(fixed(operands)).at_fault(),
        BASEMENT => BasementMember::read(fixed(operands)).at_fault(),
        _ => Detail::read(fixed(operands)).at_fault(),
    }
}

/// How many rows there are, how many of them have a verdict that is not 0, and the ones in all verdicts.
fn count(rows: &[[i64; ROW]]) -> Totals {
    let mut totals = Totals {
        rows: rows.len(),
        ..Totals::default()
    };
    for row in rows {
        totals.failed += u64::from(row[7] != 0);
        totals.checks += u64::from(row[7].count_ones());
    }
    totals
}

/// A soil value taken down: tangent (kind 0) times 10,000, or kPa (kind 1) times 1,000.
pub fn take_down(kind: u8, value: f32) -> Result<u32, Refusal> {
    let (top, scale) = match kind {
        0 => (2.0, 10_000.0),
        1 => (1000.0, 1_000.0),
        _ => return Err(Refusal::at(5, 0)),
    };
    if value.is_sign_negative() || !(value <= top) {
        return Err(Refusal::at(5, 0));
    }
    // 24 significant bits times 14 fit the 53 of an f64, so the product is exact.
    Ok((f64::from(value) * scale) as u32)
}

// The first pass: every fault, and the number of rows.

/// How many commands and buildings the file has so far, and what the commands of its latest building have given.
struct Given {
    commands: usize,
    buildings: usize,
    settings: bool,
    joints: [bool; 256],
    wall: bool,
    soil: bool,
}

/// Tries every fault of a job in the papers' order and counts its rows.
fn check(job: &[u8]) -> Result<usize, Refusal> {
    let mut given = Given::building(0, 1);
    let mut rows = 0;
    let mut at = 0;
    loop {
        let code = *job.get(at).ok_or(Refusal::at(1, at))?;
        if code == BLOCK {
            let sets = given.admit_block(&job[at..]);
            let count = sets.map_err(|number| Refusal::at(number, at))?;
            rows += count;
            at += blocks::HEAD + blocks::SET * count;
            continue;
        }
        let width = width(code).ok_or(Refusal::at(2, at))?;
        let operands = job[at + 1..].get(..width).ok_or(Refusal::at(1, at))?;
        if code == END {
            break;
        }
        let admitted = given.place(code).and_then(|()| given.admit(code, operands));
        rows += admitted.map_err(|number| Refusal::at(number, at))?;
        at += 1 + width;
    }
    if !given.settings {
        Err(Refusal::at(4, at))
    } else if at + 1 < job.len() {
        Err(Refusal::at(3, at + 1))
    } else {
        Ok(rows)
    }
}

/// Bytes of a command's operands; none for an unknown command, and for a block, whose count tells them.
fn width(code: u8) -> Option<usize> {
    Some(match code {
        END | BUILDING => 0,
        SETTINGS | SOIL => 6,
        JOINT => 13,
        COLUMN => 28,
        BEAM => 32,
        NO_HINGES => 22,
        WALL_BASE | STOREY => 24,
        FOOTING => 57,
        DETAIL => 8,
        BASEMENT => 26,
        _ => return None,
    })
}

impl Given {
    /// What holds where a building begins, after so many commands of the file: nothing is given, so the settings come next.
    fn building(commands: usize, buildings: usize) -> Given {
        Given {
            commands,
            buildings,
            settings: false,
            joints: [false; 256],
            wall: false,
            soil: false,
        }
    }

    /// Tries faults 8, 13 and 4 of a command other than a block and the end, and counts it.
    fn place(&mut self, code: u8) -> Result<(), u8> {
        ensure(self.commands < MOST_COMMANDS, 8)?;
        ensure(code != BUILDING || self.buildings < MOST_BUILDINGS, 13)?;
        ensure(self.settings != (code == SETTINGS), 4)?;
        self.commands += 1;
        Ok(())
    }

    /// Tries the faults of the block that bytes begin with: 1 for a missing count, 5 for the count, 1 for the sets, 8, 4, 6, then 5 for
    /// the sets. Gives its count, which is the number of its rows.
    fn admit_block(&mut self, bytes: &[u8]) -> Result<usize, u8> {
        let count = blocks::count(bytes).ok_or(1)?;
        ensure(blocks::COUNTS.contains(&count), 5)?;
        let sets = blocks::sets(bytes).ok_or(1)?;
        ensure(self.commands + count <= MOST_COMMANDS, 8)?;
        ensure(self.settings, 4)?;
        ensure(self.wall, 6)?;
        ensure(sets.iter().all(|set| Storey::read(set).in_range()), 5)?;
        self.commands += count;
        Ok(count)
    }

    /// Tries faults 5 and 6 of a command and gives the number of its rows.
    fn admit(&mut self, code: u8, operands: &[u8]) -> Result<usize, u8> {
        match code {
            BUILDING => {
                *self = Given::building(self.commands, self.buildings + 1);
                Ok(0)
            }
            SETTINGS => {
                let in_range = Settings::read(fixed(operands)).in_range();
                gives(0, in_range, &mut self.settings)
            }
            JOINT => {
                let (id, joint) = Joint::read(fixed(operands));
                gives(0, joint.in_range(), &mut self.joints[id])
            }
            COLUMN => rows_of(1, Column::read(fixed(operands)).in_range(), true),
            BEAM => rows_of(1, Beam::read(fixed(operands)).in_range(), true),
            NO_HINGES => {
                let member = NoHinges::read(fixed(operands));
                let [one, other] = member.joints;
                rows_of(1, member.in_range(), self.joints[one] && self.joints[other])
            }
            WALL_BASE => {
                let in_range = WallBase::read(fixed(operands)).in_range();
                gives(1, in_range, &mut self.wall)
            }
            STOREY => rows_of(1, Storey::read(fixed(operands)).in_range(), self.wall),
            SOIL => {
                let in_range = SoilGiven::read(fixed(operands)).in_range();
                gives(0, in_range, &mut self.soil)
            }
            FOOTING => rows_of(2, Footing::read(fixed(operands)).in_range(), self.soil),
            BASEMENT => {
                let member = BasementMember::read(fixed(operands));
                let given = member.joint().map_or(self.wall, |id| self.joints[id]);
                rows_of(2, member.in_range(), given)
            }
            _ => rows_of(1, Detail::read(fixed(operands)).in_range(), true),
        }
    }
}

/// So many rows; or 5 for a command out of range, then 6 where what it needs was not given.
fn rows_of(rows: usize, in_range: bool, given: bool) -> Result<usize, u8> {
    ensure(in_range, 5)?;
    ensure(given, 6)?;
    Ok(rows)
}

/// So many rows, with what the command gives marked as given; or 5 for a command out of range.
fn gives(rows: usize, in_range: bool, given: &mut bool) -> Result<usize, u8> {
    ensure(in_range, 5)?;
    *given = true;
    Ok(rows)
}

fn ensure(holds: bool, number: u8) -> Result<(), u8> {
    if holds {
        Ok(())
    } else {
        Err(number)
    }
}

// The second pass: the rows of an accepted job.

/// What holds at a command, all of it given in the command's building.
struct Held {
    settings: Settings,
    joints: [Joint; 256],
    wall: Wall,
    soil: Soil,
}

impl Held {
    fn new() -> Held {
        Held {
            settings: Settings::default(),
            joints: [Joint::default(); 256],
            wall: Wall::default(),
            soil: Soil::default(),
        }
    }

    /// Meets a command other than a block: what it gives holds from there on in its building, and words 2 to 7 of its rows are put, in
    /// their order.
    fn meet(&mut self, code: u8, operands: &[u8], mut put: impl FnMut([i64; 6])) {
        match code {
            SETTINGS => self.settings = Settings::read(fixed(operands)),
            JOINT => {
                let (id, joint) = Joint::read(fixed(operands));
                self.joints[id] = joint;
            }
            COLUMN => put(Column::read(fixed(operands)).row(self.settings.q)),
            BEAM => put(Beam::read(fixed(operands)).row(self.settings.q)),
            NO_HINGES => put(NoHinges::read(fixed(operands)).row(&self.settings, &self.joints)),
            WALL_BASE => {
                let base = WallBase::read(fixed(operands));
                self.wall = base.wall(self.settings.q);
                put(base.row(&self.wall));
            }
            STOREY => put(Storey::read(fixed(operands)).row(&self.wall)),
            SOIL => self.soil = SoilGiven::read(fixed(operands)).soil(),
            FOOTING => {
                let footing = Footing::read(fixed(operands));
                put(footing.row(self, 1));
                put(footing.row(self, -1));
            }
            BASEMENT => {
                let [shear, moment] = BasementMember::read(fixed(operands)).rows(self);
                put(shear);
                put(moment);
            }
            BUILDING => *self = Held::new(),
            _ => put(Detail::read(fixed(operands)).row()),
        }
    }
}

/// Writes the rows of an accepted job; `rows` has exactly as many as the job.
fn write(job: &[u8], rows: &mut [[i64; ROW]]) {
    let mut held = Held::new();
    let mut rows = rows.iter_mut();
    let mut at = 0;
    while job[at] != END {
        let code = job[at];
        let width = match code {
            BLOCK => 1 + blocks::SET * usize::from(job[at + 1]),
            _ => width(code).expect("a known command"),
        };
        let operands = &job[at + 1..][..width];
        if code == BLOCK {
            write_sets(at + blocks::HEAD, &operands[1..], &held.wall, &mut rows);
        } else {
            held.meet(code, operands, |w| {
                let row = rows.next().expect("a row of the job");
                *row = placed(at, code, w);
            });
        }
        at += 1 + width;
    }
}

/// Writes the rows of a block. A row has the offset of its set's first byte; that of the first is `at`.
fn write_sets<'r>(
    at: usize,
    sets: &[u8],
    wall: &Wall,
    rows: &mut impl Iterator<Item = &'r mut [i64; ROW]>,
) {
    let offsets = (at..).step_by(blocks::SET);
    for ((at, set), row) in offsets.zip(sets.as_chunks().0).zip(rows) {
        *row = placed(at, STOREY, Storey::read(set).row(wall));
    }
}

/// A row by its offset, the command's byte and words 2 to 7.
fn placed(at: usize, code: u8, w: [i64; 6]) -> [i64; ROW] {
    let (at, code) = (at as i64, i64::from(code));
    [at, code, w[0], w[1], w[2], w[3], w[4], w[5]]
}

/// The operands of a command as an array of its width.
fn fixed<const N: usize>(operands: &[u8]) -> &[u8; N] {
    operands.try_into().expect("as wide as the command")
}

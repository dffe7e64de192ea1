//! Pseudo-random jobs of documents 01 and 02: valid ones, with joints given again and with the two terms of a smaller-of rule equal or
//! nearly so, ones of walls, ones of several buildings, ones with strengths at the demand, ones with operands out of range, ones with a
//! block, a basement member or a building at fault or at the limit of the commands, damaged ones, noise; single commands by their values;
//! and words of rows.
//! Assumes nothing; the same seed gives the same jobs.

#![allow(dead_code, unused_imports)]

mod basements;
mod blocks;
mod buildings;
mod commands;
mod faults;
pub mod rows;
mod values;

use crate::reference::{run, size, ROW};
pub use basements::{basement, basement_at_fault, most_rows};
pub use blocks::{block_at_fault, block_at_limit};
pub use buildings::{building_at_fault, building_at_limit, campus, last_building};
pub use commands::{block, command};
pub use faults::put as put_faults;
use values::Values;
pub use values::{Random, LIMIT};

/// Bytes of a command, its byte counted, by command byte; of a block those before its sets.
const WIDTHS: [usize; 14] = [1, 7, 14, 29, 33, 23, 25, 25, 7, 58, 9, 2, 27, 1];

/// Bytes of a set.
const SET: usize = 24;

pub const SETTINGS: u8 = 1;
const WALL_BASE: u8 = 6;
const STOREY: u8 = 7;
pub const BLOCK: u8 = 11;
pub const BASEMENT: u8 = 12;
pub const BUILDING: u8 = 13;

/// Commands of a job, end not counted; the sets of a block; and the buildings of a job. A block counts as many commands as it has sets.
pub const MOST_COMMANDS: usize = 4096;
pub const MOST_SETS: usize = 64;
pub const MOST_BUILDINGS: usize = 16;

/// How often each of the commands 02 to 0C is drawn.
#[derive(Clone, Copy)]
pub struct Mix(pub [u64; 11]);

impl Mix {
    /// Each command but the block, which has the rows of many.
    pub const EVEN: Mix = Mix([1, 1, 1, 1, 1, 1, 1, 1, 1, 0, 1]);

    /// One command, with those that it needs before it.
    pub const fn only(code: u8) -> Mix {
        let mut weights = [0; 11];
        weights[code as usize - 2] = 1;
        Mix(weights)
    }

    fn draw(&self, random: &mut Random) -> u8 {
        let mut left = random.below(self.0.iter().sum());
        let mut code = 2;
        for weight in self.0 {
            if left < weight {
                break;
            }
            left -= weight;
            code += 1;
        }
        code
    }
}

/// An accepted job of one building with `commands` commands from 1 to 4,096, settings counted, end not.
/// A command that lacks its joint, wall base or soil is replaced by what it lacks, a basement member that lacks both by a joint. A joint
/// has a new id, or one that was given. A block has at most as many sets as there are commands left.
pub fn valid(random: &mut Random, commands: usize, mix: &Mix) -> Vec<u8> {
    let mut writer = Writer::begin(random, commands);
    writer.fill(mix);
    writer.job.push(0);
    writer.job
}

/// An accepted job of walls: settings, then for each number a wall base and so many storeys.
pub fn walls(random: &mut Random, storeys: &[usize]) -> Vec<u8> {
    let mut writer = Writer::begin(random, MOST_COMMANDS);
    for &count in storeys {
        writer.command(6);
        (0..count).for_each(|_| writer.command(7));
    }
    writer.job.push(0);
    writer.job
}

/// A job being written, how many commands are left to its building, what the building's commands have given, and the joints of the
/// building before.
struct Writer<'r> {
    values: Values<'r>,
    job: Vec<u8>,
    left: usize,
    joints: Vec<u8>,
    wall: bool,
    soil: bool,
    before: Vec<u8>,
}

impl<'r> Writer<'r> {
    /// Settings, with which the job is to have so many commands.
    fn begin(random: &'r mut Random, commands: usize) -> Writer<'r> {
        let values = Values::begin(random);
        let mut writer = Writer {
            values,
            job: Vec::new(),
            left: commands - 1,
            joints: Vec::new(),
            wall: false,
            soil: false,
            before: Vec::new(),
        };
        writer.settings();
        writer
    }

    fn settings(&mut self) {
        self.job.push(1);
        for factor in [self.values.q, self.values.gj, self.values.gf] {
            self.half(factor);
        }
    }

    /// The commands that are left.
    fn fill(&mut self, mix: &Mix) {
        while self.left > 0 {
            let code = mix.draw(self.values.random);
            self.command(code);
        }
    }

    fn command(&mut self, wanted: u8) {
        let code = match wanted {
            5 if self.joints.is_empty() => 2,
            BASEMENT if self.joints.is_empty() && !self.wall => 2,
            STOREY | BLOCK if !self.wall => WALL_BASE,
            9 if !self.soil => 8,
            _ => wanted,
        };
        self.job.push(code);
        if code == BLOCK {
            let count = blocks::count(self.values.random).min(self.left);
            self.left -= count;
            return self.block(count);
        }
        self.left -= 1;
        match code {
            2 => self.joint(),
            3 => self.column(),
            4 => self.beam(),
            5 => self.no_hinges(),
            WALL_BASE => self.wall_base(),
            STOREY => self.storey(),
            8 => self.soil(),
            9 => self.footing(),
            BASEMENT => self.basement(),
            _ => self.detail(),
        }
    }

    fn half(&mut self, value: u64) {
        self.job.extend((value as u16).to_be_bytes());
    }

    fn word(&mut self, value: u64) {
        self.job.extend((value as u32).to_be_bytes());
    }

    fn words(&mut self, values: &[u64]) {
        values.iter().for_each(|&value| self.word(value));
    }

    fn signed(&mut self, value: i64) {
        self.job.extend((value as i32).to_be_bytes());
    }

    /// An id that was given.
    fn given_id(&mut self) -> u8 {
        let place = self.values.random.below(self.joints.len() as u64);
        self.joints[place as usize]
    }

    /// An id that was not given, of which one must be left; 0 and 255 more often than others, and often one of the building before.
    fn new_id(&mut self) -> u8 {
        let mut id = self.values.side(0, 255) as u8;
        if !self.before.is_empty() && self.values.random.one_in(2) {
            let place = self.values.random.below(self.before.len() as u64);
            id = self.before[place as usize];
        }
        while self.joints.contains(&id) {
            id = id.wrapping_add(1);
        }
        self.joints.push(id);
        id
    }

    fn joint(&mut self) {
        let full = self.joints.len() == 256;
        let id = if full || !self.joints.is_empty() && self.values.random.one_in(2) {
            self.given_id()
        } else {
            self.new_id()
        };
        let [r, e] = self.values.strength_and_demand(self.values.gj);
        let other = self.values.random.between(r, LIMIT);
        let sums = if self.values.random.one_in(2) {
            [r, other, e]
        } else {
            [other, r, e]
        };
        self.job.push(id);
        self.words(&sums);
    }

    fn column(&mut self) {
        let length = self.values.length();
        let (r, ve) = self.values.hinges(length, 1400, 100);
        let vr = self.values.amount();
        self.word(length);
        self.words(&r);
        self.words(&[ve, vr]);
    }

    fn beam(&mut self) {
        let length = self.values.length();
        let (r, ve) = self.values.hinges(length, 1200, 120);
        let v0 = self.values.signed_amount();
        let vr = self.values.amount();
        self.word(length);
        self.words(&r);
        self.signed(v0);
        self.words(&[ve, vr]);
    }

    fn no_hinges(&mut self) {
        let length = self.values.length();
        let me = [(); 2].map(|()| self.values.amount());
        let v0 = self.values.signed_amount();
        let vr = self.values.amount();
        self.word(length);
        for _ in 0..2 {
            let id = self.given_id();
            self.job.push(id);
        }
        self.words(&me);
        self.signed(v0);
        self.word(vr);
    }

    fn wall_base(&mut self) {
        self.wall = true;
        let thickness = self.values.side(100, 10_000);
        let length = match self.values.random.below(4) {
            0 => self.values.close(4 * thickness, 100, 10_000),
            _ => self.values.side(100, 10_000),
        };
        let [mr, me] = self.values.strength_and_demand(130);
        let [ve, vr] = [(); 2].map(|()| self.values.amount());
        self.words(&[length, thickness, mr, me, ve, vr]);
    }

    fn storey(&mut self) {
        let [me, ve, vr, ms] = [(); 4].map(|()| self.values.amount());
        let [j, j0] = self.values.inertias();
        self.words(&[me, ve, j, j0, vr, ms]);
    }

    fn block(&mut self, count: usize) {
        self.job.push(count as u8);
        (0..count).for_each(|_| self.storey());
    }

    fn soil(&mut self) {
        self.soil = true;
        let kind = self.values.random.below(2) as u8;
        let value = self.values.soil_value(kind);
        let sensitive = self.values.random.one_in(3) as u8;
        self.job.push(kind);
        self.job.extend(value.to_be_bytes());
        self.job.push(sensitive);
    }

    fn footing(&mut self) {
        let sides = [(); 2].map(|()| self.values.side(500, 20_000));
        let element = self.values.strength_and_demand(self.values.gf);
        let loads = self.values.loads(sides);
        let [u, p] = [(); 2].map(|()| self.values.amount());
        let flags = self.values.flags();
        self.words(&sides);
        self.words(&element);
        loads.iter().for_each(|&load| self.signed(load));
        self.words(&[u, p]);
        self.job.push(flags);
    }

    fn detail(&mut self) {
        let place = self.values.random.below(3) as u8;
        let xu = self.values.side(0, 1000);
        let xy = self.values.side(0, 1000);
        let mu = self.values.side(1000, 2000);
        let lap = self.values.random.below(2) as u8;
        self.job.push(place);
        [xu, xy, mu].iter().for_each(|&value| self.half(value));
        self.job.push(lap);
    }
}

// Strengths at the demand.

/// An accepted job of 3 to 30 commands, in half of them with strengths at the demand.
pub fn often_at_demand(random: &mut Random, mix: &Mix) -> Vec<u8> {
    let commands = random.between(3, 30) as usize;
    let mut job = valid(random, commands, mix);
    if random.one_in(2) {
        at_demand(random, &mut job);
    }
    job
}

/// Sets the strengths of an accepted job at the demand ±2, here and there within a 2000th of it; of a footing its
/// sides at 2, 3 or 4 eccentricities and then H at R; of a detail xu. The job stays accepted.
pub fn at_demand(random: &mut Random, job: &mut [u8]) {
    let mut before = None;
    for row in rows_of(job) {
        set_strength(random, job, &row, before == Some(row[0]));
        before = Some(row[0]);
    }
    let mut set = None;
    for row in rows_of(job) {
        if row[1] == 9 && row[2] >= 20_000 && set != Some(row[0]) && random.one_in(2) {
            set_sliding(random, job, &row);
            set = Some(row[0]);
        }
    }
    debug_assert!(size(job).is_ok());
}

/// Sets H of a footing's row at R: by the passive thrust, where the contact lets it count (02, No. 6), or by HV, which does so where the
/// horizontal force has the sign of HV.
fn set_sliding(random: &mut Random, job: &mut [u8], row: &[i64; ROW]) {
    let [hv, p, flags] = [41, 53, 57].map(|place| row[0] as usize + place);
    let [h, r] = [row[5], row[6]];
    if job[flags] & 4 != 0 && random.one_in(2) {
        let base = r - 2 * i64::from(read(job, p)) / 5;
        let wanted = (random.near(h) - base) * 5;
        put(job, p, (wanted + 1).div_euclid(2), 0, LIMIT);
    } else {
        let before = i64::from(read(job, hv) as i32);
        let more = random.near(r) - h;
        let sign = if before < 0 { -1 } else { 1 };
        put(job, hv, before + sign * more, -(LIMIT as i64), LIMIT);
    }
}

fn rows_of(job: &[u8]) -> Vec<[i64; ROW]> {
    let mut words = vec![0; size(job).expect("an accepted job") * ROW];
    run(job, &mut words).expect("an accepted job and enough words");
    words.as_chunks().0.to_vec()
}

/// By a row, which may be the second of its command.
fn set_strength(random: &mut Random, job: &mut [u8], row: &[i64; ROW], second: bool) {
    // A storey's row has the offset of its set where it is one of a block. ME of a set is below 7 in its first byte.
    let alone = job[row[0] as usize] == row[1] as u8;
    let at = row[0] as usize + usize::from(alone);
    let side = if random.one_in(2) { row[2] } else { -row[3] };
    match row[1] {
        3 => put(job, at + 24, random.near(row[2]), 0, LIMIT),
        4 => put(job, at + 28, random.near(side), 0, LIMIT),
        5 => put(job, at + 18, random.near(side), 0, LIMIT),
        6 => put(job, at + 20, random.near(row[2]), 0, LIMIT),
        7 => {
            put(job, at + 16, random.near(row[2]), 0, LIMIT);
            put(job, at + 20, random.near(row[4]), 0, LIMIT);
        }
        9 => {
            let parts = 2 + random.below(3) as i64;
            put(job, at, random.near(parts * row[3]), 500, 20_000);
            put(job, at + 4, random.near(parts * row[4]), 500, 20_000);
        }
        12 => {
            let strength = if second { at + 22 } else { at + 18 };
            put(job, strength, random.near(side), 0, LIMIT);
        }
        _ => {
            let mu = i64::from(u16::from_be_bytes([job[at + 5], job[at + 6]]));
            let xu = (row[3] / mu + random.below(3) as i64 - 1).clamp(0, 1000);
            job[at + 1..at + 3].copy_from_slice(&(xu as u16).to_be_bytes());
        }
    }
}

fn read(job: &[u8], at: usize) -> u32 {
    u32::from_be_bytes([job[at], job[at + 1], job[at + 2], job[at + 3]])
}

/// Puts an operand of four bytes where it is in range.
fn put(job: &mut [u8], at: usize, value: i64, least: i64, most: u64) {
    if (least..=most as i64).contains(&value) {
        job[at..at + 4].copy_from_slice(&(value as u32).to_be_bytes());
    }
}

/// Whether some joint of an accepted job is revised between members: a member without hinges names it, then it is given again with
/// other sums, then a member names it, all in one building.
pub fn revised_between_members(job: &[u8]) -> bool {
    let mut sums = vec![Vec::new(); 256];
    let [mut named, mut revised] = [[false; 256]; 2];
    for command in split(job) {
        match command[0] {
            BUILDING => [named, revised] = [[false; 256]; 2],
            2 => {
                let id = usize::from(command[1]);
                revised[id] |= named[id] && sums[id] != command[2..];
                sums[id] = command[2..].to_vec();
            }
            5 => {
                for id in [command[5], command[6]].map(usize::from) {
                    if revised[id] {
                        return true;
                    }
                    named[id] = true;
                }
            }
            _ => (),
        }
    }
    false
}

// Jobs that should be refused, mostly.

/// An accepted job with operands out of range or a broken relation in one command; each kind of command that the job has is as
/// likely as another.
pub fn out_of_range(random: &mut Random, job: &[u8]) -> Vec<u8> {
    let mut commands = split(job);
    let present: Vec<u8> = (1..=BASEMENT)
        .filter(|&code| commands.iter().any(|command| command[0] == code))
        .collect();
    let code = present[random.below(present.len() as u64) as usize];
    let mut alike: Vec<&mut Vec<u8>> = commands
        .iter_mut()
        .filter(|command| command[0] == code)
        .collect();
    let place = random.below(alike.len() as u64) as usize;
    faults::put(random, alike[place]);
    commands.concat()
}

/// An accepted job with one to three damages: bytes changed, a cut, bytes appended, commands swapped, repeated or
/// left out.
pub fn damaged(random: &mut Random, job: &[u8]) -> Vec<u8> {
    let mut job = job.to_vec();
    for _ in 0..=random.below(3) {
        damage(random, &mut job);
    }
    job
}

fn damage(random: &mut Random, job: &mut Vec<u8>) {
    let length = job.len() as u64;
    if length == 0 {
        return job.push(random.next() as u8);
    }
    let place = random.below(length) as usize;
    match random.below(9) {
        0 => job[place] ^= 1 << random.below(8),
        1 => job[place] = random.next() as u8,
        2 => job[place] = [0x00, 0x01, 0x7F, 0x80, 0xFF][random.below(5) as usize],
        3 => job.truncate(place),
        4 => (0..=random.below(9)).for_each(|_| job.push(random.next() as u8)),
        _ => rearrange(random, job),
    }
}

/// Changes a command's byte, or swaps, repeats or leaves out commands.
fn rearrange(random: &mut Random, job: &mut Vec<u8>) {
    let mut commands = split(job);
    let count = commands.len() as u64;
    let [one, other] = [(); 2].map(|()| random.below(count) as usize);
    match random.below(4) {
        0 => commands.swap(one, other),
        1 => commands.insert(other, commands[one].clone()),
        2 => drop(commands.remove(one)),
        _ => commands[one][0] = random.below(15) as u8,
    }
    *job = commands.concat();
}

/// The commands of a job that is not empty; whatever no longer reads as a command stays in one piece.
pub fn split(job: &[u8]) -> Vec<Vec<u8>> {
    let mut commands = Vec::new();
    let mut rest = job;
    while !rest.is_empty() {
        let (command, others) = rest.split_at(length(rest).min(rest.len()));
        commands.push(command.to_vec());
        rest = others;
    }
    commands
}

/// Bytes of the command that a job begins with, were it whole.
fn length(job: &[u8]) -> usize {
    let sets = match job {
        [BLOCK, count, ..] => usize::from(*count),
        _ => 0,
    };
    let width = WIDTHS.get(usize::from(job[0])).copied();
    width.map_or(job.len(), |width| width + SET * sets)
}

/// How many commands a command counts as towards the limit; the end as none.
pub fn weight(command: &[u8]) -> usize {
    match command {
        [0, ..] => 0,
        [BLOCK, count, ..] => usize::from(*count),
        _ => 1,
    }
}

/// Random bytes.
pub fn noise(random: &mut Random, length: usize) -> Vec<u8> {
    (0..length).map(|_| random.next() as u8).collect()
}

/// Commands of random bytes after settings in range, then end; a block has its count.
pub fn random_operands(random: &mut Random, commands: usize) -> Vec<u8> {
    let mut job = Writer::begin(random, commands).job;
    for _ in 1..commands {
        let code = 2 + random.below(11) as u8;
        let mut start = vec![code];
        if code == BLOCK {
            start.push(random.between(1, 4) as u8);
        }
        let operands = length(&start) - start.len();
        job.extend([start, noise(random, operands)].concat());
    }
    job.push(0);
    job
}

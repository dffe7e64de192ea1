//! Files of several buildings (02, No. 10): accepted ones, whose buildings use the same joint ids and may be settings alone; and ones with
//! a building that mostly is at fault: as the first command, as a 17th, without settings, with members that ask for what the one before
//! has, and where the commands come to their limit.
//! Assumes nothing.

use super::blocks::count;
use super::faults::{count_out_of_range, one_of, put};
use super::values::Random;
use super::{noise, Mix, Writer, BASEMENT, BLOCK, BUILDING, MOST_BUILDINGS, MOST_COMMANDS, STOREY};

/// How often each of the commands 02 to 0C is drawn: mostly what members ask for; and members that ask for nothing.
const GIVEN: Mix = Mix([4, 1, 0, 1, 3, 1, 3, 1, 1, 0, 1]);
const OTHERS: Mix = Mix([0, 1, 1, 0, 0, 0, 0, 0, 1, 0, 0]);

impl<'r> Writer<'r> {
    /// So many buildings, of which so many commands are left beside their settings and what begins them; without the end.
    fn buildings(random: &'r mut Random, count: usize, others: usize, mix: &Mix) -> Writer<'r> {
        let mut shares = shares(random, count, others).into_iter();
        let first = shares.next().expect("a building");
        let mut writer = Writer::begin(random, 1 + first);
        writer.fill(mix);
        for share in shares {
            writer.building();
            writer.left = share;
            writer.fill(mix);
        }
        writer
    }

    /// Begins another building, with its settings: nothing is given.
    fn building(&mut self) {
        self.job.push(BUILDING);
        self.values.draw_factors();
        self.settings();
        self.before = std::mem::take(&mut self.joints);
        [self.wall, self.soil] = [false; 2];
    }
}

/// Shares of a number, often 0.
fn shares(random: &mut Random, count: usize, number: usize) -> Vec<usize> {
    let mut ends: Vec<usize> = (1..count)
        .map(|_| random.below(number as u64 + 1) as usize)
        .collect();
    if count > 2 && random.one_in(4) {
        ends[0] = 0;
        ends[1] = number;
    }
    ends.push(number);
    ends.sort_unstable();
    let mut before = 0;
    ends.into_iter()
        .map(|end| end - std::mem::replace(&mut before, end))
        .collect()
}

/// An accepted job of `commands` commands from 1 to 4,096, what begins a building and settings counted, end not; of one building to
/// sixteen, as far as there are commands for their settings.
pub fn campus(random: &mut Random, commands: usize, mix: &Mix) -> Vec<u8> {
    let wanted = match random.below(8) {
        0 | 1 => 2,
        2 => MOST_BUILDINGS - 1,
        3 => MOST_BUILDINGS,
        4 => random.between(1, MOST_BUILDINGS as u64) as usize,
        _ => random.between(2, 5) as usize,
    };
    let count = wanted.min(commands.div_ceil(2));
    let others = commands + 1 - 2 * count;
    let mut job = Writer::buildings(random, count, others, mix).job;
    job.push(0);
    job
}

/// The commands behind the last that begins a building, or all.
pub fn last_building(commands: &[Vec<u8>]) -> &[Vec<u8>] {
    let mut parts = commands.rsplit(|command| command[0] == BUILDING);
    parts.next().expect("a part")
}

// Buildings at fault.

/// So many buildings with a few commands each, without the end.
fn open(random: &mut Random, count: usize) -> Vec<u8> {
    let others = random.below(3 * count as u64 + 6) as usize;
    Writer::buildings(random, count, others, &GIVEN).job
}

/// The commands of a building, one time in four behind another.
pub fn at_times_behind_another(random: &mut Random, commands: Vec<u8>) -> Vec<u8> {
    if random.one_in(4) {
        [open(random, 1), vec![BUILDING], commands].concat()
    } else {
        commands
    }
}

/// A job with a building that mostly is at fault.
pub fn building_at_fault(random: &mut Random) -> Vec<u8> {
    match random.below(8) {
        0 => too_many(random),
        1 => [vec![BUILDING], begun(random)].concat(),
        2..=4 => asks_for_another(random),
        _ => {
            let count = one_of(random, 1, MOST_BUILDINGS as u64 - 1) as usize;
            let before = open(random, count);
            [before, vec![BUILDING], begun(random)].concat()
        }
    }
}

/// A 17th building, behind the 16th or where its settings should be.
fn too_many(random: &mut Random) -> Vec<u8> {
    let before = if random.one_in(2) {
        open(random, MOST_BUILDINGS)
    } else {
        [open(random, MOST_BUILDINGS - 1), vec![BUILDING]].concat()
    };
    [before, vec![BUILDING], begun(random)].concat()
}

/// What stands behind the command that begins a building: settings in range and others, nothing, the end, an unknown command, another
/// building, any other command, whole and cut; and the rest of a job.
fn begun(random: &mut Random) -> Vec<u8> {
    let mut bytes = match random.below(12) {
        0 => return vec![],
        1 => return vec![0],
        2 => {
            let length = random.between(1, 4) as usize;
            return [vec![0], noise(random, length)].concat();
        }
        3 => vec![one_of(random, u64::from(BUILDING) + 1, 255) as u8],
        4 => vec![BUILDING],
        5 | 6 => drawn(random, 1),
        7 => drawn(random, BASEMENT),
        8 => block(random),
        _ => {
            let code = 2 + random.below(11) as u8;
            drawn(random, code)
        }
    };
    if bytes.len() > 1 && random.one_in(6) {
        let length = one_of(random, 1, bytes.len() as u64 - 1) as usize;
        bytes.truncate(length);
        return bytes;
    }
    if random.one_in(2) {
        bytes.extend(open(random, 1));
    }
    bytes.push(0);
    bytes
}

/// A command that asks for nothing, or as if all of it were given; half of them with faults.
fn drawn(random: &mut Random, code: u8) -> Vec<u8> {
    let mut writer = Writer::begin(random, 2);
    if code != 1 {
        writer.job.clear();
        writer.joints = vec![0];
        [writer.wall, writer.soil] = [true; 2];
        writer.command(code);
    }
    let mut command = writer.job;
    if random.one_in(2) {
        put(random, &mut command);
    }
    command
}

/// A block of any count, which one time in four is out of range.
fn block(random: &mut Random) -> Vec<u8> {
    let mut writer = Writer::begin(random, 1);
    writer.job = vec![BLOCK];
    let count = count(writer.values.random).min(8);
    writer.block(count);
    let mut block = writer.job;
    match random.below(4) {
        0 => block[1] = count_out_of_range(random),
        1 => put(random, &mut block),
        _ => (),
    }
    block
}

/// Behind one to fifteen buildings another one, in which a command asks for a joint, a wall or a soil that the building before may have.
fn asks_for_another(random: &mut Random) -> Vec<u8> {
    let count = one_of(random, 1, MOST_BUILDINGS as u64 - 1) as usize;
    let others = random.below(4 * count as u64 + 6) as usize;
    let mut writer = Writer::buildings(random, count, others, &GIVEN);
    let given = [writer.wall, writer.soil];
    writer.building();
    writer.left = writer.values.random.below(4) as usize;
    let mix = if writer.values.random.one_in(2) {
        OTHERS
    } else {
        GIVEN
    };
    writer.fill(&mix);
    writer.joints = if writer.before.is_empty() {
        vec![7]
    } else {
        writer.before.clone()
    };
    let code = match given {
        [true, _] if writer.values.random.one_in(2) => [STOREY, BLOCK][writer.job.len() % 2],
        [_, true] if writer.values.random.one_in(2) => 9,
        _ => [5, BASEMENT][writer.job.len() % 2],
    };
    [writer.wall, writer.soil] = [true; 2];
    writer.left = 8;
    writer.command(code);
    writer.job.push(0);
    writer.job
}

/// A job in which a building begins as one of the last commands that there may be, or as the next one; with fewer buildings than there may
/// be, or as a 17th, or where settings should be.
pub fn building_at_limit(random: &mut Random) -> Vec<u8> {
    let so_far = MOST_COMMANDS - [0, 0, 1, 1, 1, 1, 2, 3][random.below(8) as usize];
    let twice = random.one_in(3);
    let most = MOST_BUILDINGS - usize::from(twice);
    let count = one_of(random, 1, most as u64) as usize;
    let code = [8, 8, 6, STOREY, BASEMENT, BLOCK][random.below(6) as usize];
    let others = so_far + 1 - 2 * count - usize::from(twice);
    let mut job = Writer::buildings(random, count, others, &Mix::only(code)).job;
    if twice {
        job.push(BUILDING);
    }
    if random.one_in(4) {
        return [job, begun(random)].concat();
    }
    let behind = match random.below(4) {
        0 => [drawn(random, 1), vec![0]].concat(),
        1 => [drawn(random, BASEMENT), vec![0]].concat(),
        _ => begun(random),
    };
    [job, vec![BUILDING], behind].concat()
}

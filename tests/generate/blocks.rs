//! Jobs that end with a block of storeys (02, No. 7), whole and cut, in range and not: before the settings, without a wall base, after
//! one, in a building behind another, and where the commands come to their limit.
//! Assumes nothing.

use super::buildings::at_times_behind_another;
use super::faults::{count_out_of_range, put};
use super::values::Random;
use super::{valid, Mix, Writer, BLOCK, BUILDING, MOST_COMMANDS, MOST_SETS, SET};

/// How often each of the commands 02 to 0C is drawn: without walls, and mostly walls.
const NO_WALLS: Mix = Mix([2, 1, 1, 2, 0, 0, 1, 2, 1, 0, 1]);
const WALLS: Mix = Mix([1, 1, 1, 1, 3, 3, 1, 1, 1, 1, 1]);

/// The count of a block, often at the ends of its range.
pub fn count(random: &mut Random) -> usize {
    match random.below(8) {
        0 | 1 => 1,
        2 => 2,
        3 => MOST_SETS - 1,
        4 => MOST_SETS,
        5 => random.between(1, MOST_SETS as u64) as usize,
        _ => random.between(2, 8) as usize,
    }
}

/// A job with a block that mostly is at fault: as the first command of a building, without a wall base, or after one.
pub fn block_at_fault(random: &mut Random) -> Vec<u8> {
    let count = count(random);
    let before = match random.below(6) {
        0 => vec![],
        1 => commands(random, 1, 10, &NO_WALLS),
        2 => commands(random, 2, 90, &WALLS),
        _ => commands(random, 2, 10, &WALLS),
    };
    let before = at_times_behind_another(random, before);
    with_block(random, before, count)
}

/// A job in which a block fills the 4,096 commands, passes them by one or by more, or comes when they are full; with a wall base or
/// without, or where the settings of another building should be.
pub fn block_at_limit(random: &mut Random) -> Vec<u8> {
    let count = count(random);
    let so_far = MOST_COMMANDS
        - match random.below(6) {
            0 | 1 => count,
            2 | 3 => count - 1,
            4 => random.below(count as u64) as usize,
            _ => 0,
        };
    let code = [8, 8, 6, 7, BLOCK, BLOCK][random.below(6) as usize];
    let begun = random.one_in(6);
    let others = so_far - usize::from(begun);
    let mut before = commands(random, others, others, &Mix::only(code));
    if begun {
        before.push(BUILDING);
    }
    with_block(random, before, count)
}

/// The commands of a job, as many as lie between two numbers, without its end.
pub fn commands(random: &mut Random, least: usize, most: usize, mix: &Mix) -> Vec<u8> {
    let count = random.between(least as u64, most as u64) as usize;
    let mut job = valid(random, count, mix);
    job.pop();
    job
}

/// Appends a block of so many sets, whole and in range or with faults; where it is not cut, at times a few commands, and the end.
fn with_block(random: &mut Random, mut job: Vec<u8>, count: usize) -> Vec<u8> {
    let mut block = drawn(random, count);
    if random.one_in(2) {
        put(random, &mut block);
    }
    let cut = match random.below(12) {
        0 => 1,
        1 => block.len() - 1,
        2 => block.len() - SET,
        3 => 2 + random.below((SET * count) as u64) as usize,
        _ => block.len(),
    };
    match random.below(12) {
        0 => block[1] = count_out_of_range(random),
        // A set more than there are.
        1 => block[1] = block[1].wrapping_add(1),
        // All of them are there, but they are too many.
        2 if cut == block.len() => {
            let many = random.between(MOST_SETS as u64 + 1, 255) as usize;
            return [job, drawn(random, many), vec![0]].concat();
        }
        _ => (),
    }
    job.extend(&block[..cut]);
    if cut == block.len() {
        if random.one_in(4) {
            job.extend(&commands(random, 2, 6, &WALLS)[7..]);
        }
        job.push(0);
    }
    job
}

/// A block in range of so many sets, which may be more than it may have.
fn drawn(random: &mut Random, count: usize) -> Vec<u8> {
    let mut writer = Writer::begin(random, 1);
    writer.job = vec![BLOCK];
    writer.block(count);
    writer.job
}

//! Random commands by their values: in range and often at its ends, with values out of range, wider than the file has room for, or
//! any that the members of the header's structs can have; blocks by their counts and words.
//! Assumes nothing; a soil value is given by its 32 bits.

use super::blocks::count;
use super::faults::{count_out_of_range, one_of, operands, Operand};
use super::values::{Random, LIMIT};
use super::{BASEMENT, MOST_SETS, STOREY};
use crate::reference::Command;
use Operand::{Id, Signed, SoilValue, Unsigned};

/// Bits of soil values around which something changes: zero, the least normal number, 0.7, the two tops, infinity, −0.0, −infinity.
const TURNS: [u32; 8] = [
    0,
    0x0080_0000,
    0x3F33_3333,
    0x4000_0000,
    0x447A_0000,
    0x7F80_0000,
    0x8000_0000,
    0xFF80_0000,
];

/// The count of a block and the words of its sets: mostly as many as the count asks for and in range; at times fewer or more words, a
/// count out of range with enough words for it or not, sets out of range.
pub fn block(random: &mut Random) -> (u32, Vec<u32>) {
    let mut count = count(random) as u32;
    let mut words = Vec::new();
    let bad = random.below(6 * u64::from(count)) as u32;
    for set in 0..count {
        let at_fault = bad == set;
        let storey = std::iter::repeat_with(|| command(random, STOREY))
            .find(|storey| storey.at_fault().is_some() == at_fault);
        let values = storey.expect("a storey").values;
        words.extend(values.into_iter().map(|value| value as u32));
    }
    match random.below(16) {
        0 => words.truncate(words.len() - 1),
        1 => words.truncate(random.below(words.len() as u64) as usize),
        2 => words.push(random.next() as u32),
        3 => words.extend((0..random.below(400)).map(|_| random.next() as u32)),
        4 => count = u32::from(count_out_of_range(random)),
        5 => count = random.next() as u32,
        // What is left of it when it is cut to its byte is in range.
        6 => count += 256 * random.between(1, 4) as u32,
        _ => (),
    }
    if count > MOST_SETS as u32 && random.one_in(2) {
        words = words.into_iter().cycle().take(6 * 1280).collect();
    }
    (count, words)
}

/// A command of the byte `code`, 00 to 0D, not a block. At least half of them are in range.
pub fn command(random: &mut Random, code: u8) -> Command {
    let operands = operands(code);
    let mut values = in_range(random, code, &operands);
    match random.below(10) {
        0..=4 => (),
        5 => some_out_of_range(random, &operands, &mut values, 1),
        6 => {
            let count = random.between(1, 15) as usize;
            some_out_of_range(random, &operands, &mut values, count);
        }
        7 => one_too_wide(random, &operands, &mut values),
        8 => break_relation(random, code, &mut values),
        _ => values = any(random, &operands),
    }
    Command { code, values }
}

fn in_range(random: &mut Random, code: u8, operands: &[Operand]) -> Vec<i64> {
    let mut values: Vec<i64> = operands.iter().map(|one| within(random, *one)).collect();
    match &mut values[..] {
        [_, _, j, j0, ..] if code == 7 && *j > *j0 => std::mem::swap(j, j0),
        [kind, value, _] if code == 8 => *value = allowed(random, *kind),
        [1, id, ..] if code == BASEMENT => *id = 0,
        _ => (),
    }
    values
}

/// A number in an operand's own range.
fn within(random: &mut Random, operand: Operand) -> i64 {
    match operand {
        Id => one_of(random, 0, 255) as i64,
        Unsigned(_, least, most) => one_of(random, least, most) as i64,
        Signed => one_of(random, 0, 2 * LIMIT) as i64 - LIMIT as i64,
        SoilValue => 0,
    }
}

/// A soil value that its kind allows, of any order of size.
fn allowed(random: &mut Random, kind: i64) -> i64 {
    let top = [2.0f32, 1000.0][kind as usize];
    let bits = u64::from(top.to_bits());
    match random.below(4) {
        0 => one_of(random, 1, 0x7F_FFFF) as i64,
        1 => i64::from((random.below(1 << 24) as f32 / (1 << 24) as f32 * top).to_bits()),
        _ => one_of(random, 0, bits) as i64,
    }
}

/// Puts numbers out of range in place of so many values, or of all. A soil value has no range of its own: it becomes one of those
/// around which something changes.
fn some_out_of_range(random: &mut Random, operands: &[Operand], values: &mut [i64], count: usize) {
    let mut places: Vec<usize> = (0..values.len()).collect();
    for _ in 0..count.min(places.len()) {
        let place = places.swap_remove(random.below(places.len() as u64) as usize);
        values[place] = match operands[place] {
            Id => one_of(random, 256, u64::from(u32::MAX)) as i64,
            SoilValue => i64::from(near_a_turn(random)),
            Signed => i64::from(Signed.out_of_range(random) as i32),
            ranged => i64::from(ranged.out_of_range(random)),
        };
    }
}

/// Makes one value too wide for the file, so that what is left of it when it is cut is in range; where an operand is narrower than
/// four bytes.
fn one_too_wide(random: &mut Random, operands: &[Operand], values: &mut [i64]) {
    let narrow: Vec<usize> = (0..values.len())
        .filter(|&place| operands[place].width() < 4)
        .collect();
    if !narrow.is_empty() {
        let place = narrow[random.below(narrow.len() as u64) as usize];
        let bits = 8 * operands[place].width();
        values[place] += (one_of(random, 1, (1 << (32 - bits)) - 1) << bits) as i64;
    }
}

/// Puts J above J0 in a storey, any bits as the value of a soil, or a basement member with an id at a wall.
fn break_relation(random: &mut Random, code: u8, values: &mut [i64]) {
    match values {
        [_, _, j, j0, ..] if code == 7 => {
            let order = random.below(32);
            *j0 = random.between(1, u64::from(u32::MAX - 1) >> order) as i64;
            *j = one_of(random, *j0 as u64 + 1, u64::from(u32::MAX)) as i64;
        }
        [_, value, _] if code == 8 => {
            *value = i64::from(if random.one_in(2) {
                random.next() as u32
            } else {
                near_a_turn(random)
            })
        }
        [place, id, ..] if code == BASEMENT => {
            *place = 1;
            *id = one_of(random, 1, 255) as i64;
        }
        _ => (),
    }
}

/// One of the turns, or within 2 of it.
fn near_a_turn(random: &mut Random) -> u32 {
    let turn = TURNS[random.below(8) as usize];
    if random.one_in(2) {
        turn
    } else {
        turn.wrapping_add(random.below(5) as u32).wrapping_sub(2)
    }
}

/// Any values that the members of a struct can have.
fn any(random: &mut Random, operands: &[Operand]) -> Vec<i64> {
    let number = |operand: &Operand| match operand {
        Signed => i64::from(random.next() as i32),
        _ => i64::from(random.next() as u32),
    };
    operands.iter().map(number).collect()
}

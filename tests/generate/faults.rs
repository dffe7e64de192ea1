//! Operands out of range, singly and in twos, and broken relations between operands, in commands that were in range.
//! Assumes of a command that its bytes are whole.

use super::values::{Random, LIMIT};
use super::{BASEMENT, BLOCK, MOST_SETS, SET, STOREY};

/// An operand of so many bytes with the least and the greatest number in range. An id has no other numbers, a soil value depends
/// on its kind.
#[derive(Clone, Copy)]
pub enum Operand {
    Id,
    SoilValue,
    Unsigned(usize, u64, u64),
    Signed,
}

use Operand::{Id, Signed, SoilValue, Unsigned};

const AMOUNT: Operand = Unsigned(4, 0, LIMIT);
const LENGTH: Operand = Unsigned(4, 500, 100_000);
const SECTION: Operand = Unsigned(4, 100, 10_000);
const SIDE: Operand = Unsigned(4, 500, 20_000);
const INERTIA: Operand = Unsigned(4, 1, u32::MAX as u64);
const OVERSTRENGTH: Operand = Unsigned(2, 100, 200);
const DEPTH: Operand = Unsigned(2, 0, 1000);
const YES_NO: Operand = Unsigned(1, 0, 1);

/// The operands of a command in the order of the file.
pub fn operands(code: u8) -> Vec<Operand> {
    match code {
        1 => vec![Unsigned(2, 100, 400), OVERSTRENGTH, OVERSTRENGTH],
        2 => [vec![Id], vec![AMOUNT; 3]].concat(),
        3 => [vec![LENGTH], vec![AMOUNT; 6]].concat(),
        4 => [vec![LENGTH], vec![AMOUNT; 4], vec![Signed, AMOUNT, AMOUNT]].concat(),
        5 => vec![LENGTH, Id, Id, AMOUNT, AMOUNT, Signed, AMOUNT],
        6 => [vec![SECTION; 2], vec![AMOUNT; 4]].concat(),
        7 => vec![AMOUNT, AMOUNT, INERTIA, INERTIA, AMOUNT, AMOUNT],
        8 => vec![YES_NO, SoilValue, YES_NO],
        9 => [
            vec![SIDE, SIDE, AMOUNT, AMOUNT],
            vec![Signed; 8],
            vec![AMOUNT, AMOUNT, Unsigned(1, 0, 7)],
        ]
        .concat(),
        10 => vec![
            Unsigned(1, 0, 2),
            DEPTH,
            DEPTH,
            Unsigned(2, 1000, 2000),
            YES_NO,
        ],
        BASEMENT => vec![YES_NO, Id, Signed, AMOUNT, Signed, AMOUNT, AMOUNT, AMOUNT],
        _ => Vec::new(),
    }
}

impl Operand {
    pub fn width(self) -> usize {
        match self {
            Id => 1,
            Unsigned(width, ..) => width,
            SoilValue | Signed => 4,
        }
    }

    fn has_range(self) -> bool {
        matches!(self, Unsigned(..) | Signed)
    }

    /// A number out of range, often just out of it or at the end of the width.
    pub fn out_of_range(self, random: &mut Random) -> u32 {
        match self {
            Id | SoilValue => unreachable!("an operand without a range of its own"),
            Unsigned(width, least, most) => {
                let end = (1 << (8 * width)) - 1;
                let below = least > 0 && (most == end || random.one_in(2));
                let [first, last] = if below {
                    [0, least - 1]
                } else {
                    [most + 1, end]
                };
                one_of(random, first, last) as u32
            }
            Signed => {
                let size = one_of(random, LIMIT + 1, 1 << 31) as u32;
                if size == 1 << 31 || random.one_in(2) {
                    size.wrapping_neg()
                } else {
                    size
                }
            }
        }
    }
}

/// The first, the last or another number of a range.
pub fn one_of(random: &mut Random, first: u64, last: u64) -> u64 {
    match random.below(4) {
        0 => first,
        1 => last,
        _ => random.between(first, last),
    }
}

/// Puts faults into a command in range: one operand or two out of range, or the relation broken, alone or with an operand out of
/// range; in a footing often the flags alone, in a basement member the place; in a block in one set or two, now and then in the count. A
/// command without operands stays.
pub fn put(random: &mut Random, command: &mut [u8]) {
    if command[0] == BLOCK {
        return put_in_block(random, command);
    }
    let operands = operands(command[0]);
    let mut ranged: Vec<usize> = (0..operands.len())
        .filter(|&place| operands[place].has_range())
        .collect();
    match command[0] {
        9 if random.one_in(4) => ranged = vec![operands.len() - 1],
        BASEMENT if random.one_in(4) => ranged = vec![0],
        _ => (),
    }
    let related = matches!(command[0], STOREY | 8 | BASEMENT) && random.one_in(2);
    if related {
        break_relation(random, command);
        // Another number there could mend the relation.
        ranged.retain(|&place| !matches!((command[0], place), (STOREY, 2 | 3) | (BASEMENT, 0)));
    }
    let count = random.below(2) as usize + usize::from(!related);
    for _ in 0..count.min(ranged.len()) {
        let place = ranged.swap_remove(random.below(ranged.len() as u64) as usize);
        let width = operands[place].width();
        let at = 1 + operands[..place]
            .iter()
            .map(|one| one.width())
            .sum::<usize>();
        let number = operands[place].out_of_range(random);
        command[at..at + width].copy_from_slice(&number.to_be_bytes()[4 - width..]);
    }
}

/// Puts faults into the first, the last or another set of a block, here and there into two; or a count out of range.
fn put_in_block(random: &mut Random, block: &mut [u8]) {
    if random.one_in(8) {
        block[1] = count_out_of_range(random);
        return;
    }
    let sets = block[2..].as_chunks_mut::<SET>().0;
    for _ in 0..=random.below(8) / 7 {
        let place = one_of(random, 0, sets.len() as u64 - 1) as usize;
        let mut storey = [&[STOREY][..], &sets[place]].concat();
        put(random, &mut storey);
        sets[place].copy_from_slice(&storey[1..]);
    }
}

/// 0 or above 64.
pub fn count_out_of_range(random: &mut Random) -> u8 {
    if random.one_in(3) {
        0
    } else {
        one_of(random, MOST_SETS as u64 + 1, 255) as u8
    }
}

/// Puts J above J0 in a storey, a value that its kind does not allow in a soil, or an id at a wall in a basement member.
fn break_relation(random: &mut Random, command: &mut [u8]) {
    match command[0] {
        STOREY => {
            let order = random.below(32);
            let j0 = random.between(1, u64::from(u32::MAX - 1) >> order);
            let j = one_of(random, j0 + 1, u64::from(u32::MAX)) as u32;
            command[9..13].copy_from_slice(&j.to_be_bytes());
            command[13..17].copy_from_slice(&(j0 as u32).to_be_bytes());
        }
        BASEMENT => {
            command[1] = 1;
            command[2] = one_of(random, 1, 255) as u8;
        }
        _ => {
            let value = not_allowed(random, command[1]);
            command[2..6].copy_from_slice(&value.to_be_bytes());
        }
    }
}

/// The bits of a soil value that its kind does not allow.
fn not_allowed(random: &mut Random, kind: u8) -> u32 {
    let top = [2.0f32, 1000.0][usize::from(kind)].to_bits();
    let infinity = f32::INFINITY.to_bits();
    let [first, last] = match random.below(4) {
        0 => [top + 1, infinity - 1],
        1 => [infinity, i32::MAX as u32],
        2 => [1 << 31, u32::MAX],
        // A granular soil with a value for a cohesive one.
        _ => [top + 1, 1000f32.to_bits().max(top + 1)],
    };
    one_of(random, u64::from(first), u64::from(last)) as u32
}

//! Requests No. 2, 7, 9 and 10 of document 02: one command written from its values; and the commands that bytes hold, by their values.
//! Assumes that a command to be written is one of 00 to 0D and has as many values as the documents give it operands; after a count out
//! of range a block may have any.

#![allow(dead_code)]

use super::*;

/// A command's byte and its values in the order of the file; a soil value is given by its 32 bits. A block has its count, then its sets.
#[derive(Clone, Debug, PartialEq, Eq)]
pub struct Command {
    pub code: u8,
    pub values: Vec<i64>,
}

/// What a write answers: the refusal or 0, the offset, the bytes written.
#[derive(Clone, Copy, Debug, Default, PartialEq, Eq)]
pub struct Written {
    pub number: u32,
    pub offset: usize,
    pub bytes: usize,
}

/// An operand: its bytes, and the least and the greatest number in range.
type Operand = (usize, i64, i64);

const LIMIT: i64 = 100_000_000;
const AMOUNT: Operand = (4, 0, LIMIT);
const SIGNED: Operand = (4, -LIMIT, LIMIT);
const LENGTH: Operand = (4, 500, 100_000);
const SECTION: Operand = (4, 100, 10_000);
const SIDE: Operand = (4, 500, 20_000);
const INERTIA: Operand = (4, 1, u32::MAX as i64);
const OVERSTRENGTH: Operand = (2, 100, 200);
const DEPTH: Operand = (2, 0, 1000);
const ID: Operand = (1, 0, 255);
const YES_NO: Operand = (1, 0, 1);
/// Of the nearest hinge: a joint or the latest wall.
const PLACE: Operand = (1, 0, 1);
/// Of the sets of a block.
const COUNT: Operand = (1, 1, 64);
/// By its bits; which of them are in range is told by the soil's kind.
const SOIL_VALUE: Operand = (4, 0, u32::MAX as i64);

/// The operands of a command other than a block in the order of the file.
pub fn layout(code: u8) -> Vec<Operand> {
    match code {
        END | BUILDING => vec![],
        SETTINGS => vec![(2, 100, 400), OVERSTRENGTH, OVERSTRENGTH],
        JOINT => vec![ID, AMOUNT, AMOUNT, AMOUNT],
        COLUMN => [vec![LENGTH], vec![AMOUNT; 6]].concat(),
        BEAM => [vec![LENGTH], vec![AMOUNT; 4], vec![SIGNED, AMOUNT, AMOUNT]].concat(),
        NO_HINGES => vec![LENGTH, ID, ID, AMOUNT, AMOUNT, SIGNED, AMOUNT],
        WALL_BASE => [vec![SECTION; 2], vec![AMOUNT; 4]].concat(),
        STOREY => vec![AMOUNT, AMOUNT, INERTIA, INERTIA, AMOUNT, AMOUNT],
        SOIL => vec![YES_NO, SOIL_VALUE, YES_NO],
        FOOTING => [
            vec![SIDE, SIDE, AMOUNT, AMOUNT],
            vec![SIGNED; 8],
            vec![AMOUNT, AMOUNT, (1, 0, 7)],
        ]
        .concat(),
        DETAIL => vec![(1, 0, 2), DEPTH, DEPTH, (2, 1000, 2000), YES_NO],
        BASEMENT => vec![PLACE, ID, SIGNED, AMOUNT, SIGNED, AMOUNT, AMOUNT, AMOUNT],
        _ => unreachable!("a command of 00 to 0D, not a block"),
    }
}

impl Command {
    /// The place of the value at fault. In a block it is the count, or that of the first set at fault.
    pub fn at_fault(&self) -> Option<usize> {
        if self.code != BLOCK {
            return values_at_fault(self.code, &self.values);
        }
        let [count, sets @ ..] = &self.values[..] else {
            unreachable!("a block has a count");
        };
        if !blocks::COUNTS.contains(&(*count as usize)) {
            return Some(0);
        }
        assert_eq!(sets.len(), blocks::OPERANDS * *count as usize, "six a set");
        let mut sets = sets.chunks(blocks::OPERANDS).enumerate();
        sets.find_map(|(i, set)| Some(1 + blocks::OPERANDS * i + values_at_fault(STOREY, set)?))
    }

    /// The operands in the order of the file; of a block in range.
    fn layout(&self) -> Vec<Operand> {
        match self.code {
            BLOCK => [vec![COUNT], layout(STOREY).repeat(self.values[0] as usize)].concat(),
            code => layout(code),
        }
    }

    /// The bytes of the command in a file, its own byte counted.
    fn length(&self) -> usize {
        let widths = self.layout().into_iter().map(|(width, ..)| width);
        1 + widths.sum::<usize>()
    }

    /// The command's byte, then each value big-endian in its width; of a command in range.
    fn bytes(&self) -> Vec<u8> {
        let mut bytes = vec![self.code];
        for (value, (width, ..)) in self.values.iter().zip(self.layout()) {
            bytes.extend(&value.to_be_bytes()[8 - width..]);
        }
        bytes
    }
}

/// The first value out of range; where each is within its own, J of a storey whose J is above J0, the value of a soil that its kind
/// does not allow, or the id of a basement member at a wall that is not 0.
fn values_at_fault(code: u8, values: &[i64]) -> Option<usize> {
    let layout = layout(code);
    assert_eq!(values.len(), layout.len(), "a value an operand");
    let mut pairs = values.iter().zip(layout);
    let outside = pairs.position(|(value, (_, least, most))| *value < least || most < *value);
    outside.or(match (code, values) {
        (STOREY, [_, _, j, j0, ..]) if j > j0 => Some(2),
        (SOIL, &[kind, bits, _]) if soil_at_fault(kind, bits) => Some(1),
        (BASEMENT, [1, id, ..]) if *id != 0 => Some(1),
        _ => None,
    })
}

fn soil_at_fault(kind: i64, bits: i64) -> bool {
    take_down(kind as u8, f32::from_bits(bits as u32)).is_err()
}

fn refused(number: u32) -> Written {
    Written {
        number,
        ..Written::default()
    }
}

/// Writes a command to the first bytes and tells how many it has; on a refusal nothing is written.
pub fn write_command(command: &Command, bytes: &mut [u8]) -> Written {
    if command.at_fault().is_some() {
        return refused(5);
    }
    let written = command.bytes();
    let Some(room) = bytes.get_mut(..written.len()) else {
        return refused(11);
    };
    room.copy_from_slice(&written);
    Written {
        bytes: written.len(),
        ..Written::default()
    }
}

/// Writes a block from its count and its sets, six words a set; fewer words are 5, further ones are not looked at.
pub fn write_block(count: u32, words: &[u32], bytes: &mut [u8]) -> Written {
    let Some(sets) = words.get(..blocks::OPERANDS * count as usize) else {
        return refused(5);
    };
    let values = [&[count], sets].concat().into_iter().map(i64::from);
    let block = Command {
        code: BLOCK,
        values: values.collect(),
    };
    write_command(&block, bytes)
}

/// The commands that bytes begin with, each with its offset, up to the end and with it; as far as they can be read.
pub fn commands(bytes: &[u8]) -> Vec<(usize, Command)> {
    let mut commands = Vec::new();
    let mut at = 0;
    while let Some(command) = read_command(&bytes[at..]) {
        let (code, length) = (command.code, command.length());
        commands.push((at, command));
        if code == END {
            break;
        }
        at += length;
    }
    commands
}

/// The command that bytes begin with, as the checks read it; none where it is unknown or cut short.
pub fn read_command(bytes: &[u8]) -> Option<Command> {
    let (&code, rest) = bytes.split_first()?;
    if code == BLOCK {
        return read_block(bytes);
    }
    let operands = rest.get(..width(code)?)?;
    let values = match code {
        END | BUILDING => vec![],
        SETTINGS => Settings::read(fixed(operands)).values(),
        JOINT => {
            let (id, joint) = Joint::read(fixed(operands));
            [vec![id as i64], joint.values()].concat()
        }
        COLUMN => Column::read(fixed(operands)).values(),
        BEAM => Beam::read(fixed(operands)).values(),
        NO_HINGES => NoHinges::read(fixed(operands)).values(),
        WALL_BASE => WallBase::read(fixed(operands)).values(),
        STOREY => Storey::read(fixed(operands)).values(),
        SOIL => SoilGiven::read(fixed(operands)).values(),
        FOOTING => Footing::read(fixed(operands)).values(),
        BASEMENT => BasementMember::read(fixed(operands)).values(),
        _ => Detail::read(fixed(operands)).values(),
    };
    Some(Command { code, values })
}

/// The block that bytes begin with; none where its count is missing or out of range, or its sets are cut short.
fn read_block(bytes: &[u8]) -> Option<Command> {
    let count = blocks::count(bytes).filter(|count| blocks::COUNTS.contains(count))?;
    let sets = blocks::sets(bytes)?.iter();
    let values = sets.map(|set| Storey::read(set).values());
    Some(Command {
        code: BLOCK,
        values: [vec![vec![count as i64]], values.collect()]
            .concat()
            .concat(),
    })
}

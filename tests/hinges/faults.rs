//! Basement members at fault (02, No. 9): what one is a case of, by the faults that it has beside the one that is tried first. Joints, wall
//! bases and settings are those of the member's building.
//! Assumes of a fault that it is the job's.

use super::{amount, named, BYTES, ID, JOINT, MOMENT, PLACE, SHEAR, WALL_BASE};
use crate::generate::{self, last_building, BASEMENT, MOST_COMMANDS};
use crate::reference::Fault;

/// The faults in the order of trial; an operand out of its own range comes before the id of a wall.
const CUT: &str = "1";
const TOO_MANY: &str = "8";
const NO_SETTINGS: &str = "4";
const NO_PLACE: &str = "5, place";
const OPERAND: &str = "5, VV to MR";
const WALL_ID: &str = "5, id of a wall";
const NO_JOINT: &str = "6, joint";
const NO_WALL: &str = "6, wall";

/// Each fault with those that come later in the order and can stand beside it.
const BESIDE: [(&str, &[&str]); 8] = [
    (CUT, &[TOO_MANY, NO_SETTINGS]),
    (
        TOO_MANY,
        &[NO_SETTINGS, NO_PLACE, OPERAND, WALL_ID, NO_JOINT, NO_WALL],
    ),
    (
        NO_SETTINGS,
        &[NO_PLACE, OPERAND, WALL_ID, NO_JOINT, NO_WALL],
    ),
    (NO_PLACE, &[OPERAND]),
    (OPERAND, &[WALL_ID, NO_JOINT, NO_WALL]),
    (WALL_ID, &[NO_WALL]),
    (NO_JOINT, &[]),
    (NO_WALL, &[]),
];

/// What the member at a job's fault is a case of; nothing where the fault is no basement member's.
pub fn refused(job: &[u8], fault: &Fault) -> Vec<String> {
    if fault.command != u32::from(BASEMENT) || fault.number == 3 {
        return vec![];
    }
    let (before, member) = job.split_at(fault.offset);
    let before = generate::split(before);
    let so_far = before.iter().map(|command| generate::weight(command)).sum();
    let before = last_building(&before);
    let faults = faults(before, so_far, member);
    let (first, later) = faults.split_first().expect("a member at fault");
    let operand = match *first {
        WALL_ID => 1,
        OPERAND => fault.operand.max(2),
        _ => 0,
    };
    assert!(first.starts_with(&fault.number.to_string()), "{faults:?}");
    assert_eq!(fault.operand, operand, "{faults:?}");
    let mut cases = vec![first.to_string()];
    cases.extend(later.iter().map(|other| format!("{first} before {other}")));
    let has = |code| before.iter().any(|command| command[0] == code);
    match *first {
        CUT => cases.push(format!("1, {}", left(member.len()))),
        NO_PLACE => cases.push(format!("{}, {}", place(member[PLACE]), id(member[ID]))),
        WALL_ID if has(WALL_BASE) => cases.push(WALL_ID_BESIDE_WALL.to_string()),
        NO_JOINT if has(WALL_BASE) => cases.push(NO_JOINT_BESIDE_WALL.to_string()),
        NO_WALL if before.iter().any(|command| command[..2] == [JOINT, 0]) => {
            cases.push(NO_WALL_BESIDE_JOINT.to_string());
        }
        _ => (),
    }
    named(cases)
}

/// The faults that a member has after these commands of its building and so many of the file, in the order of trial.
fn faults(before: &[Vec<u8>], so_far: usize, member: &[u8]) -> Vec<&'static str> {
    let has = |start: &[u8]| before.iter().any(|command| command.starts_with(start));
    let whole = member.get(..BYTES);
    let is = |test: &dyn Fn(u8, u8) -> bool| whole.is_some_and(|one| test(one[PLACE], one[ID]));
    let tried = [
        (CUT, whole.is_none()),
        (TOO_MANY, so_far == MOST_COMMANDS),
        (NO_SETTINGS, before.is_empty()),
        (NO_PLACE, is(&|place, _| place > 1)),
        (OPERAND, whole.is_some_and(out_of_range)),
        (WALL_ID, is(&|place, id| place == 1 && id != 0)),
        (NO_JOINT, is(&|place, id| place == 0 && !has(&[JOINT, id]))),
        (NO_WALL, is(&|place, _| place == 1 && !has(&[WALL_BASE]))),
    ];
    let present = tried.into_iter().filter(|(_, present)| *present);
    present.map(|(fault, _)| fault).collect()
}

/// Whether one of VV to MR is out of its range.
fn out_of_range(member: &[u8]) -> bool {
    [SHEAR, MOMENT].iter().any(|&[v, e, strength]| {
        let v = amount(member, v) as u32 as i32;
        let sizes = [e, strength].map(|at| amount(member, at));
        sizes.iter().any(|&size| size > LIMIT) || i128::from(v.unsigned_abs()) > LIMIT
    })
}

const LIMIT: i128 = generate::LIMIT as i128;

/// What a wrong look-up would find: a wall for its nonzero id or for a joint, the joint 0 for a wall.
const WALL_ID_BESIDE_WALL: &str = "5, id of a wall that is given";
const NO_JOINT_BESIDE_WALL: &str = "6, joint, a wall is given";
const NO_WALL_BESIDE_JOINT: &str = "6, wall, joint 0 is given";

/// How much is left of a member cut short.
fn left(bytes: usize) -> &'static str {
    match bytes {
        1 => "its byte alone",
        26 => "one byte short",
        _ => "others",
    }
}

/// A place above 1.
fn place(place: u8) -> &'static str {
    match place {
        2 => "place 2",
        255 => "place 255",
        _ => "place between",
    }
}

fn id(id: u8) -> &'static str {
    match id {
        0 => "id 0",
        _ => "another id",
    }
}

/// The cases that must be met.
pub fn wanted() -> Vec<String> {
    let mut wanted = Vec::new();
    for (first, later) in BESIDE {
        wanted.push(first.to_string());
        wanted.extend(later.iter().map(|other| format!("{first} before {other}")));
    }
    wanted.extend([1, 2, 26].map(|bytes| format!("1, {}", left(bytes))));
    for number in [2, 3, 255] {
        wanted.extend([0, 1].map(|one| format!("{}, {}", place(number), id(one))));
    }
    let beside = [
        WALL_ID_BESIDE_WALL,
        NO_JOINT_BESIDE_WALL,
        NO_WALL_BESIDE_JOINT,
    ];
    wanted.extend(beside.map(str::to_string));
    named(wanted)
}

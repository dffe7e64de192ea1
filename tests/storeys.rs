//! Blocks of storeys (02, No. 7): what a block of an accepted job is a case of, and what a block at fault is one of, by the faults that it
//! has beside the one that is tried first. Wall bases and settings are those of the block's building.
//! Assumes of a fault that it is the job's.

#![allow(dead_code)]

use crate::generate::{self, last_building, BLOCK, BUILDING, MOST_COMMANDS, MOST_SETS};
use crate::reference::{self, Fault};

const WALL_BASE: u8 = 6;
const STOREY: u8 = 7;

/// Operands of a set.
const OPERANDS: usize = 6;

/// The faults of a block in the order of trial.
const NO_COUNT: &str = "1, no count";
const COUNT: &str = "5, count";
const CUT: &str = "1, sets";
const TOO_MANY: &str = "8";
const NO_SETTINGS: &str = "4";
const NO_BASE: &str = "6";
const SET: &str = "5, set";

/// Each fault with those that come later in the order and can stand beside it. A block before settings is without a wall base too.
const BESIDE: [(&str, &[&str]); 7] = [
    (NO_COUNT, &[TOO_MANY, NO_SETTINGS, NO_BASE]),
    (COUNT, &[CUT, TOO_MANY, NO_SETTINGS, NO_BASE, SET]),
    (CUT, &[TOO_MANY, NO_SETTINGS, NO_BASE, SET]),
    (TOO_MANY, &[NO_SETTINGS, NO_BASE, SET]),
    (NO_SETTINGS, &[NO_BASE, SET]),
    (NO_BASE, &[SET]),
    (SET, &[]),
];

// A block at fault.

/// What the block at a job's fault is a case of; nothing where the fault is no block's.
pub fn refused(job: &[u8], fault: &Fault) -> Vec<String> {
    if fault.command != u32::from(BLOCK) || fault.number == 3 {
        return vec![];
    }
    let before = generate::split(&job[..fault.offset]);
    let so_far = before.iter().map(|command| generate::weight(command)).sum();
    let faults = faults(&job[fault.offset..], so_far, last_building(&before));
    let (first, later) = faults.split_first().expect("a block at fault");
    assert!(first.starts_with(&fault.number.to_string()), "{faults:?}");
    let mut cases = vec![first.to_string()];
    cases.extend(later.iter().map(|other| before_another(first, other)));
    let block = &job[fault.offset..];
    match *first {
        COUNT => cases.push(format!("count {}", size_of(block[1]))),
        TOO_MANY => cases.push(passed(so_far, block[1])),
        SET => cases.push(at_fault(block, fault.operand as usize - 1)),
        _ => (),
    }
    named(cases)
}

fn before_another(first: &str, other: &str) -> String {
    format!("{first} before {other}")
}

/// The faults that a block has after so many commands, with those of its building, in the order of trial.
fn faults(block: &[u8], so_far: usize, building: &[Vec<u8>]) -> Vec<&'static str> {
    let base = building.iter().any(|command| command[0] == WALL_BASE);
    let given = block.get(1).map(|&count| usize::from(count));
    let count = given.unwrap_or(1);
    let sets = || block[2..].chunks_exact(24).take(count);
    let tried = [
        (NO_COUNT, given.is_none()),
        (COUNT, !(1..=MOST_SETS).contains(&count)),
        (CUT, given.is_some_and(|count| block.len() < 2 + 24 * count)),
        (TOO_MANY, so_far + count > MOST_COMMANDS),
        (NO_SETTINGS, building.is_empty()),
        (NO_BASE, !base),
        (SET, given.is_some() && sets().any(out_of_range)),
    ];
    let present = tried.into_iter().filter(|(_, present)| *present);
    present.map(|(fault, _)| fault).collect()
}

fn out_of_range(set: &[u8]) -> bool {
    let storey = reference::read_command(&[&[STOREY], set].concat());
    storey.expect("a storey").at_fault().is_some()
}

/// A count out of range.
fn size_of(count: u8) -> &'static str {
    match count {
        0 => "0",
        65 => "65",
        255 => "255",
        _ => "between",
    }
}

/// By how many commands a block passes the limit.
fn passed(so_far: usize, count: u8) -> String {
    let by = so_far + usize::from(count) - MOST_COMMANDS;
    let full = if so_far == MOST_COMMANDS { " full" } else { "" };
    match by {
        1 => format!("passes{full} by one"),
        _ => format!("passes{full} by more"),
    }
}

/// The set and its operand; J above J0 stands apart from J below 1.
fn at_fault(block: &[u8], operand: usize) -> String {
    let (set, place) = (operand / OPERANDS, operand % OPERANDS);
    let j = &block[2 + 24 * set + 8..][..4];
    let place = if place == 2 && j != [0; 4] {
        RELATION
    } else {
        place
    };
    set_at_fault(place_of(set, block[1]), place)
}

/// In place of an operand: J above J0.
const RELATION: usize = OPERANDS;

fn set_at_fault(set: &str, place: usize) -> String {
    match place {
        RELATION => format!("{set} set, J above J0"),
        _ => format!("{set} set, operand {place}"),
    }
}

fn place_of(set: usize, count: u8) -> &'static str {
    match set {
        _ if count == 1 => "only",
        0 => "first",
        _ if set + 1 == usize::from(count) => "last",
        _ => "another",
    }
}

// A block of an accepted job.

/// What the blocks of an accepted job are cases of.
pub fn accepted(job: &[u8]) -> Vec<String> {
    let commands = generate::split(job);
    let (mut so_far, mut bases) = (0, 0);
    let mut cases = Vec::new();
    for (place, command) in commands.iter().enumerate() {
        so_far += generate::weight(command);
        match command[0] {
            WALL_BASE => bases += 1,
            BUILDING => bases = 0,
            _ => (),
        }
        if command[0] != BLOCK {
            continue;
        }
        cases.push(counted(command[1]).to_string());
        cases.push(format!("after {}", kind_of(&commands[place - 1])));
        cases.push(format!("before {}", kind_of(&commands[place + 1])));
        if bases > 1 {
            cases.push("of a later wall".to_string());
        }
        if so_far == MOST_COMMANDS {
            cases.push("fills the commands".to_string());
        }
    }
    named(cases)
}

fn counted(count: u8) -> &'static str {
    match count {
        1 => "1 set",
        2 => "2 sets",
        63 => "63 sets",
        64 => "64 sets",
        _ => "other sets",
    }
}

fn kind_of(command: &[u8]) -> &'static str {
    match command[0] {
        WALL_BASE => "a wall base",
        STOREY => "a storey",
        BLOCK => "a block",
        BUILDING => "a building",
        0 => "the end",
        _ => "another command",
    }
}

// The cases that must be met.

fn named(cases: Vec<String>) -> Vec<String> {
    let named = cases.iter().map(|case| format!("block: {case}"));
    named.collect()
}

pub fn wanted() -> Vec<String> {
    let mut wanted = Vec::new();
    for (first, later) in BESIDE {
        wanted.push(first.to_string());
        wanted.extend(later.iter().map(|other| before_another(first, other)));
    }
    wanted.extend(["0", "65", "255", "between"].map(|size| format!("count {size}")));
    for passes in ["", " full"] {
        wanted.extend(["one", "more"].map(|by| format!("passes{passes} by {by}")));
    }
    for set in ["only", "first", "another", "last"] {
        wanted.extend((0..=RELATION).map(|place| set_at_fault(set, place)));
    }
    wanted.extend([1, 2, 3, 63, 64].map(|count| counted(count).to_string()));
    for kind in [WALL_BASE, STOREY, BLOCK, 1] {
        wanted.push(format!("after {}", kind_of(&[kind])));
    }
    for kind in [WALL_BASE, STOREY, BLOCK, BUILDING, 1, 0] {
        wanted.push(format!("before {}", kind_of(&[kind])));
    }
    wanted.extend(["of a later wall", "fills the commands"].map(str::to_string));
    named(wanted)
}

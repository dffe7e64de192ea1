//! Files of several buildings (02, No. 10): what an accepted one is a case of; and what a job is a case of that is refused at the byte of
//! another building, right behind it, or in a later building.
//! Assumes of a fault that it is the job's.

#![allow(dead_code)]

use crate::generate::{self, last_building, BASEMENT, BLOCK, BUILDING, SETTINGS};
use crate::generate::{MOST_BUILDINGS, MOST_COMMANDS};
use crate::reference::Fault;
use std::collections::BTreeMap;

const END: u8 = 0;
const JOINT: u8 = 2;
const NO_HINGES: u8 = 5;
const WALL_BASE: u8 = 6;
const STOREY: u8 = 7;
const SOIL: u8 = 8;
const FOOTING: u8 = 9;

/// A command's bytes.
type Command = Vec<u8>;

/// A building of an accepted job: the offset of its settings, and its commands from these on, without the end of the job.
pub struct Building {
    pub at: usize,
    pub commands: Vec<Command>,
}

/// The buildings of an accepted job. A byte 0D among operands begins none.
pub fn buildings(job: &[u8]) -> Vec<Building> {
    let mut commands = generate::split(job);
    commands.pop();
    let mut at = 0;
    let parts = commands.split(|command| command[0] == BUILDING);
    parts
        .map(|commands| {
            let building = Building {
                at,
                commands: commands.to_vec(),
            };
            at += 1 + building.bytes().len();
            building
        })
        .collect()
}

impl Building {
    pub fn bytes(&self) -> Vec<u8> {
        self.commands.concat()
    }

    fn has(&self, code: u8) -> bool {
        self.commands.iter().any(|command| command[0] == code)
    }

    /// The sums of its joints by their ids, the latest of each.
    fn joints(&self) -> BTreeMap<u8, &[u8]> {
        let joints = self.commands.iter().filter(|command| command[0] == JOINT);
        joints.map(|joint| (joint[1], &joint[2..])).collect()
    }

    /// The ids that commands of a kind name: members without hinges, or basement members at a joint.
    fn named(&self, code: u8) -> Vec<u8> {
        let members = self.commands.iter().filter(|command| command[0] == code);
        let ids = members.flat_map(|member| asked(member));
        ids.filter_map(Asked::id).collect()
    }
}

/// What a command asks for.
#[derive(Clone, Copy)]
pub enum Asked {
    Joint(u8),
    Wall,
    Soil,
}

impl Asked {
    fn id(self) -> Option<u8> {
        match self {
            Asked::Joint(id) => Some(id),
            _ => None,
        }
    }

    fn given_by(self, command: &[u8]) -> bool {
        match self {
            Asked::Joint(id) => command.starts_with(&[JOINT, id]),
            Asked::Wall => command[0] == WALL_BASE,
            Asked::Soil => command[0] == SOIL,
        }
    }
}

/// What a whole command asks for.
pub fn asked(command: &[u8]) -> Vec<Asked> {
    match command[0] {
        NO_HINGES => [5, 6].map(|place| Asked::Joint(command[place])).to_vec(),
        STOREY | BLOCK => vec![Asked::Wall],
        FOOTING => vec![Asked::Soil],
        BASEMENT if command[1] == 0 => vec![Asked::Joint(command[2])],
        BASEMENT => vec![Asked::Wall],
        _ => vec![],
    }
}

// An accepted job.

/// What an accepted job of several buildings is a case of.
pub fn accepted(job: &[u8]) -> Vec<String> {
    let buildings = buildings(job);
    if buildings.len() == 1 {
        return vec![];
    }
    let mut cases = vec![counted(buildings.len())];
    for (place, building) in buildings.iter().enumerate() {
        let last = building.commands.last().expect("settings");
        if place + 1 < buildings.len() {
            cases.push(format!("another building behind {:02X}", last[0]));
        }
        if last[0] == SETTINGS {
            cases.push(alone(place, buildings.len()));
        }
        if building
            .commands
            .iter()
            .any(|one| one[1..].contains(&BUILDING))
        {
            cases.push(AMONG_OPERANDS.to_string());
        }
    }
    for pair in buildings.windows(2) {
        cases.extend(behind(&pair[0], &pair[1]));
    }
    let commands: usize = generate::split(job)
        .iter()
        .map(|one| generate::weight(one))
        .sum();
    if commands == MOST_COMMANDS {
        cases.push(FILLS.to_string());
    }
    named(cases)
}

const AMONG_OPERANDS: &str = "a byte 0D among operands";
const FILLS: &str = "fills the commands";

fn counted(count: usize) -> String {
    format!("{count} buildings")
}

/// A building of settings alone, by its place in the file.
fn alone(place: usize, count: usize) -> String {
    let place = match place {
        0 => "first",
        _ if place + 1 == count => "last",
        _ => "another",
    };
    format!("settings alone, {place}")
}

/// What a building is a case of beside the one before: by the factors of its settings, and by what both give and members ask for.
fn behind(before: &Building, building: &Building) -> Vec<String> {
    let factors = [1, 3, 5].map(|at| at..at + 2);
    let [old, new] = [before, building].map(|one| &one.commands[0]);
    let others = factors.into_iter().zip(FACTORS);
    let others = others.filter(|(at, _)| old[at.clone()] != new[at.clone()]);
    let mut cases: Vec<String> = others.map(|(_, name)| format!("another {name}")).collect();
    let (old, new) = (before.joints(), building.joints());
    for code in [NO_HINGES, BASEMENT] {
        let named = building.named(code);
        let mut again = named.iter().filter(|id| old.contains_key(*id));
        if again.any(|id| old[id] != new[id]) {
            cases.push(again_with("joint", code));
        }
    }
    for (given, name, members) in [
        (WALL_BASE, "wall", &[STOREY, BLOCK, BASEMENT][..]),
        (SOIL, "soil", &[FOOTING]),
    ] {
        let both = before.has(given) && building.has(given);
        let members = members.iter().filter(|&&code| both && building.has(code));
        cases.extend(members.map(|&code| again_with(name, code)));
    }
    cases
}

const FACTORS: [&str; 3] = ["q", "gj", "gf"];

/// What the building before gives too, and a command that asks for it.
fn again_with(name: &str, code: u8) -> String {
    format!("{name} given again, {code:02X}")
}

// A job at fault.

/// The faults of the byte of another building, in the order of trial.
const TOO_MANY: &str = "8";
const SEVENTEENTH: &str = "13";
const NO_SETTINGS: &str = "4";

/// What a job at fault is a case of; nothing where the fault is in the first building.
pub fn refused(job: &[u8], fault: &Fault) -> Vec<String> {
    let before = generate::split(&job[..fault.offset]);
    let begun = before
        .iter()
        .filter(|command| command[0] == BUILDING)
        .count();
    let building = last_building(&before);
    let rest = &job[fault.offset..];
    let mut cases = Vec::new();
    if fault.number != 3 && rest.first() == Some(&BUILDING) {
        cases.extend(at_building(&before, begun, fault.number));
    }
    if begun > 0 && building.is_empty() {
        cases.push(right_behind(fault.number, rest));
    } else if begun > 0 {
        cases.push(format!("{} in a later building", fault.number));
    }
    if fault.number == 6 {
        let others = &before[..before.len() - building.len()];
        let given = |asked: &Asked, commands: &[Command]| {
            commands.iter().any(|command| asked.given_by(command))
        };
        let missing = asked(rest)
            .into_iter()
            .filter(|asked| !given(asked, building));
        let forgotten = missing.filter(|asked| given(asked, others)).count();
        cases.extend((forgotten > 0).then(|| asks(rest[0], rest[1])));
    }
    named(cases)
}

/// The fault of the byte of another building, with those that it has beside it.
fn at_building(before: &[Command], begun: usize, number: u32) -> Vec<String> {
    let so_far: usize = before.iter().map(|command| generate::weight(command)).sum();
    let tried = [
        (TOO_MANY, so_far == MOST_COMMANDS),
        (SEVENTEENTH, begun + 1 == MOST_BUILDINGS),
        (NO_SETTINGS, last_building(before).is_empty()),
    ];
    let present = tried.into_iter().filter(|(_, present)| *present);
    let faults: Vec<&str> = present.map(|(fault, _)| fault).collect();
    let (first, later) = faults.split_first().expect("a building at fault");
    assert_eq!(*first, number.to_string(), "{faults:?}");
    let mut cases = vec![at_its_byte(first)];
    cases.extend(later.iter().map(|other| before_another(first, other)));
    if before.is_empty() {
        cases.push(FIRST.to_string());
    }
    cases
}

const FIRST: &str = "another building as the first command";

fn at_its_byte(fault: &str) -> String {
    format!("another building, {fault}")
}

fn before_another(first: &str, other: &str) -> String {
    format!("another building, {first} before {other}")
}

/// The refusal of what stands right behind the byte of another building.
fn right_behind(number: u32, rest: &[u8]) -> String {
    let what = match rest {
        [] => "nothing".to_string(),
        [END] => "the end".to_string(),
        [END, ..] => "the end and bytes".to_string(),
        [code, ..] if *code > BUILDING => "an unknown command".to_string(),
        [code, ..] if number == 1 && ![SETTINGS, BLOCK].contains(code) => "others".to_string(),
        [code, ..] => format!("{code:02X}"),
    };
    format!("right behind, {number} at {what}")
}

/// A command that asks for what a building before has given; a basement member by its place.
fn asks(code: u8, place: u8) -> String {
    let place = match (code, place) {
        (BASEMENT, 0) => " at a joint",
        (BASEMENT, _) => " at a wall",
        _ => "",
    };
    format!("{code:02X}{place} asks for what a building before gave")
}

// The cases that must be met.

fn named(cases: Vec<String>) -> Vec<String> {
    let named = cases.iter().map(|case| format!("campus: {case}"));
    named.collect()
}

/// Of accepted jobs.
pub fn wanted() -> Vec<String> {
    let mut wanted: Vec<String> = (2..=MOST_BUILDINGS).map(counted).collect();
    wanted.extend((SETTINGS..=BASEMENT).map(|code| format!("another building behind {code:02X}")));
    wanted.extend([0, 1, 2].map(|place| alone(place, 3)));
    wanted.extend([AMONG_OPERANDS, FILLS].map(str::to_string));
    wanted.extend(FACTORS.map(|name| format!("another {name}")));
    wanted.extend([NO_HINGES, BASEMENT].map(|code| again_with("joint", code)));
    wanted.extend([STOREY, BLOCK, BASEMENT].map(|code| again_with("wall", code)));
    wanted.push(again_with("soil", FOOTING));
    named(wanted)
}

/// Of jobs at fault.
pub fn wanted_of_refused() -> Vec<String> {
    let mut wanted: Vec<String> = [TOO_MANY, SEVENTEENTH, NO_SETTINGS]
        .map(at_its_byte)
        .to_vec();
    for (first, other) in [
        (TOO_MANY, SEVENTEENTH),
        (TOO_MANY, NO_SETTINGS),
        (SEVENTEENTH, NO_SETTINGS),
    ] {
        wanted.push(before_another(first, other));
    }
    wanted.push(FIRST.to_string());
    for (number, rest) in [
        (1, &[][..]),
        (4, &[END]),
        (4, &[END, 1]),
        (2, &[BUILDING + 1]),
    ] {
        wanted.push(right_behind(number, rest));
    }
    wanted.extend([1, 5, 8].map(|number| right_behind(number, &[SETTINGS])));
    wanted.extend([1, 5, 8].map(|number| right_behind(number, &[BLOCK])));
    wanted.extend([4, 8, 13].map(|number| right_behind(number, &[BUILDING])));
    wanted.push(right_behind(1, &[JOINT]));
    wanted.extend((JOINT..=BASEMENT).map(|code| right_behind(4, &[code])));
    wanted.extend([1, 2, 3, 4, 5, 6, 8, 13].map(|number| format!("{number} in a later building")));
    wanted.extend([NO_HINGES, STOREY, FOOTING, BLOCK].map(|code| asks(code, 0)));
    wanted.extend([0, 1].map(|place| asks(BASEMENT, place)));
    named(wanted)
}

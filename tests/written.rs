//! Compares the proved library with the reference in writing commands: random values and room, with guard bytes around the bytes lent;
//! blocks with random counts and words too. What is written is read back by the reference, command by command and as files of commands
//! written one after the other.
//! Arguments: commands, seed. Prints `N commands agree`, or the first disagreement. A run of 100,000 commands or more fails too when
//! one of the cases that `wanted` lists was met fewer than ten times.
//! Assumes nothing. Built by tests/run.

#![allow(dead_code)]

mod generate;
mod library;
mod reference;
mod rounds;

use generate::{Random, BASEMENT, BLOCK, BUILDING};
use library::write::{write_block, write_command};
use reference::{Command, Written};
use rounds::Met;
use std::cmp::Ordering;

/// Bytes before and after those that a call is lent.
const GUARD: usize = 64;

/// The commands by their bytes, blocks apart.
const CODES: [u8; 13] = [0, 1, 2, 3, 4, 5, 6, 7, 8, 9, 10, BASEMENT, BUILDING];
const SOIL: u8 = 8;

fn main() {
    let (commands, seed) = rounds::arguments();
    let mut random = Random::new(seed);
    let mut met = Met::default();
    for number in 0..commands {
        if let Err(words) = compare(&mut random, number, &mut met) {
            println!("command {number} disagrees: {words}");
            std::process::exit(1);
        }
    }
    met.finish(commands, "commands", wanted());
}

/// A command of each kind in turn; with every twentieth a file of commands.
fn compare(random: &mut Random, number: u64, met: &mut Met) -> Result<(), String> {
    let code = (number % 14) as u8;
    if code == BLOCK {
        met.add(block(random)?);
    } else {
        let command = generate::command(random, code);
        let room = room(random, width(code));
        one(random, &command, room)
            .map_err(|words| format!("{command:x?}, room {room}: {words}"))?;
        met.add(cases(&command, room));
    }
    if number % 20 == 0 {
        file(random)?;
    }
    Ok(())
}

/// Bytes lent for so many that are needed, which are one at least: none, fewer, as many, more.
fn room(random: &mut Random, width: usize) -> usize {
    match random.below(8) {
        0 => 0,
        1 | 2 => width - 1,
        3 | 4 => width,
        5 => random.below(width as u64) as usize,
        _ => width + 1 + random.below(70) as usize,
    }
}

/// The bytes of a command, its byte counted.
fn width(code: u8) -> usize {
    1 + reference::layout(code)
        .iter()
        .map(|(width, ..)| width)
        .sum::<usize>()
}

fn same<T: PartialEq + std::fmt::Debug>(what: &str, found: &T, expected: &T) -> Result<(), String> {
    if found == expected {
        Ok(())
    } else {
        Err(format!("{what} {found:x?}, expected {expected:x?}"))
    }
}

/// Writes a command in both implementations: the answer and every byte of the stretch, guards too, must be the same. What was written
/// is read back to the same values.
fn one(random: &mut Random, command: &Command, room: usize) -> Result<(), String> {
    let before = generate::noise(random, room + 2 * GUARD);
    let [mut found, mut expected] = [before.clone(), before];
    let lent = GUARD..GUARD + room;
    let answer = write_command(command, &mut found[lent.clone()]);
    let wanted = reference::write_command(command, &mut expected[lent.clone()]);
    same("answer", &answer, &wanted)?;
    same("bytes, guards too,", &found, &expected)?;
    if answer.number == 0 {
        let read = reference::read_command(&found[lent]);
        same("read back", &read.as_ref(), &Some(command))?;
    }
    Ok(())
}

/// Writes a block in both implementations, as `one` does a command. What it is a case of.
fn block(random: &mut Random) -> Result<Vec<String>, String> {
    let (count, words) = generate::block(random);
    let room = room(random, 2 + 24 * count.min(300) as usize);
    let before = generate::noise(random, room + 2 * GUARD);
    let [mut found, mut expected] = [before.clone(), before];
    let lent = GUARD..GUARD + room;
    let answer = write_block(count, &words, &mut found[lent.clone()]);
    let wanted = reference::write_block(count, &words, &mut expected[lent.clone()]);
    let what = format!("block of {count} in {} words, room {room}", words.len());
    same(&format!("{what}: answer"), &answer, &wanted)?;
    same(&format!("{what}: bytes, guards too,"), &found, &expected)?;
    if answer.number == 0 {
        let read = reference::read_command(&found[lent]);
        same(
            &format!("{what}: read back"),
            &read,
            &Some(block_of(count, &words)),
        )?;
    }
    Ok(block_cases(count, &words, room))
}

/// The command of a block, by its count and the words of its sets, of which there are enough.
fn block_of(count: u32, words: &[u32]) -> Command {
    let values = [&[count], &words[..6 * count as usize]].concat();
    Command {
        code: BLOCK,
        values: values.into_iter().map(i64::from).collect(),
    }
}

/// Writes commands one after the other, blocks too, of which the refused ones change nothing, and an end; in a stretch that may be too
/// short for them all. Read back, they are the commands that were accepted, each at the offset at which it was written.
fn file(random: &mut Random) -> Result<(), String> {
    let length = random.between(1, 2000) as usize;
    let mut bytes = generate::noise(random, length);
    let mut at = 0;
    let mut accepted = Vec::new();
    for _ in 0..random.below(40) {
        let code = random.between(1, 13) as u8;
        let room = &mut bytes[at..length - 1];
        let answer = if code == BLOCK {
            let (count, words) = generate::block(random);
            let answer = write_block(count, &words, room);
            accepted.extend((answer.number == 0).then(|| (at, block_of(count, &words))));
            answer
        } else {
            let command = generate::command(random, code);
            let answer = write_command(&command, room);
            accepted.extend((answer.number == 0).then_some((at, command)));
            answer
        };
        at += answer.bytes;
    }
    let end = Command {
        code: 0,
        values: vec![],
    };
    let answer = write_command(&end, &mut bytes[at..]);
    let one = Written {
        bytes: 1,
        ..Written::default()
    };
    same("the answer of the end", &answer, &one)?;
    accepted.push((at, end));
    same("a file", &reference::commands(&bytes), &accepted)
}

// The cases.

fn case(code: u8, text: impl std::fmt::Display) -> String {
    format!("{code:02X} {text}")
}

/// What a command with its room is a case of.
fn cases(command: &Command, room: usize) -> Vec<String> {
    let (code, width) = (command.code, width(command.code));
    let mut cases = Vec::new();
    match command.at_fault() {
        Some(place) => {
            cases.push(case(code, format!("operand {place} at fault")));
            cases.push(case(code, format!("5, {}", how_much(room, width))));
            if cut(command).at_fault().is_none() {
                cases.push(case(code, format!("operand {place} too wide alone")));
            }
        }
        None => {
            let outcome = if room < width { "11" } else { "accepted" };
            cases.push(case(code, format!("{outcome}, {}", how_much(room, width))));
            for (place, value) in command.values.iter().enumerate() {
                if *value < 0 {
                    cases.push(case(code, format!("operand {place} below zero")));
                }
            }
        }
    }
    if code == SOIL && command.values[0] <= 1 {
        let value = f32::from_bits(command.values[1] as u32);
        let sign = if value.is_sign_negative() { "-" } else { "+" };
        cases.push(case(code, format!("{sign}{:?}", value.classify())));
    }
    if code == BASEMENT {
        cases.extend(hinge(command).map(|text| case(code, text)));
    }
    cases
}

/// The nearest hinge of a basement member whose place is in range: its place and its id.
fn hinge(command: &Command) -> Option<String> {
    let id = match command.values[1] {
        id @ (0 | 255 | 256) => id.to_string(),
        1..=254 => "between".to_string(),
        _ => "too wide".to_string(),
    };
    let outcome = match command.at_fault() {
        None => "no 5",
        Some(1) => "5",
        Some(_) => return None,
    };
    Some(hinge_case(outcome, command.values[0], &id))
}

fn hinge_case(outcome: &str, place: i64, id: &str) -> String {
    format!("{outcome}, place {place}, id {id}")
}

const FEWER: &str = "too few words";
const EXACT: &str = "exact words";
const FURTHER: &str = "further words";

/// What a block with its words and its room is a case of.
fn block_cases(count: u32, words: &[u32], room: usize) -> Vec<String> {
    let enough = match words.len().cmp(&(6 * count as usize)) {
        Ordering::Less => FEWER,
        Ordering::Equal => EXACT,
        Ordering::Greater => FURTHER,
    };
    let counted = match count {
        0 | 1 | 2 | 63 | 64 | 65 => count.to_string(),
        3..=62 => "others".to_string(),
        66..=255 => "above".to_string(),
        _ => "too wide".to_string(),
    };
    let mut cases = vec![format!("count {counted}, {enough}")];
    if (1..=64).contains(&count) {
        let how_much = how_much(room, 2 + 24 * count as usize);
        let at_fault = (enough != FEWER)
            .then(|| block_of(count, words).at_fault())
            .flatten();
        if let Some(operand) = at_fault {
            cases.push(format!("operand {} of a set at fault", (operand - 1) % 6));
            cases.push(format!("5, a set, {how_much}"));
        } else if enough == FEWER {
            cases.push(format!("5, {FEWER}, {how_much}"));
        } else {
            cases.push(format!("no 5, {enough}, {how_much}"));
        }
    }
    cases.iter().map(|text| case(BLOCK, text)).collect()
}

fn how_much(room: usize, width: usize) -> &'static str {
    match room {
        _ if room == width => "exact room",
        _ if room > width => "more room",
        _ if room + 1 == width => "one byte short",
        _ => "shorter",
    }
}

/// A command with each value cut to the width that it has in the file.
fn cut(command: &Command) -> Command {
    let layout = reference::layout(command.code);
    let pairs = command.values.iter().zip(layout);
    Command {
        code: command.code,
        values: pairs
            .map(|(value, (width, ..))| {
                if width < 4 {
                    value % (1 << (8 * width))
                } else {
                    *value
                }
            })
            .collect(),
    }
}

/// The cases that must be met.
fn wanted() -> Vec<String> {
    let mut wanted = Vec::new();
    for code in CODES {
        for (place, (width, least, _)) in reference::layout(code).into_iter().enumerate() {
            wanted.push(case(code, format!("operand {place} at fault")));
            if width < 4 {
                wanted.push(case(code, format!("operand {place} too wide alone")));
            }
            if least < 0 {
                wanted.push(case(code, format!("operand {place} below zero")));
            }
        }
        for outcome in [
            "accepted, exact room",
            "accepted, more room",
            "11, one byte short",
        ] {
            wanted.push(case(code, outcome));
        }
        if width(code) > 1 {
            for outcome in [
                "11, shorter",
                "5, exact room",
                "5, more room",
                "5, one byte short",
                "5, shorter",
            ] {
                wanted.push(case(code, outcome));
            }
        }
    }
    wanted.extend(wanted_of_blocks().iter().map(|text| case(BLOCK, text)));
    wanted.extend(wanted_of_hinges().iter().map(|text| case(BASEMENT, text)));
    for sort in ["Zero", "Subnormal", "Normal", "Infinite", "Nan"] {
        wanted.extend(["+", "-"].map(|sign| case(SOIL, format!("{sign}{sort}"))));
    }
    wanted
}

fn wanted_of_hinges() -> Vec<String> {
    let mut wanted = Vec::new();
    for id in ["0", "255", "between"] {
        let at_wall = if id == "0" { "no 5" } else { "5" };
        wanted.push(hinge_case("no 5", 0, id));
        wanted.push(hinge_case(at_wall, 1, id));
    }
    for place in [0, 1] {
        wanted.extend(["256", "too wide"].map(|id| hinge_case("5", place, id)));
    }
    wanted
}

fn wanted_of_blocks() -> Vec<String> {
    let mut wanted = vec![format!("count 0, {FURTHER}")];
    for count in ["1", "2", "63", "64", "others"] {
        wanted.extend([FEWER, EXACT, FURTHER].map(|enough| format!("count {count}, {enough}")));
    }
    for count in ["65", "above", "too wide"] {
        wanted.extend([FEWER, FURTHER].map(|enough| format!("count {count}, {enough}")));
    }
    wanted.extend((0..6).map(|place| format!("operand {place} of a set at fault")));
    for how_much in ["exact room", "more room", "one byte short", "shorter"] {
        wanted.push(format!("5, {FEWER}, {how_much}"));
        wanted.push(format!("5, a set, {how_much}"));
        wanted.extend([EXACT, FURTHER].map(|enough| format!("no 5, {enough}, {how_much}")));
    }
    wanted
}

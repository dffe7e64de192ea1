//! Tries files of several buildings (02, No. 10) from outside, on random accepted files and by the library's calls alone. Each building is
//! cut out of the file, from its settings to before the next command 0D, found by the widths of the commands, and gets an end. That file
//! of its own is accepted, and its rows are those of the building in the file, with word 0 moved by the offset of its settings; the file
//! has these rows in order and no others, and its numbers are the sums of theirs. So it is with the same buildings in any other order, some
//! of them left out, some twice. A 17th building is refused with 13, whatever stands in place of a building's settings with 4, and with 6
//! each command that asks for a joint, a wall or a soil, where another building begins right before it.
//! Arguments: buildings, seed. Prints `N buildings agree`, or the first disagreement with its file in hexadecimal; it fails too where none
//! was compared. A run of 100,000 buildings or more fails too when one of the cases that `wanted` lists was met fewer than ten times.
//! Assumes nothing. Built by tests/run.

#![allow(dead_code)]

mod answers;
mod campus;
mod generate;
mod library;
mod reference;
mod rounds;

use answers::{refused, rows, same, Row, AS_LENT};
use campus::{asked, Building};
use generate::{Mix, Random, BLOCK, BUILDING, MOST_BUILDINGS, MOST_COMMANDS};
use reference::{Fault, Refusal, Totals, ROW};
use rounds::hexadecimal;
use std::cmp::Ordering;

/// How often each of the commands 02 to 0C is drawn: all kinds, mostly joints with what stands between or below them, or mostly walls.
const MIXES: [Mix; 3] = [
    Mix([2, 2, 2, 2, 2, 2, 1, 2, 1, 1, 2]),
    Mix([5, 1, 1, 6, 1, 1, 1, 1, 1, 0, 3]),
    Mix([1, 1, 0, 1, 3, 3, 0, 0, 1, 4, 3]),
];

/// The byte of a storey, which the rows of a block have.
const STOREY: u8 = 7;

fn main() {
    rounds::compared("buildings", wanted(), |random, met| {
        let file = draw(random);
        let buildings = campus::buildings(&file);
        if buildings.len() < 2 {
            return Err(format!("a file of one building: {}", hexadecimal(&file)));
        }
        met.add(campus::accepted(&file));
        met.add(compare(random, &file, &buildings)?);
        Ok(buildings.len() as u64)
    });
}

/// An accepted file of two to sixteen buildings; in half of them strengths are at the demand; now and then it has all commands that there
/// may be.
fn draw(random: &mut Random) -> Vec<u8> {
    let mix = &MIXES[random.below(3) as usize];
    let commands = if random.one_in(200) {
        MOST_COMMANDS
    } else {
        random.between(3, 100) as usize
    };
    loop {
        let mut file = generate::campus(random, commands, mix);
        if campus::buildings(&file).len() > 1 {
            if random.one_in(2) {
                generate::at_demand(random, &mut file);
            }
            return file;
        }
    }
}

// The comparison.

/// A building in a file of its own: its settings and all else of it, then an end.
fn own(building: &Building) -> Vec<u8> {
    [building.bytes(), vec![0]].concat()
}

/// What the file and its buildings are cases of, or the first disagreement in words.
fn compare(
    random: &mut Random,
    file: &[u8],
    buildings: &[Building],
) -> Result<Vec<String>, String> {
    let all = rows(file)?;
    let own: Vec<Vec<u8>> = buildings.iter().map(own).collect();
    let offsets: Vec<usize> = buildings.iter().map(|building| building.at).collect();
    let expected = moved(&own, &offsets)?;
    same("the buildings by themselves", file, &expected)?;
    sums(file, &own)?;
    let mut cases = moves(file, buildings, &all);
    cases.push(rearranged(random, &own)?);
    cases.push(too_many(random, file, buildings)?);
    cases.push(without_settings(random, file, buildings)?);
    cases.extend(forgotten(random, file, buildings)?);
    Ok(cases)
}

/// The rows of files of one building, one after the other, each with word 0 moved by the offset of the building's settings.
fn moved(own: &[Vec<u8>], offsets: &[usize]) -> Result<Vec<Row>, String> {
    let mut all = Vec::new();
    for (own, offset) in own.iter().zip(offsets) {
        let rows = rows(own)?.into_iter();
        all.extend(rows.map(|[at, words @ ..]| {
            let mut row = [at + *offset as i64; ROW];
            row[1..].copy_from_slice(&words);
            row
        }));
    }
    Ok(all)
}

/// The three numbers of the file are the sums of those of its buildings, and so is its size; a word short it asks for as many rows.
fn sums(file: &[u8], own: &[Vec<u8>]) -> Result<(), String> {
    let mut sum = Totals::default();
    for own in own {
        let one = totals(own)?;
        sum.rows += one.rows;
        sum.failed += one.failed;
        sum.checks += one.checks;
    }
    let found = totals(file)?;
    if found != sum || library::size(file) != Ok(sum.rows) {
        let file = hexadecimal(file);
        return Err(format!("{found:?}, by buildings {sum:?}\n{file}"));
    }
    if sum.rows == 0 {
        return Ok(());
    }
    let mut short = vec![AS_LENT; ROW * sum.rows - 1];
    let ran = library::run(file, &mut short);
    let needed = Refusal {
        number: 9,
        offset: 0,
        needed: sum.rows,
    };
    if ran != Err(needed) || short.iter().any(|&word| word != AS_LENT) {
        return Err(format!("a word short: {ran:?}\n{}", hexadecimal(file)));
    }
    Ok(())
}

fn totals(file: &[u8]) -> Result<Totals, String> {
    let mut words = vec![AS_LENT; ROW * library::size(file).unwrap_or(0)];
    let ran = library::run(file, &mut words);
    ran.map_err(|refusal| format!("{refusal:?} for {}", hexadecimal(file)))
}

/// The same buildings in another file: in any order, some left out, some twice, sixteen at most and within the limit of the commands.
fn rearranged(random: &mut Random, own: &[Vec<u8>]) -> Result<String, String> {
    let (mut file, mut commands) = (Vec::new(), 0);
    let (mut taken, mut offsets) = (Vec::new(), Vec::new());
    for _ in 0..random.between(2, MOST_BUILDINGS as u64) {
        let one = &own[random.below(own.len() as u64) as usize];
        let weights = generate::split(one).into_iter();
        commands += 1 + weights
            .map(|command| generate::weight(&command))
            .sum::<usize>();
        if commands > MOST_COMMANDS {
            break;
        }
        if !taken.is_empty() {
            file.push(BUILDING);
        }
        offsets.push(file.len());
        file.extend(&one[..one.len() - 1]);
        taken.push(one.clone());
    }
    file.push(0);
    same("the buildings rearranged", &file, &moved(&taken, &offsets)?)?;
    sums(&file, &taken)?;
    Ok(rearranged_as(&taken, own))
}

// Refusals.

fn fault(number: u32, offset: usize, command: u8) -> Fault {
    Fault {
        number,
        offset,
        command: u32::from(command),
        operand: 0,
    }
}

/// With buildings of settings alone behind the last, sixteen are accepted and a seventeenth is refused with 13 at its 0D, also where that
/// stands in place of the sixteenth's settings. Where there is no room for their commands, the first of them that has none is 8.
fn too_many(random: &mut Random, file: &[u8], buildings: &[Building]) -> Result<String, String> {
    let all = rows(file)?;
    let mut file = file[..file.len() - 1].to_vec();
    let mut left = MOST_COMMANDS - commands(&file);
    for _ in buildings.len()..MOST_BUILDINGS {
        let one = &buildings[random.below(buildings.len() as u64) as usize];
        let begun = [&[BUILDING], &one.commands[0][..]].concat();
        if left < 2 {
            let at = file.len() + left;
            let full = [file, begun.clone(), vec![0]].concat();
            refused(&full, &fault(8, at, begun[left]))?;
            return Ok(FULL.to_string());
        }
        left -= 2;
        file.extend(begun);
    }
    same("sixteen buildings", &[&file[..], &[0]].concat(), &all)?;
    let more = [&file[..], &[BUILDING], &buildings[0].commands[0], &[0]].concat();
    if left == 0 {
        refused(&more, &fault(8, file.len(), BUILDING))?;
        return Ok(FULL.to_string());
    }
    refused(&more, &fault(13, file.len(), BUILDING))?;
    if buildings.len() < MOST_BUILDINGS {
        file.truncate(file.len() - buildings[0].commands[0].len());
        let twice = [&file[..], &[BUILDING, 0]].concat();
        refused(&twice, &fault(13, file.len(), BUILDING))?;
    }
    Ok(TOO_MANY.to_string())
}

fn commands(file: &[u8]) -> usize {
    let commands = generate::split(file).into_iter();
    commands.map(|command| generate::weight(&command)).sum()
}

/// Without its settings a building is refused with 4 at what stands in their place; a first 0D in front of the file is 4 at 0.
fn without_settings(
    random: &mut Random,
    file: &[u8],
    buildings: &[Building],
) -> Result<String, String> {
    let one = &buildings[random.below(buildings.len() as u64) as usize];
    let behind = one.at + one.commands[0].len();
    let rest = [&file[..one.at], &file[behind..]].concat();
    refused(&rest, &fault(4, one.at, file[behind]))?;
    refused(&[&[BUILDING], file].concat(), &fault(4, 0, BUILDING))?;
    let place = if one.at == 0 { "first" } else { "later" };
    Ok(without(place, file[behind]))
}

/// Where another building, with the same settings, begins right before a command that asks for something, the command is 6.
fn forgotten(
    random: &mut Random,
    file: &[u8],
    buildings: &[Building],
) -> Result<Vec<String>, String> {
    let mut asking = Vec::new();
    for building in buildings {
        let mut at = building.at;
        for command in &building.commands {
            if !asked(command).is_empty() {
                asking.push((at, command, &building.commands[0]));
            }
            at += command.len();
        }
    }
    if asking.is_empty() || commands(file) + 2 + generate::MOST_SETS > MOST_COMMANDS {
        return Ok(vec![]);
    }
    let (at, command, settings) = asking[random.below(asking.len() as u64) as usize];
    let parted = [&file[..at], &[BUILDING], settings, &file[at..]].concat();
    if buildings.iter().filter(|one| one.at <= at).count() == MOST_BUILDINGS {
        refused(&parted, &fault(13, at, BUILDING))?;
        return Ok(vec![PARTED_17TH.to_string()]);
    }
    let behind = at + 1 + settings.len();
    refused(&parted, &fault(6, behind, command[0]))?;
    Ok(vec![format!("forgotten before {:02X}", command[0])])
}

// The cases.

const TOO_MANY: &str = "13 behind sixteen";
const FULL: &str = "8 before sixteen";
const PARTED_17TH: &str = "13 before a command that asks";
const EACH: &str = "a row in each building";
const NONE: &str = "no row in any building";
const SOME: &str = "a row in some buildings";
const FAILED: &str = "rows failed in several buildings";

/// How many buildings there are beside how many there were.
fn rearranged_as(taken: &[Vec<u8>], own: &[Vec<u8>]) -> String {
    let more = match taken.len().cmp(&own.len()) {
        Ordering::Less => "fewer",
        Ordering::Equal => "as many",
        Ordering::Greater => "more",
    };
    format!("rearranged, {more}")
}

/// A building without settings, and the command in their place.
fn without(place: &str, code: u8) -> String {
    format!("without settings, {place}, {code:02X}")
}

/// What is moved: rows of each kind in a later building, those of a block too, and how many buildings have rows.
fn moves(file: &[u8], buildings: &[Building], all: &[Row]) -> Vec<String> {
    let in_building = |row: &Row| buildings.partition_point(|one| one.at <= row[0] as usize) - 1;
    let mut with = vec![[false; 2]; buildings.len()];
    let mut cases = Vec::new();
    for row in all {
        let place = in_building(row);
        with[place][0] = true;
        with[place][1] |= row[7] != 0;
        let of_block = row[1] == i64::from(STOREY) && !at_command(&buildings[place], row);
        if place > 0 {
            let code = if of_block { BLOCK } else { row[1] as u8 };
            cases.push(format!("a row of {code:02X} moved"));
        }
    }
    assert!(all.iter().all(|row| (row[0] as usize) < file.len()));
    let count = |which: usize| with.iter().filter(|one| one[which]).count();
    cases.push(match count(0) {
        0 => NONE.to_string(),
        some if some == buildings.len() => EACH.to_string(),
        _ => SOME.to_string(),
    });
    if count(1) > 1 {
        cases.push(FAILED.to_string());
    }
    cases
}

/// Whether a row has the offset of a command of its building; that of a block's storey lies within the block.
fn at_command(building: &Building, row: &Row) -> bool {
    let mut at = building.at;
    building.commands.iter().any(|command| {
        let found = at == row[0] as usize;
        at += command.len();
        found
    })
}

/// The cases that must be met.
fn wanted() -> Vec<String> {
    let mut wanted = campus::wanted();
    wanted.extend([TOO_MANY, FULL, PARTED_17TH, EACH, NONE, SOME, FAILED].map(str::to_string));
    wanted.extend(["fewer", "as many", "more"].map(|more| format!("rearranged, {more}")));
    let with_rows = (3..=12).filter(|code| *code != 8);
    wanted.extend(with_rows.map(|code| format!("a row of {code:02X} moved")));
    let asking_for_nothing = [2, 3, 4, 6, 8, 10, BUILDING];
    for place in ["first", "later"] {
        wanted.extend(asking_for_nothing.map(|code| without(place, code)));
    }
    wanted.push(without("later", 0));
    let asking = [5, 7, 9, BLOCK, 12];
    wanted.extend(asking.map(|code| format!("forgotten before {code:02X}")));
    wanted
}

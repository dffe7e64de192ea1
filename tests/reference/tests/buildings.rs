//! Several buildings in a file (02, No. 10): rows worked out by hand, what a building forgets, the number of buildings, the order of
//! trial, the one limit of the commands, and writing.
//! Assumes nothing; q is 350, gj is 140 in the settings that stand in `JOB`.

use super::*;

/// The command that begins another building.
const NEXT: [u8; 1] = [13];

/// The settings of `JOB`.
fn first() -> Vec<u8> {
    JOB[..7].to_vec()
}

/// Settings with another q, gj and gf.
fn settings(q: u32, gj: u32, gf: u32) -> Vec<u8> {
    command(1, &[(0, q), (1, gj), (2, gf)])
}

fn joint(id: u32, r: u32, eb: u32) -> Vec<u8> {
    command(2, &[(0, id), (1, r), (2, r), (3, eb)])
}

fn base(mr: u32, me: u32) -> Vec<u8> {
    command(6, &[(2, mr), (3, me)])
}

/// A member 1,000 long with both ends at a joint; each moment is 1,000.
fn member(id: u32) -> Vec<u8> {
    command(5, &[(0, 1000), (1, id), (2, id), (3, 1000), (4, 1000)])
}

/// A basement member at a joint or at the latest wall, with VE 1,000.
fn below(place: u32, id: u32) -> Vec<u8> {
    command(12, &[(0, place), (1, id), (3, 1000)])
}

/// A file of these buildings, each its commands with the settings, and the end.
fn file(buildings: &[Vec<Vec<u8>>]) -> Vec<u8> {
    let buildings: Vec<Vec<u8>> = buildings.iter().map(|commands| commands.concat()).collect();
    [buildings.join(&NEXT[..]), vec![0]].concat()
}

/// So many buildings of settings alone, without an end.
fn alone(count: usize) -> Vec<u8> {
    vec![first(); count].join(&NEXT[..])
}

/// The rows of an accepted file.
fn rows(file: &[u8]) -> Vec<[i64; 8]> {
    let mut words = vec![0; 8 * size(file).expect("an accepted file")];
    assert_eq!(rows_of(file, &mut words), size(file));
    words.as_chunks().0.to_vec()
}

/// The refusal of bytes, which is that of each call; the command's byte stands at its offset, and no operand is named but for 5.
fn refused(parts: &[&[u8]], number: u8, offset: usize) {
    let bytes = parts.concat();
    assert_eq!(size(&bytes), refusal(number, offset, 0));
    assert_eq!(run(&bytes, &mut [7; 64]), refusal(number, offset, 0));
    let found = fault(&bytes);
    let command = bytes.get(offset).copied().unwrap_or(0);
    assert_eq!(
        (found.number, found.offset, found.command),
        (u32::from(number), offset, u32::from(command))
    );
    assert!(number == 5 || found.operand == 0);
}

/// What is in the first building: settings, joint 9, a wall base, a soil.
fn given() -> Vec<Vec<u8>> {
    let soil = command(8, &[(1, 0.5f32.to_bits())]);
    vec![first(), joint(9, 100, 100), base(34, 13), soil]
}

/// At first a is 1.40 and D 1000 · 2800 / 1000; then gj is 2.00, a q, 1.00, and D 1000 · 2000 / 1000; then a is 1.50 by other sums, and D
/// 1000 · 3000 / 1000. The shear of the column is q · VE where its strengths do not govern: 350, then 100, then 200.
#[test]
fn each_building_has_its_own_settings_and_joints() {
    let column = command(3, &[(1, 1_000_000), (5, 100)]);
    let file = file(&[
        vec![first(), joint(9, 100, 100), member(9), column.clone()],
        vec![
            settings(100, 200, 100),
            joint(9, 100, 100),
            member(9),
            column.clone(),
        ],
        vec![
            settings(200, 100, 100),
            joint(9, 300, 200),
            member(9),
            column,
        ],
    ]);
    let expected = [
        [21, 5, 2800, -2800, 0, 0, 0, 1],
        [44, 3, 350, 0, 0, 0, 1, 1],
        [95, 5, 2000, -2000, 0, 0, 0, 1],
        [118, 3, 100, 0, 0, 0, 1, 1],
        [169, 5, 3000, -3000, 0, 0, 0, 1],
        [192, 3, 200, 0, 0, 0, 1, 1],
    ];
    assert_eq!(rows(&file), expected);
    assert_eq!(run(&file, &mut [0; 48]), ran(6, 6, 6));
    assert_eq!(run(&file, &mut [0; 47]), refusal(9, 0, 6));
}

/// Each building's rows are those of its own file, word 0 moved by the offset of its settings: 0, 174 and 182. The second is settings
/// alone; those of the third have blocks of storeys, whose sets count from the file's first byte.
#[test]
fn each_building_has_the_rows_of_its_own_file() {
    let footing = command(9, &[(4, 100_000), (10, 7)]);
    let storeys = block_of(2, &[command(7, &[(0, 50)]), command(7, &[(1, 60)])]);
    let full = [given(), vec![footing, storeys, below(0, 9), below(1, 0)]].concat();
    let other = [vec![settings(200, 150, 110)], full[1..].to_vec()].concat();
    let buildings = [full, vec![first()], other];
    let mut expected = Vec::new();
    let mut at = 0;
    for building in &buildings {
        let own = rows(&file(&[building.clone()]));
        expected.extend(own.into_iter().map(|mut row| {
            row[0] += at;
            row
        }));
        at += building.concat().len() as i64 + 1;
    }
    let found = rows(&file(&buildings));
    assert_eq!(found, expected);
    assert_eq!(found.len(), 18);
    assert_eq!([found[3][0], found[4][0]], [113, 137]);
    assert_ne!(found[0][2..], found[9][2..]);
}

/// What the first building gives is not there in the second: its joint, its wall, its soil.
#[test]
fn joints_wall_and_soil_are_forgotten() {
    let before = [&given().concat()[..], &NEXT].concat();
    let at = before.len() + 7;
    let asking = [
        member(9),
        below(0, 9),
        below(1, 0),
        command(7, &[]),
        block(2),
        command(9, &[]),
    ];
    for asks in asking {
        assert!(size(&[&given().concat(), &asks, &[0][..]].concat()).is_ok());
        refused(&[&before, &first(), &asks, &[0]], 6, at);
        let again = given()[1..].concat();
        let file = [&before[..], &first(), &again, &asks, &[0]].concat();
        assert!(size(&file).is_ok());
        refused(
            &[&before, &first(), &again, &NEXT, &first(), &asks, &[0]],
            6,
            at + 54,
        );
    }
}

/// Another joint, wall base or soil given in the second building leaves the others forgotten.
#[test]
fn what_is_given_anew_gives_nothing_else() {
    let [given_joint, wall, soil] = [1, 2, 3].map(|place| given()[place].clone());
    let before = [&given().concat()[..], &NEXT, &first()].concat();
    let at = before.len();
    refused(&[&before, &joint(8, 1, 1), &member(9), &[0]], 6, at + 14);
    refused(&[&before, &given_joint, &below(1, 0), &[0]], 6, at + 14);
    refused(&[&before, &wall, &member(9), &[0]], 6, at + 25);
    refused(&[&before, &soil, &command(7, &[]), &[0]], 6, at + 7);
    refused(&[&before, &wall, &command(9, &[]), &[0]], 6, at + 25);
}

#[test]
fn a_file_has_16_buildings_at_most() {
    for count in 1..=16 {
        let file = [alone(count), vec![0]].concat();
        assert_eq!(size(&file), Ok(0));
        assert_eq!(run(&file, &mut []), ran(0, 0, 0));
    }
    refused(&[&alone(17), &[0]], 13, 127);
    refused(&[&alone(20), &[0]], 13, 127);
    refused(&[&alone(16), &NEXT], 13, 127);
    let details = [first(), JOB[7..16].to_vec()].concat();
    let sixteen = vec![details; 16].join(&NEXT[..]);
    assert_eq!(size(&[&sixteen[..], &[0]].concat()), Ok(16));
    refused(&[&sixteen, &NEXT, &JOB], 13, 271);
}

/// Of a building's own byte: 8, then 13, then 4.
#[test]
fn the_order_of_trial_at_a_building() {
    refused(&[&NEXT, &JOB], 4, 0);
    refused(&[&NEXT, &NEXT], 4, 0);
    refused(&[&first(), &NEXT, &NEXT, &JOB], 4, 8);
    refused(&[&alone(15), &NEXT, &NEXT, &JOB], 13, 120);
    let fourteen = [&alone(14)[..], &NEXT].concat();
    refused(&[&fourteen, &NEXT, &JOB], 4, 112);
    let full = |buildings: usize| {
        let soils = command(8, &[]).repeat(4097 - 2 * buildings);
        [alone(buildings), soils].concat()
    };
    for buildings in [1, 2, 15, 16] {
        let full = full(buildings);
        assert_eq!(size(&[&full[..], &[0]].concat()), Ok(0));
        refused(&[&full, &NEXT, &JOB], 8, full.len());
    }
}

/// Of the command behind it: 2, 1, 8, then 4 whatever else is wrong with it; a block keeps its own order.
#[test]
fn settings_must_be_the_next_command() {
    let begun = [first(), NEXT.to_vec()].concat();
    let given = [given().concat(), NEXT.to_vec()].concat();
    for code in (2..=10).chain([12]) {
        refused(&[&begun, &command(code, &[]), &[0]], 4, 8);
        refused(&[&given, &command(code, &[]), &[0]], 4, 54);
        refused(
            &[&begun, &command(code, &[(0, 255), (3, u32::MAX)]), &[0]],
            4,
            8,
        );
    }
    refused(&[&begun, &[0]], 4, 8);
    refused(&[&begun, &[0, 0]], 4, 8);
    refused(&[&begun, &[0, 255, 1]], 4, 8);
    refused(&[&begun, &[14]], 2, 8);
    refused(&[&begun, &[255, 0]], 2, 8);
    refused(&[&begun], 1, 8);
    refused(&[&given], 1, 54);
    refused(&[&begun, &first()[..6]], 1, 8);
    refused(&[&begun, &[1]], 1, 8);
    refused(&[&begun, &command(3, &[])[..28]], 1, 8);
    refused(&[&begun, &first()], 1, 15);
    refused(&[&begun, &command(1, &[(0, 99)]), &[0]], 5, 8);
    refused(&[&begun, &first(), &first(), &[0]], 4, 15);
    refused(&[&begun, &first(), &[0, 13]], 3, 16);
}

#[test]
fn a_block_behind_a_building_keeps_its_order() {
    let given = [given().concat(), NEXT.to_vec()].concat();
    let bad = block_of(1, &[command(7, &[(5, u32::MAX)])]);
    refused(&[&given, &[11]], 1, 54);
    refused(&[&given, &[11, 0], &[0]], 5, 54);
    refused(&[&given, &[11, 65]], 5, 54);
    refused(&[&given, &block(2)[..49]], 1, 54);
    refused(&[&given, &block(2), &[0]], 4, 54);
    refused(&[&given, &bad, &[0]], 4, 54);
    refused(&[&given, &first(), &bad, &[0]], 6, 61);
    let full = [first(), command(8, &[]).repeat(4094), NEXT.to_vec()].concat();
    refused(&[&full, &block(1), &[0]], 8, full.len());
    refused(&[&full, &[11, 0]], 5, full.len());
    refused(&[&full[7..], &block(2), &[0]], 4, 0);
    let full = [first(), command(8, &[]).repeat(4092), NEXT.to_vec()].concat();
    refused(&[&full, &block(2), &[0]], 4, full.len());
    refused(&[&full, &block(3), &[0]], 8, full.len());
}

/// The commands are counted through all buildings: as the 4,096th a building has no room for its settings, as the 4,097th it is 8.
#[test]
fn the_4096_commands_are_those_of_the_file() {
    let soils = |count: usize| command(8, &[]).repeat(count);
    let with = |before: usize, behind: usize| {
        let parts = [
            first(),
            soils(before),
            NEXT.to_vec(),
            first(),
            soils(behind),
        ];
        parts.concat()
    };
    for before in [0, 1, 2000, 4093] {
        let full = with(before, 4093 - before);
        assert_eq!(size(&[&full[..], &[0]].concat()), Ok(0));
        refused(&[&full, &soils(1), &[0]], 8, full.len());
        refused(&[&full, &NEXT, &[0]], 8, full.len());
        refused(&[&full, &[14]], 2, full.len());
    }
    let as_4096th = [first(), soils(4094), NEXT.to_vec()].concat();
    refused(&[&as_4096th, &first(), &[0]], 8, as_4096th.len());
    refused(&[&as_4096th, &NEXT], 8, as_4096th.len());
    refused(&[&as_4096th, &[0]], 4, as_4096th.len());
    refused(&[&as_4096th], 1, as_4096th.len());
    let as_4097th = [first(), soils(4095)].concat();
    refused(&[&as_4097th, &NEXT, &JOB], 8, as_4097th.len());
    let walls = [
        first(),
        base(1, 1),
        block(64),
        NEXT.to_vec(),
        first(),
        base(1, 1),
    ]
    .concat();
    let full = [walls, soils(4096 - 69)].concat();
    assert_eq!(size(&[&full[..], &[0]].concat()), Ok(66));
    refused(&[&full, &block(1), &[0]], 8, full.len());
}

/// The byte 0D among operands begins nothing: q 269, a joint with id 13 and such sums, a length of 3,341.
#[test]
fn a_byte_among_operands_begins_no_building() {
    let file = [
        settings(269, 113, 113),
        joint(13, 0x000D_0D0D, 13),
        command(5, &[(0, 0x0D0D), (1, 13), (2, 13)]),
        vec![0],
    ];
    let file = file.concat();
    assert_eq!(file.iter().filter(|&&byte| byte == 13).count(), 13);
    assert_eq!(rows(&file).len(), 1);
}

#[test]
fn a_building_is_written_and_read_back() {
    assert_eq!(written(13, &[], 1), (answer(0, 1), vec![13]));
    assert_eq!(written(13, &[], 3), (answer(0, 1), vec![13, 0xA5, 0xA5]));
    assert_eq!(written(13, &[], 0), (answer(11, 0), vec![]));
    let read = read_command(&[13, 1]).expect("a building");
    assert_eq!(
        (read.code, &read.values[..], read.at_fault()),
        (13, &[][..], None)
    );
    let file = file(&[vec![first()], vec![first(), member(9)], vec![first()]]);
    let found = commands(&file);
    let offsets: Vec<usize> = found.iter().map(|(at, _)| *at).collect();
    let codes: Vec<u8> = found.iter().map(|(_, command)| command.code).collect();
    assert_eq!(offsets, [0, 7, 8, 15, 38, 39, 46]);
    assert_eq!(codes, [1, 13, 1, 5, 13, 1, 0]);
}

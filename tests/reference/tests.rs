//! Tries the calls where a listing does not show them: short and long slices, the three numbers of a run, the operand at fault, take-down,
//! writing, printing. Where q governs, at equality and on both sides of it; footings with each of their flags; storeys in blocks;
//! basement members; and several buildings in a file.

mod basement;
mod buildings;

use super::members::Coefficient;
use super::{at_fault, commands, layout, read_command, write_block, write_command};
use super::{count, fault, run, size, take_down, Fault, Refusal, Totals};
use super::{page, Command, Printed, Written};

/// Settings 350, 140, 120, a detail that passes, one that does not with a lap at a wall base, end.
const JOB: [u8; 26] = [
    1, 1, 94, 0, 140, 0, 120, 10, 0, 0, 131, 0, 250, 3, 232, 0, 10, 2, 0, 132, 0, 250, 3, 232, 1, 0,
];

fn refusal<T>(number: u8, offset: usize, needed: usize) -> Result<T, Refusal> {
    Err(Refusal {
        number,
        offset,
        needed,
    })
}

/// The answer of a run that is not refused.
fn ran(rows: usize, failed: u64, checks: u64) -> Result<Totals, Refusal> {
    Ok(Totals {
        rows,
        failed,
        checks,
    })
}

#[test]
fn run_writes_the_rows_and_nothing_else() {
    let mut words = [7; 20];
    assert_eq!(size(&JOB), Ok(2));
    assert_eq!(run(&JOB, &mut words), ran(2, 1, 2));
    assert_eq!(words[..8], [7, 10, 131_000, 131_250, 0, 0, 0, 0]);
    assert_eq!(words[8..16], [16, 10, 132_000, 131_250, 0, 0, 0, 96]);
    assert_eq!(words[16..], [7; 4]);
    assert_eq!(run(&JOB, &mut [0; 16]), ran(2, 1, 2));
}

#[test]
fn a_refusal_leaves_the_slice() {
    let mut words = [7; 15];
    assert_eq!(run(&JOB, &mut words), refusal(9, 0, 2));
    assert_eq!(run(&JOB, &mut []), refusal(9, 0, 2));
    assert_eq!(run(&JOB[..25], &mut words), refusal(1, 25, 0));
    assert_eq!(run(&[], &mut words), refusal(1, 0, 0));
    assert_eq!(words, [7; 15]);
}

/// 02, No. 8. Other words than the verdicts, which are 0, 255, 0, 5 and 128 here, do not count.
#[test]
fn rows_failed_and_checks_failed_are_counted_in_the_verdicts() {
    let rows = [0, 255, 0, 5, 128].map(|verdict| [9, 3, 7, 7, 7, 7, 7, verdict]);
    let counts = [0, 1, 2, 3, 4, 5].map(|n| Ok(count(&rows[..n])));
    let expected = [
        ran(0, 0, 0),
        ran(1, 0, 0),
        ran(2, 1, 8),
        ran(3, 1, 8),
        ran(4, 2, 10),
        ran(5, 3, 11),
    ];
    assert_eq!(counts, expected);
}

/// Settings alone; then two details, both passed, and both failed, one with a lap at a wall base.
#[test]
fn a_run_answers_its_three_numbers() {
    let job = |details: &[&[u8]]| [&JOB[..7], &details.concat(), &[0]].concat();
    let [passed, failed] = [&JOB[7..16], &JOB[16..25]];
    let too_deep = command(10, &[(1, 132), (2, 250)]);
    assert_eq!(run(&job(&[]), &mut []), ran(0, 0, 0));
    assert_eq!(run(&job(&[passed; 2]), &mut [0; 16]), ran(2, 0, 0));
    assert_eq!(run(&job(&[failed, &too_deep]), &mut [0; 16]), ran(2, 2, 3));
    assert_eq!(
        run(&job(&[failed, &too_deep]), &mut [0; 15]),
        refusal(9, 0, 2)
    );
}

#[test]
fn the_order_of_trial_at_the_limit() {
    let mut job = JOB[..7].to_vec();
    job.extend([8, 0, 0, 0, 0, 0, 0].repeat(4095));
    let at = job.len();
    let then = |bytes: &[u8]| size(&[&job[..], bytes].concat());
    assert_eq!(then(&[0]), Ok(0));
    assert_eq!(then(&[]), refusal(1, at, 0));
    assert_eq!(then(&[0, 0]), refusal(3, at + 1, 0));
    assert_eq!(then(&[14]), refusal(2, at, 0));
    assert_eq!(then(&[1, 0, 0]), refusal(1, at, 0));
    assert_eq!(then(&JOB[..7]), refusal(8, at, 0));
    assert_eq!(then(&[8, 9, 0, 0, 0, 0, 0]), refusal(8, at, 0));
    assert_eq!(then(&[&[7][..], &[0; 24]].concat()), refusal(8, at, 0));
}

/// 02, No. 1. A member 500 long with both ends at the joint 9, before and after the joint is given again; each moment is 1,000. At
/// first a is 1.40 · 100 / 100 and D 1000 · 2800 / 500, then q, 3.50, as EB is 0, and D 1000 · 7000 / 500. The joint 8 stays.
#[test]
fn a_joint_given_again_holds_for_later_members() {
    let joint = |id, seismic| command(2, &[(0, id), (1, 100), (2, 200), (3, seismic)]);
    let member = |id| command(5, &[(1, id), (2, id), (3, 1000), (4, 1000)]);
    let commands = [
        joint(9, 100),
        joint(8, 100),
        member(9),
        joint(9, 0),
        member(9),
        member(8),
    ]
    .concat();
    let mut words = [0; 24];
    assert_eq!(
        run(&[&JOB[..7], &commands, &[0]].concat(), &mut words),
        ran(3, 3, 3)
    );
    assert_eq!(words[..8], [35, 5, 5600, -5600, 0, 0, 0, 1]);
    assert_eq!(words[8..16], [72, 5, 14_000, -14_000, 0, 0, 0, 1]);
    assert_eq!(words[16..], [95, 5, 5600, -5600, 0, 0, 0, 1]);
}

// Where q governs (02, No. 5); q is 350.

/// Runs a job and gives the number of its rows.
fn rows_of(job: &[u8], words: &mut [i64]) -> Result<usize, Refusal> {
    run(job, words).map(|totals| totals.rows)
}

/// A row that is the only one of its job.
fn row(commands: &[Vec<u8>]) -> [i64; 8] {
    let mut row = [0; 8];
    let job = [&JOB[..7], &commands.concat(), &[0]].concat();
    assert_eq!(rows_of(&job, &mut row), Ok(1));
    row
}

/// V and word 6 of a column with these sums of plus and minus.
fn column(length: u32, [plus, minus]: [u32; 2], ve: u32) -> [i64; 2] {
    let row = row(&[command(3, &[(0, length), (1, plus), (4, minus), (5, ve)])]);
    assert_eq!(row[3..6], [0; 3]);
    [row[2], row[6]]
}

/// Upper, lower and words 5 and 6 of a beam with these sums; V0 is 10.
fn beam(length: u32, [plus, minus]: [u32; 2], ve: u32) -> [i64; 4] {
    let set = [(0, length), (2, plus), (3, minus), (5, 10), (6, ve)];
    let row = row(&[command(4, &set)]);
    [row[2], row[3], row[5], row[6]]
}

/// V and word 6 of a wall base.
fn wall_base(mr: u32, me: u32, ve: u32) -> [i64; 2] {
    let row = row(&[command(6, &[(2, mr), (3, me), (4, ve)])]);
    [row[2], row[6]]
}

/// 1400 · S / 1400 beside 350 · 100 / 100, with the larger sum.
#[test]
fn the_cap_of_a_column_governs_where_it_is_strictly_the_smaller() {
    assert_eq!(column(1400, [349, 0], 100), [349, 0]);
    assert_eq!(column(1400, [350, 0], 100), [350, 0]);
    assert_eq!(column(1400, [351, 0], 100), [350, 1]);
    assert_eq!(column(1400, [349, 351], 100), [350, 1]);
    assert_eq!(column(1400, [351, 349], 100), [350, 1]);
    assert_eq!(column(1400, [350, 350], 100), [350, 0]);
}

/// 1200 · S / 1200 beside 350 · 120 / 120, each direction by its own sum.
#[test]
fn the_cap_of_a_beam_governs_by_direction() {
    assert_eq!(beam(1200, [349, 349], 120), [359, -339, 0, 0]);
    assert_eq!(beam(1200, [350, 350], 120), [360, -340, 0, 0]);
    assert_eq!(beam(1200, [351, 350], 120), [360, -340, 1, 0]);
    assert_eq!(beam(1200, [350, 351], 120), [360, -340, 0, 1]);
    assert_eq!(beam(1200, [349, 900], 120), [359, -340, 0, 1]);
    assert_eq!(beam(1200, [900, 349], 120), [360, -339, 1, 0]);
    assert_eq!(beam(1200, [900, 351], 120), [360, -340, 1, 1]);
}

/// The paper's figures; 130 · 35 = 350 · 13.
#[test]
fn the_cap_of_a_wall_base_governs_by_its_coefficient() {
    assert_eq!(wall_base(5_000_000, 2_000_000, 900_000), [2_925_000, 0]);
    assert_eq!(wall_base(5_000_000, 1_857_143, 900_000), [3_150_000, 0]);
    assert_eq!(wall_base(5_000_000, 1_857_142, 900_000), [3_150_000, 1]);
    assert_eq!(wall_base(34, 13, 2600), [8840, 0]);
    assert_eq!(wall_base(35, 13, 2600), [9100, 0]);
    assert_eq!(wall_base(36, 13, 2600), [9100, 1]);
}

#[test]
fn the_cap_of_a_wall_base_without_moment_governs() {
    assert_eq!(wall_base(7, 0, 100), [350, 1]);
    assert_eq!(wall_base(0, 0, 100), [350, 1]);
    assert_eq!(wall_base(0, 1, 100), [0, 0]);
}

#[test]
fn without_seismic_shear_the_sums_tell() {
    assert_eq!(column(3000, [0, 0], 0), [0, 0]);
    assert_eq!(column(3000, [1, 0], 0), [0, 1]);
    assert_eq!(column(3000, [0, 1], 0), [0, 1]);
    assert_eq!(beam(3000, [0, 0], 0), [10, 10, 0, 0]);
    assert_eq!(beam(3000, [1, 0], 0), [10, 10, 1, 0]);
    assert_eq!(beam(3000, [0, 1], 0), [10, 10, 0, 1]);
}

#[test]
fn without_seismic_shear_a_wall_base_tells_of_its_coefficient() {
    assert_eq!(wall_base(36, 13, 0), [0, 1]);
    assert_eq!(wall_base(35, 13, 0), [0, 0]);
    assert_eq!(wall_base(34, 13, 0), [0, 0]);
    assert_eq!(wall_base(0, 0, 0), [0, 1]);
}

/// The values are compared before they are rounded. Column: 3.5 beside 3.73, 3.27 and 3.5, all up to 4. Beam: 2.92 beside 3 and 2.67,
/// all up to 3. Wall base: 3.5 beside 3.6 and 3.4, all up to 4.
#[test]
fn rounded_values_do_not_tell() {
    assert_eq!(column(3000, [8, 0], 1), [4, 1]);
    assert_eq!(column(3000, [7, 0], 1), [4, 0]);
    assert_eq!(column(3200, [8, 0], 1), [4, 0]);
    assert_eq!(beam(3600, [9, 8], 1), [13, 7, 1, 0]);
    assert_eq!(beam(3600, [8, 9], 1), [13, 7, 0, 1]);
    assert_eq!(wall_base(36, 13, 1), [4, 1]);
    assert_eq!(wall_base(34, 13, 1), [4, 0]);
}

/// The numbers compared are largest here.
#[test]
fn the_cap_is_compared_at_the_limits() {
    const LIMIT: u32 = 100_000_000;
    let words = |code, length| {
        let amounts = (1..=7).filter(|&place| (code, place) != (4, 5));
        let set: Vec<_> = amounts.map(|place| (place, LIMIT)).collect();
        row(&[command(code, &[&set[..], &[(0, length)]].concat())])
    };
    assert_eq!(words(3, 100_000)[2..7], [2_800_000, 100_000_000, 0, 0, 0]);
    assert_eq!(words(3, 800)[2..7], [350_000_000, 100_000_000, 0, 0, 0]);
    assert_eq!(words(3, 799)[2..7], [350_000_000, 100_000_000, 0, 0, 1]);
    assert_eq!(
        words(4, 100_000)[2..7],
        [2_400_000, -2_400_000, 100_000_000, 0, 0]
    );
    assert_eq!(
        words(4, 500)[2..7],
        [291_666_667, -291_666_667, 100_000_000, 1, 1]
    );
    assert_eq!(wall_base(LIMIT, LIMIT, LIMIT), [130_000_000, 0]);
    assert_eq!(wall_base(LIMIT, 1, LIMIT), [350_000_000, 1]);
}

/// Not the negation of what the exception of bit 4 asks for.
#[test]
fn at_equality_the_coefficient_is_neither_below_the_cap_nor_above() {
    let both = |r, e| {
        let a = Coefficient::new(130, r, e, 350);
        [a.below_cap, a.cap_governs]
    };
    assert_eq!(both(34, 13), [true, false]);
    assert_eq!(both(35, 13), [false, false]);
    assert_eq!(both(36, 13), [false, true]);
    assert_eq!(both(0, 0), [false, true]);
}

/// A wall base and a joint with E = 0: word 6 of the storey is k, the member without hinges has 0 and 0.
#[test]
fn other_rows_keep_their_words() {
    let commands = [
        command(6, &[(2, 7), (4, 100)]),
        command(7, &[(2, 1), (3, 8)]),
        command(2, &[(1, 1), (2, 1)]),
        command(5, &[(3, 10), (4, 10)]),
    ];
    let mut words = [0; 24];
    let job = [&JOB[..7], &commands.concat(), &[0]].concat();
    assert_eq!(run(&job, &mut words), ran(3, 3, 5));
    assert_eq!(words[..8], [7, 6, 350, 0, 3, 7, 1, 129]);
    assert_eq!(words[8..16], [32, 7, 59, 0, 2, 0, 500, 3]);
    assert_eq!(words[16..], [71, 5, 140, -140, 0, 0, 0, 1]);
}

// Footings with their flags (02, No. 6); q is 350.

/// Words 2 to 7 of the two rows of a footing on a granular soil with t 5000 that is not sensitive.
fn footing(set: &[(usize, u32)]) -> [[i64; 6]; 2] {
    let soil = command(8, &[(1, 0.5f32.to_bits())]);
    let job = [&JOB[..7], &soil, &command(9, set), &[0]].concat();
    let mut words = [0; 16];
    assert_eq!(rows_of(&job, &mut words), Ok(2));
    [0, 8].map(|row| {
        assert_eq!(words[row..row + 2], [14, 9]);
        words[row + 2..row + 8].try_into().expect("six words")
    })
}

/// 01's footing with these flags and this HV in place of 20,000: H of the first row is 144,000 more.
fn figures(flags: u32, hv: u32) -> [[i64; 6]; 2] {
    let sides_and_element = [(0, 2000), (1, 3000), (2, 400_000), (3, 200_000)];
    let loads = [(4, 1_000_000), (5, 100_000), (6, 50_000), (7, 20_000)];
    let last = [(10, hv), (11, 60_000), (13, 100_000), (14, flags)];
    footing(&[sides_and_element, loads, last].concat())
}

#[test]
fn the_thrust_counts_with_the_contact_alone() {
    for flags in 0..8 {
        let passive = if flags >= 4 { 40_000 } else { 0 };
        let [plus, minus] = [620_000, 380_000].map(|base| base + passive);
        let expected = [
            [1_240_000, 80, 0, 164_000, plus, 0],
            [760_000, 3, 0, 124_000, minus, 0],
        ];
        assert_eq!(figures(flags, 20_000), expected);
    }
}

#[test]
fn bit_8_counts_from_the_thrust_that_counts() {
    let verdict = |flags, h: u32| figures(flags, h - 144_000)[0][5];
    assert_eq!([620_000, 620_001].map(|h| verdict(3, h)), [0, 8]);
    assert_eq!(
        [620_001, 660_000, 660_001].map(|h| verdict(4, h)),
        [0, 0, 8]
    );
}

/// ex is 1,200 with sides of 3,000, and a is 1.20.
#[test]
fn the_exception_asks_for_bits_0_and_1_whatever_bit_2_is() {
    let sides_and_element = [(0, 3000), (1, 3000), (2, 1), (3, 1)];
    for flags in 0..8 {
        let set = [(4, 1_000_000), (6, 1_200_000), (14, flags)];
        let verdict = if flags % 4 == 3 { 0 } else { 4 };
        let expected = [1_000_000, 1200, 0, 0, 500_000, verdict];
        assert_eq!(
            footing(&[&sides_and_element[..], &set].concat()),
            [expected; 2]
        );
    }
}

// Storeys in blocks (02, No. 7).

/// A block of storeys, each a storey's bytes; the count may be another than theirs.
fn block_of(count: u8, storeys: &[Vec<u8>]) -> Vec<u8> {
    let sets: Vec<&[u8]> = storeys.iter().map(|storey| &storey[1..]).collect();
    [&[11, count], &sets.concat()[..]].concat()
}

/// So many storeys in range.
fn block(count: u8) -> Vec<u8> {
    block_of(count, &vec![command(7, &[]); usize::from(count)])
}

/// Two walls, the second with other figures; each storey with its own.
#[test]
fn a_block_has_the_rows_of_its_storeys() {
    let bases = [1, 2].map(|mr| command(6, &[(2, 1000 * mr), (3, 900), (4, 700)]));
    let storey = |n| {
        command(
            7,
            &[
                (0, 100 * n),
                (1, 70 * n),
                (2, n),
                (3, 9),
                (4, 300),
                (5, 200),
            ],
        )
    };
    let storeys: Vec<Vec<u8>> = (1..=6).map(storey).collect();
    let singly = [
        &JOB[..7],
        &bases[0],
        &storeys[..3].concat(),
        &bases[1],
        &storeys[3..].concat(),
        &[0],
    ];
    let blocks = [
        &JOB[..7],
        &bases[0],
        &block_of(3, &storeys[..3]),
        &bases[1],
        &block_of(2, &storeys[3..5]),
        &storeys[5],
        &[0],
    ];
    let [singly, blocks] = [singly.concat(), blocks.concat()].map(|job| {
        let mut words = [0; 64];
        assert_eq!((size(&job), rows_of(&job, &mut words)), (Ok(8), Ok(8)));
        assert_eq!(run(&job, &mut [0; 63]), refusal(9, 0, 8));
        words
    });
    let offsets = [7, 34, 58, 82, 106, 133, 157, 181];
    for (row, offset) in offsets.into_iter().enumerate() {
        let words = 8 * row + 1..8 * row + 8;
        assert_eq!(blocks[8 * row], offset);
        assert_eq!(blocks[words.clone()], singly[words]);
    }
    assert_eq!([blocks[1], blocks[9], blocks[57]], [6, 7, 7]);
}

/// Each fault with all those behind it in the order, as far as they go together.
#[test]
fn the_order_of_trial_at_a_block() {
    let [base, bad] = [command(6, &[]), command(7, &[(5, u32::MAX)])];
    let settings = JOB[..7].to_vec();
    let refused = |parts: &[&[u8]], number, offset| {
        assert_eq!(size(&parts.concat()), refusal(number, offset, 0));
    };
    refused(&[&[11]], 1, 0);
    refused(&[&settings, &[11]], 1, 7);
    refused(&[&[11, 0]], 5, 0);
    refused(&[&block_of(65, &[])], 5, 0);
    refused(&[&settings, &block_of(255, &[])], 5, 7);
    refused(&[&block_of(2, &[bad.clone()])], 1, 0);
    refused(&[&block_of(64, &[])], 1, 0);
    refused(&[&block(64)[..1537]], 1, 0);
    refused(&[&block_of(1, &[bad.clone()])], 4, 0);
    refused(&[&settings, &block_of(1, &[bad.clone()]), &[0]], 6, 7);
    refused(&[&settings, &block(1), &[0]], 6, 7);
    refused(&[&settings, &base, &block_of(1, &[bad]), &[0]], 5, 32);
    refused(&[&settings, &base, &block(64)], 1, 1570);
    assert_eq!(
        size(&[&settings, &base, &block(64), &[0][..]].concat()),
        Ok(65)
    );
}

/// A block of 64 fills the commands after 4,032 others and passes them after one more.
#[test]
fn a_block_counts_as_so_many_commands() {
    let bad = block_of(2, &vec![command(7, &[(0, u32::MAX)]); 2]);
    let before = |soils| [&JOB[..7], &command(8, &[]).repeat(soils), &command(6, &[])].concat();
    let then = |soils, bytes: &[u8]| size(&[&before(soils), bytes, &[0]].concat());
    let at = |soils: usize| 32 + 7 * soils;
    assert_eq!(then(4030, &block(64)), Ok(65));
    assert_eq!(then(4031, &block(64)), refusal(8, at(4031), 0));
    assert_eq!(then(4031, &block(63)), Ok(64));
    assert_eq!(
        then(4030, &[block(64), block(1)].concat()),
        refusal(8, at(4030) + 1538, 0)
    );
    assert_eq!(
        then(4030, &[block(64), command(8, &[])].concat()),
        refusal(8, at(4030) + 1538, 0)
    );
    assert_eq!(then(4094, &block(1)), refusal(8, at(4094), 0));
    assert_eq!(then(4093, &bad), refusal(8, at(4093), 0));
    assert_eq!(then(4092, &bad), refusal(5, at(4092), 0));
    assert_eq!(then(4094, &block_of(64, &[])), refusal(1, at(4094), 0));
    assert_eq!(then(4094, &[11, 65]), refusal(5, at(4094), 0));
    let without_base = [&JOB[..7], &command(8, &[]).repeat(4094), &block(2), &[0]].concat();
    assert_eq!(size(&without_base), refusal(8, 7 * 4095, 0));
}

/// The count is operand 0, operand j of set i is 1 + 6 · i + j; a set's relation comes before the next set's ranges.
#[test]
fn each_operand_of_a_block_is_named() {
    let named = |count, storeys: &[Vec<u8>]| {
        let found = fault_of(&[command(6, &[]), block_of(count, storeys)]);
        assert_eq!((found.number, found.offset, found.command), (5, 32, 11));
        found.operand
    };
    let good = command(7, &[]);
    for place in 0..6 {
        let number = if place == 3 { 0 } else { u32::MAX };
        let bad = command(7, &[(place, number)]);
        for set in [0, 1, 2, 63] {
            let mut storeys = vec![good.clone(); 64];
            storeys[set] = bad.clone();
            storeys[63] = bad.clone();
            assert_eq!(named(64, &storeys), (1 + 6 * set + place) as u32);
        }
        assert_eq!(named(1, &[bad]), 1 + place as u32);
    }
    let above = command(7, &[(2, 5), (3, 3)]);
    let late = command(7, &[(2, 5), (3, 3), (4, u32::MAX)]);
    let first = command(7, &[(0, u32::MAX)]);
    assert_eq!(named(3, &[good.clone(), above, first.clone()]), 9);
    assert_eq!(named(2, &[late, first]), 5);
    assert_eq!([0, 65, 255].map(|count| named(count, &[])), [0; 3]);
    assert_eq!(fault_of(&[block(1)]).operand, 0);
}

// The operand at fault.

/// The widths of each command's operands, from 01 to 0D; a block has none here.
const OPERANDS: [&[usize]; 13] = [
    &[2; 3],
    &[1, 4, 4, 4],
    &[4; 7],
    &[4; 8],
    &[4, 1, 1, 4, 4, 4, 4],
    &[4; 6],
    &[4; 6],
    &[1, 4, 1],
    &[4, 4, 4, 4, 4, 4, 4, 4, 4, 4, 4, 4, 4, 4, 1],
    &[1, 2, 2, 2, 1],
    &[],
    &[1, 1, 4, 4, 4, 4, 4, 4],
    &[],
];

/// A command in range with each operand 0 where 0 is in range, else the least; `set` are the places and numbers that differ.
fn command(code: u8, set: &[(usize, u32)]) -> Vec<u8> {
    let least = |place| match (code, place) {
        (1, _) => 100,
        (3..=5, 0) | (9, 0 | 1) => 500,
        (6, 0 | 1) => 100,
        (7, 2 | 3) => 1,
        (10, 3) => 1000,
        _ => 0,
    };
    let mut bytes = vec![code];
    for (place, &width) in OPERANDS[usize::from(code) - 1].iter().enumerate() {
        let number = set
            .iter()
            .find(|one| one.0 == place)
            .map_or(least(place), |one| one.1);
        bytes.extend(&number.to_be_bytes()[4 - width..]);
    }
    bytes
}

/// The fault of settings in range, then these commands, then end.
fn fault_of(commands: &[Vec<u8>]) -> Fault {
    fault(&[command(1, &[]), commands.concat(), vec![0]].concat())
}

/// The operand at fault of one command after the settings; it is refused with 5.
fn operand(code: u8, set: &[(usize, u32)]) -> u32 {
    let found = fault_of(&[command(code, set)]);
    let (number, offset, command) = (5, 7, u32::from(code));
    let operand = found.operand;
    assert_eq!(
        found,
        Fault {
            number,
            offset,
            command,
            operand
        }
    );
    operand
}

#[test]
fn a_fault_has_the_byte_at_its_offset() {
    let at = |number, offset, command| Fault {
        number,
        offset,
        command,
        operand: 0,
    };
    let [base, storey, joint] = [6, 7, 2].map(|code| command(code, &[]));
    assert_eq!(fault(&JOB), Fault::default());
    assert_eq!(fault_of(&[base, storey.clone()]), Fault::default());
    assert_eq!(fault(&[]), at(1, 0, 0));
    assert_eq!(fault(&JOB[..25]), at(1, 25, 0));
    assert_eq!(fault(&JOB[..24]), at(1, 16, 10));
    assert_eq!(fault(&[255]), at(2, 0, 255));
    assert_eq!(fault_of(&[vec![14]]), at(2, 7, 14));
    assert_eq!(fault_of(&[vec![0, 255]]), at(3, 8, 255));
    assert_eq!(fault_of(&[vec![0]]), at(3, 8, 0));
    assert_eq!(fault(&[0, 9]), at(4, 0, 0));
    assert_eq!(fault(&command(3, &[(6, u32::MAX)])), at(4, 0, 3));
    assert_eq!(fault_of(&[command(1, &[(0, 0)])]), at(4, 7, 1));
    assert_eq!(fault_of(&[storey]), at(6, 7, 7));
    assert_eq!(fault_of(&[joint.clone(), joint]), Fault::default());
    let many = vec![command(8, &[]); 4096];
    assert_eq!(fault_of(&many), at(8, 28_672, 8));
}

#[test]
fn each_operand_is_named() {
    for code in 2..=12 {
        for (place, &width) in OPERANDS[usize::from(code) - 1].iter().enumerate() {
            // Above every limit, of an i32 too; as an f32 a NaN. J0 has no limit above, an id none at all.
            let number = match (code, place) {
                (7, 3) => 0,
                _ => u32::MAX >> 1 >> (32 - 8 * width),
            };
            let id = matches!((code, place), (2, 0) | (5, 1 | 2) | (12, 1));
            if !id {
                assert_eq!(operand(code, &[(place, number)]), place as u32);
            }
        }
    }
    for place in 0..3 {
        let found = fault(&command(1, &[(place, 99)]));
        assert_eq!((found.number, found.offset), (5, 0));
        assert_eq!((found.command, found.operand), (1, place as u32));
    }
}

#[test]
fn an_id_is_never_named() {
    let joint = command(2, &[(0, 255)]);
    let member = command(5, &[(1, 255), (2, 255)]);
    assert_eq!(fault_of(&[joint, member.clone()]), Fault::default());
    assert_eq!(fault_of(&[member]).number, 6);
    assert_eq!(operand(5, &[(1, 255), (6, u32::MAX)]), 6);
}

#[test]
fn the_first_operand_out_of_range_is_named() {
    assert_eq!(operand(9, &[(14, 8), (11, 1 << 31)]), 11);
    assert_eq!(operand(9, &[(14, 8), (0, 20_001), (1, 499)]), 0);
    assert_eq!(operand(10, &[(3, 999), (4, 2)]), 3);
    assert_eq!(operand(6, &[(1, 99), (5, 100_000_001)]), 1);
    let faults = [command(3, &[(6, u32::MAX)]), command(4, &[(0, 0)])];
    assert_eq!(fault_of(&faults).operand, 6);
}

#[test]
fn flags_run_from_0_to_7() {
    let [soil, footing] = [command(8, &[]), command(9, &[(14, 7)])];
    assert_eq!(fault_of(&[soil, footing]), Fault::default());
    for flags in 8..256 {
        assert_eq!(operand(9, &[(14, flags)]), 14);
    }
}

#[test]
fn a_relation_counts_after_the_ranges() {
    assert_eq!(operand(7, &[(2, 5), (3, 3)]), 2);
    assert_eq!(operand(7, &[(2, 5), (3, 3), (4, u32::MAX)]), 4);
    assert_eq!(operand(7, &[(2, 5), (3, 3), (5, 100_000_001)]), 5);
    assert_eq!(operand(7, &[(2, 1), (3, 0)]), 3);
    assert_eq!(operand(7, &[(2, 0), (3, 0)]), 2);
    let [nan, infinity, three] = [0x7FC0_0000, 0x7F80_0000, 3f32.to_bits()];
    for value in [nan, infinity, three, 0x8000_0000, 0x4000_0001] {
        assert_eq!(operand(8, &[(1, value)]), 1);
        assert_eq!(operand(8, &[(1, value), (2, 7)]), 2);
        assert_eq!(operand(8, &[(0, 2), (1, value), (2, 7)]), 0);
    }
    assert_eq!(
        fault_of(&[command(8, &[(0, 1), (1, three)])]),
        Fault::default()
    );
    assert_eq!(operand(8, &[(0, 1), (1, 0x447A_0001)]), 1);
}

/// The value by its bits: significand times 2 to the exponent, times the factor, down.
fn by_bits(kind: u8, bits: u32) -> Option<u32> {
    let (top, factor) = [(0x4000_0000, 10_000), (0x447A_0000, 1_000)][usize::from(kind)];
    let (exponent, fraction) = (bits >> 23, u64::from(bits & 0x7F_FFFF));
    let significand = if exponent == 0 {
        fraction
    } else {
        fraction | 1 << 23
    };
    (bits <= top).then(|| {
        (significand * factor)
            .checked_shr(150 - exponent.max(1))
            .unwrap_or(0) as u32
    })
}

#[test]
fn take_down_is_exact() {
    let call = |kind, bits| take_down(kind, f32::from_bits(bits));
    assert_eq!(call(0, 0x3F33_3333), Ok(6_999));
    assert_eq!(call(0, 0x4000_0000), Ok(20_000));
    assert_eq!(call(1, 0x447A_0000), Ok(1_000_000));
    assert_eq!(call(2, 0), refusal(5, 0, 0));
    let ends = [
        0,
        1,
        0x3F33_3333,
        0x4000_0000,
        0x447A_0000,
        0x7F80_0000,
        0x8000_0000,
        u32::MAX,
    ];
    let near = ends
        .iter()
        .flat_map(|&end: &u32| (0..100_000).map(move |i| end.wrapping_add(i).wrapping_sub(50_000)));
    for bits in (0..u32::MAX).step_by(9_973).chain(near) {
        for kind in [0, 1] {
            assert_eq!(
                call(kind, bits).ok(),
                by_bits(kind, bits),
                "{kind} {bits:08X}"
            );
        }
    }
}

// Writing a command.

/// The answer, and the bytes lent after the call, each A5 before it.
fn written(code: u8, values: &[i64], room: usize) -> (Written, Vec<u8>) {
    let mut bytes = vec![0xA5; room];
    let command = Command {
        code,
        values: values.to_vec(),
    };
    (write_command(&command, &mut bytes), bytes)
}

fn answer(number: u32, bytes: usize) -> Written {
    Written {
        number,
        offset: 0,
        bytes,
    }
}

#[test]
fn a_command_is_written_and_nothing_else() {
    let (found, bytes) = written(1, &[350, 140, 120], 9);
    assert_eq!(found, answer(0, 7));
    assert_eq!(bytes, [1, 1, 94, 0, 140, 0, 120, 0xA5, 0xA5]);
    let (found, bytes) = written(5, &[3000, 255, 0, 1, 2, -88_000, 3], 23);
    assert_eq!(found, answer(0, 23));
    assert_eq!(bytes[..7], [5, 0, 0, 0x0B, 0xB8, 255, 0]);
    assert_eq!(bytes[15..19], [0xFF, 0xFE, 0xA8, 0x40]);
    let (found, bytes) = written(8, &[1, 1, 1], 7);
    assert_eq!(found, answer(0, 7));
    assert_eq!(bytes, [8, 1, 0, 0, 0, 1, 1]);
    assert_eq!(written(0, &[], 1), (answer(0, 1), vec![0]));
}

#[test]
fn five_is_tried_before_eleven_and_both_change_nothing() {
    for room in [0, 6, 7, 58] {
        let refused = (answer(5, 0), vec![0xA5; room]);
        assert_eq!(written(1, &[70_000 + 350, 140, 120], room), refused);
        assert_eq!(written(2, &[300, 0, 0, 0], room), refused);
        assert_eq!(written(7, &[0, 0, 2, 1, 0, 0], room), refused);
        assert_eq!(written(8, &[0, 0x8000_0000, 0], room), refused);
        assert_eq!(written(8, &[256, 0, 0], room), refused);
    }
    for room in [0, 6] {
        let refused = (answer(11, 0), vec![0xA5; room]);
        assert_eq!(written(1, &[350, 140, 120], room), refused);
    }
    assert_eq!(written(0, &[], 0), (answer(11, 0), vec![]));
}

/// Each operand in turn at the ends of its range and one beyond, in the bytes of a file: the writer's range test finds what the
/// reader's finds, and a command in range is written as it was read.
#[test]
fn the_writer_and_the_reader_have_the_same_ranges() {
    for code in (1..=10).chain([12]) {
        for (place, (_, least, most)) in layout(code).into_iter().enumerate() {
            for number in [least - 1, least, most, most + 1] {
                let bytes = command(code, &[(place, number as u32)]);
                let read = read_command(&bytes).expect("a whole command");
                assert_eq!(read.at_fault(), at_fault(&bytes));
                if read.at_fault().is_none() {
                    let found = written(code, &read.values, bytes.len());
                    assert_eq!(found, (answer(0, bytes.len()), bytes));
                }
            }
        }
    }
}

/// The answer of a block's write, and the bytes lent after the call, each A5 before it.
fn block_written(count: u32, words: &[u32], room: usize) -> (Written, Vec<u8>) {
    let mut bytes = vec![0xA5; room];
    (write_block(count, words, &mut bytes), bytes)
}

#[test]
fn a_block_is_written_and_nothing_else() {
    let words = [
        1,
        2,
        3,
        4,
        5,
        6,
        0,
        100_000_000,
        u32::MAX,
        u32::MAX,
        0,
        0,
        u32::MAX,
    ];
    let mut expected = vec![11, 2];
    expected.extend(words[..12].iter().flat_map(|word| word.to_be_bytes()));
    for words in [&words[..12], &words] {
        assert_eq!(
            block_written(2, words, 50),
            (answer(0, 50), expected.clone())
        );
    }
    let (found, bytes) = block_written(1, &words, 28);
    assert_eq!((found, bytes[0..2].to_vec()), (answer(0, 26), vec![11, 1]));
    assert_eq!(bytes[26..], [0xA5; 2]);
    let read = read_command(&expected).expect("a whole block");
    assert_eq!(read.values[..7], [2, 1, 2, 3, 4, 5, 6]);
    assert_eq!(write_command(&read, &mut [0; 50]), answer(0, 50));
    assert_eq!(commands(&[&expected[..], &[0]].concat())[1].0, 50);
    let most = [0, 0, 1, 1, 0, 0].repeat(64);
    assert_eq!(block_written(64, &most, 1538).0, answer(0, 1538));
    assert_eq!(block_written(64, &most, 1538).1, block(64));
}

#[test]
fn a_refused_block_changes_nothing() {
    let good = [0, 0, 1, 1, 0, 0].repeat(65);
    let with = |place: usize, word| {
        let mut words = good[..384].to_vec();
        words[place] = word;
        words
    };
    for room in [0, 1537, 1538, 1600] {
        let refused = (answer(5, 0), vec![0xA5; room]);
        for count in [0, 65, 256, 257, u32::MAX] {
            assert_eq!(block_written(count, &good, room), refused);
        }
        assert_eq!(block_written(64, &good[..383], room), refused);
        assert_eq!(block_written(1, &[], room), refused);
        assert_eq!(block_written(64, &with(0, 100_000_001), room), refused);
        assert_eq!(block_written(64, &with(383, u32::MAX), room), refused);
        assert_eq!(block_written(64, &with(380, 2), room), refused);
        assert_eq!(block_written(64, &with(381, 0), room), refused);
    }
    for room in [0, 1, 1537] {
        let refused = (answer(11, 0), vec![0xA5; room]);
        assert_eq!(block_written(64, &good, room), refused);
    }
}

#[test]
fn commands_have_their_offsets_and_end_with_the_end() {
    let end = Command {
        code: 0,
        values: vec![],
    };
    let detail = |values: [i64; 5]| Command {
        code: 10,
        values: values.to_vec(),
    };
    let job = [&JOB[..], &[0, 1, 2]].concat();
    let found = commands(&job);
    assert_eq!(found[0].1.values, [350, 140, 120]);
    assert_eq!(found[1], (7, detail([0, 131, 250, 1000, 0])));
    assert_eq!(found[2], (16, detail([2, 132, 250, 1000, 1])));
    assert_eq!(found[3..], [(25, end)]);
    assert_eq!(commands(&JOB[..24]).len(), 2);
}

// Printing a page.

/// The rows of 01's example.
const ROWS: [i64; 16] = [
    7, 3, 186_667, 190_000, 0, 0, 0, 0, 36, 4, 150_000, -30_000, 120_000, 0, 0, 1,
];

/// A row with each value as wide as it may be.
const WIDEST: [i64; 8] = [
    999_999,
    99,
    999_999_999_999,
    -99_999_999_999,
    0,
    -1,
    5,
    9999,
];

/// The answer, and the bytes lent after the call as a text, each `~` before it.
fn printed(words: &[i64], n: usize, room: usize) -> (Printed, String) {
    let mut bytes = vec![b'~'; room];
    let answer = page(words, n, &mut bytes);
    (answer, String::from_utf8(bytes).expect("a text"))
}

fn page_answer(number: u32, rows: usize, bytes: usize) -> Printed {
    Printed {
        number,
        offset: 0,
        rows,
        bytes,
    }
}

#[test]
fn a_page_is_printed_and_nothing_else() {
    let column =
        "      7  3       186667       190000            0            0            0    0\n";
    let beam = "     36  4       150000       -30000       120000            0            0    1\n";
    let two = format!("{column}{beam}");
    assert_eq!(printed(&ROWS, 2, 162), (page_answer(0, 0, 162), two));
    let one = format!("{column}~~~");
    assert_eq!(printed(&ROWS, 1, 84), (page_answer(0, 0, 81), one));
    let widest =
        " 999999 99 999999999999 -99999999999            0           -1            5 9999\n";
    let expected = (page_answer(0, 0, 81), widest.to_string());
    assert_eq!(printed(&WIDEST, 1, 81), expected);
    assert_eq!(printed(&[], 0, 0), (page_answer(0, 0, 0), String::new()));
    assert_eq!(
        printed(&WIDEST, 0, 2),
        (page_answer(0, 0, 0), "~~".to_string())
    );
}

#[test]
fn a_form_feed_stands_after_each_fifty_lines_that_a_line_follows() {
    for (n, feeds) in [(49, 0), (50, 0), (51, 1), (100, 1), (101, 2)] {
        let (answer, text) = printed(&WIDEST.repeat(n), n, 81 * n + feeds);
        assert_eq!(answer, page_answer(0, 0, 81 * n + feeds));
        assert_eq!(text.matches('\x0C').count(), feeds);
        assert_eq!(text.matches('\n').count(), n);
        for (place, fifty) in text.split('\x0C').enumerate() {
            let lines = (n - 50 * place).min(50);
            assert_eq!(fifty.split_inclusive('\n').count(), lines);
            assert!(fifty.ends_with('\n'));
        }
    }
}

#[test]
fn each_value_leaves_a_blank_before_it() {
    for (place, width) in [7, 3, 13, 13, 13, 13, 13, 5].into_iter().enumerate() {
        let most = 10i64.pow(width - 1) - 1;
        let least = -(most / 10);
        let with = |value| {
            let mut words = WIDEST;
            words[place] = value;
            printed(&words, 1, 81).0
        };
        for value in [most, least, 0, -1] {
            assert_eq!(with(value), page_answer(0, 0, 81));
        }
        for value in [most + 1, least - 1, i64::MIN, i64::MAX] {
            assert_eq!(with(value), page_answer(12, 0, 0));
        }
    }
}

#[test]
fn nine_then_twelve_then_eleven_and_nothing_is_written() {
    let mut wide = [WIDEST; 3].concat();
    wide[9] = 100;
    for room in [0, 161, 162] {
        let refused = |number, rows| (page_answer(number, rows, 0), "~".repeat(room));
        assert_eq!(printed(&wide[..15], 2, room), refused(9, 2));
        assert_eq!(printed(&wide, 4, room), refused(9, 4));
        for n in [usize::MAX, 1 << 61, usize::MAX / 8 + 2] {
            assert_eq!(printed(&wide, n, room), refused(9, n));
        }
        assert_eq!(printed(&wide, 2, room), refused(12, 0));
        assert_eq!(printed(&wide[..16], 2, room), refused(12, 0));
    }
    for room in [0, 80] {
        let refused = (page_answer(11, 0, 0), "~".repeat(room));
        assert_eq!(printed(&wide, 1, room), refused);
    }
    assert_eq!(printed(&wide, 1, 81).0, page_answer(0, 0, 81));
    assert_eq!(printed(&wide[..15], 1, 81).0, page_answer(0, 0, 81));
}

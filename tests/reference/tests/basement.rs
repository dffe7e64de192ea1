//! Basement members (02, No. 9): rows worked out by hand, the hinge that holds, the order of trial, the operand at fault, and writing.
//! Assumes nothing; q is 350, gj is 140.

use super::*;

const LIMIT: u32 = 100_000_000;

/// The place and the id of the latest wall.
const WALL: [u32; 2] = [1, 0];

/// V, E and the strength.
type Action = (i32, u32, u32);

fn member([place, id]: [u32; 2], shear: Action, moment: Action) -> Vec<u8> {
    let actions = [
        (2, shear.0 as u32),
        (3, shear.1),
        (4, moment.0 as u32),
        (5, moment.1),
    ];
    let strengths = [(6, shear.2), (7, moment.2)];
    command(
        12,
        &[&[(0, place), (1, id)], &actions[..], &strengths].concat(),
    )
}

fn joint(id: u32, rb: u32, rc: u32, eb: u32) -> Vec<u8> {
    command(2, &[(0, id), (1, rb), (2, rc), (3, eb)])
}

fn base(mr: u32, me: u32) -> Vec<u8> {
    command(6, &[(2, mr), (3, me)])
}

fn job(commands: &[Vec<u8>]) -> Vec<u8> {
    [&JOB[..7], &commands.concat(), &[0]].concat()
}

/// The rows of basement members in an accepted job.
fn rows(commands: &[Vec<u8>]) -> Vec<[i64; 8]> {
    let job = job(commands);
    let mut words = vec![0; 8 * size(&job).expect("an accepted job")];
    assert_eq!(rows_of(&job, &mut words), size(&job));
    let rows = words.as_chunks().0.iter();
    rows.filter(|row| row[1] == 12).copied().collect()
}

/// Upper and lower of a shear V, E by a hinge that is given first, and those of a moment with the same values, which are the same.
fn values(hinge: &[u8], v: i32, e: u32) -> [i64; 2] {
    let named = if hinge[0] == 2 {
        [0, hinge[1].into()]
    } else {
        WALL
    };
    let rows = rows(&[hinge.to_vec(), member(named, (v, e, 0), (v, e, 0))]);
    assert_eq!(rows[0][2..7], rows[1][2..7]);
    assert_eq!(rows[0][4..7], [0; 3]);
    [rows[0][2], rows[0][3]]
}

/// a is 1.40 · 250,000 / 200,000 = 1.75 under joint 7, 1.30 · 5,000,000 / 2,000,000 = 3.25 under the wall.
#[test]
fn a_member_has_a_shear_row_and_a_moment_row() {
    let [shear, moment] = [(-5000, 100_000, 400_000), (7000, 200_000, 500_000)];
    let commands = [
        base(5_000_000, 2_000_000),
        joint(7, 300_000, 250_000, 200_000),
        member([0, 7], shear, moment),
        member(WALL, shear, moment),
    ];
    let expected = [
        [46, 12, 170_000, -180_000, 400_000, 0, 0, 0],
        [46, 12, 357_000, -343_000, 500_000, 0, 0, 0],
        [73, 12, 320_000, -330_000, 400_000, 0, 0, 0],
        [73, 12, 657_000, -643_000, 500_000, 0, 0, 2],
    ];
    assert_eq!(rows(&commands), expected);
    assert_eq!(size(&job(&commands)), Ok(5));
}

/// a is 1.40 · 1 / 3 = 7/15.
#[test]
fn upper_is_rounded_up_and_lower_down() {
    let third = joint(7, 1, 2, 3);
    let both = |v, e| values(&third, v, e);
    assert_eq!(both(0, 1), [1, -1]);
    assert_eq!(both(-1, 1), [0, -2]);
    assert_eq!(both(1, 1), [2, 0]);
    assert_eq!(both(-2, 1), [-1, -3]);
    assert_eq!(both(2, 1), [3, 1]);
    assert_eq!(both(0, 15), [7, -7]);
    assert_eq!(both(-7, 15), [0, -14]);
    assert_eq!(both(7, 15), [14, 0]);
    assert_eq!(both(-8, 15), [-1, -15]);
    assert_eq!(
        [both(5, 0), both(-5, 0), both(0, 0)],
        [[5, 5], [-5, -5], [0, 0]]
    );
}

/// Under a joint by the smaller of RB and RC: 1.40 · 4 / 2 = 2.80, and 1.40 · 5 / 2 = 3.50. Under a wall 1.30 · 34 / 13 = 3.40.
#[test]
fn q_caps_the_coefficient() {
    let ten = |hinge: &[u8]| values(hinge, 0, 10)[0];
    let joints = [
        joint(0, 4, 9, 2),
        joint(255, 9, 4, 2),
        joint(1, 5, 5, 2),
        joint(1, 6, 7, 2),
    ];
    assert_eq!(joints.map(|joint| ten(&joint)), [28, 28, 35, 35]);
    assert_eq!([34, 35, 36].map(|mr| ten(&base(mr, 13))), [34, 35, 35]);
    assert_eq!(
        [joint(3, 9, 9, 0), joint(3, 0, 9, 0), base(9, 0), base(0, 0)].map(|one| ten(&one)),
        [35; 4]
    );
    assert_eq!(
        [joint(3, 0, 9, 1), joint(3, 9, 0, 1), base(0, 1)].map(|one| ten(&one)),
        [0; 3]
    );
    assert_eq!(values(&base(9, 0), 0, 1), [4, -4]);
}

/// The last joint has a = 1.40 · 0.99999999, and a·E is 139,999,998.6.
#[test]
fn the_values_at_the_limits() {
    let most = LIMIT as i32;
    assert_eq!(
        values(&base(1, 0), most, LIMIT),
        [450_000_000, -250_000_000]
    );
    assert_eq!(
        values(&base(1, 0), -most, LIMIT),
        [250_000_000, -450_000_000]
    );
    assert_eq!(
        values(&joint(9, LIMIT - 1, LIMIT, LIMIT), most, LIMIT),
        [239_999_999, -39_999_999]
    );
    assert_eq!(
        values(&joint(9, LIMIT, LIMIT - 1, LIMIT), -most, LIMIT),
        [39_999_999, -239_999_999]
    );
}

/// By values of 170,000 and -180,000, of 357,000 and -343,000, and of -998,250 and -1,001,750.
#[test]
fn the_verdicts_tell_by_upper_and_by_minus_lower() {
    let verdicts = |shear, moment| {
        let hinge = joint(7, 300_000, 250_000, 200_000);
        let rows = rows(&[hinge, member([0, 7], shear, moment)]);
        [rows[0][7], rows[1][7]]
    };
    let [shear, moment] = [(-5000, 100_000), (7000, 200_000)];
    let with = |(v, e): (i32, u32), strength| (v, e, strength);
    assert_eq!(
        verdicts(with(shear, 180_000), with(moment, 357_000)),
        [0, 0]
    );
    assert_eq!(
        verdicts(with(shear, 179_999), with(moment, 357_000)),
        [1, 0]
    );
    assert_eq!(
        verdicts(with(shear, 180_000), with(moment, 356_999)),
        [0, 2]
    );
    assert_eq!(
        verdicts(with(moment, 356_999), with(shear, 179_999)),
        [1, 2]
    );
    assert_eq!(
        verdicts((-1_000_000, 1000, 1_001_749), (-1_000_000, 1000, 1_001_750)),
        [1, 0]
    );
    assert_eq!(
        verdicts((1_000_000, 1000, 1_001_749), (1_000_000, 1000, 1_001_750)),
        [1, 0]
    );
    assert_eq!(verdicts((0, 0, 0), (0, 0, 0)), [0, 0]);
}

/// a is 1.40, then 3.50, then 1.40 at joint 9; always 1.40 at joint 0; 3.40, then 1.30 at the wall.
#[test]
fn the_hinge_that_holds_at_the_command_counts() {
    let below = |named| member(named, (0, 1000, 0), (0, 100, 0));
    let commands = [
        joint(0, 100, 100, 100),
        joint(9, 100, 200, 100),
        base(34, 13),
        below([0, 9]),
        below(WALL),
        joint(9, 100, 200, 0),
        base(13, 13),
        below([0, 9]),
        below(WALL),
        below([0, 0]),
        joint(9, 100, 200, 100),
        below([0, 9]),
    ];
    let upper: Vec<i64> = rows(&commands).iter().map(|row| row[2]).collect();
    let expected = [
        1400, 140, 3400, 340, 3500, 350, 1300, 130, 1400, 140, 1400, 140,
    ];
    assert_eq!(upper, expected);
}

/// A joint, a wall base and a soil hold across members: the rows of what follows are those without them.
#[test]
fn a_member_changes_nothing_that_holds() {
    let given = [
        joint(0, 3, 2, 1),
        base(9, 4),
        command(8, &[(1, 0.5f32.to_bits())]),
    ];
    let below = [
        member([0, 0], (1, 2, 3), (4, 5, 6)),
        member(WALL, (1, 2, 3), (4, 5, 6)),
    ];
    let then = [
        command(5, &[(3, 1000)]),
        command(7, &[(0, 50), (1, 60)]),
        command(9, &[(4, 100_000), (10, 7)]),
    ];
    let words = |commands: &[&[Vec<u8>]]| {
        let job = job(&commands.concat());
        let mut words = vec![0; 8 * size(&job).expect("an accepted job")];
        assert_eq!(rows_of(&job, &mut words), size(&job));
        let rows = words.as_chunks::<8>().0.iter().filter(|row| row[1] != 12);
        rows.map(|row| row[1..].to_vec()).collect::<Vec<_>>()
    };
    assert_eq!(words(&[&given, &then]).len(), 5);
    assert_eq!(words(&[&given, &below, &then]), words(&[&given, &then]));
}

/// Each fault with those behind it in the order, as far as they go together.
#[test]
fn the_order_of_trial_at_a_member() {
    let none = (0, 0, 0);
    let below = |named| member(named, none, none);
    let too_strong = |named| member(named, none, (0, 0, LIMIT + 1));
    let refused = |parts: &[&[u8]], number, offset| {
        assert_eq!(size(&parts.concat()), refusal(number, offset, 0));
    };
    let settings = &JOB[..7];
    refused(&[&[12]], 1, 0);
    refused(&[&too_strong([2, 7])[..26]], 1, 0);
    refused(&[&too_strong([2, 7]), &[0]], 4, 0);
    refused(&[settings, &below([0, 7])[..26]], 1, 7);
    for named in [[2, 0], [2, 7], [255, 255], [1, 1], [1, 255]] {
        refused(&[settings, &below(named), &[0]], 5, 7);
        refused(
            &[
                settings,
                &base(1, 1),
                &joint(7, 1, 1, 1),
                &below(named),
                &[0],
            ],
            5,
            46,
        );
    }
    refused(&[settings, &too_strong([0, 7]), &[0]], 5, 7);
    refused(&[settings, &too_strong(WALL), &[0]], 5, 7);
    refused(&[settings, &below([0, 7]), &[0]], 6, 7);
    refused(&[settings, &below(WALL), &[0]], 6, 7);
    refused(&[settings, &joint(0, 1, 1, 1), &below(WALL), &[0]], 6, 21);
    refused(&[settings, &base(1, 1), &below([0, 0]), &[0]], 6, 32);
    refused(&[settings, &joint(7, 1, 1, 1), &below([0, 8]), &[0]], 6, 21);
    refused(&[settings, &below([0, 7]), &joint(7, 1, 1, 1), &[0]], 6, 7);
}

/// Settings, a wall base and 4,094 members; then one more, in range, out of it, and cut short.
#[test]
fn a_member_counts_as_one_command_and_has_two_rows() {
    let below = member(WALL, (0, 1, 0), (0, 1, 0));
    let before = [&JOB[..7], &base(1, 0), &below.repeat(4094)].concat();
    let then = |bytes: &[u8]| size(&[&before, bytes].concat());
    let at = 32 + 27 * 4094;
    assert_eq!(then(&[0]), Ok(8189));
    assert_eq!(then(&[&below[..], &[0]].concat()), refusal(8, at, 0));
    assert_eq!(
        then(&[&member([2, 9], (0, 0, 0), (0, 0, 0))[..], &[0]].concat()),
        refusal(8, at, 0)
    );
    assert_eq!(then(&below[..26]), refusal(1, at, 0));
    let job = [&before[..], &[0]].concat();
    assert_eq!(run(&job, &mut vec![0; 8 * 8189]), ran(8189, 8189, 8189));
    assert_eq!(run(&job, &mut vec![0; 8 * 8189 - 1]), refusal(9, 0, 8189));
}

#[test]
fn the_operand_of_a_member_at_fault() {
    for place in [2, 255] {
        assert_eq!(operand(12, &[(0, place)]), 0);
        assert_eq!(
            operand(12, &[(0, place), (1, 7), (2, 1 << 31), (7, LIMIT + 1)]),
            0
        );
    }
    assert_eq!([1, 255].map(|id| operand(12, &[(0, 1), (1, id)])), [1; 2]);
    for number in [LIMIT + 1, (LIMIT + 1).wrapping_neg(), 1 << 31] {
        for place in [2, 4] {
            assert_eq!(operand(12, &[(place, number)]), place as u32);
        }
    }
    for place in 2..8 {
        assert_eq!(
            operand(12, &[(0, 1), (1, 9), (place, LIMIT + 1), (7, LIMIT + 1)]),
            place as u32
        );
    }
    let accepted = [
        joint(7, 1, 1, 1),
        member(
            [0, 7],
            (-(LIMIT as i32), LIMIT, LIMIT),
            (LIMIT as i32, LIMIT, LIMIT),
        ),
    ];
    assert_eq!(fault_of(&accepted), Fault::default());
    let missing = fault_of(&[command(12, &[(1, 7)])]);
    assert_eq!(
        (missing.number, missing.command, missing.operand),
        (6, 12, 0)
    );
}

#[test]
fn a_member_is_written_and_read_back() {
    let values = [0, 7, -5000, 100_000, 7000, 200_000, 400_000, 500_000];
    let (found, bytes) = written(12, &values, 29);
    assert_eq!(found, answer(0, 27));
    assert_eq!(bytes[..7], [12, 0, 7, 0xFF, 0xFF, 0xEC, 0x78]);
    assert_eq!(bytes[7..11], [0, 1, 0x86, 0xA0]);
    assert_eq!(bytes[23..], [0, 7, 0xA1, 0x20, 0xA5, 0xA5]);
    assert_eq!(read_command(&bytes).expect("a whole member").values, values);
    assert_eq!(written(12, &[1, 0, 0, 0, 0, 0, 0, 0], 27).0, answer(0, 27));
    assert_eq!(
        written(12, &[0, 255, 0, 0, 0, 0, 0, 0], 27).0,
        answer(0, 27)
    );
    for room in [0, 26, 27] {
        let refused = (answer(5, 0), vec![0xA5; room]);
        for [place, id] in [
            [0, 256],
            [0, 300],
            [1, 1],
            [1, 256],
            [2, 0],
            [256, 0],
            [257, 0],
        ] {
            assert_eq!(written(12, &[place, id, 0, 0, 0, 0, 0, 0], room), refused);
        }
        assert_eq!(
            written(12, &[0, 0, 0, 0, -100_000_001, 0, 0, 0], room),
            refused
        );
    }
    assert_eq!(written(12, &values, 26), (answer(11, 0), vec![0xA5; 26]));
}

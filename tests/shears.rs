//! The shears of columns, beams and wall bases by the two terms of which the smaller counts (01; 02, No. 5): that of the strengths and
//! the cap by q, as exact fractions; the words of the row that tell of them; and what a command is a case of.
//! Assumes of a command that it is in range, and of q that it is that of the job's settings.

#![allow(dead_code)]

use std::cmp::Ordering;
use std::ops::Range;

const COLUMN: u8 = 3;
const BEAM: u8 = 4;
pub const WALL_BASE: u8 = 6;

/// The commands whose rows have such shears.
pub const KINDS: [u8; 3] = [COLUMN, BEAM, WALL_BASE];

pub const SMALLER: &str = "cap smaller";
pub const EQUAL: &str = "cap equal";
pub const LARGER: &str = "cap larger";

/// Numerator and denominator.
type Fraction = [u128; 2];

/// A shear of a row.
#[derive(PartialEq)]
pub struct Shear {
    pub name: &'static str,
    /// The word of the row that has the shear, and the one that tells whether the cap was strictly the smaller.
    pub word: usize,
    pub flag: usize,
    /// The two terms. The strengths of a wall base without seismic moment have the denominator 0.
    strengths: Fraction,
    cap_by_q: Fraction,
    /// What the smaller term is multiplied by: VE of a wall base, else 1.
    times: u128,
    /// What the product is added to, or taken from where the sign is −1: V0 of a beam, else 0.
    v0: i64,
    sign: i64,
}

impl Shear {
    /// The cap beside the strengths' term; it counts as the smaller where a wall base has no seismic moment.
    fn cap_beside_strengths(&self) -> Ordering {
        let ([over, under], [cap_over, cap_under]) = (self.strengths, self.cap_by_q);
        if under == 0 {
            return Ordering::Less;
        }
        (cap_over * under).cmp(&(over * cap_under))
    }

    pub fn capped(&self) -> bool {
        self.cap_beside_strengths() == Ordering::Less
    }

    /// The shear that the cap gives.
    pub fn by_cap(&self) -> i64 {
        self.by(self.cap_by_q)
    }

    /// The shear that the strengths give; a wall base must have a seismic moment.
    pub fn by_strengths(&self) -> i64 {
        self.by(self.strengths)
    }

    /// V0 + D up is V0 + (D up), V0 − D down is V0 − (D up), as V0 is whole.
    fn by(&self, [over, under]: Fraction) -> i64 {
        self.v0 + self.sign * (over * self.times).div_ceil(under) as i64
    }

    /// The cap beside the strengths' term, in words.
    pub fn cap(&self) -> &'static str {
        match self.cap_beside_strengths() {
            Ordering::Less => SMALLER,
            Ordering::Equal => EQUAL,
            Ordering::Greater => LARGER,
        }
    }

    /// What the shear is a case of.
    fn cases(&self) -> Vec<String> {
        let cap = self.cap();
        let strengths = if self.strengths[0] == 0 {
            "no strengths"
        } else {
            "strengths"
        };
        let mut cases = vec![if self.strengths[1] == 0 {
            format!("no moment, {strengths}")
        } else if self.times == 0 {
            format!("no shear, {cap}")
        } else if self.cap_by_q[0] == 0 {
            format!("no shear, {strengths}")
        } else {
            cap.to_string()
        }];
        if cases == [cap] && cap != EQUAL && self.by_cap() == self.by_strengths() {
            cases.push(format!("{cap}, rounded alike"));
        }
        let named = cases.iter().map(|case| format!("{}: {case}", self.name));
        named.collect()
    }
}

/// The shears of a command's row, in the order of their words; none for another kind of command.
pub fn of(q: u64, command: &[u8]) -> Vec<Shear> {
    match command[0] {
        COLUMN => {
            let [plus, minus] = sums(command);
            vec![column(q, command, plus.max(minus))]
        }
        BEAM => beam(q, command),
        WALL_BASE => vec![wall_base(q, command)],
        _ => vec![],
    }
}

/// By one of its sums.
fn column(q: u64, command: &[u8], sum: u128) -> Shear {
    Shear {
        name: "column",
        word: 2,
        flag: 6,
        strengths: [1400 * sum, operand(command, 0)],
        cap_by_q: [u128::from(q) * ve(command), 100],
        times: 1,
        v0: 0,
        sign: 1,
    }
}

fn beam(q: u64, command: &[u8]) -> Vec<Shear> {
    let v0 = i64::from(operand(command, 5) as u32 as i32);
    let [plus, minus] = sums(command);
    let direction = |name, word, flag, sum, sign| Shear {
        name,
        word,
        flag,
        strengths: [1200 * sum, operand(command, 0)],
        cap_by_q: [u128::from(q) * ve(command), 120],
        times: 1,
        v0,
        sign,
    };
    vec![
        direction("beam, plus", 2, 5, plus, 1),
        direction("beam, minus", 3, 6, minus, -1),
    ]
}

fn wall_base(q: u64, command: &[u8]) -> Shear {
    Shear {
        name: "wall base",
        word: 2,
        flag: 6,
        strengths: [130 * operand(command, 2), 100 * operand(command, 3)],
        cap_by_q: [u128::from(q), 100],
        times: ve(command),
        v0: 0,
        sign: 1,
    }
}

// Operands, each of four bytes.

/// The places of the strengths; none in another kind of command.
pub fn strengths(code: u8) -> Range<usize> {
    match code {
        COLUMN | BEAM => 1..5,
        WALL_BASE => 2..3,
        _ => 0..0,
    }
}

/// The place of VE; none in another kind of command.
pub fn seismic_shear(code: u8) -> Range<usize> {
    match code {
        COLUMN => 5..6,
        BEAM => 6..7,
        WALL_BASE => 4..5,
        _ => 0..0,
    }
}

/// The bytes of an operand in its command.
pub fn bytes(place: usize) -> Range<usize> {
    1 + 4 * place..5 + 4 * place
}

fn operand(command: &[u8], place: usize) -> u128 {
    let bytes = command[bytes(place)].try_into().expect("four bytes");
    u128::from(u32::from_be_bytes(bytes))
}

fn ve(command: &[u8]) -> u128 {
    operand(command, seismic_shear(command[0]).start)
}

/// S of plus and of minus.
fn sums(command: &[u8]) -> [u128; 2] {
    [[1, 2], [3, 4]].map(|[r1, r2]| operand(command, r1) + operand(command, r2))
}

// The cases.

/// What a column, beam or wall base is a case of; nothing for another kind of command.
pub fn cases(q: u64, command: &[u8]) -> Vec<String> {
    let shears = of(q, command);
    let mut cases: Vec<String> = shears.iter().flat_map(Shear::cases).collect();
    match (command[0], &shears[..]) {
        (COLUMN, [larger]) => {
            let by = sums(command).map(|sum| column(q, command, sum));
            let others = ["plus", "minus"].into_iter().zip(by);
            let differ = others.filter(|(_, other)| other.capped() != larger.capped());
            cases.extend(differ.map(|(name, _)| format!("column: not as by {name} alone")));
        }
        (BEAM, [plus, minus]) => cases.push(directions(plus.capped(), minus.capped())),
        _ => (),
    }
    cases
}

fn directions(plus: bool, minus: bool) -> String {
    format!("beam: plus {}, minus {}", u8::from(plus), u8::from(minus))
}

/// The cases that must be met.
pub fn wanted() -> Vec<String> {
    let of_both = [
        SMALLER,
        EQUAL,
        LARGER,
        "cap smaller, rounded alike",
        "cap larger, rounded alike",
    ];
    let of_members = ["no shear, strengths", "no shear, no strengths"];
    let of_walls = [
        "no moment, strengths",
        "no moment, no strengths",
        "no shear, cap smaller",
        "no shear, cap equal",
        "no shear, cap larger",
    ];
    let mut wanted: Vec<String> = Vec::new();
    for name in ["column", "beam, plus", "beam, minus"] {
        let cases = of_both.into_iter().chain(of_members);
        wanted.extend(cases.map(|case| format!("{name}: {case}")));
    }
    let cases = of_both.into_iter().chain(of_walls);
    wanted.extend(cases.map(|case| format!("wall base: {case}")));
    wanted.extend(["plus", "minus"].map(|name| format!("column: not as by {name} alone")));
    for [plus, minus] in [[false, false], [false, true], [true, false], [true, true]] {
        wanted.push(directions(plus, minus));
    }
    wanted
}

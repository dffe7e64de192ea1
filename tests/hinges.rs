//! The basement members of an accepted job (02, No. 9), each with its nearest hinge: the joint or the wall base of its building that holds at
//! it, and its coefficient as an exact fraction. And what a member is a case of.
//! Assumes of rows that they are the member's.

#![allow(dead_code)]

pub mod faults;

use crate::generate::{self, BASEMENT, BUILDING};
use crate::reference::ROW;
use std::cmp::Ordering;
use std::collections::BTreeMap;

const SETTINGS: u8 = 1;
const JOINT: u8 = 2;
const WALL_BASE: u8 = 6;

/// The place and the id of the latest wall.
const WALL: [u8; 2] = [1, 0];

/// The bytes of the command; the places of operands in them; V, E and the strength of the shear, and of the moment.
pub const BYTES: usize = 27;
pub const PLACE: usize = 1;
pub const ID: usize = 2;
pub const SHEAR: [usize; 3] = [3, 7, 19];
pub const MOMENT: [usize; 3] = [11, 15, 23];

/// The words of a row.
type Row = [i64; ROW];

/// A coefficient: numerator and denominator, and where it lies beside its cap.
#[derive(Clone, Copy, PartialEq)]
struct Coefficient {
    over: i128,
    under: i128,
    cap: &'static str,
}

pub struct Member {
    /// The offset and the bytes of the command.
    pub at: usize,
    pub bytes: Vec<u8>,
    /// The command that gives its coefficient: the joint or the wall base that holds.
    pub hinge: Vec<u8>,
    a: Coefficient,
    /// The coefficient at the last member with the same place and id; and that of the wall beside a joint, or of a joint beside the wall.
    before: Option<Coefficient>,
    other: Option<Coefficient>,
}

/// The basement members of an accepted job.
pub fn of(job: &[u8]) -> Vec<Member> {
    let mut factors = [0; 2];
    // By place and id: the joints and the wall base that hold, and the coefficient at the last member.
    let (mut given, mut last) = (BTreeMap::new(), BTreeMap::new());
    let mut members = Vec::new();
    let mut at = 0;
    for bytes in generate::split(job) {
        let length = bytes.len();
        match bytes[0] {
            BUILDING => (given, last) = Default::default(),
            SETTINGS => factors = [1, 3].map(|at| half(&bytes, at)),
            JOINT => drop(given.insert([0, bytes[1]], bytes)),
            WALL_BASE => drop(given.insert(WALL, bytes)),
            BASEMENT => {
                let named = [bytes[PLACE], bytes[ID]];
                let other = match named {
                    WALL => given.range(..WALL).next().map(|(_, joint)| joint),
                    _ => given.get(&WALL),
                };
                let coefficient = |hinge: &Vec<u8>| of_hinge(factors, hinge);
                let a = coefficient(&given[&named]);
                members.push(Member {
                    at,
                    bytes,
                    hinge: given[&named].clone(),
                    a,
                    before: last.insert(named, a),
                    other: other.map(coefficient),
                });
            }
            _ => (),
        }
        at += length;
    }
    members
}

/// g·R/(100·E), at most q/100, by the joint or the wall base that gives it.
fn of_hinge([q, gj]: [i128; 2], hinge: &[u8]) -> Coefficient {
    let [g, r, e] = if hinge[0] == JOINT {
        let [rb, rc, eb] = [2, 6, 10].map(|at| amount(hinge, at));
        [gj, rb.min(rc), eb]
    } else {
        [130, amount(hinge, 9), amount(hinge, 13)]
    };
    let cap = match (g * r).cmp(&(q * e)) {
        _ if e == 0 => "E = 0",
        _ if r == 0 => "R = 0",
        Ordering::Less => "below the cap",
        Ordering::Equal => "at the cap",
        Ordering::Greater => "capped",
    };
    let [over, under] = match cap {
        "R = 0" | "below the cap" => [g * r, 100 * e],
        _ => [q, 100],
    };
    Coefficient { over, under, cap }
}

fn half(bytes: &[u8], at: usize) -> i128 {
    i128::from(u16::from_be_bytes([bytes[at], bytes[at + 1]]))
}

fn amount(bytes: &[u8], at: usize) -> i128 {
    i128::from(u32::from_be_bytes(
        bytes[at..at + 4].try_into().expect("four bytes"),
    ))
}

impl Member {
    /// V, E and the strength.
    fn action(&self, places: [usize; 3]) -> [i128; 3] {
        let [v, e, strength] = places.map(|at| amount(&self.bytes, at));
        [i128::from(v as u32 as i32), e, strength]
    }

    /// Whether upper is the least whole number not below V + a·E, lower the greatest not above V − a·E, and the other words are those
    /// that belong to them; so both stray from the exact by under one unit, and never away from safety.
    pub fn exact(&self, rows: &[Row]) -> bool {
        let [shear, moment] = rows else {
            return false;
        };
        self.exact_row(SHEAR, shear, 1) && self.exact_row(MOMENT, moment, 2)
    }

    fn exact_row(&self, places: [usize; 3], row: &Row, bit: i64) -> bool {
        let [v, e, strength] = self.action(places);
        let Coefficient { over, under, .. } = self.a;
        let [sum, difference] = [v * under + over * e, v * under - over * e];
        let [upper, lower] = [row[2], row[3]].map(i128::from);
        let nearest = (upper - 1) * under < sum
            && sum <= upper * under
            && lower * under <= difference
            && difference < (lower + 1) * under;
        let fails = upper > strength || -lower > strength;
        let verdict = if fails { bit } else { 0 };
        let rest = [strength as i64, 0, 0, verdict];
        nearest && row[..2] == [self.at as i64, i64::from(BASEMENT)] && row[4..] == rest
    }

    // The cases.

    /// What the member with its two rows is a case of.
    pub fn cases(&self, rows: &[Row]) -> Vec<String> {
        let place = PLACES[usize::from(self.bytes[PLACE])];
        let mut cases = vec![
            format!("{place}, {}", self.a.cap),
            failing(rows[0][7] != 0, rows[1][7] != 0),
        ];
        if self.before.is_some_and(|before| before != self.a) {
            cases.push(format!("{place}, {CHANGED}"));
        }
        if self.other.is_some_and(|other| other != self.a) {
            cases.push(format!("{place}, {OTHER}"));
        }
        if self.bytes[PLACE] == 0 && [0, 255].contains(&self.bytes[ID]) {
            cases.push(format!("{place}, id {}", self.bytes[ID]));
        }
        cases.extend(self.cases_of("shear", SHEAR, &rows[0]));
        cases.extend(self.cases_of("moment", MOMENT, &rows[1]));
        named(cases)
    }

    /// What one of its rows is a case of: the sign of V, how each value was rounded, and which of them is near the strength or above it.
    fn cases_of(&self, name: &str, places: [usize; 3], row: &Row) -> Vec<String> {
        let [v, e, strength] = self.action(places);
        let whole = self.a.over * e % self.a.under == 0;
        let mut cases = vec![format!("{name}: V {}", sign(v))];
        for (side, value) in ["upper", "lower"].into_iter().zip([row[2], row[3]]) {
            let rounded = if whole { "exact" } else { "rounded" };
            cases.push(format!("{name}: {side} {rounded}, {}", sign(value.into())));
        }
        let over = [row[2], -row[3]].map(|demand| i128::from(demand) - strength);
        let governs = match over[0].cmp(&over[1]) {
            Ordering::Greater => "upper",
            Ordering::Less => "lower",
            Ordering::Equal => "both",
        };
        let most = over[0].max(over[1]);
        if NEAR.contains(&most) {
            cases.push(at_strength(name, governs, most));
        }
        cases.push(format!("{name}: {}", fails(over.map(|over| over > 0))));
        cases
    }
}

const PLACES: [&str; 2] = ["joint", "wall"];
const CHANGED: &str = "given anew since the last member";
const OTHER: &str = "the other place has another coefficient";

/// The greater demand less the strength, close to where the verdict changes.
const NEAR: std::ops::RangeInclusive<i128> = -1..=1;

fn sign(value: i128) -> &'static str {
    ["below zero", "zero", "above zero"][(value.signum() + 1) as usize]
}

fn failing(shear: bool, moment: bool) -> String {
    format!("shear {}, moment {}", u8::from(shear), u8::from(moment))
}

fn at_strength(name: &str, governs: &str, over: i128) -> String {
    format!("{name}: {governs} less the strength is {over}")
}

fn fails([upper, lower]: [bool; 2]) -> &'static str {
    match (upper, lower) {
        (true, true) => "both fail",
        (true, false) => "upper fails",
        (false, true) => "lower fails",
        (false, false) => "passes",
    }
}

// The cases that must be met.

fn named(cases: Vec<String>) -> Vec<String> {
    let named = cases.iter().map(|case| format!("basement: {case}"));
    named.collect()
}

pub fn wanted() -> Vec<String> {
    let mut wanted: Vec<String> = [0, 255].map(|id| format!("joint, id {id}")).to_vec();
    for place in PLACES {
        let caps = ["below the cap", "at the cap", "capped", "E = 0", "R = 0"];
        let others = [CHANGED, OTHER];
        wanted.extend(
            caps.iter()
                .chain(&others)
                .map(|case| format!("{place}, {case}")),
        );
    }
    for name in ["shear", "moment"] {
        for sign in ["below zero", "zero", "above zero"] {
            wanted.push(format!("{name}: V {sign}"));
            for side in ["upper", "lower"] {
                let rounded = ["exact", "rounded"];
                wanted.extend(rounded.map(|how| format!("{name}: {side} {how}, {sign}")));
            }
        }
        for governs in ["upper", "lower", "both"] {
            wanted.extend(NEAR.map(|over| at_strength(name, governs, over)));
        }
        for both in [[true, true], [true, false], [false, true], [false, false]] {
            wanted.push(format!("{name}: {}", fails(both)));
        }
    }
    for [shear, moment] in [[false, false], [false, true], [true, false], [true, true]] {
        wanted.push(failing(shear, moment));
    }
    named(wanted)
}

//! The strengths of an accepted file, the three of 02, No. 11, and others, found by the widths of the commands: the four bytes of each, the
//! rows that tell of it, their words and verdict bits by the papers; and what a strength is a case of where it is raised.
//! Assumes of a row that it tells of the strength.

#![allow(dead_code)]

use crate::generate::{self, BASEMENT, BLOCK, BUILDING, LIMIT};
use crate::reference::ROW;
use std::ops::Range;
use Counts::{Nothing, TwoFifths, Whole};

pub const COLUMN: u8 = 3;
const BEAM: u8 = 4;
const NO_HINGES: u8 = 5;
const WALL_BASE: u8 = 6;
const STOREY: u8 = 7;
const FOOTING: u8 = 9;

/// Bytes of a block before its first set, and of a set.
const HEAD: usize = 2;
const SET: usize = 24;

/// The place of a footing's flags in its bytes, and the one that declares the contact.
const FLAGS: usize = 57;
const CONTACT: u8 = 4;

/// Least normal force of which R is made.
const LEAST_NORMAL: i64 = 20_000;

/// The words of a row.
pub type Row = [i64; ROW];

// The kinds.

/// What of a strength counts in the word of its row: of P two fifths in R, and without the contact nothing.
#[derive(PartialEq)]
enum Counts {
    Whole,
    TwoFifths,
    Nothing,
}

pub struct Kind {
    pub name: &'static str,
    counts: Counts,
    /// The command, and the place of the strength in its bytes; of a block in those of a set.
    code: u8,
    place: usize,
    /// Which of the element's rows tell of it; in these the word that has it, the words of its demands, upper and lower, and its bit.
    rows: Range<usize>,
    pub word: usize,
    demands: &'static [usize],
    pub bit: i64,
}

pub static KINDS: [Kind; 12] = [
    Kind::new("VR of 03", COLUMN, 25, 0..1, 3, &[2], 1),
    Kind::new("VR of 04", BEAM, 29, 0..1, 4, &[2, 3], 1),
    Kind::new("VR of 05", NO_HINGES, 19, 0..1, 4, &[2, 3], 1),
    Kind::new("VR of 06", WALL_BASE, 21, 0..1, 3, &[2], 1),
    Kind::new("VR of 07", STOREY, 17, 0..1, 3, &[2], 1),
    Kind::new("MS of 07", STOREY, 21, 0..1, 5, &[4], 2),
    Kind::new("VR of a set of 0B", BLOCK, 16, 0..1, 3, &[2], 1),
    Kind::new("MS of a set of 0B", BLOCK, 20, 0..1, 5, &[4], 2),
    Kind::new("VR of 0C", BASEMENT, 19, 0..1, 4, &[2, 3], 1),
    Kind::new("MR of 0C", BASEMENT, 23, 1..2, 4, &[2, 3], 2),
    Kind::thrust("P of 09 with the contact", TwoFifths),
    Kind::thrust("P of 09 without the contact", Nothing),
];

impl Kind {
    const fn new(
        name: &'static str,
        code: u8,
        place: usize,
        rows: Range<usize>,
        word: usize,
        demands: &'static [usize],
        bit: i64,
    ) -> Kind {
        Kind {
            name,
            counts: Whole,
            code,
            place,
            rows,
            word,
            demands,
            bit,
        }
    }

    const fn thrust(name: &'static str, counts: Counts) -> Kind {
        Kind {
            counts,
            ..Kind::new(name, FOOTING, 53, 0..2, 6, &[5], 8)
        }
    }

    /// VR of a column, beam or member without hinges.
    pub fn requested(&self) -> bool {
        [COLUMN, BEAM, NO_HINGES].contains(&self.code)
    }

    fn stands_in(&self, command: &[u8]) -> bool {
        let contact = command[0] == FOOTING && command[FLAGS] & CONTACT != 0;
        self.code == command[0] && (self.counts == TwoFifths) == contact
    }

    /// The greatest demand of a row; a lower one counts by its negative.
    fn demand(&self, row: &Row) -> i64 {
        let demands = self.demands.iter().zip([1, -1]);
        let demands = demands.map(|(&word, sign)| sign * row[word]);
        demands.max().expect("a demand")
    }

    /// Whether the row of a footing has R.
    fn reported(&self, row: &Row) -> bool {
        self.code != FOOTING || row[2] >= LEAST_NORMAL
    }

    /// The verdict bit as the words of a row tell it.
    pub fn told(&self, row: &Row) -> i64 {
        let exceeds = self.reported(row) && self.demand(row) > row[self.word];
        self.bit * i64::from(exceeds)
    }

    /// What a value of the strength counts in the word of a row.
    pub fn counted(&self, value: u32, row: &Row) -> i64 {
        match self.counts {
            Whole => i64::from(value),
            TwoFifths if self.reported(row) => two_fifths(value),
            _ => 0,
        }
    }

    /// Whether the word of a row is what the strength counts, and nothing else.
    pub fn alone(&self) -> bool {
        self.counts == Whole
    }
}

fn two_fifths(thrust: u32) -> i64 {
    2 * i64::from(thrust) / 5
}

// The strengths of a file.

pub struct Strength {
    pub kind: &'static Kind,
    pub value: u32,
    /// The offset of its four bytes, and word 0 of the rows of its element.
    at: usize,
    element: usize,
    building: &'static str,
}

/// The strengths of an accepted file.
pub fn of(file: &[u8]) -> Vec<Strength> {
    let commands = generate::split(file);
    let several = commands.iter().any(|command| command[0] == BUILDING);
    let mut building = if several { FIRST } else { ONLY };
    let mut found = Vec::new();
    let mut at = 0;
    for command in &commands {
        if command[0] == BUILDING {
            building = LATER;
        }
        let elements = match command[..] {
            [BLOCK, count, ..] => (at + HEAD..).step_by(SET).take(count.into()).collect(),
            _ => vec![at],
        };
        for kind in KINDS.iter().filter(|kind| kind.stands_in(command)) {
            found.extend(elements.iter().map(|&element| Strength {
                kind,
                value: read(file, element + kind.place),
                at: element + kind.place,
                element,
                building,
            }));
        }
        at += command.len();
    }
    found
}

fn read(file: &[u8], at: usize) -> u32 {
    u32::from_be_bytes(file[at..at + 4].try_into().expect("four bytes"))
}

impl Strength {
    /// The file with another value in its four bytes.
    pub fn put(&self, file: &[u8], value: u32) -> Vec<u8> {
        let mut file = file.to_vec();
        file[self.at..self.at + 4].copy_from_slice(&value.to_be_bytes());
        file
    }

    /// The places of the rows that tell of it.
    pub fn places(&self, rows: &[Row]) -> Vec<usize> {
        let own = (0..rows.len()).filter(|&place| rows[place][0] == self.element as i64);
        let Range { start, end } = self.kind.rows;
        own.skip(start).take(end - start).collect()
    }

    /// The least value that the demand of a row does not exceed; without the contact, where P would count.
    pub fn enough(&self, row: &Row) -> i64 {
        let rest = row[self.kind.word] - self.kind.counted(self.value, row);
        let missing = self.kind.demand(row) - rest;
        match self.kind.counts {
            Whole => missing,
            _ => (5 * missing + 1).div_euclid(2),
        }
    }

    // The cases.

    /// What it is a case of where it is raised to a value, by the rows that tell of it before and after.
    pub fn cases(&self, to: u32, pairs: &[[&Row; 2]]) -> Vec<String> {
        let mut cases = Vec::new();
        for [old, new] in pairs {
            let fate = match [old, new].map(|row| row[7] & self.kind.bit != 0) {
                [true, true] => STAYS_SET,
                [true, false] => GOES,
                _ => STAYS_CLEAR,
            };
            cases.push(in_building(fate, self.building));
            if self.kind.reported(old) {
                cases.extend(self.reaches(to.into(), old));
                cases.extend(self.thrust(to, old, new));
            } else {
                cases.push(TOO_LIGHT.to_string());
            }
            if fate == GOES {
                cases.extend(self.passes(old, new));
            }
        }
        let cases = cases.iter().map(|case| named(self.kind, case));
        let requested = self.kind.requested().then(|| REQUESTED.to_string());
        cases.chain(requested).collect()
    }

    /// How far it is raised.
    fn reaches(&self, to: i64, row: &Row) -> Vec<String> {
        let ways = [
            (BY_ONE, i64::from(self.value) + 1),
            (TO_GREATEST, LIMIT as i64),
            (TO_DEMAND, self.enough(row)),
            (BELOW_DEMAND, self.enough(row) - 1),
        ];
        let ways = ways.into_iter().filter(|(_, value)| *value == to);
        ways.map(|(way, _)| way.to_string()).collect()
    }

    /// How R goes with P.
    fn thrust(&self, to: u32, old: &Row, new: &Row) -> Option<String> {
        let case = match self.kind.counts {
            Whole => return None,
            TwoFifths if new[6] > old[6] => GROWS,
            TwoFifths => ROUNDED_ALIKE,
            Nothing if new[5] > new[6] && new[5] <= new[6] + two_fifths(to) => WOULD_PASS,
            Nothing => return None,
        };
        Some(case.to_string())
    }

    /// What a row failed by before, and whether it still fails otherwise.
    fn passes(&self, old: &Row, new: &Row) -> Vec<String> {
        let strength = old[self.kind.word];
        let mut cases = Vec::new();
        if let [upper, lower] = self.kind.demands {
            cases.push(failed_by([old[*upper] > strength, -old[*lower] > strength]));
        }
        if new[7] != 0 {
            cases.push(STILL_FAILS);
        }
        cases.into_iter().map(str::to_string).collect()
    }
}

const ONLY: &str = "the only building";
const FIRST: &str = "the first of several";
const LATER: &str = "a later building";

const STAYS_SET: &str = "its bit stays set";
const GOES: &str = "its bit goes";
const STAYS_CLEAR: &str = "its bit stays clear";

const BY_ONE: &str = "by 1";
const TO_GREATEST: &str = "to the greatest value";
const TO_DEMAND: &str = "to the demand";
const BELOW_DEMAND: &str = "to 1 below the demand";

const GROWS: &str = "R grows";
const ROUNDED_ALIKE: &str = "R stays by rounding";
const TOO_LIGHT: &str = "N below 20,000";
const WOULD_PASS: &str = "would pass if P counted";

const UPPER: &str = "failed by upper alone";
const LOWER: &str = "failed by lower alone";
const BOTH: &str = "failed by upper and lower";
const STILL_FAILS: &str = "its bit goes, another stays";

/// Raised in a member of the request.
pub const REQUESTED: &str = "VR of a column, beam or member without hinges";

fn named(kind: &Kind, case: &str) -> String {
    format!("{}: {case}", kind.name)
}

fn in_building(fate: &str, building: &str) -> String {
    format!("{fate}, {building}")
}

fn failed_by(exceeds: [bool; 2]) -> &'static str {
    match exceeds {
        [true, true] => BOTH,
        [true, false] => UPPER,
        _ => LOWER,
    }
}

/// The cases that must be met, `REQUESTED` aside.
pub fn wanted() -> Vec<String> {
    let mut wanted = Vec::new();
    for kind in &KINDS {
        let fates = match kind.counts {
            Nothing => vec![STAYS_SET, STAYS_CLEAR],
            _ => vec![STAYS_SET, GOES, STAYS_CLEAR],
        };
        for building in [ONLY, FIRST, LATER] {
            let cases = fates.iter().map(|fate| in_building(fate, building));
            wanted.extend(cases.map(|case| named(kind, &case)));
        }
        let mut cases = vec![BY_ONE, TO_GREATEST];
        match kind.counts {
            Whole => cases.extend([TO_DEMAND, BELOW_DEMAND]),
            TwoFifths => cases.extend([TO_DEMAND, BELOW_DEMAND, GROWS, ROUNDED_ALIKE, TOO_LIGHT]),
            Nothing => cases.extend([TOO_LIGHT, WOULD_PASS]),
        }
        if kind.demands.len() == 2 {
            cases.extend([UPPER, LOWER, BOTH]);
        }
        if [STOREY, BLOCK].contains(&kind.code) || kind.counts == TwoFifths {
            cases.push(STILL_FAILS);
        }
        wanted.extend(cases.iter().map(|case| named(kind, case)));
    }
    wanted
}

//! The footings of an accepted job, with the settings and the soil of their building that hold at them; and what a row of a footing is a
//! case of: its flags and the passive thrust (02, No. 6), H beside R, and the exception of bit 4.
//! Assumes of a row that it is the footing's.

#![allow(dead_code)]

use crate::generate;
use crate::reference::ROW;

const SETTINGS: u8 = 1;
const SOIL: u8 = 8;
const FOOTING: u8 = 9;

/// The places of operands in the command's bytes.
const SIDES: [usize; 2] = [1, 5];
const MR: usize = 9;
const ME: usize = 13;
pub const THRUST: usize = 53;
pub const FLAGS: usize = 57;

/// The flags: uncertainties minimised and strict tolerances, of which the exception asks for both, and the contact.
const BOTH: u8 = 3;
pub const CONTACT: u8 = 4;
pub const MOST_FLAGS: u8 = BOTH | CONTACT;

/// The verdict bits.
const OVERTURNS: i64 = 4;
pub const SLIDES: i64 = 8;

/// Least normal force whose eccentricities and resistance are reported.
const LEAST_NORMAL: i64 = 20_000;

/// The words of a row.
pub type Row = [i64; ROW];

pub struct Footing {
    /// The offset of the command.
    pub at: usize,
    command: Vec<u8>,
    q: u64,
    gf: u64,
    pub cohesive: bool,
    pub sensitive: bool,
}

/// The footings of an accepted job.
pub fn of(job: &[u8]) -> Vec<Footing> {
    let [mut q, mut gf] = [0; 2];
    let [mut cohesive, mut sensitive] = [false; 2];
    let mut footings = Vec::new();
    let mut at = 0;
    for command in generate::split(job) {
        let length = command.len();
        match command[0] {
            SETTINGS => [q, gf] = [1, 5].map(|at| half(&command, at)),
            SOIL => [cohesive, sensitive] = [command[1] == 1, command[6] == 1],
            FOOTING => footings.push(Footing {
                at,
                command,
                q,
                gf,
                cohesive,
                sensitive,
            }),
            _ => (),
        }
        at += length;
    }
    footings
}

fn half(command: &[u8], at: usize) -> u64 {
    u64::from(u16::from_be_bytes([command[at], command[at + 1]]))
}

/// Whether a row has eccentricities and a resistance.
pub fn reported(row: &Row) -> bool {
    row[2] >= LEAST_NORMAL
}

impl Footing {
    fn operand(&self, at: usize) -> u32 {
        u32::from_be_bytes(self.command[at..at + 4].try_into().expect("four bytes"))
    }

    pub fn flags(&self) -> u8 {
        self.command[FLAGS]
    }

    pub fn contact(&self) -> bool {
        self.flags() & CONTACT != 0
    }

    /// P, which adds two fifths of it to R where there is contact.
    pub fn thrust(&self) -> u32 {
        self.operand(THRUST)
    }

    pub fn two_fifths(&self) -> i64 {
        2 * i64::from(self.thrust()) / 5
    }

    /// Whether an eccentricity of a row, times the parts, is above its side.
    fn exceeds(&self, parts: i64, row: &Row) -> bool {
        let mut pairs = SIDES.into_iter().zip([row[3], row[4]]);
        pairs.any(|(side, eccentricity)| parts * eccentricity > i64::from(self.operand(side)))
    }

    /// Whether both eccentricities of a row are below half their sides.
    fn within_halves(&self, row: &Row) -> bool {
        let mut pairs = SIDES.into_iter().zip([row[3], row[4]]);
        pairs.all(|(side, eccentricity)| 2 * eccentricity < i64::from(self.operand(side)))
    }

    /// What a row is a case of.
    pub fn cases(&self, row: &Row) -> Vec<String> {
        let mut cases = vec![format!("flags {}", self.flags())];
        if reported(row) {
            cases.extend(self.sliding(row));
            cases.extend(self.exception(row));
        }
        let named = cases.iter().map(|case| format!("footing: {case}"));
        named.collect()
    }

    /// Where two fifths of the thrust are a newton or more: with the contact or without, and H within 3 N of R.
    fn sliding(&self, row: &Row) -> Vec<String> {
        let mut cases = Vec::new();
        if self.two_fifths() == 0 {
            return cases;
        }
        let contact = if self.contact() { WITH } else { WITHOUT };
        cases.push(format!("{contact}, thrust"));
        let over = row[5] - row[6];
        match over {
            -3..=-1 => cases.push(format!("{contact}, H just below R")),
            0 => cases.push(format!("{contact}, H at R")),
            1..=3 => cases.push(format!("{contact}, H just above R")),
            _ => (),
        }
        if !self.contact() && (1..=self.two_fifths()).contains(&over) {
            cases.push(HELD_BY_CONTACT.to_string());
        }
        cases
    }

    /// On soil that is not sensitive with an eccentricity beyond a third of its side: whether the exception holds, or what it lacks.
    fn exception(&self, row: &Row) -> Option<String> {
        if self.sensitive || !self.exceeds(3, row) {
            return None;
        }
        if row[7] & OVERTURNS == 0 {
            return Some(excepted(self.flags()));
        }
        if self.q <= 100 || !self.within_halves(row) {
            return None;
        }
        let [mr, me] = [MR, ME].map(|at| u64::from(self.operand(at)));
        let both = self.flags() & BOTH == BOTH;
        match (self.gf * mr).cmp(&(self.q * me)) {
            std::cmp::Ordering::Equal if both && me > 0 => Some(EXCEPTED_BUT_EQUAL.to_string()),
            std::cmp::Ordering::Less if !both => Some(excepted_but(self.flags())),
            _ => None,
        }
    }
}

// The cases.

const WITH: &str = "contact";
const WITHOUT: &str = "no contact";

/// Bit 8 without the contact that the contact would clear.
const HELD_BY_CONTACT: &str = "no contact, slides but would not with it";

/// Bit 4 where the exception asks for a coefficient below q/100 and it is equal.
const EXCEPTED_BUT_EQUAL: &str = "excepted but for a coefficient equal to the cap";

fn excepted(flags: u8) -> String {
    format!("excepted, flags {flags}")
}

/// Bit 4 where the exception lacks nothing but flags.
fn excepted_but(flags: u8) -> String {
    format!("excepted but for flags {flags}")
}

/// The cases that must be met.
pub fn wanted() -> Vec<String> {
    let mut wanted = vec![HELD_BY_CONTACT.to_string(), EXCEPTED_BUT_EQUAL.to_string()];
    for flags in 0..=MOST_FLAGS {
        wanted.push(format!("flags {flags}"));
        wanted.push(if flags & BOTH == BOTH {
            excepted(flags)
        } else {
            excepted_but(flags)
        });
    }
    for contact in [WITH, WITHOUT] {
        for case in ["thrust", "H just below R", "H at R", "H just above R"] {
            wanted.push(format!("{contact}, {case}"));
        }
    }
    let named = wanted.iter().map(|case| format!("footing: {case}"));
    named.collect()
}

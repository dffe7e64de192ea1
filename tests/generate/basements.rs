//! Basement members (02, No. 9): in range, under a joint or under the latest wall; jobs with one that mostly is at fault, whole and cut;
//! in the only building of a file or behind another; and the job with the most rows.
//! Assumes of a place that it is 0 or 1.

use super::blocks::commands;
use super::buildings::at_times_behind_another;
use super::faults::{one_of, put};
use super::values::Random;
use super::{Mix, Writer, BASEMENT, MOST_COMMANDS, WALL_BASE};

/// How often each of the commands 02 to 0C is drawn: without joints and walls, with one of them, with both.
const NEITHER: Mix = Mix([0, 1, 1, 0, 0, 0, 1, 1, 1, 0, 0]);
const JOINTS: Mix = Mix([4, 1, 0, 1, 0, 0, 0, 0, 1, 0, 1]);
const WALLS: Mix = Mix([0, 1, 0, 0, 3, 1, 0, 0, 1, 1, 0]);
const BOTH: Mix = Mix([3, 1, 0, 1, 3, 1, 0, 0, 1, 0, 2]);

impl Writer<'_> {
    /// A member at a joint or at the latest wall, of which one must be given.
    pub fn basement(&mut self) {
        let at_wall = self.wall && (self.joints.is_empty() || self.values.random.one_in(2));
        let id = if at_wall { 0 } else { self.given_id() };
        self.basement_at(u8::from(at_wall), id);
    }

    fn basement_at(&mut self, place: u8, id: u8) {
        self.job.extend([place, id]);
        for _ in 0..2 {
            let v = self.values.signed_amount();
            let e = self.values.amount();
            self.signed(v);
            self.word(e);
        }
        let strengths = [(); 2].map(|()| self.values.amount());
        self.words(&strengths);
    }
}

/// The accepted job with the most rows: settings, a wall base, and a member for each command that is left.
pub fn most_rows(random: &mut Random) -> Vec<u8> {
    let mut writer = Writer::begin(random, MOST_COMMANDS);
    writer.command(WALL_BASE);
    while writer.left > 0 {
        writer.command(BASEMENT);
    }
    writer.job.push(0);
    writer.job
}

/// A job with a member that mostly is at fault: as the first command of a building, or after commands with joints, walls, both or neither.
pub fn basement_at_fault(random: &mut Random) -> Vec<u8> {
    let before = match random.below(8) {
        0 => vec![],
        1 => commands(random, 1, 10, &NEITHER),
        2 | 3 => commands(random, 2, 10, &JOINTS),
        4 | 5 => commands(random, 2, 10, &WALLS),
        _ => commands(random, 2, 10, &BOTH),
    };
    let mut job = at_times_behind_another(random, before);
    let member = basement(random);
    let cut = match random.below(12) {
        0 => 1,
        1 => member.len() - 1,
        2 => random.between(1, member.len() as u64 - 1) as usize,
        _ => member.len(),
    };
    job.extend(&member[..cut]);
    if cut == member.len() {
        if random.one_in(4) {
            job.extend(&commands(random, 2, 6, &BOTH)[7..]);
        }
        job.push(0);
    }
    job
}

/// A member of either place, with any id where it is a joint; half of them with faults.
pub fn basement(random: &mut Random) -> Vec<u8> {
    let place = random.below(2) as u8;
    let id = match place {
        0 => one_of(random, 0, 255) as u8,
        _ => 0,
    };
    let mut writer = Writer::begin(random, 1);
    writer.job = vec![BASEMENT];
    writer.basement_at(place, id);
    let mut member = writer.job;
    if random.one_in(2) {
        put(random, &mut member);
    }
    member
}

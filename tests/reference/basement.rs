//! Basement members (02, No. 9): operands, ranges and words 2 to 7 of their two rows.
//! Assumes of a row's operands that they are in range, and that the joint or the wall named was given.

use super::members::{signed, within, word, Coefficient};
use super::operands::Operands;
use super::Held;

const JOINT: u8 = 0;
const WALL: u8 = 1;

/// A shear or a moment: the non-seismic value, the seismic one and the strength.
struct Action {
    v: i64,
    e: i64,
    strength: i64,
}

pub struct BasementMember {
    place: u8,
    id: u8,
    shear: Action,
    moment: Action,
}

impl BasementMember {
    pub fn read(b: &[u8; 26]) -> BasementMember {
        let action = |v, e, strength| Action {
            v: signed(b, v),
            e: word(b, e) as i64,
            strength: word(b, strength) as i64,
        };
        BasementMember {
            place: b[0],
            id: b[1],
            shear: action(2, 6, 18),
            moment: action(10, 14, 22),
        }
    }

    /// The joint with the nearest possible hinge; none where this is at the base of the latest wall.
    pub fn joint(&self) -> Option<usize> {
        (self.place == JOINT).then_some(usize::from(self.id))
    }

    /// Words 2 to 7 of the shear row and of the moment row.
    pub fn rows(&self, held: &Held) -> [[i64; 6]; 2] {
        let a = match self.joint() {
            Some(id) => held.joints[id].coefficient(&held.settings),
            None => held.wall.a,
        };
        [self.shear.row(&a, 1), self.moment.row(&a, 2)]
    }
}

impl Action {
    /// Upper V + a·E up, lower V − a·E down; the verdict has the bit where upper or minus lower exceeds the strength.
    fn row(&self, a: &Coefficient, bit: i64) -> [i64; 6] {
        let pair = (self.v, self.e);
        let (upper, lower) = (a.sum_up(pair, 1), a.sum_down(pair, -1));
        let fails = upper > self.strength || -lower > self.strength;
        [upper, lower, self.strength, 0, 0, bit * i64::from(fails)]
    }
}

impl Operands for BasementMember {
    fn values(&self) -> Vec<i64> {
        let (shear, moment) = (&self.shear, &self.moment);
        let [place, id] = [self.place, self.id].map(i64::from);
        let actions = [shear.v, shear.e, moment.v, moment.e];
        [
            &[place, id],
            &actions[..],
            &[shear.strength, moment.strength],
        ]
        .concat()
    }

    /// A wall has no id: there it is 0.
    fn each(&self, mut test: impl FnMut(&'static str, bool) -> bool) -> bool {
        let size = |value: i64| within(value.unsigned_abs());
        test("place", self.place <= WALL)
            && test("id", true)
            && test("VV", size(self.shear.v))
            && test("VE", size(self.shear.e))
            && test("MV", size(self.moment.v))
            && test("ME", size(self.moment.e))
            && test("VR", size(self.shear.strength))
            && test("MR", size(self.moment.strength))
            && test("id", self.place != WALL || self.id == 0)
    }
}

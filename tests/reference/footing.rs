//! Soil and footings of document 01: operands, ranges and words 2 to 7 of their rows; flags as in document 02, No. 6.
//! Assumes of a row's operands that they are in range and that a soil was given.

use super::members::{bits, signed, wide, within, word, Coefficient};
use super::operands::Operands;
use super::{take_down, Held};

/// Least normal force whose eccentricities and resistance are reported.
const LEAST_NORMAL: i64 = 20_000;

/// The flags of a footing: uncertainties minimised, strict tolerances, and full contact with ground that won't be dug away.
const MINIMISED: u8 = 1;
const STRICT: u8 = 2;
const CONTACT: u8 = 4;

/// What a soil resists with: the tangent times 10,000, or the undrained strength in Pa.
#[derive(Clone, Copy)]
enum Resistance {
    Granular(i64),
    Cohesive(i64),
}

#[derive(Clone, Copy)]
pub struct Soil {
    resistance: Resistance,
    sensitive: bool,
}

impl Default for Soil {
    fn default() -> Soil {
        Soil {
            resistance: Resistance::Granular(0),
            sensitive: false,
        }
    }
}

/// The operands of a soil.
pub struct SoilGiven {
    kind: u8,
    value: f32,
    sensitive: u8,
}

impl SoilGiven {
    pub fn read(b: &[u8; 6]) -> SoilGiven {
        SoilGiven {
            kind: b[0],
            value: f32::from_bits(bits(b, 1)),
            sensitive: b[5],
        }
    }

    /// The soil, of operands in range.
    pub fn soil(&self) -> Soil {
        let value = take_down(self.kind, self.value).map_or(0, i64::from);
        let resistance = if self.kind == 0 {
            Resistance::Granular(value)
        } else {
            Resistance::Cohesive(value)
        };
        Soil {
            resistance,
            sensitive: self.sensitive == 1,
        }
    }
}

impl Operands for SoilGiven {
    fn values(&self) -> Vec<i64> {
        let value = self.value.to_bits();
        [self.kind.into(), value.into(), self.sensitive.into()].to_vec()
    }

    fn each(&self, mut test: impl FnMut(&'static str, bool) -> bool) -> bool {
        test("kind", self.kind <= 1)
            && test("value", true)
            && test("sensitive", self.sensitive <= 1)
            && test("value", take_down(self.kind, self.value).is_ok())
    }
}

/// A non-seismic value and a seismic one.
type Pair = (i64, i64);

pub struct Footing {
    b: i64,
    l: i64,
    mr: u64,
    me: u64,
    n: Pair,
    x: Pair,
    y: Pair,
    h: Pair,
    u: i64,
    p: i64,
    flags: u8,
}

impl Footing {
    pub fn read(b: &[u8; 57]) -> Footing {
        let pair = |at| (signed(b, at), signed(b, at + 4));
        Footing {
            b: word(b, 0) as i64,
            l: word(b, 4) as i64,
            mr: word(b, 8),
            me: word(b, 12),
            n: pair(16),
            x: pair(24),
            y: pair(32),
            h: pair(40),
            u: word(b, 48) as i64,
            p: word(b, 52) as i64,
            flags: b[56],
        }
    }

    /// Words 2 to 7 of the direction `sign`, 1 or −1.
    pub fn row(&self, held: &Held, sign: i64) -> [i64; 6] {
        let q = held.settings.q;
        let a = Coefficient::new(held.settings.gf, self.mr, self.me, q);
        let n = a.sum_down(self.n, sign);
        let h = a.size_up(self.h, sign);
        if n < LEAST_NORMAL {
            return [n, 0, 0, h, 0, 16];
        }
        let eccentricity =
            |moment| (1000 * a.size_up(moment, sign) as u64).div_ceil(n as u64) as i64;
        let (ex, ey) = (eccentricity(self.x), eccentricity(self.y));
        let base = self.base_resistance(held.soil.resistance, n, ex, ey);
        let r = base + 2 * self.counted_thrust() / 5;
        let excepted = self.has(MINIMISED) && self.has(STRICT) && q > 100 && a.below_cap;
        let verdict = i64::from(self.overturns(held.soil.sensitive, excepted, ex, ey)) << 2
            | i64::from(h > r) << 3;
        [n, ex, ey, h, r, verdict]
    }

    fn has(&self, flag: u8) -> bool {
        self.flags & flag != 0
    }

    /// The passive thrust counts only where the contact is declared (02, No. 6).
    fn counted_thrust(&self) -> i64 {
        if self.has(CONTACT) {
            self.p
        } else {
            0
        }
    }

    fn base_resistance(&self, resistance: Resistance, n: i64, ex: i64, ey: i64) -> i64 {
        match resistance {
            Resistance::Granular(t) => (n - self.u).max(0) * t / 10_000,
            Resistance::Cohesive(s) => {
                let area = (self.b - 2 * ex).max(0) * (self.l - 2 * ey).max(0);
                (area * s / 1_000_000).min(2 * n / 5)
            }
        }
    }

    /// Bit 4: an eccentricity beyond what the soil and the exception allow.
    fn overturns(&self, sensitive: bool, excepted: bool, ex: i64, ey: i64) -> bool {
        let exceeds = |parts: i64| parts * ex > self.b || parts * ey > self.l;
        if sensitive {
            exceeds(4)
        } else {
            exceeds(3) && !(excepted && 2 * ex < self.b && 2 * ey < self.l)
        }
    }
}

impl Operands for Footing {
    fn values(&self) -> Vec<i64> {
        let pairs = [self.n, self.x, self.y, self.h];
        let loads = pairs.iter().flat_map(|&(v, e)| [v, e]).collect();
        let element = wide(&[self.mr, self.me]);
        let last = vec![self.u, self.p, self.flags.into()];
        [vec![self.b, self.l], element, loads, last].concat()
    }

    fn each(&self, mut test: impl FnMut(&'static str, bool) -> bool) -> bool {
        let side = 500..=20_000;
        let size = |load: i64| within(load.unsigned_abs());
        test("B", side.contains(&self.b))
            && test("L", side.contains(&self.l))
            && test("MR", within(self.mr))
            && test("ME", within(self.me))
            && test("NV", size(self.n.0))
            && test("NE", size(self.n.1))
            && test("XV", size(self.x.0))
            && test("XE", size(self.x.1))
            && test("YV", size(self.y.0))
            && test("YE", size(self.y.1))
            && test("HV", size(self.h.0))
            && test("HE", size(self.h.1))
            && test("U", within(self.u as u64))
            && test("P", within(self.p as u64))
            && test("flags", self.flags <= MINIMISED | STRICT | CONTACT)
    }
}

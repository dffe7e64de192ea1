//! The pseudo-random numbers of the generated jobs, in the ranges of document 01 and often at their ends.
//! Assumes nothing.

/// Greatest force and moment.
pub const LIMIT: u64 = 100_000_000;

/// A xorshift generator.
pub struct Random(u64);

impl Random {
    pub fn new(seed: u64) -> Random {
        let mut random = Random(seed ^ 0x9E37_79B9_7F4A_7C15 | 1 << 63);
        for _ in 0..8 {
            random.next();
        }
        random
    }

    pub fn next(&mut self) -> u64 {
        self.0 ^= self.0 >> 12;
        self.0 ^= self.0 << 25;
        self.0 ^= self.0 >> 27;
        self.0.wrapping_mul(0x2545_F491_4F6C_DD1D) >> 16
    }

    /// A number below `end`, which is at least 1.
    pub fn below(&mut self, end: u64) -> u64 {
        self.next() % end
    }

    pub fn between(&mut self, least: u64, most: u64) -> u64 {
        least + self.below(most - least + 1)
    }

    pub fn one_in(&mut self, cases: u64) -> bool {
        self.below(cases) == 0
    }

    /// A number within 2 of another, one time in eight within a 2000th of it.
    pub fn near(&mut self, value: i64) -> i64 {
        let spread = if self.one_in(8) {
            2 + value.unsigned_abs() / 2000
        } else {
            2
        };
        value - spread as i64 + self.below(2 * spread + 1) as i64
    }
}

/// Operands of one job, with the factors of the latest settings.
pub struct Values<'r> {
    pub random: &'r mut Random,
    pub q: u64,
    pub gj: u64,
    pub gf: u64,
}

impl<'r> Values<'r> {
    pub fn begin(random: &'r mut Random) -> Values<'r> {
        let mut values = Values {
            random,
            q: 0,
            gj: 0,
            gf: 0,
        };
        values.draw_factors();
        values
    }

    /// The factors of other settings.
    pub fn draw_factors(&mut self) {
        self.q = self.side(100, 400);
        self.gj = self.side(100, 200);
        self.gf = self.side(100, 200);
    }

    /// A number of a range, its ends more often than others.
    pub fn side(&mut self, least: u64, most: u64) -> u64 {
        match self.random.below(16) {
            0 => least,
            1 => most,
            _ => self.random.between(least, most),
        }
    }

    pub fn length(&mut self) -> u64 {
        if self.random.one_in(2) {
            self.random.between(2_000, 9_000)
        } else {
            self.side(500, 100_000)
        }
    }

    /// A force or moment of any order of size.
    pub fn amount(&mut self) -> u64 {
        match self.random.below(16) {
            0 => 0,
            1 => LIMIT,
            2 => self.random.below(10),
            3..=5 => self.random.between(0, LIMIT),
            _ => {
                let order = self.random.below(27);
                self.random.between(1 << order >> 1, 1 << order).min(LIMIT)
            }
        }
    }

    pub fn signed_amount(&mut self) -> i64 {
        let size = self.amount() as i64;
        if self.random.one_in(2) {
            size
        } else {
            -size
        }
    }

    /// A value within 2 of another and within a range.
    pub fn close(&mut self, value: u64, least: u64, most: u64) -> u64 {
        (value + self.random.below(5))
            .saturating_sub(2)
            .clamp(least, most)
    }

    /// A value from a half to twice another, at times within 2 of it, at most the limit.
    pub fn about(&mut self, value: u64) -> u64 {
        if self.random.one_in(3) {
            self.close(value, 0, LIMIT)
        } else {
            self.random.between(value / 2, 2 * value).min(LIMIT)
        }
    }

    /// A seismic shear; mostly near the one at which q·VE is `product`.
    fn shear(&mut self, product: u64) -> u64 {
        if self.random.one_in(4) {
            self.amount()
        } else {
            self.about(product / self.q)
        }
    }

    /// R1, R2 for plus, R1, R2 for minus and VE of a member with hinges. Mostly q·VE/parts is near factor·S/length of a direction; at
    /// times they are equal but for a unit or two of R1, at times VE is 0 and so is the S of one direction or of both.
    pub fn hinges(&mut self, length: u64, factor: u64, parts: u64) -> ([u64; 4], u64) {
        let mut r = [(); 4].map(|()| self.amount());
        let at = if self.random.one_in(2) { 0 } else { 2 };
        let ve = match self.random.below(16) {
            0..=2 => {
                let products = [factor * parts, self.q * length];
                let [sum, ve] = self.equal(products, [2 * LIMIT, LIMIT]);
                let least = sum.saturating_sub(LIMIT);
                let r1 = self.random.between(least, sum.min(LIMIT));
                r[at] = self.at_or_close(r1);
                r[at + 1] = sum - r1;
                ve
            }
            3 => {
                let none = if self.random.one_in(2) {
                    0..4
                } else {
                    at..at + 2
                };
                r[none].fill(0);
                0
            }
            _ => self.shear(factor * (r[at] + r[at + 1]) / length * parts),
        };
        (r, ve)
    }

    /// x and y above 0 and at most their limits, with first·x = second·y; the limits must have room for some.
    fn equal(&mut self, [first, second]: [u64; 2], most: [u64; 2]) -> [u64; 2] {
        let common = common_divisor(first, second);
        let [x, y] = [second / common, first / common];
        let times = (most[0] / x).min(most[1] / y);
        let order = self.random.below(8);
        let times = self.random.between(1, 1.max(times >> order));
        [times * x, times * y]
    }

    /// A value, or one within 2 of it.
    fn at_or_close(&mut self, value: u64) -> u64 {
        if self.random.one_in(2) {
            value
        } else {
            self.close(value, 0, LIMIT)
        }
    }

    /// R and E of a coefficient; mostly near the E at which g·R is q·E, at times there but for a unit or two of R.
    pub fn strength_and_demand(&mut self, g: u64) -> [u64; 2] {
        if self.random.one_in(8) {
            let [r, e] = self.equal([g, self.q], [LIMIT; 2]);
            return [self.at_or_close(r), e];
        }
        let r = self.amount();
        let e = if self.random.one_in(4) {
            self.amount()
        } else {
            self.about(g * r / self.q)
        };
        [
            r,
            if self.random.one_in(4) {
                e.saturating_mul(3).min(LIMIT)
            } else {
                e
            },
        ]
    }

    /// J and J0 with 1 ≤ J ≤ J0; at times with a whole cube root of J/J0.
    pub fn inertias(&mut self) -> [u64; 2] {
        let order = self.random.below(32);
        let j0 = self.side(1, u64::from(u32::MAX) >> order);
        match self.random.below(8) {
            0 => [j0, j0],
            1 => [1, j0],
            2 => {
                let part = self.random.between(1, 1600);
                let whole = self.random.between(1, part);
                [whole.pow(3), part.pow(3)]
            }
            3 => [self.close(j0, 1, j0), j0],
            _ => [self.random.between(1, j0), j0],
        }
    }

    /// The bits of a soil value in range.
    pub fn soil_value(&mut self, kind: u8) -> u32 {
        let top = if kind == 0 { 2.0f32 } else { 1000.0 };
        match self.random.below(12) {
            0 => 0,
            1 => top.to_bits(),
            2 => self.random.between(0, u64::from(top.to_bits())) as u32,
            3 => top.to_bits() - self.random.below(3) as u32,
            _ => (self.random.below(1 << 24) as f32 / (1 << 24) as f32 * top).to_bits(),
        }
    }

    /// The flags of a footing; those of which the exception of bit 4 asks are set more often than others.
    pub fn flags(&mut self) -> u8 {
        let both = if self.random.one_in(2) { 3 } else { 0 };
        both | self.random.below(8) as u8
    }

    /// NV, NE, XV, XE, YV, YE, HV, HE of a footing: mostly with a normal force that presses and eccentricities of
    /// the order of the sides.
    pub fn loads(&mut self, sides: [u64; 2]) -> [i64; 8] {
        if self.random.one_in(4) {
            return [(); 8].map(|()| self.signed_amount());
        }
        if self.random.one_in(6) {
            return self.light_loads(sides);
        }
        let order = self.random.below(13);
        let normal = self.random.between(20_000, 24_000 << order).min(LIMIT);
        let seismic = self.within(normal / 4);
        let [xv, xe] = self.moments(normal * sides[0] / 1000);
        let [yv, ye] = self.moments(normal * sides[1] / 1000);
        let [hv, he] = [self.within(normal / 3), self.within(normal / 4)];
        [normal as i64, seismic, xv, xe, yv, ye, hv, he]
    }

    /// Loads with a normal force just above the least that is reported and eccentricities near half a side.
    fn light_loads(&mut self, sides: [u64; 2]) -> [i64; 8] {
        let normal = self.random.between(19_998, 20_100) as i64;
        let [x, y] = sides.map(|side| self.random.near(normal * side as i64 / 2000));
        let [ne, xe, ye, he] = [(); 4].map(|()| self.within(5));
        [normal, ne, x - x / 50, xe, y, ye, self.within(9_000), he]
    }

    /// A moment of each kind, about a third of `scale` at most when added.
    fn moments(&mut self, scale: u64) -> [i64; 2] {
        let part = scale / self.random.between(3, 40);
        [
            self.within(part.min(LIMIT)),
            self.within((part / 4).min(LIMIT)),
        ]
    }

    /// A signed number of at most a size.
    fn within(&mut self, size: u64) -> i64 {
        self.random.below(2 * size + 1) as i64 - size as i64
    }
}

/// The greatest number that divides two.
fn common_divisor(one: u64, other: u64) -> u64 {
    if other == 0 {
        one
    } else {
        common_divisor(other, one % other)
    }
}

//! The members of document 01 with request No. 5 of document 02: operands, ranges and words 2 to 7 of their rows.
//! Assumes of a row's operands that they are in range, and of `Wall` that a wall base made it.

use super::operands::Operands;

/// Greatest force in newtons and greatest moment in newton metres.
const LIMIT: u64 = 100_000_000;

// Operands.

fn half<const N: usize>(b: &[u8; N], at: usize) -> u64 {
    u64::from(u16::from_be_bytes([b[at], b[at + 1]]))
}

pub fn bits<const N: usize>(b: &[u8; N], at: usize) -> u32 {
    u32::from_be_bytes([b[at], b[at + 1], b[at + 2], b[at + 3]])
}

pub fn word<const N: usize>(b: &[u8; N], at: usize) -> u64 {
    u64::from(bits(b, at))
}

pub fn signed<const N: usize>(b: &[u8; N], at: usize) -> i64 {
    i64::from(bits(b, at) as i32)
}

/// Unsigned operands as signed numbers, which are wide enough for them.
pub fn wide(values: &[u64]) -> Vec<i64> {
    values.iter().map(|&value| value as i64).collect()
}

pub fn within(value: u64) -> bool {
    value <= LIMIT
}

fn member_length(length: u64) -> bool {
    (500..=100_000).contains(&length)
}

/// The operands that a column and a beam begin with.
fn ends(length: u64, r: &[u64; 4], test: &mut impl FnMut(&'static str, bool) -> bool) -> bool {
    test("length", member_length(length))
        && test("R1plus", within(r[0]))
        && test("R2plus", within(r[1]))
        && test("R1minus", within(r[2]))
        && test("R2minus", within(r[3]))
}

// Settings, joints and the coefficient.

#[derive(Clone, Copy, Default)]
pub struct Settings {
    pub q: u64,
    gj: u64,
    pub gf: u64,
}

impl Settings {
    pub fn read(b: &[u8; 6]) -> Settings {
        Settings {
            q: half(b, 0),
            gj: half(b, 2),
            gf: half(b, 4),
        }
    }
}

impl Operands for Settings {
    fn values(&self) -> Vec<i64> {
        wide(&[self.q, self.gj, self.gf])
    }

    fn each(&self, mut test: impl FnMut(&'static str, bool) -> bool) -> bool {
        let overstrength = 100..=200;
        test("q", (100..=400).contains(&self.q))
            && test("gj", overstrength.contains(&self.gj))
            && test("gf", overstrength.contains(&self.gf))
    }
}

#[derive(Clone, Copy, Default)]
pub struct Joint {
    rb: u32,
    rc: u32,
    eb: u32,
}

impl Joint {
    pub fn read(b: &[u8; 13]) -> (usize, Joint) {
        (
            usize::from(b[0]),
            Joint {
                rb: bits(b, 1),
                rc: bits(b, 5),
                eb: bits(b, 9),
            },
        )
    }

    pub fn coefficient(&self, settings: &Settings) -> Coefficient {
        Coefficient::new(
            settings.gj,
            u64::from(self.rb.min(self.rc)),
            u64::from(self.eb),
            settings.q,
        )
    }
}

impl Operands for Joint {
    fn values(&self) -> Vec<i64> {
        [self.rb, self.rc, self.eb].map(i64::from).to_vec()
    }

    fn each(&self, mut test: impl FnMut(&'static str, bool) -> bool) -> bool {
        test("id", true)
            && test("RB", within(u64::from(self.rb)))
            && test("RC", within(u64::from(self.rc)))
            && test("EB", within(u64::from(self.eb)))
    }
}

/// The capacity coefficient, an exact fraction of at most 4.
#[derive(Clone, Copy, Default)]
pub struct Coefficient {
    over: u64,
    under: u64,
    /// Whether it is below q/100.
    pub below_cap: bool,
    /// Whether q/100 was strictly the smaller; E = 0 counts as yes. At equality both are false.
    pub cap_governs: bool,
}

impl Coefficient {
    /// g·R/(100·E), at most q/100; E = 0 gives q/100.
    pub fn new(g: u64, r: u64, e: u64, q: u64) -> Coefficient {
        if g * r < q * e {
            Coefficient {
                over: g * r,
                under: 100 * e,
                below_cap: true,
                cap_governs: false,
            }
        } else {
            Coefficient {
                over: q,
                under: 100,
                below_cap: false,
                cap_governs: q * e < g * r || e == 0,
            }
        }
    }

    /// a·x, up.
    fn times_up(&self, x: u64) -> u64 {
        (self.over * x).div_ceil(self.under)
    }

    /// v + sign·a·e, over `under`.
    fn sum(&self, (v, e): (i64, i64), sign: i64) -> i64 {
        v * self.under as i64 + sign * e * self.over as i64
    }

    /// v + sign·a·e, up.
    pub fn sum_up(&self, pair: (i64, i64), sign: i64) -> i64 {
        -(-self.sum(pair, sign)).div_euclid(self.under as i64)
    }

    /// v + sign·a·e, down.
    pub fn sum_down(&self, pair: (i64, i64), sign: i64) -> i64 {
        self.sum(pair, sign).div_euclid(self.under as i64)
    }

    /// The size of v + sign·a·e, up.
    pub fn size_up(&self, pair: (i64, i64), sign: i64) -> i64 {
        self.sum(pair, sign).unsigned_abs().div_ceil(self.under) as i64
    }
}

// Members with hinges.

/// The smaller of the strengths' numerator/length and the cap's numerator/parts, up; and whether the cap was strictly the smaller,
/// as fractions.
fn hinge_shear(strengths: u64, length: u64, cap: u64, parts: u64) -> (i64, bool) {
    let shear = strengths.div_ceil(length).min(cap.div_ceil(parts));
    (shear as i64, cap * length < strengths * parts)
}

pub struct Column {
    length: u64,
    /// R1, R2 for plus, then R1, R2 for minus.
    r: [u64; 4],
    ve: u64,
    vr: u64,
}

impl Column {
    pub fn read(b: &[u8; 28]) -> Column {
        let r = [word(b, 4), word(b, 8), word(b, 12), word(b, 16)];
        Column {
            length: word(b, 0),
            r,
            ve: word(b, 20),
            vr: word(b, 24),
        }
    }

    pub fn row(&self, q: u64) -> [i64; 6] {
        let sum = (self.r[0] + self.r[1]).max(self.r[2] + self.r[3]);
        let (v, capped) = hinge_shear(1400 * sum, self.length, q * self.ve, 100);
        let vr = self.vr as i64;
        [v, vr, 0, 0, i64::from(capped), i64::from(v > vr)]
    }
}

impl Operands for Column {
    fn values(&self) -> Vec<i64> {
        let [a, b, c, d] = self.r;
        wide(&[self.length, a, b, c, d, self.ve, self.vr])
    }

    fn each(&self, mut test: impl FnMut(&'static str, bool) -> bool) -> bool {
        ends(self.length, &self.r, &mut test)
            && test("VE", within(self.ve))
            && test("VR", within(self.vr))
    }
}

pub struct Beam {
    length: u64,
    r: [u64; 4],
    v0: i64,
    ve: u64,
    vr: u64,
}

impl Beam {
    pub fn read(b: &[u8; 32]) -> Beam {
        let r = [word(b, 4), word(b, 8), word(b, 12), word(b, 16)];
        Beam {
            length: word(b, 0),
            r,
            v0: signed(b, 20),
            ve: word(b, 24),
            vr: word(b, 28),
        }
    }

    pub fn row(&self, q: u64) -> [i64; 6] {
        let d = |sum: u64| hinge_shear(1200 * sum, self.length, q * self.ve, 120);
        let (plus, plus_capped) = d(self.r[0] + self.r[1]);
        let (minus, minus_capped) = d(self.r[2] + self.r[3]);
        // V0 is whole: V0 + D up is V0 + (D up), V0 − D down is V0 − (D up).
        let (upper, lower) = (self.v0 + plus, self.v0 - minus);
        shear_row(upper, lower, self.vr as i64, [plus_capped, minus_capped])
    }
}

impl Operands for Beam {
    fn values(&self) -> Vec<i64> {
        let [a, b, c, d] = self.r;
        let ends = wide(&[self.length, a, b, c, d]);
        [ends, vec![self.v0], wide(&[self.ve, self.vr])].concat()
    }

    fn each(&self, mut test: impl FnMut(&'static str, bool) -> bool) -> bool {
        ends(self.length, &self.r, &mut test)
            && test("V0", within(self.v0.unsigned_abs()))
            && test("VE", within(self.ve))
            && test("VR", within(self.vr))
    }
}

fn shear_row(upper: i64, lower: i64, vr: i64, capped: [bool; 2]) -> [i64; 6] {
    let [plus, minus] = capped.map(i64::from);
    let fails = upper > vr || -lower > vr;
    [upper, lower, vr, plus, minus, i64::from(fails)]
}

// Members without hinges.

pub struct NoHinges {
    length: u64,
    pub joints: [usize; 2],
    me: [u64; 2],
    v0: i64,
    vr: u64,
}

impl NoHinges {
    pub fn read(b: &[u8; 22]) -> NoHinges {
        NoHinges {
            length: word(b, 0),
            joints: [usize::from(b[4]), usize::from(b[5])],
            me: [word(b, 6), word(b, 10)],
            v0: signed(b, 14),
            vr: word(b, 18),
        }
    }

    pub fn row(&self, settings: &Settings, joints: &[Joint; 256]) -> [i64; 6] {
        let m = |end: usize| {
            joints[self.joints[end]]
                .coefficient(settings)
                .times_up(self.me[end])
        };
        let d = (1000 * (m(0) + m(1))).div_ceil(self.length) as i64;
        shear_row(self.v0 + d, self.v0 - d, self.vr as i64, [false; 2])
    }
}

impl Operands for NoHinges {
    fn values(&self) -> Vec<i64> {
        let ids = self.joints.map(|id| id as i64).to_vec();
        let loads = [wide(&self.me), vec![self.v0]].concat();
        [wide(&[self.length]), ids, loads, wide(&[self.vr])].concat()
    }

    fn each(&self, mut test: impl FnMut(&'static str, bool) -> bool) -> bool {
        test("length", member_length(self.length))
            && test("joint1", true)
            && test("joint2", true)
            && test("ME1", within(self.me[0]))
            && test("ME2", within(self.me[1]))
            && test("V0", within(self.v0.unsigned_abs()))
            && test("VR", within(self.vr))
    }
}

// Walls.

/// The latest wall: coefficient, base shear (up) and moment strength.
#[derive(Clone, Copy, Default)]
pub struct Wall {
    pub a: Coefficient,
    shear: u64,
    mr: u64,
}

impl Wall {
    /// The larger of a·ME up and k·MR/3000 up, at most MR.
    fn moment(&self, me: u64, k: u64) -> u64 {
        self.a
            .times_up(me)
            .max((k * self.mr).div_ceil(3000))
            .min(self.mr)
    }
}

pub struct WallBase {
    length: u64,
    thickness: u64,
    mr: u64,
    me: u64,
    ve: u64,
    vr: u64,
}

impl WallBase {
    pub fn read(b: &[u8; 24]) -> WallBase {
        WallBase {
            length: word(b, 0),
            thickness: word(b, 4),
            mr: word(b, 8),
            me: word(b, 12),
            ve: word(b, 16),
            vr: word(b, 20),
        }
    }

    pub fn wall(&self, q: u64) -> Wall {
        let a = Coefficient::new(130, self.mr, self.me, q);
        Wall {
            a,
            shear: a.times_up(self.ve),
            mr: self.mr,
        }
    }

    pub fn row(&self, wall: &Wall) -> [i64; 6] {
        let v = wall.shear;
        let moment = wall.moment(self.me, 1000);
        let verdict = i64::from(v > self.vr) | i64::from(self.length <= 4 * self.thickness) << 7;
        [
            v as i64,
            self.vr as i64,
            moment as i64,
            self.mr as i64,
            i64::from(wall.a.cap_governs),
            verdict,
        ]
    }
}

impl Operands for WallBase {
    fn values(&self) -> Vec<i64> {
        wide(&[
            self.length,
            self.thickness,
            self.mr,
            self.me,
            self.ve,
            self.vr,
        ])
    }

    fn each(&self, mut test: impl FnMut(&'static str, bool) -> bool) -> bool {
        let side = 100..=10_000;
        test("length", side.contains(&self.length))
            && test("thickness", side.contains(&self.thickness))
            && test("MR", within(self.mr))
            && test("ME", within(self.me))
            && test("VE", within(self.ve))
            && test("VR", within(self.vr))
    }
}

/// The cubes of 0 to 1,000.
static CUBES: [u64; 1001] = {
    let mut cubes = [0; 1001];
    let mut k = 0;
    while k < cubes.len() {
        cubes[k] = (k * k * k) as u64;
        k += 1;
    }
    cubes
};

pub struct Storey {
    me: u64,
    ve: u64,
    j: u64,
    j0: u64,
    vr: u64,
    ms: u64,
}

impl Storey {
    pub fn read(b: &[u8; 24]) -> Storey {
        Storey {
            me: word(b, 0),
            ve: word(b, 4),
            j: word(b, 8),
            j0: word(b, 12),
            vr: word(b, 16),
            ms: word(b, 20),
        }
    }

    pub fn row(&self, wall: &Wall) -> [i64; 6] {
        let k = self.k();
        let v = wall
            .a
            .times_up(self.ve)
            .max((k * wall.shear).div_ceil(3000));
        let moment = wall.moment(self.me, k);
        let verdict = i64::from(v > self.vr) | i64::from(moment > self.ms) << 1;
        [
            v as i64,
            self.vr as i64,
            moment as i64,
            self.ms as i64,
            k as i64,
            verdict,
        ]
    }

    /// The least k with k³·J0 ≥ 10⁹·J.
    fn k(&self) -> u64 {
        let least = 1_000_000_000 * self.j;
        CUBES.partition_point(|cube| cube * self.j0 < least) as u64
    }
}

impl Operands for Storey {
    fn values(&self) -> Vec<i64> {
        wide(&[self.me, self.ve, self.j, self.j0, self.vr, self.ms])
    }

    /// 1 ≤ J ≤ J0 asks of each that it is at least 1, and of J that it does not exceed J0.
    fn each(&self, mut test: impl FnMut(&'static str, bool) -> bool) -> bool {
        test("ME", within(self.me))
            && test("VE", within(self.ve))
            && test("J", 1 <= self.j)
            && test("J0", 1 <= self.j0)
            && test("VR", within(self.vr))
            && test("MS", within(self.ms))
            && test("J", self.j <= self.j0)
    }
}

// Details.

pub struct Detail {
    place: u8,
    xu: u64,
    xy: u64,
    mu: u64,
    lap: u8,
}

impl Detail {
    pub fn read(b: &[u8; 8]) -> Detail {
        Detail {
            place: b[0],
            xu: half(b, 1),
            xy: half(b, 3),
            mu: half(b, 5),
            lap: b[7],
        }
    }

    pub fn row(&self) -> [i64; 6] {
        let demand = self.xu * self.mu;
        let strength = 175 * (1000 - self.xy);
        let lapped_base = self.lap == 1 && self.place == 2;
        let verdict = i64::from(demand > strength) << 5 | i64::from(lapped_base) << 6;
        [demand as i64, strength as i64, 0, 0, 0, verdict]
    }
}

impl Operands for Detail {
    fn values(&self) -> Vec<i64> {
        let [place, lap] = [self.place, self.lap].map(u64::from);
        wide(&[place, self.xu, self.xy, self.mu, lap])
    }

    fn each(&self, mut test: impl FnMut(&'static str, bool) -> bool) -> bool {
        test("place", self.place <= 2)
            && test("xu", self.xu <= 1000)
            && test("xy", self.xy <= 1000)
            && test("mu", (1000..=2000).contains(&self.mu))
            && test("lap", self.lap <= 1)
    }
}

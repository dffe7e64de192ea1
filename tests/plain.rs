//! Plain Rust that does what the library's calls do, for the benchmark: writes a command (the range test, the room, the bytes), a block
//! (the count and the words before these) and prints a page (the words, the widths, the room, the bytes).
//! Assumes nothing. A function is never inlined, as a call of the library cannot be, so that both pay for a call.

use crate::library::write::{
    Basement, Beam, Building, Column, Detail, End, Footing, Hingeless, Joint, Settings, Soil,
    Storey, Values, WallBase, WriteAnswer,
};
use crate::reference::Printed;

const LIMIT: u32 = 100_000_000;

pub trait Plain: Values {
    fn write_plainly(self, bytes: &mut [u8]) -> WriteAnswer;
}

fn amounts<const N: usize>(values: [u32; N]) -> bool {
    values.iter().all(|&value| value <= LIMIT)
}

fn loads<const N: usize>(values: [i32; N]) -> bool {
    values.iter().all(|value| value.unsigned_abs() <= LIMIT)
}

/// The answer of a write; `fill` writes the command's N bytes where they fit.
#[inline(always)]
fn put<const N: usize>(
    in_range: bool,
    bytes: &mut [u8],
    fill: impl FnOnce(&mut [u8; N]),
) -> WriteAnswer {
    let answer = |number, bytes| WriteAnswer {
        number,
        offset: 0,
        bytes,
    };
    if !in_range {
        return answer(5, 0);
    }
    let Some(room) = bytes.first_chunk_mut() else {
        return answer(11, 0);
    };
    fill(room);
    answer(0, N)
}

#[inline(always)]
fn words<const M: usize, const N: usize>(room: &mut [u8; N], at: usize, values: [u32; M]) {
    for (place, value) in values.into_iter().enumerate() {
        room[at + 4 * place..][..4].copy_from_slice(&value.to_be_bytes());
    }
}

#[inline(always)]
fn halves<const M: usize, const N: usize>(room: &mut [u8; N], at: usize, values: [u32; M]) {
    for (place, value) in values.into_iter().enumerate() {
        room[at + 2 * place..][..2].copy_from_slice(&(value as u16).to_be_bytes());
    }
}

impl Plain for End {
    #[inline(never)]
    fn write_plainly(self, bytes: &mut [u8]) -> WriteAnswer {
        put::<1>(true, bytes, |b| b[0] = 0)
    }
}

impl Plain for Building {
    #[inline(never)]
    fn write_plainly(self, bytes: &mut [u8]) -> WriteAnswer {
        put::<1>(true, bytes, |b| b[0] = 13)
    }
}

impl Plain for Settings {
    #[inline(never)]
    fn write_plainly(self, bytes: &mut [u8]) -> WriteAnswer {
        let overstrength = 100..=200;
        let in_range = (100..=400).contains(&self.q)
            && overstrength.contains(&self.gj)
            && overstrength.contains(&self.gf);
        put::<7>(in_range, bytes, |b| {
            b[0] = 1;
            halves(b, 1, [self.q, self.gj, self.gf]);
        })
    }
}

impl Plain for Joint {
    #[inline(never)]
    fn write_plainly(self, bytes: &mut [u8]) -> WriteAnswer {
        let sums = [self.rb, self.rc, self.eb];
        put::<14>(self.id <= 255 && amounts(sums), bytes, |b| {
            b[0] = 2;
            b[1] = self.id as u8;
            words(b, 2, sums);
        })
    }
}

impl Plain for Column {
    #[inline(never)]
    fn write_plainly(self, bytes: &mut [u8]) -> WriteAnswer {
        let r = [self.r1_plus, self.r2_plus, self.r1_minus, self.r2_minus];
        let shears = [self.ve, self.vr];
        let in_range = (500..=100_000).contains(&self.length) && amounts(r) && amounts(shears);
        put::<29>(in_range, bytes, |b| {
            b[0] = 3;
            words(b, 1, [self.length]);
            words(b, 5, r);
            words(b, 21, shears);
        })
    }
}

impl Plain for Beam {
    #[inline(never)]
    fn write_plainly(self, bytes: &mut [u8]) -> WriteAnswer {
        let r = [self.r1_plus, self.r2_plus, self.r1_minus, self.r2_minus];
        let in_range = (500..=100_000).contains(&self.length)
            && amounts(r)
            && loads([self.v0])
            && amounts([self.ve, self.vr]);
        put::<33>(in_range, bytes, |b| {
            b[0] = 4;
            words(b, 1, [self.length]);
            words(b, 5, r);
            words(b, 21, [self.v0 as u32, self.ve, self.vr]);
        })
    }
}

impl Plain for Hingeless {
    #[inline(never)]
    fn write_plainly(self, bytes: &mut [u8]) -> WriteAnswer {
        let in_range = (500..=100_000).contains(&self.length)
            && self.id1 <= 255
            && self.id2 <= 255
            && amounts([self.me1, self.me2, self.vr])
            && loads([self.v0]);
        put::<23>(in_range, bytes, |b| {
            b[0] = 5;
            words(b, 1, [self.length]);
            b[5] = self.id1 as u8;
            b[6] = self.id2 as u8;
            words(b, 7, [self.me1, self.me2, self.v0 as u32, self.vr]);
        })
    }
}

impl Plain for WallBase {
    #[inline(never)]
    fn write_plainly(self, bytes: &mut [u8]) -> WriteAnswer {
        let side = 100..=10_000;
        let loads = [self.mr, self.me, self.ve, self.vr];
        let in_range =
            side.contains(&self.length) && side.contains(&self.thickness) && amounts(loads);
        put::<25>(in_range, bytes, |b| {
            b[0] = 6;
            words(b, 1, [self.length, self.thickness]);
            words(b, 9, loads);
        })
    }
}

fn storey_in_range([me, ve, j, j0, vr, ms]: [u32; 6]) -> bool {
    amounts([me, ve, vr, ms]) && 1 <= j && j <= j0
}

/// Six words a set; further words are not looked at.
#[inline(never)]
pub fn block(count: u32, lent: &[u32], bytes: &mut [u8]) -> WriteAnswer {
    let answer = |number, bytes| WriteAnswer {
        number,
        offset: 0,
        bytes,
    };
    let sets = lent.as_chunks::<6>().0.get(..count as usize);
    let Some(sets) = sets.filter(|_| (1..=64).contains(&count)) else {
        return answer(5, 0);
    };
    if !sets.iter().all(|&set| storey_in_range(set)) {
        return answer(5, 0);
    }
    let length = 2 + 24 * sets.len();
    let Some(room) = bytes.get_mut(..length) else {
        return answer(11, 0);
    };
    room[0] = 11;
    room[1] = count as u8;
    let (places, _) = room[2..].as_chunks_mut::<24>();
    for (place, set) in places.iter_mut().zip(sets) {
        words(place, 0, *set);
    }
    answer(0, length)
}

impl Plain for Storey {
    #[inline(never)]
    fn write_plainly(self, bytes: &mut [u8]) -> WriteAnswer {
        let values = [self.me, self.ve, self.j, self.j0, self.vr, self.ms];
        let in_range = storey_in_range(values);
        put::<25>(in_range, bytes, |b| {
            b[0] = 7;
            words(b, 1, values);
        })
    }
}

impl Plain for Soil {
    #[inline(never)]
    fn write_plainly(self, bytes: &mut [u8]) -> WriteAnswer {
        let top = if self.kind == 0 { 2.0 } else { 1000.0 };
        let allowed = self.value.is_sign_positive() && self.value <= top;
        let in_range = self.kind <= 1 && allowed && self.sensitive <= 1;
        put::<7>(in_range, bytes, |b| {
            b[0] = 8;
            b[1] = self.kind as u8;
            words(b, 2, [self.value.to_bits()]);
            b[6] = self.sensitive as u8;
        })
    }
}

impl Plain for Footing {
    #[inline(never)]
    fn write_plainly(self, bytes: &mut [u8]) -> WriteAnswer {
        let side = 500..=20_000;
        let actions = [
            self.nv, self.ne, self.xv, self.xe, self.yv, self.ye, self.hv, self.he,
        ];
        let in_range = side.contains(&self.b)
            && side.contains(&self.l)
            && amounts([self.mr, self.me, self.u, self.p])
            && loads(actions)
            && self.flags <= 7;
        put::<58>(in_range, bytes, |b| {
            b[0] = 9;
            words(b, 1, [self.b, self.l, self.mr, self.me]);
            words(b, 17, actions.map(|load| load as u32));
            words(b, 49, [self.u, self.p]);
            b[57] = self.flags as u8;
        })
    }
}

impl Plain for Detail {
    #[inline(never)]
    fn write_plainly(self, bytes: &mut [u8]) -> WriteAnswer {
        let in_range = self.place <= 2
            && self.xu <= 1000
            && self.xy <= 1000
            && (1000..=2000).contains(&self.mu)
            && self.lap <= 1;
        put::<9>(in_range, bytes, |b| {
            b[0] = 10;
            b[1] = self.place as u8;
            halves(b, 2, [self.xu, self.xy, self.mu]);
            b[8] = self.lap as u8;
        })
    }
}

impl Plain for Basement {
    #[inline(never)]
    fn write_plainly(self, bytes: &mut [u8]) -> WriteAnswer {
        let strengths = [self.vr, self.mr];
        let in_range = self.place <= 1
            && self.id <= 255
            && loads([self.vv, self.mv])
            && amounts([self.ve, self.me])
            && amounts(strengths)
            && (self.place == 0 || self.id == 0);
        put::<27>(in_range, bytes, |b| {
            b[0] = 12;
            b[1] = self.place as u8;
            b[2] = self.id as u8;
            words(b, 3, [self.vv as u32, self.ve, self.mv as u32, self.me]);
            words(b, 19, strengths);
        })
    }
}

// The page.

/// Where the field of each word ends in its line.
const ENDS: [usize; 8] = [7, 10, 23, 36, 49, 62, 75, 80];

/// The least and the greatest value that fit the field of each word with a blank before them.
const FITTING: [(i64, i64); 8] = {
    let wide = (-99_999_999_999, 999_999_999_999);
    let offset = (-99_999, 999_999);
    [
        offset,
        (-9, 99),
        wide,
        wide,
        wide,
        wide,
        wide,
        (-999, 9_999),
    ]
};

/// Prints the first n rows; on a refusal nothing is written.
#[inline(never)]
pub fn page(rows: &[i64], n: usize, bytes: &mut [u8]) -> Printed {
    let refused = |number, rows| Printed {
        number,
        offset: 0,
        rows,
        bytes: 0,
    };
    let Some(rows) = rows.as_chunks::<8>().0.get(..n) else {
        return refused(9, n);
    };
    if !rows.iter().all(fits) {
        return refused(12, 0);
    }
    let length = 81 * n + n.saturating_sub(1) / 50;
    let Some(page) = bytes.get_mut(..length) else {
        return refused(11, 0);
    };
    for (lines, fifty) in page.chunks_mut(50 * 81 + 1).zip(rows.chunks(50)) {
        let (lines, feed) = lines.as_chunks_mut::<81>();
        lines
            .iter_mut()
            .zip(fifty)
            .for_each(|(line, row)| set(line, row));
        feed.fill(0x0C);
    }
    Printed {
        bytes: length,
        ..Printed::default()
    }
}

#[inline(always)]
fn fits(row: &[i64; 8]) -> bool {
    let mut pairs = row.iter().zip(FITTING);
    pairs.all(|(value, (least, most))| (least..=most).contains(value))
}

/// A line: blanks, then each value from its last digit to its first, and the minus.
#[inline(always)]
fn set(line: &mut [u8; 81], row: &[i64; 8]) {
    line.fill(b' ');
    for (&value, end) in row.iter().zip(ENDS) {
        let mut at = end;
        let mut left = value.unsigned_abs();
        loop {
            at -= 1;
            line[at] = b'0' + (left % 10) as u8;
            left /= 10;
            if left == 0 {
                break;
            }
        }
        if value < 0 {
            line[at - 1] = b'-';
        }
    }
    line[80] = b'\n';
}

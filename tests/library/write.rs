//! The calls that write a command, declared as in crates/capacity_c/include/eak_capacity.h.
//! Assumes that libcapacity_c.a is linked.

#![allow(dead_code)]

use crate::reference::{Command, Written};

#[repr(C)]
#[derive(Clone, Copy, Debug, PartialEq, Eq)]
pub struct WriteAnswer {
    pub number: u32,
    pub offset: usize,
    pub bytes: usize,
}

/// A command's struct of the header, with its call.
pub trait Values: Copy {
    /// From values in the order of the file, each of which fits its member.
    fn of(values: &[i64]) -> Self;

    fn write(self, bytes: &mut [u8]) -> WriteAnswer;
}

/// A member of a struct.
trait Member {
    fn of(value: i64) -> Self;
}

impl Member for u32 {
    fn of(value: i64) -> u32 {
        value.try_into().expect("a value of an unsigned member")
    }
}

impl Member for i32 {
    fn of(value: i64) -> i32 {
        value.try_into().expect("a value of a signed member")
    }
}

/// From its 32 bits.
impl Member for f32 {
    fn of(value: i64) -> f32 {
        f32::from_bits(u32::of(value))
    }
}

/// Declares a struct with its members in the header's order, and its call.
macro_rules! declare {
    ($($name:ident $call:ident { $($member:ident: $kind:ty),+ })+) => { $(
        #[repr(C)]
        #[derive(Clone, Copy)]
        pub struct $name {
            $(pub $member: $kind),+
        }

        extern "C" {
            fn $call(values: $name, bytes: *mut u8, room: usize) -> WriteAnswer;
        }

        impl Values for $name {
            fn of(values: &[i64]) -> $name {
                let mut values = values.iter();
                let of = $name { $($member: Member::of(*values.next().expect("a value a member"))),+ };
                assert!(values.next().is_none(), "a member a value");
                of
            }

            #[inline(always)]
            fn write(self, bytes: &mut [u8]) -> WriteAnswer {
                unsafe { $call(self, bytes.as_mut_ptr(), bytes.len()) }
            }
        }
    )+ };
}

declare! {
    Settings eak_write_settings { q: u32, gj: u32, gf: u32 }
    Joint eak_write_joint { id: u32, rb: u32, rc: u32, eb: u32 }
    Column eak_write_column { length: u32, r1_plus: u32, r2_plus: u32, r1_minus: u32, r2_minus: u32, ve: u32, vr: u32 }
    Beam eak_write_beam { length: u32, r1_plus: u32, r2_plus: u32, r1_minus: u32, r2_minus: u32, v0: i32, ve: u32, vr: u32 }
    Hingeless eak_write_hingeless { length: u32, id1: u32, id2: u32, me1: u32, me2: u32, v0: i32, vr: u32 }
    WallBase eak_write_wall_base { length: u32, thickness: u32, mr: u32, me: u32, ve: u32, vr: u32 }
    Storey eak_write_storey { me: u32, ve: u32, j: u32, j0: u32, vr: u32, ms: u32 }
    Soil eak_write_soil { kind: u32, value: f32, sensitive: u32 }
    Footing eak_write_footing {
        b: u32, l: u32, mr: u32, me: u32, nv: i32, ne: i32, xv: i32, xe: i32, yv: i32, ye: i32, hv: i32, he: i32,
        u: u32, p: u32, flags: u32
    }
    Detail eak_write_detail { place: u32, xu: u32, xy: u32, mu: u32, lap: u32 }
    Basement eak_write_basement { place: u32, id: u32, vv: i32, ve: u32, mv: i32, me: u32, vr: u32, mr: u32 }
}

extern "C" {
    fn eak_write_block(
        count: u32,
        sets: *const u32,
        words: usize,
        bytes: *mut u8,
        room: usize,
    ) -> WriteAnswer;
}

/// Declares a command without operands, which has no struct, and its call.
macro_rules! declare_alone {
    ($($name:ident $call:ident)+) => { $(
        #[derive(Clone, Copy)]
        pub struct $name;

        extern "C" {
            fn $call(bytes: *mut u8, room: usize) -> WriteAnswer;
        }

        impl Values for $name {
            fn of(values: &[i64]) -> $name {
                assert!(values.is_empty(), "a member a value");
                $name
            }

            #[inline(always)]
            fn write(self, bytes: &mut [u8]) -> WriteAnswer {
                unsafe { $call(bytes.as_mut_ptr(), bytes.len()) }
            }
        }
    )+ };
}

declare_alone! {
    Building eak_write_building
    End eak_write_end
}

/// The sets of a block, which have no struct: six words a set.
#[inline(always)]
pub fn block(count: u32, sets: &[u32], bytes: &mut [u8]) -> WriteAnswer {
    let (words, room) = (sets.len(), bytes.len());
    unsafe { eak_write_block(count, sets.as_ptr(), words, bytes.as_mut_ptr(), room) }
}

pub fn write_block(count: u32, sets: &[u32], bytes: &mut [u8]) -> Written {
    block(count, sets, bytes).into()
}

impl From<WriteAnswer> for Written {
    fn from(found: WriteAnswer) -> Written {
        Written {
            number: found.number,
            offset: found.offset,
            bytes: found.bytes,
        }
    }
}

/// Writes a command whose values fit the members of its struct; a block has its count, then its sets.
pub fn write_command(command: &Command, bytes: &mut [u8]) -> Written {
    let values = &command.values;
    let found = match command.code {
        0 => End::of(values).write(bytes),
        1 => Settings::of(values).write(bytes),
        2 => Joint::of(values).write(bytes),
        3 => Column::of(values).write(bytes),
        4 => Beam::of(values).write(bytes),
        5 => Hingeless::of(values).write(bytes),
        6 => WallBase::of(values).write(bytes),
        7 => Storey::of(values).write(bytes),
        8 => Soil::of(values).write(bytes),
        9 => Footing::of(values).write(bytes),
        10 => Detail::of(values).write(bytes),
        11 => {
            let values: Vec<u32> = values.iter().map(|&value| u32::of(value)).collect();
            block(values[0], &values[1..], bytes)
        }
        12 => Basement::of(values).write(bytes),
        13 => Building::of(values).write(bytes),
        _ => unreachable!("a command of 00 to 0D"),
    };
    found.into()
}

//! Request No. 7 of document 02: storeys in a block. Its count, its sets and the operand at fault.
//! Assumes of the bytes of a block that they begin with its command's byte, and of `SET` that it is the width of a storey's operands.

use super::members::Storey;
use super::operands::Operands;

/// Bytes of a set, and of what stands before the first: the command's byte and the count.
pub const SET: usize = 24;
pub const HEAD: usize = 2;

/// Operands of a set.
pub const OPERANDS: usize = 6;

/// The counts in range.
pub const COUNTS: std::ops::RangeInclusive<usize> = 1..=64;

/// The count of a block; none where its byte is missing.
pub fn count(block: &[u8]) -> Option<usize> {
    block.get(1).map(|&count| usize::from(count))
}

/// As many sets as the block counts; none where they are not all there.
pub fn sets(block: &[u8]) -> Option<&[[u8; SET]]> {
    let bytes = SET * count(block)?;
    let sets = block[HEAD..].get(..bytes)?;
    Some(sets.as_chunks().0)
}

/// The place of the operand at fault in a block with a count: the count is operand 0, operand j of set i is 1 + 6·i + j.
pub fn at_fault(block: &[u8]) -> Option<usize> {
    if !COUNTS.contains(&count(block)?) {
        return Some(0);
    }
    let mut sets = sets(block)?.iter().enumerate();
    sets.find_map(|(i, set)| Some(1 + OPERANDS * i + Storey::read(set).at_fault()?))
}

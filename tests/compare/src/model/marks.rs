//! The check that is lent a mark for each unit of the image.

use super::check::open;
use super::layout::{Kind, UNIT};
use super::Refusal;

/// The mark of a block's first unit. 5 is kept for chunks, which no image has.
fn mark(kind: Kind) -> u8 {
    match kind {
        Kind::Super => 1,
        Kind::Directory => 2,
        Kind::Name => 3,
        Kind::File => 4,
        Kind::Free => 6,
    }
}

/// How many marks an image of this length needs, allowed or not.
pub fn marks_needed(length: usize) -> usize {
    length / UNIT
}

/// Too few marks stay as they are. Otherwise those of the image's units tell what begins there, 0 for nothing,
/// and all 0 on a refusal; marks past them stay.
pub fn check_marked(image: &[u8], marks: &mut [u8]) -> Result<(), Refusal> {
    let needed = marks_needed(image.len());
    if marks.len() < needed {
        return Err(17.into());
    }
    marks[..needed].fill(0);
    for block in open(image)?.list {
        marks[block.at / UNIT] = mark(block.kind);
    }
    Ok(())
}

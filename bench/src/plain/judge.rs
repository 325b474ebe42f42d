//! What a check does around its walks: room for the marks, and the refusal where a rule is broken.

use super::blame::blame;
use super::layout::{allowed_length, units_of, Unit};
use crate::store::{Answer, Refusal};

/// What a mark tells of the block that begins there; a mark is 0 where none does.
pub mod mark {
    pub const SUPERBLOCK: u8 = 1;
    pub const DIRECTORY: u8 = 2;
    pub const NAME: u8 = 3;
    pub const FILE: u8 = 4;
    pub const FREE: u8 = 6;
    /// The bits of these; others are added while a check runs.
    pub const KIND: u8 = 7;
}

/// The units of the images whose marks have room on the stack.
const FEW: usize = 512;

/// The files and directories of a well-formed image, the root included; refusals 21 to 28 otherwise. The
/// walks are over an image of allowed length, with a mark for each unit, all 0 before; they tell that count
/// where no rule is broken.
pub fn open(image: &[u8], walks: impl Fn(&[Unit], &mut [u8]) -> Option<usize>) -> Answer<usize> {
    let count = image.len() / 16;
    if !allowed_length(image.len()) {
        return Err(21.into());
    }
    let units = units_of(image);
    let objects =
        if count <= FEW { walks(units, &mut [0; FEW][..count]) } else { walks(units, &mut vec![0; count]) };
    objects.ok_or_else(|| refusal(units))
}

/// The check with lent marks.
pub fn check_marked(
    image: &[u8],
    marks: &mut [u8],
    walks: impl Fn(&[Unit], &mut [u8]) -> Option<usize>,
) -> Answer<()> {
    let marks = marks.get_mut(..image.len() / 16).ok_or(17)?;
    marks.fill(0);
    if !allowed_length(image.len()) {
        return Err(21.into());
    }
    let units = units_of(image);
    if walks(units, marks).is_none() {
        marks.fill(0);
        return Err(refusal(units));
    }
    marks.iter_mut().for_each(|mark| *mark &= mark::KIND);
    Ok(())
}

#[cold]
fn refusal(units: &[Unit]) -> Refusal {
    let (rule, place) = blame(units);
    Refusal { number: 20 + rule, place, needed: 0 }
}

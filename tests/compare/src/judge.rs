//! Where the blocks of a new object went, judged by the gaps before, in the words of the rule and not by the
//! model's choice.

use crate::model::layout::{get32, magic, units, Kind, UNIT};

/// A gap: its ref and its units.
type Gap = (u64, usize);

/// What a make answers, and the refs of the object and of its name; 0 where it is refused.
#[derive(Clone, Copy, PartialEq, Eq, Debug)]
pub struct Placed {
    pub answer: u8,
    pub object: u64,
    pub name: u64,
}

/// The free blocks of a card, found block after block.
pub fn free_blocks(card: &[u8]) -> Vec<Gap> {
    let (mut gaps, mut at) = (Vec::new(), 0);
    while at < card.len() {
        let units = units(get32(card, at + 4) as usize);
        if card[at..at + 4] == magic(Kind::Free)[..] {
            gaps.push(((at / UNIT) as u64, units));
        }
        at += UNIT * units;
    }
    gaps
}

/// Judges a name and an object of so many units; what is left of the gaps must be free afterwards.
/// Tells whether first fit would have chosen another gap for the one that is placed first.
pub fn judge_pair(
    mut gaps: Vec<Gap>,
    after: &[u8],
    [name, object]: [usize; 2],
    placed: Placed,
) -> Result<bool, String> {
    let mut pair = [(name, placed.name), (object, placed.object)];
    if object > name {
        pair.reverse();
    }
    let [first, second] = pair;
    let mut other = false;
    match (placed.answer, has_room(&gaps, first.0, second.0)) {
        (0, true) => {
            other = gaps.iter().find(|gap| gap.1 >= first.0).is_some_and(|gap| gap.0 != first.1);
            take(&mut gaps, first)?;
            take(&mut gaps, second)?;
        }
        (8, false) => (),
        (_, true) => return Err("there is room".to_string()),
        (_, false) => return Err("there is no room".to_string()),
    }
    if gaps != free_blocks(after) {
        return Err(format!("free are {:?}, not {gaps:?}", free_blocks(after)));
    }
    Ok(other)
}

/// Whether two blocks, the first of no fewer units, have room: both in one gap, or each in its own.
fn has_room(gaps: &[Gap], larger: usize, smaller: usize) -> bool {
    let wide = |units: usize| gaps.iter().filter(|gap| gap.1 >= units).count();
    wide(larger + smaller) > 0 || wide(larger) > 0 && wide(smaller) > 1
}

/// Judges the gap that a block of so many units went to, and takes its front.
fn take(gaps: &mut Vec<Gap>, (needed, chosen): (usize, u64)) -> Result<(), String> {
    let index = gaps.iter().position(|gap| gap.0 == chosen).ok_or(format!("no gap at ref {chosen}"))?;
    let units = gaps[index].1;
    if units < needed {
        return Err(format!("{units} units for {needed}"));
    }
    if let Some(gap) = gaps.iter().find(|gap| gap.1 >= needed && gap.1 < units) {
        return Err(format!("the gap at ref {} is smaller, and large enough for {needed}", gap.0));
    }
    if let Some(gap) = gaps.iter().find(|gap| gap.1 == units && gap.0 < chosen) {
        return Err(format!("the gap at ref {} is as small", gap.0));
    }
    gaps[index] = (chosen + needed as u64, units - needed);
    gaps.retain(|gap| gap.1 > 0);
    Ok(())
}

#[test]
fn the_tightest_gap_is_taken() {
    let gaps = vec![(11, 7), (21, 3), (27, 2), (32, 3)];
    for (needed, right) in [(1, 27), (2, 27), (3, 21), (4, 11)] {
        for chosen in 11..36 {
            assert_eq!(take(&mut gaps.clone(), (needed, chosen)).is_ok(), chosen == right);
        }
    }
    assert!(take(&mut gaps.clone(), (8, 11)).is_err());
}

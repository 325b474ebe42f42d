//! Room: the free chain, the tightest gap and merging.

use super::layout::*;

/// The free block that a link names, 0 for none. The links: of the superblock (0), or of a free block.
fn linked(units: &[Unit], link: usize) -> usize {
    match link {
        0 => first_free(units),
        _ => index(back(&units[link])),
    }
}

fn put_link(units: &mut [Unit], link: usize, to: usize) {
    match link {
        0 => *units[1].first_chunk_mut().unwrap() = (to as u64).to_be_bytes(),
        _ => put_back(&mut units[link], to as u64),
    }
}

/// The units of a free block.
fn count(units: &[Unit], free: usize) -> usize {
    units_for(header(&units[free]).1)
}

fn put_free(units: &mut [Unit], at: usize, count: usize, next: usize) {
    units[at] = first_unit(FREE, 16 * count - 8, next as u64);
}

/// Whether two blocks can be placed, one after the other; the first has no fewer units.
/// Exact whichever gap the first takes: where it has a choice, the gap not taken holds the second.
fn fits(units: &[Unit], larger: usize, smaller: usize) -> bool {
    let (mut first, mut second) = (false, false);
    let mut free = linked(units, 0);
    while free != 0 && !(first && second) {
        let mut left = count(units, free);
        if !first && left >= larger {
            first = true;
            left -= larger;
        }
        second |= left >= smaller;
        free = linked(units, free);
    }
    first && second
}

/// The link to the smallest free block that has so many units, the first among equals; and its units.
fn tightest(units: &[Unit], wanted: usize) -> Option<(usize, usize)> {
    let (mut best, mut least) = (None, usize::MAX);
    let (mut link, mut free) = (0, linked(units, 0));
    // an exact fit is not bettered
    while free != 0 && least > wanted {
        let count = count(units, free);
        if count >= wanted && count < least {
            (best, least) = (Some(link), count);
        }
        link = free;
        free = linked(units, free);
    }
    best.map(|link| (link, least))
}

/// The front of the tightest free block, zeroed.
fn place(units: &mut [Unit], wanted: usize) -> Option<usize> {
    let (link, count) = tightest(units, wanted)?;
    let free = linked(units, link);
    let mut next = linked(units, free);
    if count > wanted {
        put_free(units, free + wanted, count - wanted, next);
        next = free + wanted;
    }
    put_link(units, link, next);
    units[free..free + wanted].fill(EMPTY);
    Some(free)
}

/// Room for a name and an object of so many units: the larger is placed first, the name where they are equal.
/// Nothing changes where there is none.
pub fn place_pair(units: &mut [Unit], name: usize, object: usize) -> Option<(usize, usize)> {
    let (larger, smaller) = if object > name { (object, name) } else { (name, object) };
    if !fits(units, larger, smaller) {
        return None;
    }
    let (first, second) = (place(units, larger)?, place(units, smaller)?);
    Some(if object > name { (second, first) } else { (first, second) })
}

/// Frees a block, wiped, and merges it with the free blocks beside it.
pub fn release(units: &mut [Unit], at: usize) {
    let mut taken = count(units, at);
    units[at..at + taken].fill(EMPTY);
    let mut before = 0;
    let mut next = linked(units, before);
    while next != 0 && next < at {
        before = next;
        next = linked(units, before);
    }
    if next == at + taken {
        taken += count(units, next);
        let after = linked(units, next);
        units[next] = EMPTY;
        next = after;
    }
    if before != 0 && before + count(units, before) == at {
        let merged = taken + count(units, before);
        put_free(units, before, merged, next);
    } else {
        put_free(units, at, taken, next);
        put_link(units, before, at);
    }
}

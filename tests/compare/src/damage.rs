//! Damage to a well-formed image, each kind aimed at a rule. Most of it breaks one; some of it breaks none.

use crate::model::check::Blocks;
use crate::model::layout::*;
use crate::model::tree::{slots_of, Slot};
use crate::names::bad_name;
use crate::random::Random;
use crate::scene::{Scene, Thing};

type Damage = fn(&mut Random, &mut [u8], &Scene, &Blocks) -> Option<()>;

/// Each with its weight and the rule that it is aimed at (0: any). None where there is nothing to damage so.
const DAMAGES: [(usize, u8, Damage); 23] = [
    (6, 0, flip_bits),
    (3, 1, flip_in_header),
    (4, 1, change_magic),
    (6, 1, change_size),
    (3, 1, fill_padding),
    (2, 1, second_superblock),
    (4, 2, change_root),
    (6, 3, change_slot),
    (3, 3, halve_slot),
    (3, 4, double_slot),
    (3, 4, second_name),
    (2, 4, empty_slot),
    (3, 4, change_parent),
    (4, 4, stray_block),
    (6, 5, move_under_itself),
    (5, 5, move_object),
    (5, 6, spoil_name),
    (5, 6, equal_names),
    (5, 7, change_file_size),
    (3, 7, fill_reserved),
    (6, 8, change_chain),
    (4, 8, split_free),
    (3, 8, drop_free),
];

/// Damages the image once, now and then twice, or its length. Often more is aimed at the same rule, so that
/// it has several breakers.
pub fn damage(random: &mut Random, image: &mut Vec<u8>, scene: &Scene) {
    let Some(blocks) = &scene.blocks else { return };
    if random.percent(5) {
        return change_length(random, image);
    }
    let weights = DAMAGES.map(|(weight, ..)| weight);
    let mut left = if random.percent(12) { 2 } else { 1 };
    while left > 0 {
        let (_, rule, damage) = DAMAGES[random.weighted(&weights)];
        if damage(random, image, scene, blocks).is_some() {
            left -= 1;
            let alike: Vec<_> = DAMAGES.iter().filter(|other| other.1 == rule).collect();
            for _ in 0..random.one(&[0, 0, 0, 1, 3]) {
                let (.., again) = random.one(&alike);
                let _ = again(random, image, scene, blocks);
            }
        }
    }
}

/// One damage of those aimed at a rule; none where a few trials find nothing to damage so.
pub fn damage_of(random: &mut Random, image: &mut [u8], scene: &Scene, rule: u8) {
    let Some(blocks) = &scene.blocks else { return };
    let aimed: Vec<_> = DAMAGES.iter().filter(|damage| damage.1 == rule).collect();
    for _ in 0..20 {
        let (.., damage) = random.one(&aimed);
        if damage(random, image, scene, blocks).is_some() {
            return;
        }
    }
}

fn flip_bits(random: &mut Random, image: &mut [u8], _: &Scene, _: &Blocks) -> Option<()> {
    for _ in 0..random.within(1, 4) {
        let at = random.below(image.len());
        image[at] ^= 1 << random.below(8);
    }
    Some(())
}

fn flip_in_header(random: &mut Random, image: &mut [u8], _: &Scene, blocks: &Blocks) -> Option<()> {
    let block = random.pick(&blocks.list)?;
    image[block.at + random.below(16)] ^= 1 << random.below(8);
    Some(())
}

fn change_magic(random: &mut Random, image: &mut [u8], _: &Scene, blocks: &Blocks) -> Option<()> {
    let block = random.pick(&blocks.list)?;
    let other: &[u8; 4] =
        random.one(&[b"SF01", b"SFde", b"SFna", b"SFre", b"SFfr", b"SFda", b"SF02", b"\0\0\0\0"]);
    image[block.at..block.at + 4].copy_from_slice(other);
    Some(())
}

fn change_size(random: &mut Random, image: &mut [u8], _: &Scene, blocks: &Blocks) -> Option<()> {
    let block = random.pick(&blocks.list)?;
    let size = block.size as u32;
    let step = random.within(1, 16) as u32;
    let other = [
        size.wrapping_add(step),
        size.saturating_sub(step),
        size.wrapping_add(16),
        size.saturating_sub(16),
        size | 1 << 31,
        u32::MAX - random.below(32) as u32,
        random.one(&[0, 8, 15, 65, 72, (1 << 31) - 8, (1 << 31) - 1, 1 << 30, 16_408, 65_553]),
    ];
    put32(image, block.at + 4, random.one(&other));
    Some(())
}

fn fill_padding(random: &mut Random, image: &mut [u8], _: &Scene, blocks: &Blocks) -> Option<()> {
    let padded: Vec<&Block> = blocks.list.iter().filter(|block| block.padding() < block.end()).collect();
    let block = random.pick(&padded)?;
    let count = block.end() - block.padding();
    let pos = random.one(&[0, count - 1]);
    image[block.padding() + pos] = random.byte().max(1);
    Some(())
}

fn change_length(random: &mut Random, image: &mut Vec<u8>) {
    let length = image.len();
    match random.below(8) {
        0 => image.resize(length + 16, 0),
        1 => image.push(0),
        2 => image.truncate(length - 16),
        3 => image.truncate(length - 1),
        4 => image.truncate(random.one(&[0, 1, 8, 15, 16, 48, 63])),
        5 => {
            image.resize(length + 16, 0);
            put_header(image, length, Kind::Free, 8);
        }
        6 => image.truncate(random.below(length)),
        _ => image.resize(LONGEST + 16, 0),
    }
}

/// A superblock where one of two units stood.
fn second_superblock(random: &mut Random, image: &mut [u8], _: &Scene, blocks: &Blocks) -> Option<()> {
    let fit: Vec<&Block> = blocks.list.iter().filter(|block| block.units() == 2 && block.at > 0).collect();
    let block = random.pick(&fit)?;
    image.copy_within(0..32, block.at);
    Some(())
}

/// A ref that leads astray: to any block, into one, past the end, or one that wraps to a right one.
fn odd_ref(random: &mut Random, image: &[u8], blocks: &Blocks) -> u64 {
    let some = random.one(&blocks.list).reference();
    let units = (image.len() / UNIT) as u64;
    let wrapping = some | random.one(&[1 << 60, 1 << 63, 1 << 32, 1 << 61]);
    let any = random.below(units as usize) as u64;
    random.one(&[some, some, some, some + 1, any, wrapping, units, units + 1, u64::MAX, 0, 1, 2])
}

fn change_root(random: &mut Random, image: &mut [u8], scene: &Scene, blocks: &Blocks) -> Option<()> {
    let at = match random.below(3) {
        0 => scene.things.first()?.block.at + PARENT,
        _ => ROOT_REF,
    };
    let other = match random.pick(&scene.directories()) {
        Some(directory) if random.percent(30) => directory.block.reference(),
        _ => odd_ref(random, image, blocks),
    };
    put64(image, at, other);
    Some(())
}

fn any_slot(random: &mut Random, image: &[u8], scene: &Scene, taken: bool) -> Option<Slot> {
    let slots = scene.directories().into_iter().flat_map(|thing| slots_of(image, &thing.block));
    let fit: Vec<Slot> = slots.filter(|slot| slot.taken() == taken).collect();
    random.pick(&fit).copied()
}

fn change_slot(random: &mut Random, image: &mut [u8], scene: &Scene, blocks: &Blocks) -> Option<()> {
    let slot = any_slot(random, image, scene, true)?;
    let other = odd_ref(random, image, blocks);
    put64(image, slot.at + random.one(&[0, 8]), other);
    Some(())
}

/// One ref where none or two belong, or the two in each other's place.
fn halve_slot(random: &mut Random, image: &mut [u8], scene: &Scene, blocks: &Blocks) -> Option<()> {
    let taken = random.percent(50);
    let slot = any_slot(random, image, scene, taken)?;
    match random.below(3) {
        0 if taken => {
            put64(image, slot.at, slot.object);
            put64(image, slot.at + 8, slot.name);
        }
        _ => {
            let value = if taken { 0 } else { odd_ref(random, image, blocks) };
            put64(image, slot.at + random.one(&[0, 8]), value);
        }
    }
    Some(())
}

/// An empty slot that names what another slot names.
fn double_slot(random: &mut Random, image: &mut [u8], scene: &Scene, _: &Blocks) -> Option<()> {
    let from = any_slot(random, image, scene, true)?;
    let to = any_slot(random, image, scene, false)?;
    let other = any_slot(random, image, scene, true)?;
    let name = random.one(&[from.name, other.name]);
    put64(image, to.at, name);
    put64(image, to.at + 8, from.object);
    Some(())
}

/// A new name in an empty slot for what is there already, the root too.
fn second_name(random: &mut Random, image: &mut [u8], scene: &Scene, _: &Blocks) -> Option<()> {
    let slot = any_slot(random, image, scene, false)?;
    let root = scene.things.first()?;
    let thing = if random.percent(40) { root } else { random.pick(&scene.things)? };
    let free = random.pick(&scene.free).filter(|free| free.units > 1)?;
    put_header(image, free.at, Kind::Free, free_size(free.units - 1));
    let at = free.at + (free.units - 1) * UNIT;
    image[at..at + UNIT].fill(0);
    put_header(image, at, Kind::Name, 6);
    image[at + NAME_BYTES..][..6].copy_from_slice(b"second");
    put64(image, slot.at, (at / UNIT) as u64);
    put64(image, slot.at + 8, thing.block.reference());
    Some(())
}

fn empty_slot(random: &mut Random, image: &mut [u8], scene: &Scene, _: &Blocks) -> Option<()> {
    let slot = any_slot(random, image, scene, true)?;
    image[slot.at..slot.at + 16].fill(0);
    Some(())
}

fn change_parent(random: &mut Random, image: &mut [u8], scene: &Scene, blocks: &Blocks) -> Option<()> {
    let directories = scene.directories();
    let directory = random.pick(&directories[1..])?;
    let other = match random.below(3) {
        0 => random.one(&directories).block.reference(),
        1 => directory.block.reference(),
        _ => odd_ref(random, image, blocks),
    };
    put64(image, directory.block.at + PARENT, other);
    Some(())
}

/// Takes an object out of its slot and hangs it in an empty one, with the parent that belongs to it.
fn hang(image: &mut [u8], thing: &Thing, holder: &Thing) -> Option<()> {
    let from = thing.slot?;
    let to = slots_of(image, &holder.block).into_iter().rev().find(|slot| !slot.taken())?;
    image[from.at..from.at + 16].fill(0);
    put64(image, to.at, from.name);
    put64(image, to.at + 8, from.object);
    if !thing.is_file() {
        put64(image, thing.block.at + PARENT, holder.block.reference());
    }
    Some(())
}

/// A ring of directories, cut off from the root though every one is named.
fn move_under_itself(random: &mut Random, image: &mut [u8], scene: &Scene, _: &Blocks) -> Option<()> {
    let directories = scene.directories();
    let top = random.pick(&directories[1..])?;
    let inside = |thing: &&&Thing| thing.empty > 0 && thing.parts.starts_with(&top.parts);
    let below: Vec<&&Thing> = directories.iter().filter(inside).collect();
    let holder = random.pick(&below)?;
    hang(image, top, holder)
}

/// An object into another directory, often a deep one; a name may then be there twice.
fn move_object(random: &mut Random, image: &mut [u8], scene: &Scene, _: &Blocks) -> Option<()> {
    let spare: Vec<&Thing> = scene.directories().into_iter().filter(|thing| thing.empty > 0).collect();
    let holder = if random.percent(60) {
        spare.iter().max_by_key(|thing| thing.parts.len())?
    } else {
        random.pick(&spare)?
    };
    let thing = random.pick(&scene.things)?;
    hang(image, thing, holder)
}

fn some_name(random: &mut Random, blocks: &Blocks) -> Option<Block> {
    random.pick(&blocks.of(Kind::Name).collect::<Vec<_>>()).copied()
}

/// Writes a name into a block of as many units.
fn put_name(image: &mut [u8], block: &Block, name: &[u8]) -> Option<()> {
    if units(name.len()) != block.units() {
        return None;
    }
    image[block.at + NAME_BYTES..block.end()].fill(0);
    put32(image, block.at + 4, name.len() as u32);
    image[block.at + NAME_BYTES..][..name.len()].copy_from_slice(name);
    Some(())
}

/// Bytes that may spoil a name, or a character that is there.
const ODD_BYTES: [u8; 20] = [
    0x00, 0x2f, 0x5c, 0x80, 0x8f, 0x90, 0x9f, 0xa0, 0xbf, 0xc0, 0xc1, 0xdf, 0xe0, 0xed, 0xf0, 0xf4, 0xf5,
    0xf7, 0xf8, 0xff,
];

fn spoil_name(random: &mut Random, image: &mut [u8], _: &Scene, blocks: &Blocks) -> Option<()> {
    let block = some_name(random, blocks)?;
    if random.percent(50) {
        let at = block.at + NAME_BYTES + random.below(block.size);
        image[at] = random.one(&ODD_BYTES);
        return Some(());
    }
    let name = bad_name(random);
    put_name(image, &block, &name)
}

/// Two objects of one directory under one name.
fn equal_names(random: &mut Random, image: &mut [u8], scene: &Scene, blocks: &Blocks) -> Option<()> {
    let crowded: Vec<&Thing> = scene.directories().into_iter().filter(|thing| thing.taken > 1).collect();
    let directory = random.pick(&crowded)?;
    let taken: Vec<Slot> = slots_of(image, &directory.block).into_iter().filter(Slot::taken).collect();
    let (one, other) = (random.pick(&taken)?, random.pick(&taken)?);
    if one.at == other.at {
        return None;
    }
    let from = blocks.at(one.name)?;
    let name = image[from.at + NAME_BYTES..][..from.size].to_vec();
    put_name(image, &blocks.at(other.name)?, &name)
}

fn some_file<'a>(random: &mut Random, scene: &'a Scene) -> Option<&'a Thing> {
    random.pick(&scene.files()).copied()
}

fn change_file_size(random: &mut Random, image: &mut [u8], scene: &Scene, _: &Blocks) -> Option<()> {
    let file = some_file(random, scene)?;
    let room = file.block.room() as u64;
    let wrapping = file.size | random.one(&[1 << 32, 1 << 63, 1 << 48]);
    let other = random.one(&[room + 1, room + 2, room + 16, u64::MAX, wrapping, room]);
    put64(image, file.block.at + FILE_SIZE, other);
    Some(())
}

fn fill_reserved(random: &mut Random, image: &mut [u8], scene: &Scene, _: &Blocks) -> Option<()> {
    let file = some_file(random, scene)?;
    let pos = random.one(&[CHUNK_SIZE, CHUNK_SIZE + 3, RESERVED, RESERVED + 3]);
    image[file.block.at + pos] = random.byte().max(1);
    Some(())
}

/// A link of the free chain leads elsewhere.
fn change_chain(random: &mut Random, image: &mut [u8], scene: &Scene, blocks: &Blocks) -> Option<()> {
    let mut links = vec![FIRST_FREE];
    links.extend(scene.free.iter().map(|free| free.at + NEXT_FREE));
    let at = random.one(&links);
    let other = match random.pick(&scene.free) {
        Some(free) if random.percent(50) => (free.at / UNIT) as u64,
        _ => odd_ref(random, image, blocks),
    };
    put64(image, at, other);
    Some(())
}

/// A free block as two that touch, linked as they should be.
fn split_free(random: &mut Random, image: &mut [u8], scene: &Scene, _: &Blocks) -> Option<()> {
    let free = random.pick(&scene.free).filter(|free| free.units > 1)?;
    let front = random.within(1, free.units - 1);
    let back = free.at + front * UNIT;
    let next = get64(image, free.at + NEXT_FREE);
    put_header(image, free.at, Kind::Free, free_size(front));
    put64(image, free.at + NEXT_FREE, (back / UNIT) as u64);
    put_header(image, back, Kind::Free, free_size(free.units - front));
    put64(image, back + NEXT_FREE, next);
    Some(())
}

/// Takes a free block out of the chain and leaves it standing.
fn drop_free(random: &mut Random, image: &mut [u8], scene: &Scene, _: &Blocks) -> Option<()> {
    let index = random.below(scene.free.len());
    unlink(image, scene, index)
}

fn unlink(image: &mut [u8], scene: &Scene, index: usize) -> Option<()> {
    let free = scene.free.get(index)?;
    let link = if index == 0 { FIRST_FREE } else { scene.free[index - 1].at + NEXT_FREE };
    let next = get64(image, free.at + NEXT_FREE);
    put64(image, link, next);
    Some(())
}

/// A sound name, file or directory in place of a free block, named by nobody.
fn stray_block(random: &mut Random, image: &mut [u8], scene: &Scene, _: &Blocks) -> Option<()> {
    let index = random.below(scene.free.len());
    unlink(image, scene, index)?;
    let free = scene.free[index];
    image[free.at..free.at + free.units * UNIT].fill(0);
    let (kind, size) = match random.below(3) {
        0 => (Kind::Name, free_size(free.units)),
        1 => (Kind::File, free_size(free.units)),
        _ => (Kind::Directory, free_size(free.units)),
    };
    put_header(image, free.at, kind, size);
    match kind {
        Kind::Name => image[free.at + NAME_BYTES..free.at + free.units * UNIT].fill(b'n'),
        Kind::Directory => put64(image, free.at + PARENT, (free.at / UNIT) as u64),
        _ => (),
    }
    Some(())
}

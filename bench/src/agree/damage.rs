//! Damage to a well-formed card, aimed at its blocks and fields.

use super::random::Random;
use super::spelling;

/// A block of a card: its magic, its first byte and the size that its header tells.
#[derive(Clone, Copy)]
struct Block {
    magic: [u8; 4],
    at: usize,
    size: usize,
}

fn number(image: &[u8], at: usize) -> u64 {
    u64::from_be_bytes(image[at..at + 8].try_into().unwrap())
}

fn put(image: &mut [u8], at: usize, value: u64) {
    image[at..at + 8].copy_from_slice(&value.to_be_bytes());
}

fn blocks(image: &[u8]) -> Vec<Block> {
    let mut blocks = Vec::new();
    let mut at = 0;
    while at < image.len() {
        let size = number(image, at) as u32 as usize;
        blocks.push(Block { magic: image[at..at + 4].try_into().unwrap(), at, size });
        at += (size + 23) / 16 * 16;
    }
    blocks
}

/// Where the slots of all directories begin, those that are taken or those that are not.
fn slots(image: &[u8], blocks: &[Block], taken: bool) -> Vec<usize> {
    let directories = blocks.iter().filter(|block| block.magic == *b"SFde");
    let all = directories.flat_map(|block| (block.at + 16..block.at + 8 + block.size).step_by(16));
    all.filter(|at| (number(image, *at) != 0) == taken).collect()
}

/// A ref that leads somewhere, or nowhere.
fn odd_ref(random: &mut Random, image: &[u8], blocks: &[Block]) -> u64 {
    let some = random.one(blocks).at as u64 / 16;
    let units = image.len() as u64 / 16;
    random.one(&[some, some, some, some + 1, 0, units, units - 1, some | 1 << 32, some | 1 << 60, u64::MAX])
}

/// Damages a well-formed card in one to three places.
pub fn damage(random: &mut Random, image: &mut Vec<u8>) {
    let known = blocks(image);
    for _ in 0..random.one(&[1, 1, 1, 2, 3]) {
        match random.below(16) {
            0 => {
                let at = random.below(image.len());
                image[at] ^= 1 << random.below(8);
            }
            1 => spoil_header(random, image, &known),
            2 => spoil_padding(random, image, &known),
            3 => {
                let value = odd_ref(random, image, &known);
                put(image, random.one(&[8, 16, 8, 40]), value);
            }
            4 | 5 => spoil_slot(random, image, &known),
            6 => copy_slot(random, image, &known),
            7..=9 => move_slot(random, image, &known),
            10 | 11 => spoil_name(random, image, &known),
            12 => spoil_file(random, image, &known),
            13 => spoil_free(random, image, &known),
            14 => spoil_directory(random, image, &known),
            _ if random.percent(10) => {
                let length = random.one(&[image.len() + 16, image.len() - 16, image.len() - 1, 48, 0]);
                image.resize(length, 0);
                return;
            }
            _ => {}
        }
    }
}

fn of(random: &mut Random, blocks: &[Block], magic: &[u8; 4]) -> Option<Block> {
    let fit: Vec<Block> = blocks.iter().copied().filter(|block| block.magic == *magic).collect();
    random.any(&fit)
}

fn spoil_header(random: &mut Random, image: &mut [u8], blocks: &[Block]) {
    let block = random.one(blocks);
    if random.percent(50) {
        let magic = random.one(&[*b"SF01", *b"SFde", *b"SFna", *b"SFre", *b"SFfr", *b"SFch", [0; 4]]);
        image[block.at..block.at + 4].copy_from_slice(&magic);
    } else {
        let size = block.size as u32;
        let step = random.below(17) as u32;
        let sizes = [size.wrapping_add(step), size.wrapping_sub(step), size + 16, size | 1 << 31, 8, 0, 24];
        image[block.at + 4..block.at + 8].copy_from_slice(&random.one(&sizes).to_be_bytes());
    }
}

fn spoil_padding(random: &mut Random, image: &mut [u8], blocks: &[Block]) {
    let block = random.one(blocks);
    let (from, end) = (block.at + 8 + block.size, block.at + (block.size + 23) / 16 * 16);
    if from < end {
        image[from + random.below(end - from)] = 1 + random.below(255) as u8;
    }
}

fn spoil_slot(random: &mut Random, image: &mut [u8], blocks: &[Block]) {
    let taken = random.percent(75);
    let Some(at) = random.any(&slots(image, blocks, taken)) else { return };
    let value = odd_ref(random, image, blocks);
    match random.below(6) {
        0 => image[at..at + 16].fill(0),
        1 => image[at..at + 16].rotate_left(8),
        2 | 3 => put(image, at, value),
        _ => put(image, at + 8, value),
    }
}

/// A second slot for what a slot names, or for its name.
fn copy_slot(random: &mut Random, image: &mut [u8], blocks: &[Block]) {
    let Some(from) = random.any(&slots(image, blocks, true)) else { return };
    let free = random.percent(60);
    let Some(to) = random.any(&slots(image, blocks, !free)) else { return };
    let bytes = random.one(&[0..16, 0..8, 8..16]);
    image.copy_within(from + bytes.start..from + bytes.end, to + bytes.start);
}

/// An object goes to another directory, itself and what is below it included, mostly with the right parent.
fn move_slot(random: &mut Random, image: &mut [u8], blocks: &[Block]) {
    let holds = |at: usize| image[number(image, at + 8) as usize * 16..].starts_with(b"SFde");
    let taken: Vec<usize> = slots(image, blocks, true);
    if taken.iter().any(|at| number(image, at + 8) > image.len() as u64 / 16) {
        return;
    }
    let directories: Vec<usize> = taken.into_iter().filter(|at| holds(*at)).collect();
    let Some(from) = random.any(&directories) else { return };
    let Some(to) = random.any(&slots(image, blocks, false)) else { return };
    let holder = blocks.iter().rfind(|block| block.at < to).unwrap().at;
    let object = number(image, from + 8) as usize * 16;
    image.copy_within(from..from + 16, to);
    image[from..from + 16].fill(0);
    if random.percent(90) {
        put(image, object + 8, holder as u64 / 16);
    }
}

/// Another parent, mostly of a directory that no slot names then.
fn spoil_directory(random: &mut Random, image: &mut [u8], blocks: &[Block]) {
    let Some(directory) = of(random, blocks, b"SFde") else { return };
    let value = odd_ref(random, image, blocks);
    put(image, directory.at + 8, value);
    let names = |at: &usize| number(image, at + 8) == directory.at as u64 / 16;
    let named = slots(image, blocks, true).into_iter().find(names);
    if let Some(slot) = named.filter(|_| random.percent(70)) {
        image[slot..slot + 16].fill(0);
    }
}

/// Bytes that a name may not have, or that may spoil its characters.
const ODD_BYTES: [u8; 21] = [
    0, b'/', b'\\', b'.', 0x80, 0x8f, 0x90, 0x9f, 0xa0, 0xbf, 0xc0, 0xc1, 0xc3, 0xe0, 0xe1, 0xed, 0xf0, 0xf4,
    0xf5, 0xf8, 0xff,
];

/// An odd byte, a character or bytes that are none, or the bytes of another name.
fn spoil_name(random: &mut Random, image: &mut [u8], blocks: &[Block]) {
    let Some(name) = of(random, blocks, b"SFna") else { return };
    let Some(other) = of(random, blocks, b"SFna") else { return };
    let none = random.percent(60);
    let bytes = match random.below(3) {
        0 => vec![random.one(&ODD_BYTES)],
        1 => spelling::bytes(random, none),
        _ if name.size == other.size => {
            image.copy_within(other.at..other.at + 8 + other.size, name.at);
            return;
        }
        _ => return,
    };
    if let Some(spare) = name.size.checked_sub(bytes.len()) {
        let at = name.at + 8 + random.below(spare + 1);
        image[at..at + bytes.len()].copy_from_slice(&bytes);
    }
}

fn spoil_file(random: &mut Random, image: &mut [u8], blocks: &[Block]) {
    let Some(file) = of(random, blocks, b"SFre") else { return };
    if random.percent(50) {
        let room = file.size as u64 - 16;
        put(image, file.at + 8, random.one(&[room, room + 1, 1 << 32, u64::MAX]));
    } else {
        image[file.at + 16 + random.below(8)] ^= 1 << random.below(8);
    }
}

/// A free block in two parts, or with another next block.
fn spoil_free(random: &mut Random, image: &mut [u8], blocks: &[Block]) {
    let Some(free) = of(random, blocks, b"SFfr") else { return };
    let next = number(image, free.at + 8);
    if free.size > 16 && random.percent(50) {
        let at = free.at + 16;
        image[at..at + 4].copy_from_slice(b"SFfr");
        image[at + 4..at + 8].copy_from_slice(&(free.size as u32 - 16).to_be_bytes());
        image[free.at + 4..free.at + 8].copy_from_slice(&8u32.to_be_bytes());
        put(image, at + 8, next);
        put(image, free.at + 8, at as u64 / 16);
    } else {
        let value = odd_ref(random, image, blocks);
        put(image, free.at + 8, value);
    }
}

//! Random calls, chosen by what stands in the image.

use crate::call::Call;
use crate::model::list::LINE;
use crate::model::marks::marks_needed;
use crate::names::*;
use crate::random::Random;
use crate::scene::{Scene, Thing};

/// What a stretch of a history is busy with.
#[derive(Clone, Copy, PartialEq, Eq, Debug)]
pub enum Mood {
    Filling,
    Churning,
    Working,
    Digging,
}

pub const MOODS: [Mood; 4] = [Mood::Filling, Mood::Churning, Mood::Working, Mood::Digging];

/// Chances of the calls, by `Call::index`.
fn weights(mood: Mood) -> [usize; 12] {
    match mood {
        Mood::Filling => [1, 2, 5, 22, 40, 4, 4, 14, 5, 3, 5, 4],
        Mood::Churning => [2, 2, 4, 13, 25, 4, 4, 10, 6, 30, 6, 5],
        Mood::Working => [1, 2, 9, 3, 9, 19, 19, 20, 15, 3, 9, 6],
        Mood::Digging => [1, 1, 5, 60, 10, 4, 4, 5, 3, 7, 6, 4],
    }
}

/// A call on the image of this scene and length.
pub fn any_call(random: &mut Random, scene: &Scene, length: usize, mood: Mood) -> Call {
    let index = random.weighted(&weights(mood));
    call(random, scene, length, mood, index)
}

/// A call of this index. The length is that of the image, which may have been damaged after the scene was seen.
pub fn call(random: &mut Random, scene: &Scene, length: usize, mood: Mood, index: usize) -> Call {
    match index {
        0 => Call::Format { slots: format_slots(random) },
        1 => Call::Check,
        2 => Call::Find { path: path(random, scene, Wish::Any) },
        3 => {
            let wish = if mood == Mood::Digging { Wish::NewBelow } else { Wish::New };
            Call::MakeDirectory { path: path(random, scene, wish), slots: slots(random, scene, mood) }
        }
        4 => Call::MakeFile { path: path(random, scene, Wish::New), room: room(random, scene) },
        5 => read(random, scene),
        6 => {
            let path = path(random, scene, Wish::Points);
            let number = point(random, scene.named(&path));
            Call::ReadPoint { path, number }
        }
        7 => write(random, scene),
        8 => {
            let path = path(random, scene, Wish::File);
            let length = position(random, scene.named(&path));
            Call::SetLength { path, length }
        }
        9 => Call::Remove { path: path(random, scene, Wish::Removable) },
        10 => list(random, scene),
        _ => check_marked(random, length),
    }
}

/// What the path of a call should mostly name.
#[derive(Clone, Copy)]
enum Wish {
    Any,
    File,
    /// A file that has a point.
    Points,
    New,
    NewBelow,
    Removable,
}

fn path(random: &mut Random, scene: &Scene, wish: Wish) -> Vec<u8> {
    match random.below(100) {
        0..=63 => wished(random, scene, wish),
        64..=68 => existing(random, &scene.things.iter().collect::<Vec<_>>()),
        69..=71 => b"/".to_vec(),
        72..=76 => missing_path(random, scene),
        77..=80 => {
            let missing = missing_path(random, scene);
            lengthened(random, &missing)
        }
        81..=89 => {
            let file = existing(random, &scene.files());
            lengthened(random, &file)
        }
        90..=96 => bad_path(random, scene),
        _ => long_path(random, scene),
    }
}

fn existing(random: &mut Random, things: &[&Thing]) -> Vec<u8> {
    match random.pick(things) {
        Some(thing) => thing.path(),
        None => b"/a".to_vec(),
    }
}

fn wished(random: &mut Random, scene: &Scene, wish: Wish) -> Vec<u8> {
    match wish {
        Wish::Any => existing(random, &scene.things.iter().collect::<Vec<_>>()),
        Wish::File => existing(random, &scene.files()),
        Wish::Points => {
            let files = scene.files();
            let long: Vec<&Thing> = files.iter().copied().filter(|file| file.size >= 16).collect();
            existing(random, if long.is_empty() { &files } else { &long })
        }
        Wish::New => {
            let spare = random.percent(85);
            let holders = scene.directories();
            let holders: Vec<_> = holders.into_iter().filter(|thing| thing.empty > 0 || !spare).collect();
            new_path(random, &holders)
        }
        Wish::NewBelow => {
            let holders = scene.directories();
            let spare = holders.iter().filter(|thing| thing.empty > 0);
            let deepest: Vec<_> = spare.max_by_key(|thing| thing.parts.len()).copied().into_iter().collect();
            new_path(random, &deepest)
        }
        Wish::Removable => {
            let full = random.percent(18);
            let fit = |thing: &&Thing| thing.slot.is_some() && (thing.taken > 0) == full;
            existing(random, &scene.things.iter().filter(fit).collect::<Vec<_>>())
        }
    }
}

fn new_path(random: &mut Random, holders: &[&Thing]) -> Vec<u8> {
    let name = good_name(random);
    match random.pick(holders) {
        Some(holder) => below(holder, name),
        None => [b"/", &name[..]].concat(),
    }
}

/// Numbers far outside every bound, some of which wrap to small ones.
const FAR: [u64; 9] =
    [u64::MAX, u64::MAX - 1, 1 << 63, 1 << 32, (1 << 32) + 1, 1 << 60, (1 << 60) + 1, (1 << 60) + 2, 1 << 31];

fn format_slots(random: &mut Random) -> u64 {
    match random.below(20) {
        0..=9 => random.within(1, 8) as u64,
        10..=12 => random.within(1, 64) as u64,
        13 => random.within(1, 1024) as u64,
        14 => 0,
        15 => random.one(&[1024, 1023]),
        16 => random.one(&[1025, 1026, 65_537, 4097]),
        17 => random.one(&FAR),
        _ => 1,
    }
}

fn slots(random: &mut Random, scene: &Scene, mood: Mood) -> u64 {
    match random.below(40) {
        0..=17 => random.within(1, 3) as u64,
        18..=33 if mood == Mood::Digging => random.within(1, 2) as u64,
        18..=28 => random.within(1, 6) as u64,
        29..=33 => {
            let units = free_units(random, scene);
            near(random, units, 3).max(1)
        }
        34 => random.one(&[1024, 1023, 500]),
        35..=36 => 0,
        37 => random.one(&[1025, 1026, 4096]),
        38 => random.one(&FAR),
        _ => 1,
    }
}

fn free_units(random: &mut Random, scene: &Scene) -> u64 {
    random.pick(&scene.free).map_or(2, |free| free.units as u64)
}

/// A number at most so far from another, not below 0.
fn near(random: &mut Random, number: u64, far: usize) -> u64 {
    (number + random.below(2 * far + 1) as u64).saturating_sub(far as u64)
}

fn room(random: &mut Random, scene: &Scene) -> u64 {
    match random.below(40) {
        0..=15 => random.below(100) as u64,
        16..=22 => {
            let room = 16 * free_units(random, scene);
            near(random, room.saturating_sub(24), 17).min(65_536)
        }
        23..=30 => {
            let units = free_units(random, scene).saturating_sub(random.within(1, 5) as u64);
            near(random, (16 * units).saturating_sub(24), 9).min(65_536)
        }
        31 => 0,
        32 => random.within(80, 3000) as u64,
        33..=34 => random.one(&[65_536, 65_535, 65_521]),
        35..=36 => random.one(&[65_537, 65_538, 70_000]),
        37 => random.one(&FAR),
        _ => random.one(&[8, 9, 16, 24, 25, 40, 41]),
    }
}

/// A position or length: near the front, the size, the room, or the end of all numbers.
fn position(random: &mut Random, thing: Option<&Thing>) -> u64 {
    let (size, room) = bounds(thing);
    match random.below(20) {
        0..=2 => near(random, 0, 3),
        3..=7 => near(random, size, 3),
        8..=12 => near(random, room, 3).min(room + random.below(3) as u64),
        13..=16 => random.below(room as usize + 1) as u64,
        17 => u64::MAX - random.below(40) as u64,
        18 => random.one(&FAR),
        _ => random.below(70_000) as u64,
    }
}

fn bounds(thing: Option<&Thing>) -> (u64, u64) {
    match thing {
        Some(thing) if thing.is_file() => (thing.size, thing.block.room() as u64),
        _ => (16, 48),
    }
}

fn read(random: &mut Random, scene: &Scene) -> Call {
    let path = path(random, scene, Wish::File);
    let thing = scene.named(&path);
    let position = position(random, thing);
    let (size, _) = bounds(thing);
    let length = match random.below(10) {
        0 => 0,
        1..=3 => random.within(1, 40),
        4..=6 => near(random, size.saturating_sub(position), 2) as usize,
        7 => near(random, size, 2) as usize,
        _ => random.below(300),
    };
    Call::Read { path, position, buffer: random.bytes(length) }
}

fn write(random: &mut Random, scene: &Scene) -> Call {
    let path = path(random, scene, Wish::File);
    let thing = scene.named(&path);
    let position = position(random, thing);
    let (_, room) = bounds(thing);
    let left = room.saturating_sub(position);
    let length = match random.below(20) {
        0..=2 => 0,
        3..=8 => random.within(1, 8).min(left.max(1) as usize),
        9..=12 => near(random, left, 1) as usize,
        13..=17 => random.below(left as usize + 1),
        _ => random.within(1, 60),
    };
    Call::Write { path, position, bytes: random.bytes(length) }
}

fn point(random: &mut Random, thing: Option<&Thing>) -> u64 {
    let (size, room) = bounds(thing);
    match random.below(20) {
        0..=4 => near(random, size / 16, 1).max(1),
        5..=12 => random.within(1, size.max(16) as usize / 16) as u64,
        13 => near(random, room / 16, 1).max(1),
        14..=15 => random.one(&[1, 2, 4096, 4095]),
        16 => 0,
        17 => random.one(&[4097, 4098]),
        18 => random.one(&FAR),
        _ => random.within(1, 4096) as u64,
    }
}

/// Lent lines: none, too few, just enough, or more.
fn list(random: &mut Random, scene: &Scene) -> Call {
    let needed = match scene.things.len() {
        0 => random.within(1, 40),
        count => count,
    };
    let lines = match random.below(20) {
        0..=1 => 0,
        2..=5 => needed - 1,
        6..=11 => needed,
        12..=13 => needed + 1,
        14..=16 => needed + random.within(1, 20),
        _ => random.below(needed),
    };
    lend(random, lines)
}

/// A listing into so many lines, often with some numbers over that make no line.
pub fn lend(random: &mut Random, lines: usize) -> Call {
    let over = if random.percent(50) { 0 } else { random.one(&[1, 3, LINE - 1]) };
    Call::List { lent: random.numbers(LINE * lines + over) }
}

/// The check with lent marks: none, one too few, fewer, just enough, or more.
pub fn check_marked(random: &mut Random, length: usize) -> Call {
    let needed = marks_needed(length);
    let count = match random.below(20) {
        0..=1 => 0,
        2..=4 => needed.saturating_sub(1),
        5 => random.below(needed),
        6..=12 => needed,
        13..=14 => needed + 1,
        _ => needed + random.within(1, 40),
    };
    marks(random, count)
}

/// The check with so many marks: any bytes before, bytes that could be marks, or all alike.
pub fn marks(random: &mut Random, count: usize) -> Call {
    let mut marks = random.bytes(count);
    match random.below(4) {
        0 => marks.iter_mut().for_each(|mark| *mark %= 8),
        1 => marks.fill(random.byte()),
        _ => (),
    }
    Call::CheckMarked { marks }
}

//! Random names and paths, good and bad.

use crate::model::name::join;
#[cfg(test)]
use crate::model::name::valid_name;
use crate::random::Random;
use crate::scene::{Scene, Thing};

/// A valid name: mostly short, now and then at a bound, or with bytes above 7F.
pub fn good_name(random: &mut Random) -> Vec<u8> {
    match random.below(20) {
        0..=9 => vec![b'a' + random.below(8) as u8],
        10..=12 => word(random, 2, 12),
        13 => random.one::<&[u8]>(&[b"...", b".a", b"..b", b"a.", b"-", b" ", b"\x7f", b"\x01"]).to_vec(),
        14 => word(random, 8, 9),
        15 => word(random, 22, 26),
        16 => word(random, 55, 64),
        17 => word(random, 64, 64),
        _ => {
            let length = random.within(2, 64);
            high_word(random, length)
        }
    }
}

fn word(random: &mut Random, least: usize, most: usize) -> Vec<u8> {
    let length = random.within(least, most);
    (0..length).map(|_| b'a' + random.below(3) as u8).collect()
}

/// A name of characters of two to four bytes, here and there a letter, filled up with letters to the length.
fn high_word(random: &mut Random, length: usize) -> Vec<u8> {
    let mut name = Vec::new();
    loop {
        let sequence = if random.percent(20) { vec![b'k'] } else { high_sequence(random) };
        if name.len() + sequence.len() > length {
            break;
        }
        name.extend(sequence);
    }
    name.resize(length, b'z');
    name
}

/// Characters at the edges of what two, three and four bytes hold, and some between.
const EDGES: [u32; 19] = [
    0x80, 0xe9, 0x7ff, 0x800, 0xfff, 0x1000, 0x20ac, 0xd7ff, 0xe000, 0xfeff, 0xfffd, 0xffff, 0x10000,
    0x1f45f, 0x3ffff, 0x40000, 0xfffff, 0x100000, 0x10ffff,
];

/// A character of two to four bytes, mostly at an edge.
fn high_sequence(random: &mut Random) -> Vec<u8> {
    let value = if random.percent(70) { random.one(&EDGES) } else { any_value(random) };
    let letter = char::from_u32(value).unwrap();
    letter.to_string().into_bytes()
}

/// Any character from 80 on.
fn any_value(random: &mut Random) -> u32 {
    let (least, most) = random.one(&[(0x80, 0x7ff), (0x800, 0xd7ff), (0xe000, 0xffff), (0x10000, 0x10ffff)]);
    random.within(least, most) as u32
}

/// Bytes that look like a character and are none: longer than need be, D800 to DFFF, or past 10FFFF.
fn no_character(random: &mut Random) -> Vec<u8> {
    let near: [&[u8]; 12] = [
        &[0xc0, 0xaf],
        &[0xc0, 0x80],
        &[0xc1, 0xbf],
        &[0xe0, 0x80, 0xaf],
        &[0xe0, 0x9f, 0xbf],
        &[0xed, 0xa0, 0x80],
        &[0xed, 0xbf, 0xbf],
        &[0xf0, 0x80, 0x80, 0xaf],
        &[0xf0, 0x8f, 0xbf, 0xbf],
        &[0xf4, 0x90, 0x80, 0x80],
        &[0xf5, 0x80, 0x80, 0x80],
        &[0xf7, 0xbf, 0xbf, 0xbf],
    ];
    random.one(&near).to_vec()
}

/// Bytes that are no name; a slash may stand among them.
pub fn bad_name(random: &mut Random) -> Vec<u8> {
    match random.below(16) {
        0 => Vec::new(),
        1 => b".".to_vec(),
        2 => b"..".to_vec(),
        3 => word(random, 65, 65),
        4 => word(random, 66, 140),
        5 => {
            let mut name = high_word(random, 64);
            name.insert(random.one(&[0, 64]), b'a');
            name
        }
        6 => spoiled(random, &[0x00]),
        7 => spoiled(random, &[0x5c]),
        8 => {
            let alone = random.one(&[0x80, 0xbf, 0xf8, 0xff, 0xfe, 0xfc, 0x9a, 0xc1, 0xc2, 0xed, 0xf5]);
            spoiled(random, &[alone])
        }
        9 => spoiled(random, &[0xc3, 0x41]),
        10 => cut_sequence(random),
        11..=12 => wrong_lead(random),
        13..=14 => {
            let near = no_character(random);
            spoiled(random, &near)
        }
        _ => wrong_follower(random),
    }
}

/// A good name, spoiled by bytes that are put in somewhere.
fn spoiled(random: &mut Random, bytes: &[u8]) -> Vec<u8> {
    let length = random.one(&[0, 0, 12, 60]);
    let mut name = match length {
        0 => word(random, 0, 6),
        _ => high_word(random, length),
    };
    let at = random.below(name.len() + 1);
    name.splice(at..at, bytes.iter().copied());
    name
}

/// A name that ends before its last character does.
fn cut_sequence(random: &mut Random) -> Vec<u8> {
    let mut name = word(random, 0, 5);
    let sequence = high_sequence(random);
    name.extend(&sequence[..random.within(1, sequence.len() - 1)]);
    name
}

/// Followers behind a byte that leads none, or one follower too many.
fn wrong_lead(random: &mut Random) -> Vec<u8> {
    let mut name = high_sequence(random);
    if random.percent(50) {
        name[0] = random.one(&[0xc0, 0xc1, 0xf5, 0xf7, 0xf8, 0xfb, 0xfc, 0xfe, 0xff, 0x7f, 0x80, 0xbf]);
    } else {
        name.push(random.one(&[0x80, 0xbf]));
    }
    name
}

fn wrong_follower(random: &mut Random) -> Vec<u8> {
    let mut sequence = high_sequence(random);
    let at = random.within(1, sequence.len() - 1);
    sequence[at] = random.one(&[0x7f, 0xc0, 0x00, 0xff, b'a']);
    sequence
}

/// Directory and a further name.
pub fn below(directory: &Thing, name: Vec<u8>) -> Vec<u8> {
    let mut parts = directory.parts.clone();
    parts.push(name);
    join(&parts)
}

/// A name near one that is there: a character more, less or other. It is a name unless dots are left.
fn near_name(random: &mut Random, name: &[u8]) -> Vec<u8> {
    let follows = |byte: &u8| (0x80..=0xbf).contains(byte);
    let first = 1 + name[1..].iter().take_while(|byte| follows(byte)).count();
    let last = name.iter().rposition(|byte| !follows(byte)).unwrap_or(0);
    match random.below(5) {
        0 if name.len() < 64 => [name, b"a"].concat(),
        1 if last > 0 => name[..last].to_vec(),
        2 => [&name[..last], b"q"].concat(),
        3 if last < name.len() - 1 => {
            // another last follower is a follower too
            let mut near = name.to_vec();
            *near.last_mut().unwrap() ^= 1;
            near
        }
        _ => [b"q", &name[first..]].concat(),
    }
}

/// The path of something that is not there, in a directory that is.
pub fn missing_path(random: &mut Random, scene: &Scene) -> Vec<u8> {
    let Some(thing) = random.pick(&scene.things) else {
        return join(&[good_name(random)]);
    };
    match thing.parts.split_last() {
        Some((last, before)) if random.percent(50) => {
            let mut parts = before.to_vec();
            parts.push(near_name(random, last));
            join(&parts)
        }
        _ => {
            let directory = random.one(&scene.directories());
            below(directory, good_name(random))
        }
    }
}

/// A path with one, two or three components more.
pub fn lengthened(random: &mut Random, path: &[u8]) -> Vec<u8> {
    let mut path = if path == b"/" { Vec::new() } else { path.to_vec() };
    for _ in 0..random.within(1, 3) {
        path.push(b'/');
        path.extend(good_name(random));
    }
    path
}

/// A path of 15 to 18 components, from where something stands.
pub fn long_path(random: &mut Random, scene: &Scene) -> Vec<u8> {
    let mut parts = random.pick(&scene.things).map(|thing| thing.parts.clone()).unwrap_or_default();
    let count = random.one(&[15, 16, 17, 17, 17, 18]);
    while parts.len() < count {
        parts.push(vec![b'a' + random.below(4) as u8]);
    }
    join(&parts)
}

/// Bytes that are mostly no path, and often close to one.
pub fn bad_path(random: &mut Random, scene: &Scene) -> Vec<u8> {
    let good = random.pick(&scene.things).map(Thing::path).unwrap_or(b"/a".to_vec());
    match random.below(14) {
        0 => Vec::new(),
        1 => [&good[..], b"/"].concat(),
        2 => [b"/", &good[..]].concat(),
        3 => good[1..].to_vec(),
        4 => b"//".to_vec(),
        5 => {
            let mut path = good;
            let at = random.below(path.len());
            path[at] = random.one(&[0x00, 0x5c, 0x80, 0xff, 0xc2]);
            path
        }
        6 => {
            let count = random.below(20);
            random.bytes(count)
        }
        _ => with_bad_name(random, &good),
    }
}

/// A bad component behind a path, or before it; an empty one behind the root is none.
fn with_bad_name(random: &mut Random, path: &[u8]) -> Vec<u8> {
    let bad = [b"/", &bad_name(random)[..]].concat();
    let path = if path == b"/" { &[] } else { path };
    if random.percent(60) {
        [path, &bad].concat()
    } else {
        [&bad, path].concat()
    }
}

#[test]
fn good_names_are_good_and_bad_ones_bad() {
    let mut random = Random::new(104);
    for _ in 0..100_000 {
        let name = good_name(&mut random);
        assert!(valid_name(&name), "{name:02x?}");
        let near = near_name(&mut random, &name);
        assert!(valid_name(&near) || near == b"." || near == b"..", "{near:02x?} near {name:02x?}");
        let bad = bad_name(&mut random);
        assert!(!valid_name(&bad), "{bad:02x?}");
    }
}

//! Names that are hard to tell apart by a number made of their bytes, or by looking at some of their bytes.

use crate::random::Random;
use std::collections::HashSet;

/// Names of each family; so many fill the largest directory.
pub const COUNT: usize = 1024;

/// What the names share, and the names, which all differ.
pub type Family = (&'static str, Vec<Vec<u8>>);

/// Sums of the bytes, each times a power of the factor: title, factor, and what they are taken modulo.
const SUMS: [(&str, u32, u32); 6] = [
    ("like sums of factor 31", 31, 65_536),
    ("like sums of factor 33", 33, 65_536),
    ("like sums of factor 251", 251, 65_536),
    ("like sums of factor 251, ten bits", 251, 1024),
    ("like sums of factor 251, eight bits", 251, 256),
    ("like sums of factor 257", 257, 65_536),
];

/// The same families at each run.
pub fn families() -> Vec<Family> {
    let mut random = Random::new(113);
    let mut families = vec![
        ("numbers", numbered(|number| format!("file{number:04}"))),
        ("long, other at the end", numbered(|number| format!("{}{number:04}", "n".repeat(60)))),
        ("long, other at the front", numbered(|number| format!("{number:04}{}", "n".repeat(60)))),
        ("letters in another order", permuted(&mut random)),
        ("other lengths", lengths()),
    ];
    for (title, factor, modulus) in SUMS {
        families.push((title, summed(&mut random, factor, modulus)));
    }
    families
}

fn numbered(name: impl Fn(usize) -> String) -> Vec<Vec<u8>> {
    (0..COUNT).map(|number| name(number).into_bytes()).collect()
}

/// One letter, 1 to 64 times.
fn lengths() -> Vec<Vec<u8>> {
    (0..COUNT).map(|number| vec![b'a' + (number / 64) as u8; 1 + number % 64]).collect()
}

/// So many that differ, of those that are offered.
fn distinct(mut offer: impl FnMut() -> Option<Vec<u8>>) -> Vec<Vec<u8>> {
    let mut names = Vec::new();
    let mut seen = HashSet::new();
    while names.len() < COUNT {
        names.extend(offer().filter(|name| seen.insert(name.clone())));
    }
    names
}

fn permuted(random: &mut Random) -> Vec<Vec<u8>> {
    let mut letters = *b"abcdefgh";
    distinct(|| {
        random.shuffle(&mut letters);
        Some(letters.to_vec())
    })
}

/// Seven letters, and an eighth where there is one that brings the sum about.
fn summed(random: &mut Random, factor: u32, modulus: u32) -> Vec<Vec<u8>> {
    let wanted = sum(b"filename", factor, modulus);
    distinct(|| {
        let mut name: Vec<u8> = (0..7).map(|_| b'a' + random.below(26) as u8).collect();
        let so_far = sum(&name, factor, modulus) * factor % modulus;
        let last = u8::try_from((wanted + modulus - so_far) % modulus).ok()?;
        name.push(last);
        last.is_ascii_lowercase().then_some(name)
    })
}

fn sum(name: &[u8], factor: u32, modulus: u32) -> u32 {
    name.iter().fold(0, |sum, &byte| (sum * factor + u32::from(byte)) % modulus)
}

#[test]
fn families_differ_within() {
    for (title, names) in families() {
        let distinct: HashSet<_> = names.iter().collect();
        assert_eq!(distinct.len(), COUNT, "{title}");
    }
}

#[test]
fn sums_are_alike() {
    let mut random = Random::new(1);
    for (title, factor, modulus) in SUMS {
        let wanted = sum(b"filename", factor, modulus);
        let names = summed(&mut random, factor, modulus);
        assert!(names.iter().all(|name| sum(name, factor, modulus) == wanted), "{title}");
    }
}

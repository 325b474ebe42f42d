//! A call with all its arguments, and what comes of it.

use super::random::Random;
use super::spelling;
use crate::store::{Answer, Check, Store};

/// A call with its arguments.
#[derive(Clone, Debug)]
pub enum Act {
    Check,
    CheckMarked { marks: usize },
    Find { path: Vec<u8> },
    Read { path: Vec<u8>, position: u64, length: usize },
    ReadPoint { path: Vec<u8>, number: u64 },
    List { numbers: usize },
    Format { slots: u64 },
    MakeDirectory { path: Vec<u8>, slots: u64 },
    MakeFile { path: Vec<u8>, room: u64 },
    Write { path: Vec<u8>, position: u64, bytes: Vec<u8> },
    SetLength { path: Vec<u8>, length: u64 },
    Remove { path: Vec<u8> },
}

/// What a call tells, and what it leaves of the bytes or numbers that it is lent.
#[derive(PartialEq, Eq, Debug)]
pub struct Outcome {
    pub answer: Answer<Vec<u64>>,
    bytes: Vec<u8>,
    numbers: Vec<u64>,
}

impl Act {
    /// The act, if it is one of the checks.
    pub fn apply_check<C: Check>(&self, image: &[u8]) -> Option<Outcome> {
        let mut bytes = Vec::new();
        let answer = match self {
            Act::Check => C::check(image),
            Act::CheckMarked { marks } => {
                bytes = vec![0x5a; *marks];
                C::check_marked(image, &mut bytes)
            }
            _ => return None,
        };
        Some(Outcome { answer: answer.map(|_| vec![]), bytes, numbers: vec![] })
    }

    pub fn apply<S: Store>(&self, image: &mut [u8]) -> Outcome {
        let mut bytes = Vec::new();
        let mut numbers = Vec::new();
        let answer = match self {
            Act::Check | Act::CheckMarked { .. } => return self.apply_check::<S>(image).unwrap(),
            Act::Find { path } => S::find(image, path)
                .map(|found| vec![found.reference, found.directory.into(), found.first, found.second]),
            Act::Read { path, position, length } => {
                bytes = vec![0x5a; *length];
                S::read(image, path, *position, &mut bytes).map(|count| vec![count])
            }
            Act::ReadPoint { path, number } => {
                S::read_point(image, path, *number).map(|point| point.map(u64::from).to_vec())
            }
            Act::List { numbers: lent } => {
                numbers = vec![0x5a5a; *lent];
                S::list(image, &mut numbers).map(|count| vec![count])
            }
            Act::Format { slots } => S::format(image, *slots).map(|_| vec![]),
            Act::MakeDirectory { path, slots } => S::make_directory(image, path, *slots).map(|at| vec![at]),
            Act::MakeFile { path, room } => S::make_file(image, path, *room).map(|at| vec![at]),
            Act::Write { path, position, bytes } => S::write(image, path, *position, bytes).map(|_| vec![]),
            Act::SetLength { path, length } => S::set_length(image, path, *length).map(|_| vec![]),
            Act::Remove { path } => S::remove(image, path).map(|_| vec![]),
        };
        Outcome { answer, bytes, numbers }
    }
}

/// A position, length or room: mostly small, at times one that nothing has room for.
fn amount(random: &mut Random) -> u64 {
    let small = random.below(90) as u64;
    random.one(&[small, small, small, small, 0, 16, 200, 65_536, 65_537, u64::MAX, u64::MAX - small])
}

/// Any call but format on a card of this length.
pub fn any(random: &mut Random, paths: &[Vec<u8>], length: usize) -> Act {
    let path = path(random, paths);
    match random.below(16) {
        0 => Act::Check,
        1 => Act::CheckMarked { marks: (length / 16 + 1).saturating_sub(random.below(3)) },
        2 => Act::Find { path },
        3 => Act::Read { path, position: amount(random), length: random.below(80) },
        4 => Act::ReadPoint { path, number: random.one(&[0, 1, 1, 2, 3, 4, 4096, 4097]) },
        5 => Act::List { numbers: random.one(&[0, 6, 7, 20, 70, 700, 1000]) },
        6..=8 => Act::MakeDirectory { path, slots: random.one(&[0, 1, 1, 2, 3, 5, 9, 1024, 1025]) },
        9..=11 => Act::MakeFile { path, room: amount(random) },
        12 => Act::SetLength { path, length: amount(random) },
        13 => Act::Remove { path },
        _ => {
            let bytes = (0..random.below(40)).map(|_| random.number() as u8).collect();
            Act::Write { path, position: amount(random), bytes }
        }
    }
}

/// A path that was made, one below such a path, or one that is not valid.
fn path(random: &mut Random, paths: &[Vec<u8>]) -> Vec<u8> {
    let mut path = random.any(paths).unwrap_or_default();
    if random.percent(55) {
        if random.percent(30) {
            path = paths.iter().max_by_key(|path| path.len()).cloned().unwrap_or_default();
        }
        path.push(b'/');
        path.extend(name(random));
    }
    let odd: [&[u8]; 5] = [b"/", b"", b"//", b"a", b"/a/"];
    if random.percent(4) {
        path = random.one(&odd).to_vec();
    }
    path
}

fn name(random: &mut Random) -> Vec<u8> {
    let long = [b'x'; 66];
    let length = random.one(&[8, 15, 16, 24, 25, 40, 63, 64, 65]);
    let names: [&[u8]; 8] =
        [b"a", b"b", b"c", b"heel", b"sole", b"file0001", b"toe\xc3\xa9", &long[..length]];
    let odd: [&[u8]; 7] = [b".", b"..", b"a\\b", b"12345678\0", b"\xe1\x80", b"\x80", b"\xf4\x80\x80\x80.."];
    match random.below(100) {
        0..=6 => random.one(&odd).to_vec(),
        7..=11 => [b"toe", &spelling::bytes(random, true)[..], b"cap"].concat(),
        12..=29 => spelling::name(random),
        _ => random.one(&names).to_vec(),
    }
}

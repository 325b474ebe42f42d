//! Images that break a rule, with the number and the place that every call must answer, written down by hand.

use crate::call::{Call, Outcome, DONE};
use crate::compare::Bout;
use crate::coverage::Coverage;
use crate::model::calls::{format, make_directory, make_file, remove};
use crate::model::layout::*;
use crate::model::list::{show, LONGEST_SHOWN};
use crate::model::marks::marks_needed;
use crate::model::Refusal;

type Verdict = Result<(), String>;
type Step<'a> = dyn FnMut(&mut Vec<u8>, &Call) -> Result<Outcome, String> + 'a;

/// A change to the card. The first number is the ref of a block, the second a byte from the block's front.
#[derive(Clone, Copy)]
enum Edit {
    Length(usize),
    Byte(usize, usize, u8),
    /// A number of 8 bytes.
    Number(usize, usize, u64),
    /// The size in the header.
    Size(usize, u32),
    /// A directory's slot, by its index from 0: name and object.
    Slot(usize, usize, u64, u64),
    /// A block's header: kind and size.
    Header(usize, Kind, usize),
    /// The bytes of a name, at most 8.
    Name(usize, &'static [u8]),
    /// The last free block becomes a name, at ref 30.
    NewName,
}

use Edit::*;

/// What is wrong, the edits that make it so, and the number and place.
type Case<'a> = (&'a str, &'a [Edit], u8, u64);

/// Counts its calls apart, so that they do not hide what no history reaches.
pub fn run() -> Verdict {
    let mut coverage = Coverage::default();
    let mut bout = Bout::new(&mut coverage, false);
    run_with(&mut |image, call| bout.step(image, call))
}

fn run_with(step: &mut Step) -> Verdict {
    let tables = [LENGTHS, BLOCKS, ROOTS, SLOT_REFS, NAMINGS, RINGS, NAMES, FILES, CHAINS, SEVERAL];
    for case in tables.concat() {
        refuses(step, card(), &case)?;
    }
    for case in DEPTHS {
        refuses(step, deep_card(), case)?;
    }
    every_bit(step)?;
    for (call, number) in sound_calls() {
        expect(step, &card(), &call, number.into())?;
    }
    expect(step, &deep_card(), &Call::Check, 0.into())?;
    marked(step, &card(), DONE, &MARKS)
}

/// Every call refuses the damaged card, and so does the listing as text.
fn refuses(step: &mut Step, mut card: Vec<u8>, &(what, edits, number, place): &Case) -> Verdict {
    edits.iter().for_each(|edit| apply(&mut card, *edit));
    let refusal = Refusal { number, place };
    for call in every_call() {
        expect(step, &card, &call, refusal).map_err(|why| format!("{what}: {why}"))?;
    }
    let none = vec![0; marks_needed(card.len())];
    marked(step, &card, refusal, &none).map_err(|why| format!("{what}: {why}"))?;
    let told = if card.len() > LONGEST_SHOWN { "1".to_string() } else { refusal.to_string() };
    let text = show(&card);
    if text != format!("refused {told}\n").into_bytes() {
        return Err(format!("{what}: shows {:?}", text.escape_ascii().to_string()));
    }
    Ok(())
}

fn expect(step: &mut Step, card: &[u8], call: &Call, refusal: Refusal) -> Verdict {
    let found = step(&mut card.to_vec(), call)?.refusal;
    if found != refusal {
        return Err(format!("{call}: {found}, not {refusal}"));
    }
    Ok(())
}

/// The check with lent marks. Too few are refused first, and stay; with enough, the answer and these marks for
/// the units of the card, and what is lent past them stays.
fn marked(step: &mut Step, card: &[u8], refusal: Refusal, units: &[u8]) -> Verdict {
    for few in [0, units.len() / 2, units.len().saturating_sub(1)] {
        if few < units.len() {
            marks_are(step, card, few, 17.into(), &vec![LENT_MARK; few])?;
        }
    }
    for more in [0, 1, 40] {
        let wanted = [units, &vec![LENT_MARK; more]].concat();
        marks_are(step, card, wanted.len(), refusal, &wanted)?;
    }
    Ok(())
}

/// What a lent mark holds before the check.
const LENT_MARK: u8 = 7;

fn marks_are(step: &mut Step, card: &[u8], lent: usize, refusal: Refusal, wanted: &[u8]) -> Verdict {
    let call = Call::CheckMarked { marks: vec![LENT_MARK; lent] };
    let found = step(&mut card.to_vec(), &call)?;
    if found.refusal != refusal || found.buffer != wanted {
        return Err(format!("{call}: {} {:?}, not {refusal} {wanted:?}", found.refusal, found.buffer));
    }
    Ok(())
}

/// Every other call that tells a place, with sound arguments and with a bad path and numbers out of bounds.
fn every_call() -> Vec<Call> {
    let mut calls = vec![Call::Check, Call::List { lent: Vec::new() }, Call::List { lent: vec![7; 7 * 30] }];
    for (path, slots, room, number) in [("/f", 1, 0, 1), ("f//", 0, 65_537, 4097)] {
        let path = path.as_bytes().to_vec();
        calls.extend([
            Call::Find { path: path.clone() },
            Call::MakeDirectory { path: path.clone(), slots },
            Call::MakeFile { path: path.clone(), room },
            Call::Read { path: path.clone(), position: 0, buffer: vec![7; 9] },
            Call::ReadPoint { path: path.clone(), number },
            Call::Write { path: path.clone(), position: 1, bytes: vec![7; 9] },
            Call::SetLength { path: path.clone(), length: 5 },
            Call::Remove { path },
        ]);
    }
    calls
}

/// Calls on the sound card: each accepted once, and refusals that have nothing to do with the rules.
fn sound_calls() -> Vec<(Call, u8)> {
    let path = |path: &str| path.as_bytes().to_vec();
    vec![
        (Call::Check, 0),
        (Call::Find { path: path("/a/b/k") }, 0),
        (Call::Find { path: path("f") }, 2),
        (Call::Find { path: path("/z") }, 3),
        (Call::MakeDirectory { path: path("/d"), slots: 1 }, 0),
        (Call::MakeDirectory { path: path("/d"), slots: 1025 }, 10),
        (Call::MakeFile { path: path("/d"), room: 8 }, 0),
        (Call::MakeFile { path: path("/z/d"), room: 8 }, 3),
        (Call::Read { path: path("/f"), position: 0, buffer: vec![7; 9] }, 0),
        (Call::Read { path: path("//"), position: 0, buffer: vec![7; 9] }, 2),
        (Call::ReadPoint { path: path("/a/g"), number: 1 }, 0),
        (Call::ReadPoint { path: path("/a/g"), number: 0 }, 10),
        (Call::Write { path: path("/f"), position: 11, bytes: vec![7; 9] }, 0),
        (Call::Write { path: path("/f/"), position: 11, bytes: vec![7; 9] }, 2),
        (Call::SetLength { path: path("/f"), length: 20 }, 0),
        (Call::SetLength { path: path("/z"), length: 20 }, 3),
        (Call::Remove { path: path("/a/g") }, 0),
        (Call::Remove { path: path("/z") }, 3),
        (Call::List { lent: vec![7; 7 * 6] }, 0),
        (Call::List { lent: vec![7; 7 * 5] }, 14),
    ]
}

fn apply(card: &mut Vec<u8>, edit: Edit) {
    match edit {
        Length(length) => card.resize(length, 0),
        Byte(reference, at, value) => card[UNIT * reference + at] = value,
        Number(reference, at, value) => put64(card, UNIT * reference + at, value),
        Size(reference, size) => put32(card, UNIT * reference + 4, size),
        Slot(directory, index, name, object) => {
            put64(card, UNIT * directory + SLOTS + 16 * index, name);
            put64(card, UNIT * directory + SLOTS + 16 * index + 8, object);
        }
        Header(reference, kind, size) => put_header(card, UNIT * reference, kind, size),
        Name(reference, bytes) => {
            put_header(card, UNIT * reference, Kind::Name, bytes.len());
            card[UNIT * reference + NAME_BYTES..][..bytes.len()].copy_from_slice(bytes);
        }
        NewName => {
            put_header(card, UNIT * 30, Kind::Name, 56);
            card[UNIT * 30 + NAME_BYTES..].fill(b'n');
            put64(card, UNIT * 22 + NEXT_FREE, 0);
        }
    }
}

/// The card that is damaged, 34 units. In storage order:
///
///    0 superblock             10 directory /a, 2 slots      18 file /a/g, 16 of 20 bytes   26 file /a/b/k
///    2 root, 3 slots          13 name a                     21 name g                      29 name k
///    6 file /f, room 20       14 directory /a/b, 2 slots    22 free, 4 units               30 free, 4 units
///    9 name f                 17 name b
///
/// Slots: the root has f, a and none; a has b and g; b has k and none.
fn card() -> Vec<u8> {
    let mut card = vec![0; 34 * UNIT];
    format(&mut card, 3).unwrap();
    for (path, reference) in [("/f", 6), ("/a", 10), ("/a/b", 14), ("/a/g", 18), ("/h", 22), ("/a/b/k", 26)] {
        let path = path.as_bytes();
        let made = match path {
            b"/a" | b"/a/b" => make_directory(&mut card, path, 2),
            _ => make_file(&mut card, path, 20),
        };
        assert_eq!(made, Ok(reference));
    }
    remove(&mut card, b"/h").unwrap();
    apply(&mut card, Number(18, FILE_SIZE, 16));
    card
}

/// The marks of that card.
const MARKS: [u8; 34] =
    [1, 0, 2, 0, 0, 0, 4, 0, 0, 3, 2, 0, 0, 3, 2, 0, 0, 3, 4, 0, 0, 3, 6, 0, 0, 0, 4, 0, 0, 3, 6, 0, 0, 0];

/// A card with 16 directories in each other. In storage order:
///
///    2 root, 4 slots    10 /d            13 /d/d          and so on, to    58 file /f       61 directory /y
///    7 directory /x     12 its name      15 its name      55, 57           60 its name      63 its name
///    9 its name
///
/// Slots: the root has x, d, f and y; every other directory has one slot.
fn deep_card() -> Vec<u8> {
    let mut card = vec![0; 64 * UNIT];
    format(&mut card, 4).unwrap();
    assert_eq!(make_directory(&mut card, b"/x", 1), Ok(7));
    for depth in 1..=16 {
        let path = "/d".repeat(depth);
        assert_eq!(make_directory(&mut card, path.as_bytes(), 1), Ok(7 + 3 * depth as u64));
    }
    assert_eq!(make_file(&mut card, b"/f", 8), Ok(58));
    assert_eq!(make_directory(&mut card, b"/y", 1), Ok(61));
    card
}

/// Rule 1: the length, and where the last block ends.
const LENGTHS: &[Case] = &[
    ("no bytes", &[Length(0)], 21, 0),
    ("48 bytes", &[Length(48)], 21, 0),
    ("543 bytes", &[Length(543)], 21, 0),
    ("1,048,592 bytes", &[Length(LONGEST + 16)], 21, 0),
    ("a wrong length, and a block of no kind", &[Byte(9, 0, 0), Length(545)], 21, 0),
    ("the last unit cut off", &[Length(33 * UNIT)], 21, 30),
    ("a unit of zeros at the end", &[Length(35 * UNIT)], 21, 34),
];

/// Rule 1: the block.
const BLOCKS: &[Case] = &[
    ("a first block of no kind", &[Byte(0, 0, 0)], 21, 0),
    ("a first block that is free", &[Header(0, Kind::Free, 24)], 21, 0),
    ("a superblock of size 24", &[Size(0, 24)], 21, 0),
    ("a byte set after the superblock", &[Byte(0, 31, 1)], 21, 0),
    ("a block of no kind", &[Byte(9, 3, b'A')], 21, 9),
    ("a second superblock", &[Header(22, Kind::Super, 16), Number(22, 8, 2)], 21, 22),
    ("a name of no bytes", &[Size(13, 0)], 21, 13),
    ("a name of 65 bytes", &[Size(13, 65)], 21, 13),
    ("a directory without slots", &[Size(10, 8)], 21, 10),
    ("a directory with half a slot", &[Size(10, 32)], 21, 10),
    ("a file of size 15", &[Size(18, 15)], 21, 18),
    ("a byte set after a name", &[Byte(17, 15, 1)], 21, 17),
    ("a byte set after a file", &[Byte(6, 44, 1)], 21, 6),
    ("a free block of 57 bytes", &[Size(22, 57)], 21, 22),
    ("a free block past the end", &[Size(30, 72)], 21, 30),
    ("a size with the highest bit", &[Size(30, 0x8000_0038)], 21, 30),
    ("two blocks of no kind", &[Byte(29, 0, 0), Byte(13, 0, 0)], 21, 13),
    ("bytes set after two blocks", &[Byte(9, 15, 1), Byte(29, 15, 1)], 21, 9),
];

/// Rule 2.
const ROOTS: &[Case] = &[
    ("no root", &[Number(0, ROOT_REF, 0)], 22, 0),
    ("a root that is a file", &[Number(0, ROOT_REF, 6)], 22, 0),
    ("a root ref into a block", &[Number(0, ROOT_REF, 3)], 22, 0),
    ("a root ref to the end", &[Number(0, ROOT_REF, 34)], 22, 0),
    ("a root ref that wraps", &[Number(0, ROOT_REF, 1 << 60 | 2)], 22, 0),
    ("a root with another parent", &[Number(2, PARENT, 10)], 22, 0),
    ("another directory as the root", &[Number(0, ROOT_REF, 10)], 22, 0),
];

/// Rule 3: the directory.
const SLOT_REFS: &[Case] = &[
    ("an object without a name", &[Slot(2, 2, 0, 6)], 23, 2),
    ("a name without an object", &[Slot(14, 1, 29, 0)], 23, 14),
    ("a free block in a slot", &[Slot(10, 1, 21, 22)], 23, 10),
    ("a ref into a block", &[Slot(10, 1, 21, 19)], 23, 10),
    ("a ref to the end", &[Slot(10, 1, 34, 18)], 23, 10),
    ("a ref that wraps", &[Slot(10, 1, 21, 1 << 60 | 18)], 23, 10),
    ("a name and its object exchanged", &[Slot(2, 0, 6, 9)], 23, 2),
    ("two directories with bad slots", &[Slot(14, 1, 29, 0), Slot(10, 1, 0, 18)], 23, 10),
];

/// Rule 4: the block that is named wrongly often, or the directory with a wrong parent.
const NAMINGS: &[Case] = &[
    ("a name in no slot", &[NewName], 24, 30),
    ("a file and its name in no slot", &[Slot(10, 1, 0, 0)], 24, 18),
    ("a directory and its name in no slot", &[Slot(10, 0, 0, 0)], 24, 14),
    ("a name in two slots, before one in none", &[Slot(2, 1, 9, 10)], 24, 9),
    ("a name in two slots, after one in none", &[Slot(2, 0, 13, 6)], 24, 9),
    ("a file in two slots", &[NewName, Slot(14, 1, 30, 6)], 24, 6),
    ("a directory in two slots", &[NewName, Slot(2, 2, 30, 14)], 24, 14),
    ("the root in its own slot", &[NewName, Slot(2, 2, 30, 2)], 24, 2),
    ("the root in a slot below", &[NewName, Slot(14, 1, 30, 2)], 24, 2),
    ("a parent that is another directory", &[Number(14, PARENT, 2)], 24, 14),
    ("a parent that is no directory", &[Number(14, PARENT, 6)], 24, 14),
    ("a directory as its own parent", &[Number(10, PARENT, 10)], 24, 10),
    ("a wrong parent before a file in no slot", &[Number(10, PARENT, 14), Slot(14, 0, 0, 0)], 24, 10),
    ("a wrong parent after a file in no slot", &[Number(14, PARENT, 2), Slot(2, 0, 0, 0)], 24, 6),
    ("two wrong parents", &[Number(14, PARENT, 2), Number(10, PARENT, 14)], 24, 10),
];

/// Rule 5: a directory that does not reach the root.
const RINGS: &[Case] = &[
    ("a detached pair", &[Slot(2, 1, 0, 0), Slot(14, 1, 13, 10), Number(10, PARENT, 14)], 25, 10),
    ("a directory in itself", &[Slot(10, 0, 0, 0), Slot(14, 1, 17, 14), Number(14, PARENT, 14)], 25, 14),
    (
        "a directory in one that is in itself, stored before it",
        &[
            Slot(2, 1, 0, 0),
            Slot(10, 0, 29, 26),
            Slot(14, 0, 13, 10),
            Slot(14, 1, 17, 14),
            Number(10, PARENT, 14),
            Number(14, PARENT, 14),
        ],
        25,
        10,
    ),
];

/// Rule 5, on the deep card: a directory at depth 17, or one at depth 16 that holds something.
const DEPTHS: &[Case] = &[
    ("a file at depth 17", &[Slot(2, 2, 0, 0), Slot(55, 0, 60, 58)], 25, 55),
    (
        "a directory at depth 17, stored after its holder",
        &[Slot(2, 3, 0, 0), Slot(55, 0, 63, 61), Number(61, PARENT, 55)],
        25,
        55,
    ),
    (
        "a directory at depth 17, stored before its holder",
        &[Slot(2, 0, 0, 0), Slot(55, 0, 9, 7), Number(7, PARENT, 55)],
        25,
        7,
    ),
    (
        "a chain of 17, its last two too deep",
        &[Slot(2, 1, 0, 0), Slot(7, 0, 12, 10), Number(10, PARENT, 7)],
        25,
        52,
    ),
];

/// Rule 6: the bad name, or the directory with equal names.
const NAMES: &[Case] = &[
    ("a name with a slash", &[Byte(9, NAME_BYTES, b'/')], 26, 9),
    ("a name with a zero byte", &[Byte(13, NAME_BYTES, 0)], 26, 13),
    ("the name of one dot", &[Byte(17, NAME_BYTES, b'.')], 26, 17),
    ("a follower alone", &[Byte(29, NAME_BYTES, 0x80)], 26, 29),
    ("a slash in two bytes", &[Name(9, &[0xc0, 0xaf])], 26, 9),
    ("800 less one in three bytes", &[Name(13, &[0xe0, 0x9f, 0xbf])], 26, 13),
    ("D800", &[Name(17, &[0xed, 0xa0, 0x80])], 26, 17),
    ("10000 less one in four bytes", &[Name(21, &[0xf0, 0x8f, 0xbf, 0xbf])], 26, 21),
    ("110000", &[Name(29, &[0xf4, 0x90, 0x80, 0x80])], 26, 29),
    ("DFFF behind E000", &[Name(17, &[0xee, 0x80, 0x80, 0xed, 0xbf, 0xbf])], 26, 17),
    ("two names that are no UTF-8", &[Name(21, &[0xc1, 0xbf]), Name(13, &[0xf5])], 26, 13),
    ("equal names in the root", &[Byte(13, NAME_BYTES, b'f')], 26, 2),
    ("equal names in /a", &[Byte(21, NAME_BYTES, b'b')], 26, 10),
    ("two bad names", &[Byte(29, NAME_BYTES, b'.'), Byte(17, NAME_BYTES, b'.')], 26, 17),
    ("equal names before a bad one", &[Byte(13, NAME_BYTES, b'f'), Byte(29, NAME_BYTES, b'/')], 26, 2),
    ("equal names after a bad one", &[Byte(21, NAME_BYTES, b'b'), Byte(9, NAME_BYTES, b'/')], 26, 9),
    ("equal names in two directories", &[Byte(21, NAME_BYTES, b'b'), Byte(13, NAME_BYTES, b'f')], 26, 2),
    ("equal names that are bad", &[Byte(17, NAME_BYTES, 0), Byte(21, NAME_BYTES, 0)], 26, 10),
];

/// Rule 7: the file.
const FILES: &[Case] = &[
    ("a file of 21 bytes in room 20", &[Number(6, FILE_SIZE, 21)], 27, 6),
    ("a file size with the highest bit", &[Number(18, FILE_SIZE, 1 << 63 | 16)], 27, 18),
    ("a chunk size of 1", &[Byte(26, CHUNK_SIZE + 3, 1)], 27, 26),
    ("a reserved byte set", &[Byte(26, RESERVED, 1)], 27, 26),
    ("two bad files", &[Byte(26, RESERVED + 3, 1), Number(18, FILE_SIZE, 21)], 27, 18),
];

/// Rule 8.
const CHAINS: &[Case] = &[
    ("no first free ref", &[Number(0, FIRST_FREE, 0)], 28, 0),
    ("the first free block left out", &[Number(0, FIRST_FREE, 30)], 28, 0),
    ("the last free block left out", &[Number(22, NEXT_FREE, 0)], 28, 0),
    ("a file in the chain", &[Number(22, NEXT_FREE, 26)], 28, 0),
    ("a chain that leaves the image", &[Number(30, NEXT_FREE, 34)], 28, 0),
    ("a chain in a circle", &[Number(30, NEXT_FREE, 22)], 28, 0),
    (
        "a falling chain",
        &[Number(0, FIRST_FREE, 30), Number(30, NEXT_FREE, 22), Number(22, NEXT_FREE, 0)],
        28,
        0,
    ),
    (
        "two free neighbours",
        &[Size(30, 24), Header(32, Kind::Free, 24), Number(30, NEXT_FREE, 32), Number(32, NEXT_FREE, 0)],
        28,
        0,
    ),
];

/// Every number of 8 bytes with one more bit: no bit of either half is lost. The card has 34 units, so that a ref with a
/// bit from 6 on is past its end.
fn every_bit(step: &mut Step) -> Verdict {
    for bit in (6..64).map(|n| 1 << n) {
        let cases = [
            ("the root ref", Number(0, ROOT_REF, bit | 2), 22, 0),
            ("the root's parent", Number(2, PARENT, bit | 2), 22, 0),
            ("a slot's name", Slot(10, 1, bit | 21, 18), 23, 10),
            ("a slot's object", Slot(10, 1, 21, bit | 18), 23, 10),
            ("an empty slot", Slot(2, 2, 0, bit), 23, 2),
            ("a directory's parent", Number(14, PARENT, bit | 10), 24, 14),
            ("a file's size", Number(18, FILE_SIZE, bit), 27, 18),
            ("the first free ref", Number(0, FIRST_FREE, bit | 22), 28, 0),
            ("a next free ref", Number(22, NEXT_FREE, bit | 30), 28, 0),
            ("the last next free ref", Number(30, NEXT_FREE, bit), 28, 0),
        ];
        for (what, edit, number, place) in cases {
            refuses(step, card(), &(&format!("{what} with bit {bit:x}"), &[edit], number, place))?;
        }
    }
    Ok(())
}

/// Several rules broken: the lowest is told, whichever block comes first.
const SEVERAL: &[Case] = &[
    ("8 and 1", &[Number(0, FIRST_FREE, 0), Byte(30, 0, 0)], 21, 30),
    ("2, 7 and 1", &[Number(0, ROOT_REF, 0), Number(6, FILE_SIZE, 21), Byte(29, 0, 0)], 21, 29),
    ("2 and 3", &[Number(2, PARENT, 10), Slot(2, 2, 0, 6)], 22, 0),
    ("3 before 7", &[Slot(2, 2, 0, 6), Number(26, FILE_SIZE, 21)], 23, 2),
    ("3 after 7", &[Number(6, FILE_SIZE, 21), Slot(14, 1, 29, 0)], 23, 14),
    ("3 after 4", &[Number(10, PARENT, 14), Slot(14, 1, 29, 0)], 23, 14),
    ("4 after 6", &[Byte(9, NAME_BYTES, b'/'), Number(14, PARENT, 2)], 24, 14),
    (
        "5 after 6 and 7",
        &[
            Number(6, FILE_SIZE, 21),
            Byte(9, NAME_BYTES, b'/'),
            Slot(10, 0, 0, 0),
            Slot(14, 1, 17, 14),
            Number(14, PARENT, 14),
        ],
        25,
        14,
    ),
    ("6 after 7", &[Number(6, FILE_SIZE, 21), Byte(29, NAME_BYTES, b'.')], 26, 29),
    ("6 before 7", &[Number(26, FILE_SIZE, 21), Byte(9, NAME_BYTES, b'/')], 26, 9),
    ("7 and 8", &[Number(0, FIRST_FREE, 0), Number(18, FILE_SIZE, 21)], 27, 18),
];

#[test]
fn model_tells_the_places() {
    let model = &mut |image: &mut Vec<u8>, call: &Call| Ok(crate::call::on_model(image, call));
    run_with(model).unwrap();
}

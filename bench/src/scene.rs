//! The cards to be measured, each with a file to read and change and a file to make.

use crate::builder::{Builder, Directory};
use crate::job::{Call, CALLS};

/// A card, and what the calls do there.
pub struct Scene {
    pub name: &'static str,
    /// The calls that are measured.
    pub calls: &'static [Call],
    pub image: Vec<u8>,
    /// Files and directories, the root included.
    pub objects: usize,
    /// The file that is found, read, cut off at `cut` and written from there to its size again.
    pub file: String,
    pub size: usize,
    pub cut: usize,
    /// The file that is made, and removed again.
    pub new: String,
    pub room: u64,
}

/// Full of files of room 0 in directories of 1,024 slots, but for one file with content in the last
/// directory, and room for one more file there.
pub fn full(name: &'static str, length: usize) -> Scene {
    let (mut builder, mut root) = Builder::new(length, 16);
    let (mut directories, mut files) = (0, 0);
    let mut here = builder.directory(&mut root, "dir00", 1024);
    // the file with content takes 19 units, the one to be made 3
    while builder.left() >= 3 + 19 + 3 {
        if files == 1024 {
            directories += 1;
            files = 0;
            here = builder.directory(&mut root, &format!("dir{directories:02}"), 1024);
        }
        builder.file(&mut here, &format!("file{files:04}"), 0, 0);
        files += 1;
    }
    builder.file(&mut here, "sole", 256, 240);
    assert!(files < 1023 && builder.left() >= 3);
    Scene {
        name,
        calls: &CALLS,
        objects: builder.objects(),
        image: builder.finish(),
        file: format!("/dir{directories:02}/sole"),
        size: 240,
        cut: 100,
        new: format!("/dir{directories:02}/heel"),
        room: 0,
    }
}

/// So many files more, of at most some KB, and gaps between some of them.
fn fill(builder: &mut Builder, holder: &mut Directory, made: &mut usize, count: usize) {
    for _ in 0..count {
        *made += 1;
        let part = *made * 389 % 1000;
        let size = part * part / 410;
        let name = format!("last-{made:03}{}.path", &"-left-and-right"[..part % 16]);
        builder.file(holder, &name, size + part % 40, size);
        if made.is_multiple_of(50) {
            builder.gap(1 + part % 23);
        }
    }
}

/// 1 MiB with about a thousand files of at most some KB, in directories of 64 slots.
fn thousand() -> Scene {
    let (mut builder, mut root) = Builder::new(1 << 20, 16);
    let mut made = 0;
    for part in 0..5 {
        let mut top = builder.directory(&mut root, &format!("part{part}"), 64);
        fill(&mut builder, &mut top, &mut made, 15);
        for set in 0..3 {
            let mut here = builder.directory(&mut top, &format!("set{set}"), 64);
            fill(&mut builder, &mut here, &mut made, 55);
            if set == 0 {
                let mut old = builder.directory(&mut here, "old", 64);
                fill(&mut builder, &mut old, &mut made, 20);
            } else if (part, set) == (4, 2) {
                builder.file(&mut here, "sole.path", 2500, 2400);
            }
        }
    }
    Scene {
        name: "b",
        calls: &CALLS,
        objects: builder.objects(),
        image: builder.finish(),
        file: "/part4/set2/sole.path".to_string(),
        size: 2400,
        cut: 1000,
        new: "/part4/set2/heel.path".to_string(),
        room: 500,
    }
}

/// A typical card of 64 KiB: four directories with 24 files of some hundred bytes each.
fn typical() -> Scene {
    let (mut builder, mut root) = Builder::new(1 << 16, 8);
    for season in 0..4 {
        let mut here = builder.directory(&mut root, &format!("season-{season}"), 32);
        for size in 0..24 {
            let bytes = 208 + 16 * ((7 * size + season) % 30);
            builder.file(&mut here, &format!("last-{}.path", 36 + size), bytes + 16 * (size % 3), bytes);
            if size % 10 == 9 {
                builder.gap(2 + size);
            }
        }
        if season == 3 {
            builder.file(&mut here, "sole.path", 512, 480);
        }
    }
    Scene {
        name: "c",
        calls: &CALLS,
        objects: builder.objects(),
        image: builder.finish(),
        file: "/season-3/sole.path".to_string(),
        size: 480,
        cut: 160,
        new: "/season-3/heel.path".to_string(),
        room: 320,
    }
}

/// 256 bytes: the root and a file.
fn small() -> Scene {
    let (mut builder, mut root) = Builder::new(256, 2);
    builder.file(&mut root, "sole", 32, 32);
    Scene {
        name: "d",
        calls: &CALLS,
        objects: builder.objects(),
        image: builder.finish(),
        file: "/sole".to_string(),
        size: 32,
        cut: 16,
        new: "/heel".to_string(),
        room: 16,
    }
}

/// 1 MiB with 60 directories of 1,024 slots, one file in each.
fn sparse() -> Scene {
    let (mut builder, mut root) = Builder::new(1 << 20, 60);
    for directory in 0..60 {
        let mut here = builder.directory(&mut root, &format!("dir{directory:02}"), 1024);
        builder.file(&mut here, "sole", 32, 32);
    }
    Scene {
        name: "e",
        calls: &[Call::Check, Call::CheckMarked, Call::List],
        objects: builder.objects(),
        image: builder.finish(),
        file: "/dir59/sole".to_string(),
        size: 32,
        cut: 16,
        new: "/dir59/heel".to_string(),
        room: 16,
    }
}

/// 1 MiB of files of room 8 to 72, each second one's room free: some thousand gaps, of which only the last is
/// large enough for the file that is made.
fn holed() -> Scene {
    let (mut builder, mut root) = Builder::new(1 << 20, 16);
    for directory in 0..6 {
        let mut here = builder.directory(&mut root, &format!("dir{directory:02}"), 1024);
        for file in 0..980 {
            let part = file * 389 % 1000;
            builder.gap(3 + part / 7 % 5);
            builder.file(&mut here, &format!("file{file:04}"), 8 + 16 * (part % 5), part % 9);
        }
        if directory == 5 {
            // 9 units are left, for the file to be made
            builder.file(&mut here, "sole", 16 * (builder.left() - 1 - 9) - 24, 240);
        }
    }
    Scene {
        name: "f",
        calls: &CALLS,
        objects: builder.objects(),
        image: builder.finish(),
        file: "/dir05/sole".to_string(),
        size: 240,
        cut: 100,
        new: "/dir05/heel".to_string(),
        room: 104,
    }
}

/// 64 bytes below 80.
fn plain_name(number: usize) -> String {
    format!("{:-<60}{number:04}", "last-left-and-right")
}

/// Characters of two, three and four bytes in turn.
const CHARACTERS: [u32; 12] =
    [0xe9, 0x20ac, 0x1f45f, 0xdf, 0x3042, 0x10348, 0x416, 0x9774, 0x1f97e, 0x3a9, 0xa000, 0x1d11e];

/// 61 to 64 bytes, of characters of two, three and four bytes; the last four tell the number.
fn high_name(number: usize) -> String {
    let letter = |index: usize| char::from_u32(CHARACTERS[index % 12]).unwrap();
    let end: String = [1000, 100, 10, 1].iter().map(|ten| letter(number / ten % 10)).collect();
    let mut name = String::new();
    for place in 0.. {
        let letter = letter((number + 17 * place) * 389 % 1000 / 7);
        if name.len() + letter.len_utf8() + end.len() > 64 {
            break;
        }
        name.push(letter);
    }
    name + &end
}

/// 1 MiB full of files of room 0, with names of 5 units, in directories of 1,024 slots, but for one file with
/// content in the last directory, and room for one more file there.
fn long_names(name: &'static str, spelled: fn(usize) -> String) -> Scene {
    let (mut builder, mut root) = Builder::new(1 << 20, 16);
    let (mut directories, mut files) = (0, 0);
    let mut here = builder.directory(&mut root, &spelled(0), 1024);
    // the file with content takes 23 units, the one to be made 7
    while builder.left() >= 7 + 23 + 7 {
        if files == 1024 {
            directories += 1;
            files = 0;
            here = builder.directory(&mut root, &spelled(directories), 1024);
        }
        builder.file(&mut here, &spelled(files), 0, 0);
        files += 1;
    }
    builder.file(&mut here, &spelled(files), 256, 240);
    assert!(files < 1023 && builder.left() >= 7);
    let path = |file| format!("/{}/{}", spelled(directories), spelled(file));
    Scene {
        name,
        calls: &[Call::Check, Call::CheckMarked, Call::Find, Call::List],
        objects: builder.objects(),
        image: builder.finish(),
        file: path(files),
        size: 240,
        cut: 100,
        new: path(files + 1),
        room: 0,
    }
}

/// Cards a to h.
pub fn cards() -> Vec<Scene> {
    let (plain, high) = (long_names("g", plain_name), long_names("h", high_name));
    vec![full("a", 1 << 20), thousand(), typical(), small(), sparse(), holed(), plain, high]
}

/// Full cards of 64 KiB, 256 KiB and 1 MiB.
pub fn growing() -> [Scene; 3] {
    [full("64 KiB", 1 << 16), full("256 KiB", 1 << 18), full("1 MiB", 1 << 20)]
}

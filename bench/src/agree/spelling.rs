//! Names with characters at the edges of UTF-8, and with bytes that look like one and are none.

use super::random::Random;

/// Characters of two to four bytes.
const CHARACTERS: [u32; 19] = [
    0x80, 0xe9, 0x7ff, 0x800, 0xfff, 0x1000, 0x20ac, 0xd7ff, 0xe000, 0xfeff, 0xfffd, 0xffff, 0x10000,
    0x1f45f, 0x3ffff, 0x40000, 0xfffff, 0x100000, 0x10ffff,
];

/// Longer than need be, D800 to DFFF, past 10FFFF, cut short, or with a wrong follower.
const NO_CHARACTERS: [&[u8]; 18] = [
    b"\xc0\x80",
    b"\xc0\xaf",
    b"\xc1\xbf",
    b"\xc2",
    b"\xc2\x7f",
    b"\xdf\xc0",
    b"\xe0\x80\xaf",
    b"\xe0\x9f\xbf",
    b"\xed\xa0\x80",
    b"\xed\xbf\xbf",
    b"\xef\xbf",
    b"\xf0\x80\x80\xaf",
    b"\xf0\x8f\xbf\xbf",
    b"\xf4\x8f\xbf",
    b"\xf4\x90\x80\x80",
    b"\xf5\x80\x80\x80",
    b"\xf7\xbf\xbf\xbf",
    b"\xf8\x88\x80\x80\x80",
];

/// The bytes of a character, or, where that is wanted, some that are none.
pub fn bytes(random: &mut Random, none: bool) -> Vec<u8> {
    if none {
        random.one(&NO_CHARACTERS).to_vec()
    } else {
        char::from_u32(random.one(&CHARACTERS)).unwrap().to_string().into_bytes()
    }
}

/// A name of characters with letters among them, up to 64 bytes; now and then with bytes that are none.
pub fn name(random: &mut Random) -> Vec<u8> {
    let length = random.one(&[4, 8, 9, 24, 25, 61, 62, 63, 64]);
    let mut name = Vec::new();
    loop {
        let none = random.percent(2);
        let next = if random.percent(30) { b"s".to_vec() } else { bytes(random, none) };
        if name.len() + next.len() > length {
            return name;
        }
        name.extend(next);
    }
}

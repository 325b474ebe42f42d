//! Names and paths.

use super::layout::LONGEST_NAME;
use crate::store::{Answer, Refusal};

const MOST_COMPONENTS: usize = 16;

/// Whether the bytes are a name.
pub fn valid_name(name: &[u8]) -> bool {
    (1..=LONGEST_NAME).contains(&name.len()) && name != b"." && name != b".." && valid_bytes(name)
}

/// Whether the bytes spell whole characters by RFC 3629, none of them 00, 2F or 5C.
fn valid_bytes(name: &[u8]) -> bool {
    // the followers to come, and what the next of them may be
    let (mut followers, mut least, mut most) = (0, 0x80, 0xbf);
    for &byte in name {
        if followers > 0 {
            if !(least..=most).contains(&byte) {
                return false;
            }
            (followers, least, most) = (followers - 1, 0x80, 0xbf);
            continue;
        }
        (followers, least, most) = match byte {
            0x00 | b'/' | b'\\' => return false,
            0x01..=0x7f => (0, 0x80, 0xbf),
            0xc2..=0xdf => (1, 0x80, 0xbf),
            0xe0 => (2, 0xa0, 0xbf),
            0xed => (2, 0x80, 0x9f),
            0xe1..=0xef => (2, 0x80, 0xbf),
            0xf0 => (3, 0x90, 0xbf),
            0xf1..=0xf3 => (3, 0x80, 0xbf),
            0xf4 => (3, 0x80, 0x8f),
            _ => return false,
        };
    }
    followers == 0
}

/// The components of a path, none for the root.
pub struct Path<'a> {
    parts: [&'a [u8]; MOST_COMPONENTS],
    count: usize,
}

impl<'a> Path<'a> {
    /// Refusal 2 where the bytes are no path, or one with too many components.
    pub fn parse(path: &'a [u8]) -> Answer<Path<'a>> {
        let mut parsed = Path { parts: [&[]; MOST_COMPONENTS], count: 0 };
        let Some((b'/', rest)) = path.split_first() else { return Err(2.into()) };
        if rest.is_empty() {
            return Ok(parsed);
        }
        for part in rest.split(|&byte| byte == b'/') {
            if parsed.count == MOST_COMPONENTS || !valid_name(part) {
                return Err(2.into());
            }
            parsed.parts[parsed.count] = part;
            parsed.count += 1;
        }
        Ok(parsed)
    }

    pub fn parts(&self) -> &[&'a [u8]] {
        &self.parts[..self.count]
    }

    /// The last component and those before it; none for the root.
    pub fn split_last(&self) -> Option<(&'a [u8], &[&'a [u8]])> {
        self.parts().split_last().map(|(last, before)| (*last, before))
    }
}

/// Refusal 10 where a number is out of its bounds.
pub fn in_bounds(number: u64, least: u64, most: u64) -> Answer<usize> {
    match usize::try_from(number) {
        Ok(fits) if (least..=most).contains(&number) => Ok(fits),
        _ => Err(Refusal::from(10)),
    }
}

//! Names and paths.

use super::layout::LONGEST_NAME;

pub const MOST_COMPONENTS: usize = 16;

pub fn valid_name(name: &[u8]) -> bool {
    let length = (1..=LONGEST_NAME).contains(&name.len());
    let dots = name == b"." || name == b"..";
    length && !dots && valid_bytes(name)
}

/// UTF-8 by RFC 3629, as Rust's library tests it, and none of the three bytes that a name may not have.
fn valid_bytes(name: &[u8]) -> bool {
    std::str::from_utf8(name).is_ok() && !name.iter().any(|byte| [0x00, 0x2f, 0x5c].contains(byte))
}

/// The components of a valid path, none for the root; refusal 2 otherwise.
pub fn components(path: &[u8]) -> Result<Vec<&[u8]>, u8> {
    if path == b"/" {
        return Ok(Vec::new());
    }
    if path.first() != Some(&b'/') {
        return Err(2);
    }
    let parts: Vec<&[u8]> = path[1..].split(|&byte| byte == b'/').collect();
    if parts.len() > MOST_COMPONENTS || !parts.iter().all(|part| valid_name(part)) {
        return Err(2);
    }
    Ok(parts)
}

/// The path with these components.
pub fn join(parts: &[Vec<u8>]) -> Vec<u8> {
    if parts.is_empty() {
        return b"/".to_vec();
    }
    let mut path = Vec::new();
    for part in parts {
        path.push(b'/');
        path.extend_from_slice(part);
    }
    path
}

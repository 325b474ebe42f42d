//! The book: the tree that the accepted calls say there is. It is fed with each call's arguments and whether
//! the library accepted it, and sees no image.

use crate::call::Call;

/// A slot of a directory: empty, or a name and what it names.
pub type Slot = Option<(Vec<u8>, Object)>;

#[derive(Clone, PartialEq, Eq, Debug)]
pub enum Object {
    File { room: u64, bytes: Vec<u8> },
    Directory(Vec<Slot>),
}

impl Object {
    fn directory(slots: u64) -> Object {
        Object::Directory(vec![None; slots as usize])
    }

    fn file(room: u64) -> Object {
        Object::File { room, bytes: Vec::new() }
    }

    pub fn is_directory(&self) -> bool {
        matches!(self, Object::Directory(_))
    }

    /// A file's size and room, or a directory's taken slots and slots in all.
    pub fn extent(&self) -> (u64, u64) {
        match self {
            Object::File { room, bytes } => (bytes.len() as u64, *room),
            Object::Directory(slots) => (slots.iter().flatten().count() as u64, slots.len() as u64),
        }
    }
}

/// An object of the book: the components of its path, and the index of its directory's page (the root's is
/// its own).
#[derive(Debug)]
pub struct Page<'a> {
    pub parts: Vec<&'a [u8]>,
    pub holder: usize,
    pub object: &'a Object,
}

/// Empty before the first accepted format.
#[derive(Clone, Default, PartialEq, Eq, Debug)]
pub struct Book {
    root: Option<Object>,
}

impl Book {
    /// A book that begins with this root.
    pub fn with(root: Object) -> Book {
        Book { root: Some(root) }
    }

    /// Takes a call in; tells whether it is one that changes what the book says. An error names what an
    /// accepted call speaks of and the book does not have.
    pub fn feed(&mut self, call: &Call, accepted: bool) -> Result<bool, String> {
        if !accepted {
            return Ok(false);
        }
        match call {
            Call::Format { slots } => self.root = Some(Object::directory(*slots)),
            Call::MakeDirectory { path, slots } => self.make(path, Object::directory(*slots))?,
            Call::MakeFile { path, room } => self.make(path, Object::file(*room))?,
            Call::Write { path, position, bytes } => write(self.named(path)?, *position, bytes)?,
            Call::SetLength { path, length } => set_length(self.named(path)?, *length)?,
            Call::Remove { path } => self.remove(path)?,
            _ => return Ok(false),
        }
        Ok(true)
    }

    /// The objects in the order of the listing: a directory, then what it holds, slot by slot.
    pub fn pages(&self) -> Vec<Page<'_>> {
        let mut pages = Vec::new();
        if let Some(root) = &self.root {
            gather(&mut pages, Vec::new(), 0, root);
        }
        pages
    }

    fn named(&mut self, path: &[u8]) -> Result<&mut Object, String> {
        self.walk(&parts(path)?)
    }

    fn walk(&mut self, parts: &[&[u8]]) -> Result<&mut Object, String> {
        let mut here = self.root.as_mut().ok_or("no root in the book")?;
        for part in parts {
            let slots = slots_of(here)?;
            let named = slots.iter_mut().flatten().find(|(name, _)| name == part);
            here = &mut named.ok_or_else(|| missing(part))?.1;
        }
        Ok(here)
    }

    /// The slots of the directory above what the path names, and the last name.
    fn above<'a>(&mut self, path: &'a [u8]) -> Result<(&mut Vec<Slot>, &'a [u8]), String> {
        let parts = parts(path)?;
        let (name, before) = parts.split_last().ok_or("the root is above nothing in the book")?;
        Ok((slots_of(self.walk(before)?)?, name))
    }

    fn make(&mut self, path: &[u8], object: Object) -> Result<(), String> {
        let (slots, name) = self.above(path)?;
        let lowest = slots.iter_mut().find(|slot| slot.is_none()).ok_or("no slot is empty in the book")?;
        *lowest = Some((name.to_vec(), object));
        Ok(())
    }

    fn remove(&mut self, path: &[u8]) -> Result<(), String> {
        let (slots, name) = self.above(path)?;
        let holds = |slot: &&mut Slot| slot.as_ref().is_some_and(|(held, _)| held == name);
        *slots.iter_mut().find(holds).ok_or_else(|| missing(name))? = None;
        Ok(())
    }
}

fn missing(name: &[u8]) -> String {
    format!("no \"{}\" in the book", name.escape_ascii())
}

/// The components of a path that was accepted.
fn parts(path: &[u8]) -> Result<Vec<&[u8]>, String> {
    match path {
        b"/" => Ok(Vec::new()),
        [b'/', names @ ..] => Ok(names.split(|&byte| byte == b'/').collect()),
        _ => Err("a path without a slash was accepted".to_string()),
    }
}

fn slots_of(object: &mut Object) -> Result<&mut Vec<Slot>, String> {
    match object {
        Object::Directory(slots) => Ok(slots),
        Object::File { .. } => Err("a file in the book where a directory should be".to_string()),
    }
}

/// The bytes of a file that is to have at least this size.
fn bytes_of(object: &mut Object, size: u128) -> Result<&mut Vec<u8>, String> {
    match object {
        Object::File { room, bytes } if size <= u128::from(*room) => Ok(bytes),
        Object::File { room, .. } => Err(format!("{size} bytes in a file of room {room} in the book")),
        Object::Directory(_) => Err("a directory in the book where a file should be".to_string()),
    }
}

/// Where the file ends before the position, zeros are added up to it; then the bytes stand over what was there.
fn write(file: &mut Object, position: u64, bytes: &[u8]) -> Result<(), String> {
    let content = bytes_of(file, u128::from(position) + bytes.len() as u128)?;
    if bytes.is_empty() {
        return Ok(());
    }
    let end = position as usize + bytes.len();
    content.resize(content.len().max(end), 0);
    content[position as usize..end].copy_from_slice(bytes);
    Ok(())
}

fn set_length(file: &mut Object, length: u64) -> Result<(), String> {
    bytes_of(file, u128::from(length))?.resize(length as usize, 0);
    Ok(())
}

fn gather<'a>(pages: &mut Vec<Page<'a>>, parts: Vec<&'a [u8]>, holder: usize, object: &'a Object) {
    let index = pages.len();
    pages.push(Page { parts: parts.clone(), holder, object });
    if let Object::Directory(slots) = object {
        for (name, held) in slots.iter().flatten() {
            let mut parts = parts.clone();
            parts.push(name);
            gather(pages, parts, index, held);
        }
    }
}

#[test]
fn the_book_says_what_the_calls_say() {
    let mut book = Book::default();
    let path = |text: &str| text.as_bytes().to_vec();
    let calls = [
        Call::Format { slots: 2 },
        Call::MakeDirectory { path: path("/a"), slots: 1 },
        Call::MakeFile { path: path("/a/f"), room: 9 },
        Call::Write { path: path("/a/f"), position: 3, bytes: vec![7, 8] },
        Call::MakeFile { path: path("/b"), room: 0 },
        Call::SetLength { path: path("/a/f"), length: 4 },
        Call::Remove { path: path("/b") },
        Call::Check,
    ];
    for (index, call) in calls.iter().enumerate() {
        assert_eq!(book.feed(call, true), Ok(index < 7));
        assert_eq!(book.feed(call, false), Ok(false));
    }
    let pages = book.pages();
    let extents: Vec<_> =
        pages.iter().map(|page| (page.parts.len(), page.holder, page.object.extent())).collect();
    assert_eq!(extents, [(0, 0, (1, 2)), (1, 0, (1, 1)), (2, 1, (4, 9))]);
    assert_eq!(*pages[2].object, Object::File { room: 9, bytes: vec![0, 0, 0, 7] });
    assert!(book.feed(&calls[5], true).is_ok() && book.feed(&calls[6], true).is_err());
    assert!(book.feed(&Call::Write { path: path("/a/f"), position: 9, bytes: vec![1] }, true).is_err());
}

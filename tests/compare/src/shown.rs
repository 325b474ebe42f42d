//! What the library shows of an image, against the book: the listing, what find tells of each path, the bytes
//! and the points of each file, and whose every unit is.

use crate::book::{Book, Object, Page};
use crate::call::{Call, Outcome};
use crate::library::Card;
use crate::model::layout::*;
use crate::model::list::LINE;
use crate::model::name::join;
use crate::random::Random;

type Verdict = Result<(), String>;
type Line = [u64; LINE];

/// What stands in a lent buffer, or in lent numbers, before a call.
const BEFORE: u8 = 0x5e;

/// Compares all lines with all of the book, and each object with what find and the reads tell of it. Where the
/// objects, times all of them, are more than so many looks, some are chosen at random, at least three. Tells how
/// many.
pub fn compare(book: &Book, image: &[u8], random: &mut Random, looks: usize) -> Result<usize, String> {
    let pages = book.pages();
    let mut show = Show { card: Card::new(image), random };
    let lines = show.lines(pages.len())?;
    for (page, line) in pages.iter().zip(&lines) {
        compare_line(image, page, line, &lines).map_err(|what| format!("{}: {what}", named(page)))?;
    }
    owned_once(image, &pages, &lines)?;
    let chosen = show.some(pages.len(), (looks / pages.len()).max(3));
    for &index in &chosen {
        let page = &pages[index];
        show.object(page, &lines[index]).map_err(|what| format!("{}: {what}", named(page)))?;
    }
    match show.card.image() == image {
        true => Ok(chosen.len()),
        false => Err("a call that only reads changed the image".to_string()),
    }
}

fn path_of(page: &Page) -> Vec<u8> {
    join(&page.parts.iter().map(|part| part.to_vec()).collect::<Vec<_>>())
}

fn named(page: &Page) -> String {
    format!("book, \"{}\"", path_of(page).escape_ascii())
}

/// What the library shows and what the book says.
fn same<T: PartialEq + std::fmt::Debug>(what: &str, shown: T, book: T) -> Verdict {
    match shown == book {
        true => Ok(()),
        false => Err(format!("{what} {shown:?}, the book has {book:?}")),
    }
}

/// Kind, depth and the two numbers; the parent's ref; and the name at the name's ref.
fn compare_line(image: &[u8], page: &Page, line: &Line, lines: &[Line]) -> Verdict {
    let [_, parent, name, depth, directory, first, second] = *line;
    same("depth", depth, page.parts.len() as u64)?;
    same("directory", directory, page.object.is_directory().into())?;
    same("numbers", (first, second), page.object.extent())?;
    same("parent", parent, lines[page.holder][0])?;
    match page.parts.last() {
        None => same("name ref", name, 0),
        Some(part) => same("name block", name_at(image, name), Some(*part)),
    }
}

/// The name in the name block at this ref.
fn name_at(image: &[u8], reference: u64) -> Option<&[u8]> {
    let block = image.get(UNIT.checked_mul(reference as usize)?..)?;
    let size = get32(block.get(..HEADER)?, 4) as usize;
    (block[..4] == magic(Kind::Name)[..]).then(|| block.get(NAME_BYTES..NAME_BYTES + size))?
}

/// Every unit is the superblock's, a listed object's, its name's or the free chain's, and of one of them only.
fn owned_once(image: &[u8], pages: &[Page], lines: &[Line]) -> Verdict {
    let mut owned = vec![false; image.len() / UNIT];
    let mut own = |reference: u64, units: usize| {
        let from = reference as usize;
        match owned.get_mut(from..from.saturating_add(units)) {
            Some(stretch) if !stretch.contains(&true) => {
                stretch.fill(true);
                Ok(())
            }
            Some(_) => Err(format!("a unit of the {units} at ref {reference} has two owners")),
            None => Err(format!("{units} units at ref {reference} are not in the image")),
        }
    };
    own(0, 2)?;
    for (page, line) in pages.iter().zip(lines) {
        own(line[0], object_units(page.object))?;
        if let Some(part) = page.parts.last() {
            own(line[2], units(part.len()))?;
        }
    }
    let mut next = get64(image, FIRST_FREE);
    while next != 0 {
        let header = image.chunks_exact(UNIT).nth(next as usize).ok_or("the free chain leaves the image")?;
        own(next, units(get32(header, 4) as usize))?;
        next = get64(header, NEXT_FREE);
    }
    match owned.iter().position(|owned| !owned) {
        None => Ok(()),
        Some(unit) => Err(format!("the unit at ref {unit} has no owner")),
    }
}

fn object_units(object: &Object) -> usize {
    match object {
        Object::File { room, .. } => units(file_size(*room as usize)),
        Object::Directory(slots) => units(directory_size(slots.len())),
    }
}

/// The image as the library shows it.
struct Show<'a> {
    card: Card,
    random: &'a mut Random,
}

impl Show<'_> {
    /// The outcome of a call that must answer this number.
    fn call(&mut self, call: &Call, answer: u8) -> Result<Outcome, String> {
        let found = self.card.call(call)?;
        match (found.refusal.number, found.refusal.place) {
            (number, 0) if number == answer => Ok(found),
            _ => Err(format!("{call}: answer {}, by the book {answer}", found.refusal)),
        }
    }

    /// The listing, which must have so many lines, no more than any image of this length can need.
    fn lines(&mut self, count: usize) -> Result<Vec<Line>, String> {
        let enough = self.card.image().len() / (3 * UNIT);
        if count > enough {
            return Err(format!("{count} lines, which should not be more than {enough}"));
        }
        let over = self.random.below(LINE);
        let lent = vec![u64::from(BEFORE); LINE * count + over];
        let found = self.call(&Call::List { lent }, 0)?;
        same("lines", found.numbers[0], count as u64)?;
        Ok(found.lines.chunks_exact(LINE).map(|line| line.try_into().unwrap()).collect())
    }

    /// Indices of all objects, or of so many.
    fn some(&mut self, count: usize, most: usize) -> Vec<usize> {
        match count <= most {
            true => (0..count).collect(),
            false => (0..most).map(|_| self.random.below(count)).collect(),
        }
    }

    fn object(&mut self, page: &Page, line: &Line) -> Verdict {
        let path = path_of(page);
        let (first, second) = page.object.extent();
        let found = self.call(&Call::Find { path: path.clone() }, 0)?.numbers;
        same("find", found, vec![line[0], page.object.is_directory().into(), first, second])?;
        match page.object {
            Object::File { bytes, .. } => self.file(&path, bytes),
            Object::Directory(_) => {
                self.call(&Call::Read { path: path.clone(), position: 0, buffer: Vec::new() }, 5)?;
                self.call(&Call::ReadPoint { path, number: 1 }, 5).map(drop)
            }
        }
    }

    /// All bytes, some of them, and points.
    fn file(&mut self, path: &[u8], bytes: &[u8]) -> Verdict {
        self.read(path, bytes, 0, bytes.len() + 1)?;
        let (from, count) = (self.random.below(bytes.len() + 2), self.random.below(bytes.len() + 2));
        self.read(path, bytes, from, count)?;
        let points = bytes.len() / 16;
        let mut numbers = vec![1, points, points + 1];
        numbers.push(self.random.below(points + 1) + 1);
        numbers.into_iter().try_for_each(|number| self.point(path, bytes, number))
    }

    /// A read from a position on into so many bytes; those that the file does not have stay.
    fn read(&mut self, path: &[u8], bytes: &[u8], from: usize, count: usize) -> Verdict {
        let call = Call::Read { path: path.to_vec(), position: from as u64, buffer: vec![BEFORE; count] };
        let found = self.call(&call, 0)?;
        let wanted = &bytes[from.min(bytes.len())..];
        let wanted = &wanted[..count.min(wanted.len())];
        same("bytes read", found.numbers[0], wanted.len() as u64)?;
        let mut buffer = vec![BEFORE; count];
        buffer[..wanted.len()].copy_from_slice(wanted);
        match (0..count).find(|&at| found.buffer[at] != buffer[at]) {
            None => Ok(()),
            Some(at) => same(&format!("{call}: byte {at}"), found.buffer[at], buffer[at]),
        }
    }

    fn point(&mut self, path: &[u8], bytes: &[u8], number: usize) -> Verdict {
        let call = Call::ReadPoint { path: path.to_vec(), number: number as u64 };
        let wanted = number.checked_sub(1).and_then(|before| bytes.get(16 * before..16 * number));
        let answer = match wanted {
            _ if !(1..=LAST_POINT).contains(&(number as u64)) => 10,
            Some(_) => 0,
            None => 13,
        };
        let found = self.call(&call, answer)?;
        same("point", &found.buffer[..], wanted.unwrap_or(&[0; 16]))
    }
}

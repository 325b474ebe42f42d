//! An image and the book of its history, side by side.

use crate::book::{Book, Object};
use crate::call::{Call, Outcome};
use crate::compare::Bout;
use crate::model::check::{open, Blocks};
use crate::model::layout::{get64, Block, Kind, CONTENT, FILE_SIZE};
use crate::model::tree::{name_of, root_of, slots_of};
use crate::random::Random;
use crate::shown::compare;

type Verdict = Result<(), String>;

/// How much is looked at after each accepted change, and at the end: objects one by one, times all of them, since
/// a call costs the more the more there are.
const LITTLE: usize = 20_000;
const MUCH: usize = 100_000;

pub struct Story {
    pub image: Vec<u8>,
    book: Book,
    /// Chooses what is looked at, so that the history's own choices do not depend on it.
    random: Random,
}

impl Story {
    /// Before the first format: the book is empty.
    pub fn blank(image: Vec<u8>) -> Story {
        Story { random: Random::new(image.len() as u64), image, book: Book::default() }
    }

    /// From a well-formed image that no call made: the book begins with what the model reads there.
    pub fn found(image: Vec<u8>) -> Story {
        let mut story = Story::blank(image);
        story.reread();
        story
    }

    /// A history begins anew where another writer changed files.
    pub fn reread(&mut self) {
        self.book = reading(&self.image);
    }

    /// Makes the call, and feeds the book with it and with the library's verdict. After an accepted change the
    /// library must show what the book says.
    pub fn step(&mut self, bout: &mut Bout, call: &Call) -> Result<Outcome, String> {
        let found = bout.step(&mut self.image, call)?;
        let told = self.book.feed(call, found.refusal.number == 0).and_then(|changed| match changed {
            true => self.compare(bout, LITTLE),
            false => Ok(()),
        });
        told.map_err(|what| bout.blame(call, self.image.len(), what)).map(|()| found)
    }

    /// Compares more of it, at the end.
    pub fn end(&mut self, bout: &mut Bout) -> Verdict {
        self.compare(bout, MUCH)
    }

    fn compare(&mut self, bout: &mut Bout, looks: usize) -> Verdict {
        if self.book != Book::default() {
            let objects = compare(&self.book, &self.image, &mut self.random, looks)?;
            bout.coverage.count_book(objects);
        }
        Ok(())
    }
}

/// The book that says what the model reads in an image.
fn reading(image: &[u8]) -> Book {
    match open(image) {
        Ok(blocks) => Book::with(object_at(image, &blocks, root_of(image, &blocks).block)),
        Err(_) => Book::default(),
    }
}

fn object_at(image: &[u8], blocks: &Blocks, block: Block) -> Object {
    if block.kind == Kind::File {
        let size = get64(image, block.at + FILE_SIZE) as usize;
        let bytes = image[block.at + CONTENT..][..size].to_vec();
        return Object::File { room: block.room() as u64, bytes };
    }
    let at = |reference| blocks.at(reference).unwrap();
    let slots = slots_of(image, &block).into_iter().map(|slot| {
        let name = || name_of(image, &at(slot.name)).to_vec();
        slot.taken().then(|| (name(), object_at(image, blocks, at(slot.object))))
    });
    Object::Directory(slots.collect())
}

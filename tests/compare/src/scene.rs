//! What stands in a well-formed image, for choosing arguments that matter.

use crate::model::check::{open, Blocks};
use crate::model::layout::{get64, Block, Kind, FILE_SIZE};
use crate::model::name::join;
use crate::model::room::{free_chain, Stretch};
use crate::model::tree::{objects, slots_of, Slot};

/// A file or directory as the choosing of calls sees it.
#[derive(Clone, Debug)]
pub struct Thing {
    pub block: Block,
    pub slot: Option<Slot>,
    pub parts: Vec<Vec<u8>>,
    /// A file's size.
    pub size: u64,
    pub taken: usize,
    pub empty: usize,
}

impl Thing {
    pub fn is_file(&self) -> bool {
        self.block.kind == Kind::File
    }

    pub fn path(&self) -> Vec<u8> {
        join(&self.parts)
    }
}

/// An empty scene stands for an image that is not well formed.
#[derive(Default)]
pub struct Scene {
    pub things: Vec<Thing>,
    pub free: Vec<Stretch>,
    pub blocks: Option<Blocks>,
}

impl Scene {
    pub fn of(image: &[u8]) -> Scene {
        let Ok(blocks) = open(image) else {
            return Scene::default();
        };
        let mut things = Vec::new();
        for object in objects(image, &blocks) {
            let block = object.entry.block;
            let file = block.kind == Kind::File;
            let slots = if file { Vec::new() } else { slots_of(image, &block) };
            let taken = slots.iter().filter(|slot| slot.taken()).count();
            let size = if file { get64(image, block.at + FILE_SIZE) } else { 0 };
            let empty = slots.len() - taken;
            things.push(Thing { block, slot: object.entry.slot, parts: object.parts, size, taken, empty });
        }
        Scene { things, free: free_chain(image), blocks: Some(blocks) }
    }

    pub fn files(&self) -> Vec<&Thing> {
        self.things.iter().filter(|thing| thing.is_file()).collect()
    }

    pub fn directories(&self) -> Vec<&Thing> {
        self.things.iter().filter(|thing| !thing.is_file()).collect()
    }

    pub fn depth(&self) -> usize {
        self.things.iter().map(|thing| thing.parts.len()).max().unwrap_or(0)
    }

    pub fn named(&self, path: &[u8]) -> Option<&Thing> {
        self.things.iter().find(|thing| thing.path() == path)
    }
}

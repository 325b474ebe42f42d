//! Changes that another writer may make, after which the image is as well formed as before.

use crate::model::layout::*;
use crate::random::Random;
use crate::scene::{Scene, Thing};

/// Tells whether it changed files, and not undefined bytes alone.
pub fn scribble(random: &mut Random, image: &mut [u8], scene: &Scene) -> bool {
    let what = random.below(10);
    match what {
        0..=3 => behind_sizes(random, image, scene),
        4..=6 => in_free_blocks(random, image, scene),
        7 => contents(random, image, scene),
        8 => sizes(random, image, scene),
        _ => {
            behind_sizes(random, image, scene);
            in_free_blocks(random, image, scene);
        }
    }
    matches!(what, 7 | 8)
}

/// Bytes past every file's size.
fn behind_sizes(random: &mut Random, image: &mut [u8], scene: &Scene) {
    for file in scene.files() {
        let (from, to) = content(file);
        random.fill(&mut image[from + file.size as usize..to]);
    }
}

/// The undefined bytes of every free block.
fn in_free_blocks(random: &mut Random, image: &mut [u8], scene: &Scene) {
    for free in &scene.free {
        random.fill(&mut image[free.at + UNIT..free.at + free.units * UNIT]);
    }
}

fn contents(random: &mut Random, image: &mut [u8], scene: &Scene) {
    for file in scene.files() {
        let (from, to) = content(file);
        random.fill(&mut image[from..to]);
    }
}

/// Another size for every file, its bytes left as they are.
fn sizes(random: &mut Random, image: &mut [u8], scene: &Scene) {
    for file in scene.files() {
        let size = random.below(file.block.room() + 1);
        put64(image, file.block.at + FILE_SIZE, size as u64);
    }
}

fn content(file: &Thing) -> (usize, usize) {
    let from = file.block.at + CONTENT;
    (from, from + file.block.room())
}

//! Well-formed images that calls alone seldom leave: blocks in any order, slots with gaps, the root anywhere.

use crate::model::layout::*;
use crate::names::good_name;
use crate::random::Random;

/// What to build, roughly.
pub struct Plan {
    pub objects: usize,
    /// The greatest depth; above 16 the image breaks rule 5.
    pub depth: usize,
    /// Chance, in percent, that an object goes into the deepest directory.
    pub steep: usize,
    pub room: usize,
    pub slots: usize,
    pub excess: Option<Excess>,
}

/// One thing over a bound of rule 1, in an image that is well formed but for it.
#[derive(Clone, Copy, PartialEq, Eq, Debug)]
pub enum Excess {
    NoSlots,
    ManySlots,
    LargeRoom,
    LongName,
    SecondSuper,
    LongImage,
}

pub const EXCESSES: [Excess; 6] = [
    Excess::NoSlots,
    Excess::ManySlots,
    Excess::LargeRoom,
    Excess::LongName,
    Excess::SecondSuper,
    Excess::LongImage,
];

struct Item {
    directory: bool,
    /// Slots or room.
    extent: usize,
    depth: usize,
    name: Vec<u8>,
    holder: usize,
    /// Items in the slots of a directory.
    slots: Vec<Option<usize>>,
}

/// A block to lay out: of an item, of its name, or free units.
#[derive(Clone, Copy, PartialEq, Eq)]
enum Piece {
    Object(usize),
    Name(usize),
    Free(usize),
    Super,
}

pub fn scatter(random: &mut Random, plan: &Plan) -> Vec<u8> {
    let mut items = grow(random, plan);
    if let Some(excess) = plan.excess {
        exceed(random, &mut items, excess);
    }
    let mut pieces = lay_out(random, &items);
    match plan.excess {
        Some(Excess::SecondSuper) => pieces.insert(random.below(pieces.len() + 1), Piece::Super),
        Some(Excess::LongImage) => lengthen(&items, &mut pieces),
        _ => (),
    }
    render(random, &items, &pieces)
}

/// A root with so many slots, all taken by small objects.
pub fn crowd(random: &mut Random, slots: usize) -> Vec<u8> {
    let root =
        Item { directory: true, extent: slots, depth: 0, name: Vec::new(), holder: 0, slots: Vec::new() };
    let mut items = vec![root];
    for index in 1..=slots {
        let directory = random.percent(20);
        let extent = random.within(1, 3);
        let held = if directory { vec![None; extent] } else { Vec::new() };
        let name = index.to_string().into_bytes();
        items.push(Item { directory, extent, depth: 1, name, holder: 0, slots: held });
    }
    let mut order: Vec<usize> = (1..=slots).collect();
    random.shuffle(&mut order);
    items[0].slots = order.into_iter().map(Some).collect();
    let pieces = lay_out(random, &items);
    render(random, &items, &pieces)
}

/// Puts one object over a bound.
fn exceed(random: &mut Random, items: &mut [Item], excess: Excess) {
    let file = (0..items.len()).find(|&item| !items[item].directory);
    let bare = |item: &Item| item.directory && item.slots.iter().all(Option::is_none);
    let empty = (0..items.len()).find(|&item| bare(&items[item]));
    let last = items.len() - 1;
    match (excess, file, empty) {
        (Excess::NoSlots, _, Some(item)) => resize(&mut items[item], 0),
        (Excess::ManySlots, _, _) => resize(&mut items[0], 1025),
        (Excess::LargeRoom, Some(item), _) => items[item].extent = random.within(65_537, 65_544),
        (Excess::LongName, _, _) if last > 0 => items[last].name = vec![b'n'; random.within(65, 72)],
        _ => (),
    }
}

fn resize(directory: &mut Item, slots: usize) {
    directory.extent = slots;
    directory.slots.resize(slots, None);
}

/// Free units behind all, until the image is one unit too long.
fn lengthen(items: &[Item], pieces: &mut Vec<Piece>) {
    if let Some(Piece::Free(_)) = pieces.last() {
        pieces.pop();
    }
    let taken: usize = pieces.iter().map(|&piece| units_of(items, piece)).sum();
    pieces.push(Piece::Free(LONGEST / UNIT + 1 - 2 - taken));
}

fn grow(random: &mut Random, plan: &Plan) -> Vec<Item> {
    let mut items = vec![directory(random, plan, 0, Vec::new(), 0)];
    for _ in 0..plan.objects {
        let Some(holder) = choose_holder(random, &items, plan) else {
            break;
        };
        let name = good_name(random);
        let mut held = items[holder].slots.iter().flatten();
        if held.any(|&item| items[item].name == name) {
            continue;
        }
        let depth = items[holder].depth + 1;
        let chance = if depth == plan.depth { 30 } else { 45 + plan.steep / 2 };
        let item = if random.percent(chance) {
            directory(random, plan, depth, name, holder)
        } else {
            let extent = random.below(plan.room + 1);
            Item { directory: false, extent, depth, name, holder, slots: Vec::new() }
        };
        let empty: Vec<usize> = empty_slots(&items[holder]);
        let slot = random.one(&empty);
        items[holder].slots[slot] = Some(items.len());
        items.push(item);
    }
    items
}

fn directory(random: &mut Random, plan: &Plan, depth: usize, name: Vec<u8>, holder: usize) -> Item {
    let extent = random.within(1, plan.slots);
    Item { directory: true, extent, depth, name, holder, slots: vec![None; extent] }
}

fn empty_slots(item: &Item) -> Vec<usize> {
    (0..item.slots.len()).filter(|&slot| item.slots[slot].is_none()).collect()
}

fn choose_holder(random: &mut Random, items: &[Item], plan: &Plan) -> Option<usize> {
    let fits = |&index: &usize| items[index].depth < plan.depth && !empty_slots(&items[index]).is_empty();
    let holders: Vec<usize> = (0..items.len()).filter(fits).collect();
    if random.percent(plan.steep) {
        return holders.into_iter().max_by_key(|&index| items[index].depth);
    }
    random.pick(&holders).copied()
}

/// All blocks in a random order, free ones among them, no two of those side by side.
fn lay_out(random: &mut Random, items: &[Item]) -> Vec<Piece> {
    let mut pieces: Vec<Piece> = (0..items.len()).map(Piece::Object).collect();
    pieces.extend((1..items.len()).map(Piece::Name));
    for _ in 0..random.below(2 + items.len()) {
        let units = if random.percent(80) { random.within(1, 6) } else { random.within(1, 30) };
        pieces.push(Piece::Free(units));
    }
    random.shuffle(&mut pieces);
    pieces.dedup_by(|a, b| matches!(a, Piece::Free(_)) && matches!(b, Piece::Free(_)));
    pieces
}

fn units_of(items: &[Item], piece: Piece) -> usize {
    match piece {
        Piece::Object(item) if items[item].directory => units(directory_size(items[item].extent)),
        Piece::Object(item) => units(file_size(items[item].extent)),
        Piece::Name(item) => units(items[item].name.len()),
        Piece::Free(units) => units,
        Piece::Super => 2,
    }
}

fn render(random: &mut Random, items: &[Item], pieces: &[Piece]) -> Vec<u8> {
    let mut at = vec![2 * UNIT];
    for &piece in pieces {
        at.push(at.last().unwrap() + units_of(items, piece) * UNIT);
    }
    let mut image = vec![0; at.pop().unwrap()];
    let ref_of = |wanted: Piece| {
        let index = pieces.iter().position(|&piece| piece == wanted).unwrap();
        (at[index] / UNIT) as u64
    };
    put_header(&mut image, 0, Kind::Super, 16);
    put64(&mut image, ROOT_REF, ref_of(Piece::Object(0)));
    let mut link = FIRST_FREE;
    for (&piece, &at) in pieces.iter().zip(&at) {
        match piece {
            Piece::Object(item) if items[item].directory => {
                put_directory(&mut image, at, &items[item], &ref_of);
            }
            Piece::Object(item) => put_file(random, &mut image, at, items[item].extent),
            Piece::Name(item) => put_name(&mut image, at, &items[item].name),
            Piece::Super => put_header(&mut image, at, Kind::Super, 16),
            Piece::Free(units) => {
                random.fill(&mut image[at..at + units * UNIT]);
                put_header(&mut image, at, Kind::Free, free_size(units));
                put64(&mut image, at + NEXT_FREE, 0);
                put64(&mut image, link, (at / UNIT) as u64);
                link = at + NEXT_FREE;
            }
        }
    }
    image
}

fn put_directory(image: &mut [u8], at: usize, item: &Item, ref_of: &dyn Fn(Piece) -> u64) {
    put_header(image, at, Kind::Directory, directory_size(item.extent));
    put64(image, at + PARENT, ref_of(Piece::Object(item.holder)));
    for (slot, held) in item.slots.iter().enumerate() {
        if let Some(held) = *held {
            put64(image, at + SLOTS + 16 * slot, ref_of(Piece::Name(held)));
            put64(image, at + SLOTS + 16 * slot + 8, ref_of(Piece::Object(held)));
        }
    }
}

/// A file with random bytes in all its room, some of them past its size.
fn put_file(random: &mut Random, image: &mut [u8], at: usize, room: usize) {
    put_header(image, at, Kind::File, file_size(room));
    let part = random.below(room + 1);
    let size = random.one(&[0, room, part]);
    put64(image, at + FILE_SIZE, size as u64);
    random.fill(&mut image[at + CONTENT..at + CONTENT + room]);
}

fn put_name(image: &mut [u8], at: usize, name: &[u8]) {
    put_header(image, at, Kind::Name, name.len());
    image[at + NAME_BYTES..at + NAME_BYTES + name.len()].copy_from_slice(name);
}

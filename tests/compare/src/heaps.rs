//! Cards of very many blocks, of very many empty slots, or of slots that all name one block, with the number and
//! the place that the check must answer.

use crate::builder::{Builder, ROOT};
use crate::call::Call;
use crate::compare::Bout;
use crate::coverage::Coverage;
use crate::model::layout::{LONGEST, UNIT};
use crate::model::marks::marks_needed;
use crate::model::Refusal;
use crate::pick::marks;
use crate::random::Random;

type Verdict = Result<(), String>;

/// What all slots name.
#[derive(Clone, Copy, PartialEq, Eq, Debug)]
enum Shared {
    Name,
    File,
    Directory,
    Root,
}

const SHARED: [Shared; 4] = [Shared::Name, Shared::File, Shared::Directory, Shared::Root];

/// How many slots name it; a count in one byte would come to 0 or 1 again.
const TIMES: [usize; 13] = [1, 2, 3, 255, 256, 257, 258, 512, 513, 1024, 1025, 2049, 20_000];
const SLOTS: usize = 1024;

/// The first ref behind a root of one slot.
const FIRST: u64 = 4;
/// The greatest depth of what holds something.
const DEEPEST: usize = 15;

/// Counts its calls apart, so that they do not hide what no history reaches.
pub fn run(seed: u64, coverage: &mut Coverage, tell: bool) -> Verdict {
    let mut random = Random::new(seed);
    let mut bout = Bout::new(coverage, tell);
    for (what, card, number, place) in heaps() {
        answers(&mut random, &mut bout, &card, Refusal { number, place })
            .map_err(|why| format!("{what}: {why}"))?;
    }
    for shared in SHARED {
        for times in TIMES {
            let (card, place) = named_often(shared, times);
            let sound = times == 1 && shared != Shared::Root;
            let wanted = if sound { 0.into() } else { Refusal { number: 24, place } };
            answers(&mut random, &mut bout, &card, wanted)
                .map_err(|why| format!("{shared:?} named {times} times: {why}"))?;
        }
    }
    Ok(())
}

/// The check, with and without marks, and another call.
fn answers(random: &mut Random, bout: &mut Bout, card: &[u8], wanted: Refusal) -> Verdict {
    bout.coverage.count_image(card.len());
    let needed = marks_needed(card.len());
    let root = Call::Find { path: b"/".to_vec() };
    for call in [Call::Check, marks(random, needed), marks(random, needed + 9), root] {
        let found = bout.step(&mut card.to_vec(), &call)?.refusal;
        if found != wanted {
            return Err(format!("{call}: {found}, not {wanted}"));
        }
    }
    Ok(())
}

/// Cards full of one kind of block: what they are, the card, and the number and place.
fn heaps() -> Vec<(&'static str, Vec<u8>, u8, u64)> {
    let own_parent = |builder: &mut Builder| builder.directory(1, builder.length() / UNIT);
    let (row, too_deep) = row_of_directories();
    vec![
        ("names in no slot", heap(|builder| builder.name(b"a")), 24, FIRST),
        ("files in no slot", heap(Builder::file), 24, FIRST),
        ("directories in no slot", heap(own_parent), 24, FIRST),
        ("free blocks side by side", heap(|builder| builder.free(1)), 28, 0),
        ("directories in each other", row, 25, too_deep),
        ("empty directories", empty_directories(), 0, 0),
    ]
}

/// The longest card, with such blocks from end to end.
fn heap<T>(put: impl Fn(&mut Builder) -> T) -> Vec<u8> {
    let mut builder = Builder::new(1);
    while builder.length() < LONGEST {
        put(&mut builder);
    }
    builder.close(LONGEST)
}

/// The longest card, each directory in the one before; and the ref of the first that is too deep.
fn row_of_directories() -> (Vec<u8>, u64) {
    let mut builder = Builder::new(1);
    let mut row = vec![ROOT];
    while builder.length() + 3 * UNIT <= LONGEST {
        let above = row[row.len() - 1];
        let directory = builder.directory(1, above);
        let name = builder.name(b"d");
        builder.hang(above, 0, name, directory);
        row.push(directory);
    }
    (builder.close(LONGEST), row[DEEPEST + 1] as u64)
}

/// A directory of 1,024 slots in a slot of the root.
fn put_holder(builder: &mut Builder, slot: usize) -> usize {
    let holder = builder.directory(SLOTS, ROOT);
    let name = builder.name(slot.to_string().as_bytes());
    builder.hang(ROOT, slot, name, holder);
    holder
}

/// The longest card, with as many directories of 1,024 slots as it can hold, all slots empty.
fn empty_directories() -> Vec<u8> {
    let count = LONGEST / UNIT / (SLOTS + 2);
    let mut builder = Builder::new(count);
    for slot in 0..count {
        put_holder(&mut builder, slot);
    }
    builder.close(LONGEST)
}

/// A card whose slots, but those of the root, all name one block, so many times; and its ref.
fn named_often(shared: Shared, times: usize) -> (Vec<u8>, u64) {
    let count = times.div_ceil(SLOTS);
    let mut builder = Builder::new(count);
    let mut holders = Vec::new();
    for slot in 0..count {
        holders.push(put_holder(&mut builder, slot));
    }
    let block = match shared {
        Shared::Name => builder.name(b"a"),
        Shared::File => builder.file(),
        Shared::Directory => builder.directory(1, holders[0]),
        Shared::Root => ROOT,
    };
    for index in 0..times {
        let (name, object) = match shared {
            Shared::Name => (block, builder.file()),
            _ => (builder.name(index.to_string().as_bytes()), block),
        };
        builder.hang(holders[index / SLOTS], index % SLOTS, name, object);
    }
    let length = builder.length();
    (builder.close(length), block as u64)
}

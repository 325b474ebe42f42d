//! Directories of names that are alike: with all of them different, and with two that are equal, or nearly so.

use crate::alike::{families, COUNT};
use crate::builder::{Builder, ROOT};
use crate::call::Call;
use crate::compare::Bout;
use crate::coverage::Coverage;
use crate::model::layout::UNIT;
use crate::model::marks::marks_needed;
use crate::model::name::join;
use crate::model::Refusal;
use crate::pick::marks;
use crate::random::Random;
use std::collections::HashSet;

type Verdict = Result<(), String>;
type Name = Vec<u8>;

/// Taken slots.
const CROWDS: [usize; 8] = [2, 3, 31, 32, 33, 255, 700, COUNT];

/// What a slot's name becomes, from that of another slot.
type Change = fn(&[u8]) -> Name;

const CHANGES: [(&str, Change); 4] =
    [("equal", <[u8]>::to_vec), ("longer", longer), ("shorter", shorter), ("another last byte", other_end)];

/// Counts its calls apart, so that they do not hide what no history reaches.
pub fn run(seed: u64, coverage: &mut Coverage, tell: bool) -> Verdict {
    let mut random = Random::new(seed);
    let mut bout = Bout::new(coverage, tell);
    for (title, names) in families() {
        for count in CROWDS {
            let names = some(&mut random, &names, count);
            crowd(&mut random, &mut bout, &names).map_err(|what| format!("{count} of {title}, {what}"))?;
        }
    }
    Ok(())
}

/// So many of these names, in any order.
fn some(random: &mut Random, names: &[Name], count: usize) -> Vec<Name> {
    let mut names = names.to_vec();
    random.shuffle(&mut names);
    names.truncate(count);
    names
}

/// The names as they are, and with each change of one after another, at the front, at the end and between.
fn crowd(random: &mut Random, bout: &mut Bout, names: &[Name]) -> Verdict {
    let last = names.len() - 1;
    visit(random, bout, [names, names], (0, last)).map_err(|what| format!("unchanged: {what}"))?;
    let any = random.below(last);
    let between = (any, random.within(any + 1, last));
    for (one, other) in [(0, 1), (last - 1, last), (0, last), (last, 0), between] {
        for (title, change) in CHANGES {
            let mut changed = names.to_vec();
            changed[other] = change(&names[one]);
            visit(random, bout, [names, &changed], (one, other))
                .map_err(|what| format!("names {one} and {other} {title}: {what}"))?;
        }
    }
    Ok(())
}

fn longer(name: &[u8]) -> Name {
    let mut name = name.to_vec();
    name.push(b'q');
    name.truncate(64);
    name
}

fn shorter(name: &[u8]) -> Name {
    name[..(name.len() - 1).max(1)].to_vec()
}

fn other_end(name: &[u8]) -> Name {
    let mut name = name.to_vec();
    let last = name.last_mut().unwrap();
    *last = if *last == b'q' { b'r' } else { b'q' };
    name
}

/// A card with the names in one directory and the changed ones in another: the check's answer, then calls that
/// speak of the two names.
fn visit(random: &mut Random, bout: &mut Bout, rows: [&[Name]; 2], pair: (usize, usize)) -> Verdict {
    let (mut image, reference) = card(random, rows);
    bout.coverage.count_image(image.len());
    let mut seen = HashSet::new();
    let differ = rows[1].iter().all(|name| seen.insert(name));
    let wanted = if differ { 0.into() } else { Refusal { number: 26, place: reference as u64 } };
    for call in [Call::Check, marks(random, marks_needed(image.len()))] {
        let found = bout.step(&mut image, &call)?.refusal;
        if found != wanted {
            return Err(format!("{call}: {found}, not {wanted}"));
        }
    }
    let (one, other) = (&rows[1][pair.0], &rows[1][pair.1]);
    calls(one, other).iter().try_for_each(|call| bout.step(&mut image, call).map(drop))
}

/// Finds both and a name near them, and makes them where they are and where one is gone.
fn calls(one: &[u8], other: &[u8]) -> Vec<Call> {
    let (one, other, near) = (path(one), path(other), path(&longer(one)));
    vec![
        Call::Find { path: one.clone() },
        Call::Find { path: other.clone() },
        Call::Find { path: near.clone() },
        Call::MakeFile { path: other.clone(), room: 0 },
        Call::Remove { path: one.clone() },
        Call::Find { path: other.clone() },
        Call::MakeFile { path: other, room: 0 },
        Call::MakeFile { path: near, room: 0 },
        Call::MakeDirectory { path: one, slots: 1 },
    ]
}

/// The path of a changed name.
fn path(name: &[u8]) -> Vec<u8> {
    join(&[b"changed".to_vec(), name.to_vec()])
}

/// The card, and the ref of the directory with the changed names. Either directory may come first.
fn card(random: &mut Random, [names, changed]: [&[Name]; 2]) -> (Vec<u8>, usize) {
    let mut builder = Builder::new(2);
    let mut rows: [(&str, &[Name]); 2] = [("as they were", names), ("changed", changed)];
    random.shuffle(&mut rows);
    let mut reference = 0;
    for (slot, (title, row)) in rows.into_iter().enumerate() {
        let directory = put_directory(random, &mut builder, row);
        let name = builder.name(title.as_bytes());
        builder.hang(ROOT, slot, name, directory);
        if title == "changed" {
            reference = directory;
        }
    }
    let length = builder.length() + UNIT * random.below(4);
    (builder.close(length), reference)
}

/// A directory with these names in this order, often with empty slots between them.
fn put_directory(random: &mut Random, builder: &mut Builder, names: &[Name]) -> usize {
    let most = (2 * names.len()).min(COUNT);
    let slots = random.one(&[names.len(), most]);
    let mut taken: Vec<usize> = (0..slots).collect();
    random.shuffle(&mut taken);
    taken.truncate(names.len());
    taken.sort();
    let directory = builder.directory(slots, ROOT);
    for (slot, name) in taken.into_iter().zip(names) {
        let file = builder.file();
        let name = builder.name(name);
        builder.hang(directory, slot, name, file);
    }
    directory
}

//! Cards with as many files as they can hold, up to the longest: calls on them, and on copies with a damage for
//! each rule.

use crate::builder::{Builder, ROOT};
use crate::call::Call;
use crate::compare::Bout;
use crate::coverage::Coverage;
use crate::damage::damage_of;
use crate::history::{listings, markings, sound, torture};
use crate::model::check::broken_rule;
use crate::model::layout::{LONGEST, UNIT};
use crate::model::marks::marks_needed;
use crate::pick::{any_call, lend, marks, MOODS};
use crate::random::Random;
use crate::scene::Scene;
use crate::story::Story;

type Verdict = Result<(), String>;

/// How the files stand in the directories.
#[derive(Clone, Copy, PartialEq, Eq, Debug)]
enum Style {
    Ordered,
    /// In any directory and slot.
    Shuffled,
    /// A free block in place of every other file.
    Holed,
    /// Directories in each other, down to depth 15.
    Nested,
}

const STYLES: [Style; 4] = [Style::Ordered, Style::Shuffled, Style::Holed, Style::Nested];
const LENGTHS: [usize; 3] = [65_536, 262_144, LONGEST];
const SLOTS: usize = 1024;
/// Directories in a row from the root down, where they are nested.
const ROW: usize = 15;
/// Units of a file of room 0 and of its name.
const PAIR: usize = 3;
/// Damages for each rule.
const DAMAGES: usize = 3;
/// Random calls on each card.
const STEPS: usize = 40;

/// Counts its calls apart, so that they do not hide what no history reaches.
pub fn run(seed: u64, coverage: &mut Coverage, tell: bool) -> Verdict {
    for length in LENGTHS {
        for style in STYLES {
            let mut random = Random::new(seed ^ length as u64);
            let mut bout = Bout::new(coverage, tell);
            let image = card(&mut random, length, style);
            visit(&mut random, &mut bout, image).map_err(|what| format!("{style:?}, {what}"))?;
        }
    }
    Ok(())
}

/// A card of this length with as many files of room 0 as it can hold, in directories of 1,024 slots.
fn card(random: &mut Random, length: usize, style: Style) -> Vec<u8> {
    let count = (length / UNIT).div_ceil(SLOTS * (PAIR + 1));
    let mut builder = Builder::new(count);
    let mut places = Vec::new();
    let mut above = ROOT;
    for index in 0..count {
        let inside = style == Style::Nested && index % ROW > 0;
        let holder = if inside { above } else { ROOT };
        let directory = builder.directory(SLOTS, holder);
        let name = builder.name(format!("d{index}").as_bytes());
        builder.hang(holder, if inside { 0 } else { index }, name, directory);
        let first = usize::from(style == Style::Nested);
        places.extend((first..SLOTS).map(|slot| (directory, slot)));
        above = directory;
    }
    if style == Style::Shuffled {
        random.shuffle(&mut places);
    }
    fill(&mut builder, length, style, &places);
    builder.close(length)
}

/// A file in each place, or in every other, as long as there is room.
fn fill(builder: &mut Builder, length: usize, style: Style, places: &[(usize, usize)]) {
    for (index, &(directory, slot)) in places.iter().enumerate() {
        if builder.length() + PAIR * UNIT > length {
            return;
        }
        if style == Style::Holed && index % 2 == 1 {
            builder.free(PAIR);
            continue;
        }
        let file = builder.file();
        let name = builder.name(format!("file{slot:04}").as_bytes());
        builder.hang(directory, slot, name, file);
    }
}

/// Every kind of call, damaged copies, and a row of random calls.
fn visit(random: &mut Random, bout: &mut Bout, image: Vec<u8>) -> Verdict {
    let image = sound(image)?;
    bout.coverage.count_image(image.len());
    let scene = Scene::of(&image);
    for call in calls(random, &scene, image.len()) {
        bout.step(&mut image.clone(), &call)?;
    }
    for rule in 1..=8 {
        for _ in 0..DAMAGES {
            let damaged = broken(random, &image, &scene, rule);
            torture(random, bout, &damaged, &scene, 3)?;
        }
    }
    let mut story = Story::found(image);
    remake(bout, &mut story, &scene)?;
    roam(random, bout, story)
}

/// A copy with one damage, which breaks this rule first where a few trials find one that does.
fn broken(random: &mut Random, image: &[u8], scene: &Scene, rule: u8) -> Vec<u8> {
    let mut damaged = Vec::new();
    for _ in 0..20 {
        damaged = image.to_vec();
        damage_of(random, &mut damaged, scene, rule);
        if broken_rule(&damaged) == rule {
            break;
        }
    }
    damaged
}

/// Paths of the first file, the last, and one between.
fn some_paths(scene: &Scene) -> Vec<Vec<u8>> {
    let files = scene.files();
    [0, files.len() / 2, files.len() - 1].map(|index| files[index].path()).to_vec()
}

/// Every kind of call, with arguments that it mostly accepts, and some that it does not.
fn calls(random: &mut Random, scene: &Scene, length: usize) -> Vec<Call> {
    let new = b"/d0/new".to_vec();
    let mut calls = vec![
        Call::Check,
        Call::Format { slots: 1024 },
        Call::MakeDirectory { path: b"/new".to_vec(), slots: 1 },
        Call::MakeDirectory { path: new.clone(), slots: 1024 },
        Call::MakeFile { path: new.clone(), room: 65_536 },
        Call::Find { path: new },
    ];
    for path in some_paths(scene) {
        calls.extend([
            Call::Find { path: path.clone() },
            Call::MakeFile { path: path.clone(), room: 0 },
            Call::MakeFile { path: [&path[..], b"x"].concat(), room: 0 },
            Call::Read { path: path.clone(), position: 0, buffer: vec![7; 9] },
            Call::ReadPoint { path: path.clone(), number: 1 },
            Call::Write { path: path.clone(), position: 0, bytes: Vec::new() },
            Call::Write { path: path.clone(), position: 0, bytes: vec![7] },
            Call::SetLength { path: path.clone(), length: 0 },
            Call::Remove { path },
        ]);
    }
    let (lines, needed) = (scene.things.len(), marks_needed(length));
    for (lines, count) in [(lines - 1, needed - 1), (lines, needed), (lines + 2, needed + 20)] {
        calls.extend([lend(random, lines), marks(random, count)]);
    }
    calls
}

/// Removes some files and makes others in their place, of them one that has a point.
fn remake(bout: &mut Bout, story: &mut Story, scene: &Scene) -> Verdict {
    let paths = some_paths(scene);
    for path in &paths {
        story.step(bout, &Call::Remove { path: path.clone() })?;
    }
    let path = &paths[0];
    story.step(bout, &Call::MakeFile { path: path.clone(), room: 24 })?;
    story.step(bout, &Call::Write { path: path.clone(), position: 3, bytes: vec![7; 15] })?;
    story.step(bout, &Call::ReadPoint { path: path.clone(), number: 1 })?;
    for (path, room) in paths[1..].iter().zip([0, 65]) {
        story.step(bout, &Call::MakeFile { path: [&path[..], b"x"].concat(), room })?;
        story.step(bout, &Call::MakeFile { path: path.clone(), room })?;
    }
    Ok(())
}

/// Random calls one after the other; format, which would empty the card, on a copy.
fn roam(random: &mut Random, bout: &mut Bout, mut story: Story) -> Verdict {
    for _ in 0..STEPS {
        let mood = random.one(&MOODS);
        match any_call(random, &Scene::of(&story.image), story.image.len(), mood) {
            format @ Call::Format { .. } => bout.step(&mut story.image.clone(), &format)?,
            call => story.step(bout, &call)?,
        };
    }
    markings(random, bout, &story.image)?;
    listings(random, bout, &mut story.image)?;
    story.end(bout)
}

#[test]
fn cards_are_full() {
    for (length, files) in [(65_536, 1022), (262_144, 3 * SLOTS + 1019), (LONGEST, 16_367)] {
        let scene = Scene::of(&card(&mut Random::new(1), length, Style::Ordered));
        assert_eq!((scene.files().len(), scene.free.len()), (files, 0));
    }
}

//! One random history: an image, and a row of calls, foreign bytes and damage.

use crate::call::{Call, CALLS};
use crate::compare::Bout;
use crate::coverage::Coverage;
use crate::damage::damage;
use crate::foreign::scribble;
use crate::model::check::{allowed_length, broken_rule};
use crate::model::layout::LONGEST;
use crate::model::marks::marks_needed;
use crate::pick::{any_call, call, check_marked, lend, marks, Mood, MOODS};
use crate::random::Random;
use crate::scatter::{crowd, scatter, Plan, EXCESSES};
use crate::scene::Scene;
use crate::story::Story;

type Verdict = Result<(), String>;

/// Runs the history of this seed; an error tells what differs.
pub fn run(seed: u64, coverage: &mut Coverage, tell: bool) -> Verdict {
    let mut random = Random::new(seed);
    let mut bout = Bout::new(coverage, tell);
    match random.below(100) {
        0..=9 => awkward(&mut random, &mut bout),
        10..=61 => formatted(&mut random, &mut bout),
        62..=87 => scattered(&mut random, &mut bout),
        88..=91 => deep(&mut random, &mut bout),
        92..=96 => exceeding(&mut random, &mut bout),
        _ => large(&mut random, &mut bout),
    }
}

/// Any length, any bytes: what is no image, and format on it.
fn awkward(random: &mut Random, bout: &mut Bout) -> Verdict {
    let length = match random.below(12) {
        0 => random.below(64),
        1 => random.one(&[0, 1, 15, 16, 47, 48, 63]),
        2..=3 => random.one(&[64, 65, 79, 80, 81, 96]),
        4..=6 => random.within(64, 600),
        7..=10 => 16 * random.within(4, 40),
        _ if random.percent(10) => LONGEST + random.one(&[1, 15, 16, 64]),
        _ => 16 * random.within(4, 12) + random.one(&[1, 8, 15]),
    };
    let mut story = Story::blank(if random.percent(60) { random.bytes(length) } else { vec![0; length] });
    bout.coverage.count_image(length);
    bout.coverage.bad_lengths += u64::from(!allowed_length(length));
    let count = if length > 4096 { 3 } else { 12 };
    for _ in 0..count {
        let index = random.below(CALLS.len());
        let call = call(random, &Scene::of(&story.image), length, Mood::Working, index);
        story.step(bout, &call)?;
    }
    markings(random, bout, &story.image)?;
    story.end(bout)
}

/// A formatted image and a row of calls.
fn formatted(random: &mut Random, bout: &mut Bout) -> Verdict {
    let units = match random.below(20) {
        0..=3 => random.within(4, 16),
        4..=11 => random.within(12, 50),
        12..=17 => random.within(40, 120),
        _ => random.within(100, 300),
    };
    let mut story = Story::blank(random.bytes(16 * units));
    bout.coverage.count_image(16 * units);
    let slots = if random.percent(70) { random.within(1, 4) } else { random.within(1, units - 3) };
    story.step(bout, &Call::Format { slots: slots.min(units - 3) as u64 })?;
    let steps = random.within(30, 150);
    live(random, bout, story, steps)
}

/// An image of blocks in any order.
fn scattered(random: &mut Random, bout: &mut Bout) -> Verdict {
    let plan = Plan {
        objects: random.one(&[1, 3, 6, 10, 16]),
        depth: 16,
        steep: random.one(&[0, 30, 80]),
        room: random.one(&[0, 20, 60, 200]),
        slots: random.one(&[1, 2, 4, 9]),
        excess: None,
    };
    let story = laid_out(bout, scatter(random, &plan))?;
    bout.coverage.count_image(story.image.len());
    let steps = random.within(20, 80);
    live(random, bout, story, steps)
}

/// A scattered image that must be well formed.
fn laid_out(bout: &mut Bout, image: Vec<u8>) -> Result<Story, String> {
    bout.coverage.scattered += 1;
    sound(image).map(Story::found)
}

/// An image that must be well formed, though no call made it.
pub fn sound(image: Vec<u8>) -> Result<Vec<u8>, String> {
    match broken_rule(&image) {
        0 => Ok(image),
        rule => Err(format!("an image that was laid out breaks rule {rule}")),
    }
}

/// Directories down to the depth that is allowed, and past it.
fn deep(random: &mut Random, bout: &mut Bout) -> Verdict {
    let depth = random.one(&[15, 16, 16, 17, 18]);
    let plan = Plan { objects: 24, depth, steep: 92, room: 20, slots: random.one(&[1, 2, 2]), excess: None };
    if depth > 16 {
        return (0..6).try_for_each(|_| too_deep(random, bout, &plan));
    }
    let story = laid_out(bout, scatter(random, &plan))?;
    bout.coverage.count_image(story.image.len());
    live(random, bout, story, 25)
}

/// An image of this plan, which is deeper than is allowed.
fn too_deep(random: &mut Random, bout: &mut Bout, plan: &Plan) -> Verdict {
    let image = scatter(random, plan);
    bout.coverage.count_image(image.len());
    bout.coverage.count_damaged(broken_rule(&image));
    torture(random, bout, &image, &Scene::default(), 3)
}

/// Images with one thing over a bound of rule 1.
fn exceeding(random: &mut Random, bout: &mut Bout) -> Verdict {
    let excess = Some(EXCESSES[random.weighted(&[8, 3, 2, 4, 6, 1])]);
    let plan = Plan { objects: random.within(3, 9), depth: 4, steep: 20, room: 40, slots: 4, excess };
    let image = scatter(random, &plan);
    bout.coverage.count_image(image.len());
    bout.coverage.count_damaged(broken_rule(&image));
    torture(random, bout, &image, &Scene::default(), 6)
}

/// Large images with few blocks, or many.
fn large(random: &mut Random, bout: &mut Bout) -> Verdict {
    let mut story;
    if random.percent(40) {
        let plan = Plan {
            objects: random.within(30, 160),
            depth: 16,
            steep: 10,
            room: 150,
            slots: 20,
            excess: None,
        };
        story = laid_out(bout, scatter(random, &plan))?;
    } else if random.percent(30) {
        let slots = random.one(&[100, 255, 256, 1023, 1024]);
        story = laid_out(bout, crowd(random, slots))?;
    } else {
        let whole = random.within(4096, LONGEST / 16);
        let length = random.one(&[16 * whole, LONGEST, 65_536, 131_072, 131_072 + 16 * 300]);
        story = Story::blank(vec![random.byte(); length]);
        let slots = random.one(&[2, 8, 30, 400, 1024]);
        story.step(bout, &Call::Format { slots })?;
        big_file(random, bout, &mut story)?;
    }
    bout.coverage.count_image(story.image.len());
    live(random, bout, story, 40)
}

/// A file of the greatest room, its last bytes and its last point.
fn big_file(random: &mut Random, bout: &mut Bout, story: &mut Story) -> Verdict {
    let path = b"/big".to_vec();
    story.step(bout, &Call::MakeFile { path: path.clone(), room: 65_536 })?;
    let bytes = random.bytes(65_536);
    story.step(bout, &Call::Write { path: path.clone(), position: 0, bytes })?;
    story.step(bout, &Call::ReadPoint { path: path.clone(), number: 4096 })?;
    let position = random.one(&[65_536, 65_537, 65_535, 131_072, 1 << 32]);
    story.step(bout, &Call::Read { path: path.clone(), position, buffer: random.bytes(20) })?;
    let length = random.one(&[65_535, 65_536, 65_537, 65_520]);
    story.step(bout, &Call::SetLength { path: path.clone(), length })?;
    story.step(bout, &Call::ReadPoint { path, number: 4096 })?;
    Ok(())
}

/// Calls on a well-formed image, with foreign bytes and damaged copies between them.
fn live(random: &mut Random, bout: &mut Bout, mut story: Story, steps: usize) -> Verdict {
    let mut mood = Mood::Filling;
    for _ in 0..steps {
        let scene = Scene::of(&story.image);
        if random.percent(8) {
            mood = random.one(&MOODS);
        }
        if mood == Mood::Working && scene.files().is_empty() {
            mood = Mood::Filling;
        }
        bout.coverage.count_scene(scene.depth(), scene.free.len(), scene.things.len());
        match random.below(100) {
            0..=79 => {
                let call = any_call(random, &scene, story.image.len(), mood);
                story.step(bout, &call)?;
            }
            80..=89 => meddle(random, bout, &mut story, &scene),
            _ => {
                let mut damaged = story.image.clone();
                damage(random, &mut damaged, &scene);
                bout.coverage.count_damaged(broken_rule(&damaged));
                torture(random, bout, &damaged, &scene, 3)?;
            }
        }
    }
    story.step(bout, &Call::Check)?;
    markings(random, bout, &story.image)?;
    listings(random, bout, &mut story.image)?;
    story.end(bout)
}

/// Foreign bytes. The book stays where they are in no file; so what stands there must never show.
fn meddle(random: &mut Random, bout: &mut Bout, story: &mut Story, scene: &Scene) {
    if scribble(random, &mut story.image, scene) {
        story.reread();
    }
    bout.coverage.foreign += 1;
}

/// Checks with one mark too few, just enough, and more.
pub fn markings(random: &mut Random, bout: &mut Bout, image: &[u8]) -> Verdict {
    let needed = marks_needed(image.len());
    let more = needed + random.within(1, 40);
    for count in [needed.saturating_sub(1), needed, more] {
        bout.step(&mut image.to_vec(), &marks(random, count))?;
    }
    Ok(())
}

/// Listings into no lines, one too few, just enough, and more.
pub fn listings(random: &mut Random, bout: &mut Bout, image: &mut [u8]) -> Verdict {
    let count = Scene::of(image).things.len();
    let more = count + random.within(1, 5);
    for lines in [0, count.saturating_sub(1), count, more] {
        bout.step(image, &lend(random, lines))?;
    }
    Ok(())
}

/// Checks, a listing with lines to spare, and some other calls, each on a fresh copy of a damaged image.
pub fn torture(random: &mut Random, bout: &mut Bout, damaged: &[u8], scene: &Scene, count: usize) -> Verdict {
    bout.step(&mut damaged.to_vec(), &Call::Check)?;
    bout.step(&mut damaged.to_vec(), &check_marked(random, damaged.len()))?;
    bout.step(&mut damaged.to_vec(), &lend(random, scene.things.len() + 25))?;
    for _ in 0..count {
        let index = random.below(CALLS.len());
        let call = call(random, scene, damaged.len(), Mood::Working, index);
        bout.step(&mut damaged.to_vec(), &call)?;
    }
    Ok(())
}

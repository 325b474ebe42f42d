//! Whether the stores agree, and the lean check with them: every number, place, byte and mark, on damaged
//! cards, in histories of calls and on cards of gaps. The seed is fixed.

mod act;
mod damage;
mod random;
mod spelling;

use crate::builder::Builder;
use crate::job::{check, Call, Job, CALLS};
use crate::lean::Lean;
use crate::ours::Ours;
use crate::plain::Plain;
use crate::scene::Scene;
use act::{Act, Outcome};
use random::Random;

/// So many damaged cards, unless told otherwise.
pub const CARDS: usize = 20_000;
/// Calls in a history; after each of them a damaged copy of the card is looked at too.
const CALLS_EACH: usize = 60;
/// So many cards of gaps, and gaps on each.
const GAPPED: usize = 50;
const GAPS: usize = 40;

/// How often each number was answered.
struct Tally {
    calls: usize,
    numbers: [usize; 32],
}

/// The call on all stores that have it; tells whether it was accepted. Panics where they differ.
fn all(act: &Act, image: &mut [u8], tally: &mut Tally) -> bool {
    let before = image.to_vec();
    let mut other = image.to_vec();
    let our: Outcome = act.apply::<Ours>(image);
    let plain: Outcome = act.apply::<Plain>(&mut other);
    assert!(our == plain, "{act:?} on {before:02x?}:\nours {our:?}\nplain {plain:?}");
    assert!(*image == other, "{act:?} on {before:02x?} leaves\nours {image:02x?}\nplain {other:02x?}");
    if let Some(lean) = act.apply_check::<Lean>(&before) {
        assert!(our == lean, "{act:?} on {before:02x?}:\nours {our:?}\nlean {lean:?}");
    }
    let number = our.answer.map_or_else(|refusal| refusal.number, |_| 0);
    tally.calls += 1;
    tally.numbers[usize::from(number)] += 1;
    number == 0
}

/// Both checks of an image.
fn checks(image: &mut [u8], tally: &mut Tally) {
    let marks = image.len() / 16 + 3;
    all(&Act::Check, image, tally);
    all(&Act::CheckMarked { marks }, image, tally);
}

/// A history of calls from a new card, each image on the way damaged too.
fn history(random: &mut Random, damaged: &mut usize, tally: &mut Tally) {
    let small = 64 + 16 * random.below(60);
    let length = random.one(&[small, small, small, small, 64, 256, 2048, 4096, 16_384, 66_000 / 16 * 16, 40]);
    let mut image = vec![0xee; length];
    let slots = random.one(&[1, 2, 3, 3, 5, 0, 1024, 1025]);
    if !all(&Act::Format { slots }, &mut image, tally) {
        return;
    }
    let mut paths = vec![Vec::new()];
    for _ in 0..CALLS_EACH {
        let act = act::any(random, &paths, image.len());
        let accepted = all(&act, &mut image, tally);
        match act {
            Act::MakeDirectory { path, .. } | Act::MakeFile { path, .. } if accepted => paths.push(path),
            Act::Remove { path } if accepted => paths.retain(|known| *known != path),
            _ => {}
        }
        if accepted {
            checks(&mut image, tally);
        }
        if length < 20_000 {
            let mut spoilt = image.clone();
            damage::damage(random, &mut spoilt);
            checks(&mut spoilt, tally);
            all(&act::any(random, &paths, spoilt.len()), &mut spoilt, tally);
            *damaged += 1;
        }
    }
}

/// The checks of cards with directories in each other, about as deep as they may be, the last empty or not.
fn deep(tally: &mut Tally) {
    for (depth, files) in (14..=18).flat_map(|depth| [(depth, 0), (depth, 1)]) {
        let (mut builder, mut here) = Builder::new(2048, 1);
        for _ in 0..depth {
            here = builder.directory(&mut here, "down", 1);
        }
        for _ in 0..files {
            builder.file(&mut here, "sole", 0, 0);
        }
        checks(&mut builder.finish(), tally);
    }
}

/// Makes of all sizes on a card of many gaps, equal ones among them, until there is no room.
fn gapped(random: &mut Random, tally: &mut Tally) {
    let (mut builder, mut root) = Builder::new(16_384, 300);
    for index in 0..GAPS {
        builder.gap(1 + random.below(12));
        builder.file(&mut root, &format!("post{index}"), 0, 0);
    }
    let mut image = builder.finish();
    let mut made = 0;
    loop {
        let letters = 3 + random.below(62);
        let (path, room) = (format!("/{made:0letters$}").into_bytes(), random.below(160) as u64);
        if !all(&Act::MakeFile { path, room }, &mut image, tally) {
            return;
        }
        made += 1;
    }
}

/// Compares the stores on so many damaged cards, in the histories that they come from, and on cards of gaps.
pub fn agree(cards: usize) {
    let mut random = Random::new(1);
    let mut tally = Tally { calls: 0, numbers: [0; 32] };
    let (mut damaged, mut histories) = (0, 0);
    deep(&mut tally);
    while damaged < cards {
        history(&mut random, &mut damaged, &mut tally);
        histories += 1;
    }
    (0..GAPPED).for_each(|_| gapped(&mut random, &mut tally));
    print!("agree {damaged} damaged cards, {histories} histories, {GAPPED} cards of gaps,");
    println!(" {} calls, no difference", tally.calls);
    let answered = tally.numbers.iter().enumerate().filter(|(_, times)| **times > 0);
    let shown: Vec<String> = answered.map(|(number, times)| format!("{number}: {times}")).collect();
    println!("agree answers {}", shown.join(", "));
}

/// Compares the calls that are measured on a card. A call and what undoes it leave the card as it was.
pub fn same_calls(scene: &Scene) {
    let (mut our, mut plain) = (Job::<Ours>::new(scene), Job::<Plain>::new(scene));
    let (mut image, mut other) = (scene.image.clone(), scene.image.clone());
    for call in CALLS.into_iter().filter(|call| !call.comes_second()) {
        for call in std::iter::once(call).chain(call.undone_by()) {
            let answer = our.act(call, &mut image);
            assert!(answer.is_ok(), "{} on card {}: {answer:?}", call.name(), scene.name);
            assert_eq!(answer, plain.act(call, &mut other));
            assert!(image == other && our.marks == plain.marks);
            assert!(our.buffer == plain.buffer && our.numbers == plain.numbers);
        }
        if matches!(call, Call::Check | Call::CheckMarked) {
            let mut marks = vec![0; our.marks.len()];
            assert!(check::<Lean>(call, &image, &mut marks) == Ok(0) && marks == our.marks);
        }
        assert!(image == scene.image, "{} on card {} is not undone", call.name(), scene.name);
    }
}

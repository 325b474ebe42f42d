//! One call on a card, for a tool that counts the instructions of the function around it.

use crate::job::{check, Call, Job, CALLS};
use crate::lean::Lean;
use crate::ours::Ours;
use crate::plain::Plain;
use crate::scene::{cards, Scene};
use crate::store::Answer;

/// The call that is counted runs in here, once; the tool knows this function by its name.
#[no_mangle]
#[inline(never)]
pub fn measured_call(call: &mut dyn FnMut()) {
    call();
}

/// Builds the card, makes the call once to warm up, and once more in the function that is measured.
pub fn count(call: &str, card: &str, store: &str) {
    let call = CALLS.into_iter().find(|known| known.name() == call).expect("no such call");
    let cards = cards();
    let scene = cards.iter().find(|scene| scene.name == card).expect("no such card");
    let (mut our, mut plain) = (Job::<Ours>::new(scene), Job::<Plain>::new(scene));
    let mut marks = vec![0; scene.image.len() / 16];
    match store {
        "ours" => once(scene, call, |call, image| our.act(call, image)),
        "plain" => once(scene, call, |call, image| plain.act(call, image)),
        "lean" => once(scene, call, |call, image| check::<Lean>(call, image, &mut marks)),
        _ => panic!("ours, plain or lean"),
    }
}

fn once(scene: &Scene, call: Call, mut act: impl FnMut(Call, &mut [u8]) -> Answer<u64>) {
    let mut image = scene.image.clone();
    let mut act = |call| assert!(act(call, &mut image).is_ok());
    let undo = call.undone_by();
    if call.comes_second() {
        undo.into_iter().for_each(&mut act);
    }
    act(call);
    undo.into_iter().for_each(&mut act);
    measured_call(&mut || act(call));
}

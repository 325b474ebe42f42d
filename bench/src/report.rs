//! What is printed: the ratios, the growth, and whether the targets are met.

use crate::job::{Call, CALLS};
use crate::measure::{lean, least, ours, plain};
use crate::scene::{cards, growing, Scene};

const RATIO: f64 = 1.3;
const LIST_RATIO: f64 = 1.5;
const GROWTH: f64 = 1.3;
/// The check with lent marks is to take no longer than the other; so much is left to noise.
const MARKED: f64 = 1.05;

/// The cards that the targets of ratio are for.
const UNDER_TARGETS: [&str; 4] = ["a", "b", "c", "d"];
/// The cards of long names, which no target is for.
const LONG_NAMES: [&str; 2] = ["g", "h"];

/// A target: numbers that are to be no higher than its limit.
struct Target {
    what: &'static str,
    limit: f64,
    missed: Vec<String>,
}

impl Target {
    fn new(what: &'static str, limit: f64) -> Target {
        Target { what, limit, missed: Vec::new() }
    }

    fn note(&mut self, of: String, number: f64) {
        if number > self.limit {
            self.missed.push(format!("{of} {number:.2}"));
        }
    }

    fn show(&self) {
        let (what, limit) = (self.what, self.limit);
        match self.missed[..] {
            [] => println!("target {what} at most {limit:.2} met"),
            _ => println!("target {what} at most {limit:.2} missed: {}", self.missed.join(", ")),
        }
    }
}

/// Nanoseconds in a unit that suits them.
fn shown(time: f64) -> String {
    match time {
        1e6.. => format!("{:.3} ms", time / 1e6),
        1e3.. => format!("{:.3} us", time / 1e3),
        _ => format!("{time:.1} ns"),
    }
}

/// The times of our store and the plain one for each call on a card.
fn compared(scene: &Scene) -> Vec<(Call, f64, f64)> {
    let mut rows = Vec::new();
    for call in scene.calls.iter().copied().filter(|call| !call.comes_second()) {
        let [our, other] = least([ours(scene, call), plain(scene, call)]);
        rows.push((call, our[0], other[0]));
        rows.extend(call.undone_by().map(|undo| (undo, our[1], other[1])));
    }
    rows.sort_by_key(|row| CALLS.iter().position(|call| *call == row.0));
    rows
}

/// Prints how two times, each with a word for it, compare; tells the ratio.
fn show(what: &str, scene: &Scene, [(one, over), (other, under)]: [(&str, f64); 2]) -> f64 {
    let (number, over, card) = (over / under, shown(over), scene.name);
    println!("ratio {what} {card} {number:.2}   ({one} {over}, {other} {})", shown(under));
    number
}

fn ratios(scene: &Scene, ratio: &mut Target, list: &mut Target) {
    for (call, our, other) in compared(scene) {
        let number = show(call.name(), scene, [("ours", our), ("plain", other)]);
        let target = if call == Call::List { &mut *list } else { &mut *ratio };
        if UNDER_TARGETS.contains(&scene.name) {
            target.note(format!("{} {}", call.name(), scene.name), number);
        }
    }
}

/// Beside the lean check, which is no target.
fn lean_ratio(scene: &Scene) {
    let [[our, _], [other, _]] = least([ours(scene, Call::Check), lean(scene, Call::Check)]);
    show("check/lean", scene, [("ours", our), ("lean", other)]);
}

fn marked_ratio(scene: &Scene, target: &mut Target) {
    let [[marked, _], [check, _]] = least([ours(scene, Call::CheckMarked), ours(scene, Call::Check)]);
    let number = show("check_marked/check", scene, [("marked", marked), ("check", check)]);
    if !LONG_NAMES.contains(&scene.name) {
        target.note(scene.name.to_string(), number);
    }
}

/// How the time for a unit grows from the smallest of the full cards to the largest.
fn growth(scenes: &[Scene; 3], target: &mut Target) {
    let mut rows = Vec::new();
    for call in CALLS.into_iter().filter(|call| !call.comes_second()) {
        let times = least(scenes.each_ref().map(|scene| ours(scene, call)));
        rows.push((call, times.map(|both| both[0])));
        rows.extend(call.undone_by().map(|undo| (undo, times.map(|both| both[1]))));
    }
    rows.sort_by_key(|row| CALLS.iter().position(|call| *call == row.0));
    let [small, _, large] = scenes.each_ref().map(|scene| scene.image.len() as f64);
    for (call, times) in rows {
        let number = times[2] / large / (times[0] / small);
        let beside: Vec<String> =
            scenes.iter().zip(times).map(|(scene, time)| format!("{} {}", scene.name, shown(time))).collect();
        println!("growth {} {number:.2}   ({})", call.name(), beside.join(", "));
        target.note(call.name().to_string(), number);
    }
}

/// Measures all and prints it, the targets last.
pub fn report() {
    let mut ratio = Target::new("ratio", RATIO);
    let mut list = Target::new("ratio of list", LIST_RATIO);
    let mut grown = Target::new("growth", GROWTH);
    let mut marked = Target::new("check_marked/check", MARKED);
    let scenes = cards();
    scenes.iter().for_each(|scene| ratios(scene, &mut ratio, &mut list));
    scenes.iter().for_each(lean_ratio);
    scenes.iter().for_each(|scene| marked_ratio(scene, &mut marked));
    growth(&growing(), &mut grown);
    [ratio, list, grown, marked].iter().for_each(Target::show);
    println!("no target for cards e to h, nor for check/lean");
}

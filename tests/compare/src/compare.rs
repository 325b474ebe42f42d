//! One call on the model and on the library, and what differs.

use crate::call::{on_model, Call, Outcome};
use crate::coverage::Coverage;
use crate::library::Card;
use crate::model::check::broken_rule;
use crate::model::layout::{get64, FIRST_FREE};
use crate::model::list::{FIELDS, LINE};
use crate::model::marks::marks_needed;

/// Runs calls on both, and counts them.
pub struct Bout<'a> {
    pub coverage: &'a mut Coverage,
    /// Calls of this history so far.
    calls: u64,
    /// Print each call before it is made, to find one that does not come back.
    tell: bool,
}

impl<'a> Bout<'a> {
    pub fn new(coverage: &'a mut Coverage, tell: bool) -> Bout<'a> {
        Bout { coverage, calls: 0, tell }
    }

    /// Changes the image as the model does, and tells what the library answers; an error tells the call and the
    /// difference.
    pub fn step(&mut self, image: &mut [u8], call: &Call) -> Result<Outcome, String> {
        self.calls += 1;
        if self.tell {
            println!("call {}, {call}", self.calls);
        }
        let before = image.to_vec();
        let wanted = on_model(image, call);
        self.coverage.count_call(call.index(), wanted.refusal);
        match call {
            Call::List { lent } => self.count_list(image, lent.len(), &wanted),
            Call::CheckMarked { marks } => {
                let needed = marks_needed(image.len());
                self.coverage.count_marks(marks.len(), needed, broken_rule(image) == 0);
            }
            _ => (),
        }
        answer(&before, image, call, &wanted).map_err(|what| self.blame(call, before.len(), what))
    }

    /// What is wrong, with the call that was last.
    pub fn blame(&self, call: &Call, length: usize, what: String) -> String {
        format!("call {}, {call}, on an image of {length} bytes: {what}", self.calls)
    }

    fn count_list(&mut self, image: &[u8], numbers: usize, wanted: &Outcome) {
        if matches!(wanted.refusal.number, 0 | 14) {
            let full = get64(image, FIRST_FREE) == 0;
            self.coverage.count_list(numbers, wanted.numbers[0] as usize, full);
        }
    }
}

/// The library's answer, which must be the model's.
fn answer(before: &[u8], after: &[u8], call: &Call, wanted: &Outcome) -> Result<Outcome, String> {
    if let Some(what) = misled(before, after, wanted) {
        return Err(what);
    }
    let mut card = Card::new(before);
    let found = card.call(call)?;
    match difference(&found, wanted).or_else(|| unlike("image", card.image(), after)) {
        None => Ok(found),
        Some(what) => Err(what),
    }
}

fn difference(found: &Outcome, wanted: &Outcome) -> Option<String> {
    if found.refusal != wanted.refusal {
        return Some(format!("answer {}, model {}", found.refusal, wanted.refusal));
    }
    if found.numbers != wanted.numbers {
        return Some(format!("numbers {:?}, model {:?}", found.numbers, wanted.numbers));
    }
    unlike("buffer", &found.buffer, &wanted.buffer).or_else(|| unlike_lines(&found.lines, &wanted.lines))
}

/// What the model must keep itself: a refusal changes nothing, and no call spoils an image.
fn misled(before: &[u8], after: &[u8], wanted: &Outcome) -> Option<String> {
    if wanted.refusal.number != 0 {
        return unlike("image of the refusing model", after, before);
    }
    let changed = before != after;
    (changed && broken_rule(after) != 0).then(|| "the model spoiled the image".to_string())
}

fn unlike(what: &str, found: &[u8], wanted: &[u8]) -> Option<String> {
    let at = (0..found.len()).find(|&at| found[at] != wanted[at])?;
    let count = (0..found.len()).filter(|&at| found[at] != wanted[at]).count();
    let place = match what {
        "buffer" => format!("byte {at}"),
        _ => format!("byte {at} (unit {}, pos {})", at / 16, at % 16),
    };
    Some(format!("{what}: {count} bytes differ, first {place}: {:02x}, model {:02x}", found[at], wanted[at]))
}

fn unlike_lines(found: &[u64], wanted: &[u64]) -> Option<String> {
    let at = (0..found.len()).find(|&at| found[at] != wanted[at])?;
    let count = (0..found.len()).filter(|&at| found[at] != wanted[at]).count();
    let (line, field) = (at / LINE, FIELDS[at % LINE]);
    Some(format!(
        "lines: {count} numbers differ, first number {at} (line {line}, {field}): {}, model {}",
        found[at], wanted[at]
    ))
}

//! Fragmented cards: a block goes to the smallest gap that is large enough, of equals to that of the lowest ref.

use crate::builder::{Builder, ROOT};
use crate::call::Call;
use crate::compare::Bout;
use crate::coverage::Coverage;
use crate::judge::{free_blocks, judge_pair, Placed};
use crate::model::layout::*;
use crate::model::list::LINE;
use crate::random::Random;

type Verdict = Result<(), String>;

/// The slots of a worked card's root; its first gap is at ref 11.
const FEW: usize = 8;
/// The slots of a random card's root, enough for all that is made there.
const MANY: usize = 300;
const CARDS: usize = 40;
/// The most gaps of a random card, and the most units of one.
const MOST_GAPS: usize = 60;
const WIDEST: usize = 12;
/// The least units of an object.
const LEAST: usize = 2;
/// Units of a file of room 0 and of a name of one letter.
const POST: usize = 3;

/// A file to be made: bytes of its name, units of its block, the answer, its ref and its name's ref.
type Make = (usize, usize, u8, u64, u64);

/// What is seen, the units of the gaps (behind each but the last stands a post), and the files made there.
const CASES: [(&str, &[usize], &[Make]); 12] = [
    ("a small gap behind a larger", &[7, 3], &[(1, 2, 0, 21, 23), (1, 4, 0, 11, 15)]),
    ("an exact fit behind larger gaps", &[7, 4, 2], &[(1, 2, 0, 28, 21), (1, 4, 0, 11, 15)]),
    ("equal gaps", &[9, 3, 3], &[(1, 2, 0, 23, 25), (1, 2, 0, 29, 31), (1, 2, 0, 11, 13)]),
    ("a gap one unit too small in front", &[3, 6], &[(1, 4, 0, 17, 21)]),
    ("the name behind its file", &[5, 3], &[(1, 4, 0, 11, 15), (1, 2, 0, 19, 21)]),
    ("the name behind its file, at the end", &[3, 5], &[(1, 4, 0, 17, 21)]),
    ("the name first where they are equal", &[5, 2, 3], &[(9, 2, 0, 24, 19)]),
    ("the name first where it is larger", &[5, 6], &[(64, 2, 0, 19, 11)]),
    ("no gap for the file", &[4, 3, 3], &[(1, 5, 8, 0, 0), (1, 4, 0, 11, 18)]),
    ("no gap for the name", &[4, 1, 1], &[(9, 4, 8, 0, 0), (8, 4, 0, 11, 18)]),
    ("no room behind the file", &[5, 1], &[(9, 4, 8, 0, 0), (8, 4, 0, 11, 15)]),
    ("only the largest gap", &[3, 4, 7, 3], &[(1, 6, 0, 24, 30)]),
];

/// What the makes on random cards have met.
#[derive(Default)]
pub struct Tally {
    calls: u64,
    made: u64,
    no_room: u64,
    /// Where first fit would have chosen another gap for the block that is placed first.
    others: u64,
}

impl Tally {
    pub fn print_short(&self, title: &str) {
        let Tally { calls, made, no_room, others } = self;
        print!("{title}: random cards {CARDS}, calls {calls}, made {made}, no room {no_room},");
        println!(" first fit would differ {others} times");
    }
}

/// Counts its calls apart, so that they do not hide what no history reaches.
pub fn run(seed: u64, tally: &mut Tally, tell: bool) -> Verdict {
    let mut coverage = Coverage::default();
    let mut bout = Bout::new(&mut coverage, tell);
    for (what, gaps, makes) in CASES {
        worked(&mut bout, gaps, makes).map_err(|why| format!("{what}: {why}"))?;
    }
    let mut random = Random::new(seed);
    for card in 0..CARDS {
        fragmented(&mut random, &mut bout, tally).map_err(|why| format!("random card {card}: {why}"))?;
    }
    tally.calls = coverage.calls_in_all();
    match tally.others {
        0 => Err("first fit would have chosen the same gaps".to_string()),
        _ => Ok(()),
    }
}

/// A case on a built card, and on one that calls have fragmented, unless a gap is too small for that.
fn worked(bout: &mut Bout, gaps: &[usize], makes: &[Make]) -> Verdict {
    let mut built = built(gaps, FEW);
    if gaps.iter().all(|&units| units >= POST) {
        let mut worn = worn(bout, gaps, built.len())?;
        if free_blocks(&worn) != free_blocks(&built) {
            return Err("calls leave other gaps".to_string());
        }
        make_all(bout, &mut worn, makes)?;
    }
    make_all(bout, &mut built, makes)
}

fn make_all(bout: &mut Bout, card: &mut [u8], makes: &[Make]) -> Verdict {
    for (index, &(letters, units, answer, object, name)) in makes.iter().enumerate() {
        let before = card.to_vec();
        let path = [b"/", &vec![b'm' + index as u8; letters][..]].concat();
        let call = Call::MakeFile { path, room: room(units) };
        let (wanted, found) = (Placed { answer, object, name }, made(bout, card, &call)?);
        if found != wanted || answer != 0 && card != before {
            return Err(format!("{call}: {found:?}, not {wanted:?}"));
        }
    }
    Ok(())
}

/// The most bytes in a file block of so many units.
fn room(units: usize) -> u64 {
    (UNIT * units - HEADER - file_size(0)) as u64
}

/// Gaps with a post behind each but the last, in a root of so many slots.
fn built(gaps: &[usize], slots: usize) -> Vec<u8> {
    let mut builder = Builder::new(slots);
    for (index, &units) in gaps.iter().enumerate() {
        if index > 0 {
            let post = builder.file();
            let name = builder.name(format!("p{index}").as_bytes());
            builder.hang(ROOT, index - 1, name, post);
        }
        builder.free(units);
    }
    let length = builder.length();
    builder.close(length)
}

/// The same gaps: a file in place of each is made, with a post behind it, until the card is full, and removed.
fn worn(bout: &mut Bout, gaps: &[usize], length: usize) -> Result<Vec<u8>, String> {
    let mut card = vec![0xee; length];
    let path = |letter: char, index: usize| format!("/{letter}{index}").into_bytes();
    let mut calls = vec![Call::Format { slots: FEW as u64 }];
    for (index, &units) in gaps.iter().enumerate() {
        if index > 0 {
            calls.push(Call::MakeFile { path: path('p', index), room: 0 });
        }
        calls.push(Call::MakeFile { path: path('g', index), room: room(units - 1) });
    }
    calls.extend((0..gaps.len()).map(|index| Call::Remove { path: path('g', index) }));
    for call in calls {
        let answer = bout.step(&mut card, &call)?.refusal.number;
        if answer != 0 {
            return Err(format!("{call}: {answer}"));
        }
    }
    Ok(card)
}

/// Makes an object; the listing tells its name's ref.
fn made(bout: &mut Bout, card: &mut [u8], call: &Call) -> Result<Placed, String> {
    let found = bout.step(card, call)?;
    let (answer, object) = (found.refusal.number, found.numbers[0]);
    let listed = bout.step(card, &Call::List { lent: vec![0; LINE * (MANY + 1)] })?;
    let line = listed.lines.chunks(LINE).find(|line| answer == 0 && line[0] == object);
    Ok(Placed { answer, object, name: line.map_or(0, |line| line[2]) })
}

/// Objects of random sizes until there is no room for one, then of lesser sizes, down to the least.
fn fragmented(random: &mut Random, bout: &mut Bout, tally: &mut Tally) -> Verdict {
    let count = random.within(MOST_GAPS / 2, MOST_GAPS);
    let gaps: Vec<usize> = (0..count).map(|_| random.within(1, WIDEST)).collect();
    let mut card = built(&gaps, MANY);
    let (mut most, mut serial) = (WIDEST + 1, 0);
    while most >= LEAST {
        serial += 1;
        let (letters, object) = (random.within(3, LONGEST_NAME), random.within(LEAST, most));
        let call = any_make(random, format!("/{serial:0letters$}"), object);
        let before = free_blocks(&card);
        let placed = made(bout, &mut card, &call)?;
        let other = judge_pair(before, &card, [units(letters), object], placed)
            .map_err(|why| format!("{call}, {placed:?}: {why}"))?;
        tally.others += u64::from(other);
        match placed.answer {
            0 => tally.made += 1,
            _ => (tally.no_room, most) = (tally.no_room + 1, most - 1),
        }
    }
    Ok(())
}

/// Makes a file or a directory of so many units.
fn any_make(random: &mut Random, path: String, units: usize) -> Call {
    let path = path.into_bytes();
    match random.percent(30) {
        true => Call::MakeDirectory { path, slots: units as u64 - 1 },
        false => Call::MakeFile { path, room: room(units) - random.below(8) as u64 },
    }
}

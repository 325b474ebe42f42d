//! Names at the edges of UTF-8 (RFC 3629), in paths and in name blocks: every row of one byte and of two, and
//! rows of three and four bytes around the edges; alone, and with letters before and behind.

use crate::builder::{Builder, ROOT};
use crate::call::{Call, Outcome};
use crate::compare::Bout;
use crate::coverage::Coverage;
use crate::model::layout::{LONGEST_NAME, UNIT};
use crate::model::Refusal;

type Verdict = Result<(), String>;
type Row = Vec<u8>;
/// What the rows are, the rows, and how many of them are names with each of `AROUND`.
type Grid = (&'static str, Vec<Row>, [u64; 4]);
type Step<'a> = dyn FnMut(&mut Vec<u8>, &Call) -> Result<Outcome, String> + 'a;

/// Rows of bytes that are a name, each one character.
const CHARACTERS: [&[u8]; 26] = [
    &[0x01],
    &[0x2d],
    &[0x30],
    &[0x5b],
    &[0x5d],
    &[0x7f],
    &[0xc2, 0x80],
    &[0xc2, 0xbf],
    &[0xdf, 0x80],
    &[0xdf, 0xbf],
    &[0xe0, 0xa0, 0x80],
    &[0xe0, 0xbf, 0xbf],
    &[0xe1, 0x80, 0x80],
    &[0xec, 0xbf, 0xbf],
    &[0xed, 0x80, 0x80],
    &[0xed, 0x9f, 0xbf],
    &[0xee, 0x80, 0x80],
    &[0xef, 0xbb, 0xbf],
    &[0xef, 0xbf, 0xbd],
    &[0xef, 0xbf, 0xbf],
    &[0xf0, 0x90, 0x80, 0x80],
    &[0xf0, 0xbf, 0xbf, 0xbf],
    &[0xf1, 0x80, 0x80, 0x80],
    &[0xf3, 0xbf, 0xbf, 0xbf],
    &[0xf4, 0x80, 0x80, 0x80],
    &[0xf4, 0x8f, 0xbf, 0xbf],
];

/// Rows of bytes that are no name, nor are they with letters or characters around them.
const NO_CHARACTERS: [&[u8]; 39] = [
    &[0x00],
    &[0x2f],
    &[0x5c],
    &[0x80],
    &[0xbf],
    &[0xc0],
    &[0xc1],
    &[0xc2],
    &[0xf4],
    &[0xf5],
    &[0xf8],
    &[0xff],
    &[0xc0, 0x80],
    &[0xc0, 0xaf],
    &[0xc1, 0xbf],
    &[0xc2, 0x7f],
    &[0xc2, 0xc0],
    &[0xdf, 0x7f],
    &[0xdf, 0xc0],
    &[0xc2, 0x80, 0x80],
    &[0xe0, 0x80, 0x80],
    &[0xe0, 0x80, 0xaf],
    &[0xe0, 0x9f, 0xbf],
    &[0xe1, 0x80],
    &[0xed, 0xa0, 0x80],
    &[0xed, 0xbf, 0xbf],
    &[0xef, 0xbf, 0x7f],
    &[0xef, 0xbf, 0xc0],
    &[0xf0, 0x80, 0x80, 0x80],
    &[0xf0, 0x80, 0x80, 0xaf],
    &[0xf0, 0x8f, 0xbf, 0xbf],
    &[0xf1, 0x80, 0x80],
    &[0xf4, 0x90, 0x80, 0x80],
    &[0xf4, 0xbf, 0xbf, 0xbf],
    &[0xf5, 0x80, 0x80, 0x80],
    &[0xf7, 0xbf, 0xbf, 0xbf],
    &[0xf8, 0x88, 0x80, 0x80, 0x80],
    &[0xfc, 0x84, 0x80, 0x80, 0x80, 0x80],
    &[0xed, 0xa0, 0x80, 0xed, 0xb0, 0x80],
];

/// What stands before the bytes and behind them.
const AROUND: [[&[u8]; 2]; 4] = [[b"", b""], [b"abc", b""], [b"", b"xyz"], [b"ab", b"yz"]];

/// Second bytes, and those behind, at the edges.
const SECOND: [u8; 8] = [0x7f, 0x80, 0x8f, 0x90, 0x9f, 0xa0, 0xbf, 0xc0];
const FURTHER: [u8; 4] = [0x7f, 0x80, 0xbf, 0xc0];

/// What the names have met.
#[derive(Default)]
pub struct Tally {
    names: u64,
    valid: u64,
    calls: u64,
}

impl Tally {
    pub fn print_short(&self, title: &str) {
        let Tally { names, valid, calls } = self;
        println!("{title}: names {names}, of them valid {valid}, calls {calls}");
    }
}

/// Counts its calls apart, so that they do not hide what no history reaches.
pub fn run(tally: &mut Tally, tell: bool) -> Verdict {
    let mut coverage = Coverage::default();
    let mut bout = Bout::new(&mut coverage, tell);
    let verdict = run_with(&mut |image, call| bout.step(image, call), tally);
    tally.calls = coverage.calls_in_all();
    verdict
}

fn run_with(step: &mut Step, tally: &mut Tally) -> Verdict {
    let mut trial = Trial { step, tally, empty: card(&[]) };
    trial.tables()?;
    trial.pairs()?;
    trial.cut_short()?;
    for (what, rows, valid) in grids() {
        trial.grid(&rows, valid).map_err(|why| format!("{what}: {why}"))?;
    }
    Ok(())
}

/// Every row of bytes with one of each column.
fn product(columns: &[&[u8]]) -> Vec<Row> {
    let mut rows = vec![Row::new()];
    for column in columns {
        let longer = |row: Row| column.iter().map(move |&byte| [&row[..], &[byte]].concat());
        rows = rows.into_iter().flat_map(longer).collect();
    }
    rows
}

/// All rows of one byte and of two, and those of three and four at the edges. The names are counted by hand:
///
/// - one byte: 128 but 00, 2F and 5C, and alone "." is none;
/// - two bytes: 125 times 125, and 30 leads with 64 followers each; alone ".." is none;
/// - three bytes: E0 with 2 second bytes, ED with 4, the other 14 leads with 6, and 2 third bytes;
/// - four bytes: F0 with 4 second bytes, F1 to F3 with 6, F4 with 2, and 2 and 2 bytes behind; and 12 where
///   EF and two bytes behind it are a character, and 7F one more.
fn grids() -> [Grid; 4] {
    let all: Vec<u8> = (0..=0xff).collect();
    let (third, fourth): (Vec<u8>, Vec<u8>) = ((0xe0..=0xef).collect(), (0xef..=0xf8).collect());
    [
        ("one byte", product(&[&all]), [124, 125, 125, 125]),
        ("two bytes", product(&[&all, &all]), [17_544, 17_545, 17_545, 17_545]),
        ("three bytes", product(&[&third, &SECOND, &FURTHER]), [180; 4]),
        ("four bytes", product(&[&fourth, &SECOND, &FURTHER, &FURTHER]), [108; 4]),
    ]
}

/// A card of two slots and room for a file; its names, each with a file.
fn card(names: &[&[u8]]) -> Vec<u8> {
    let mut builder = Builder::new(2);
    for (slot, name) in names.iter().enumerate() {
        let file = builder.file();
        let name = builder.name(name);
        builder.hang(ROOT, slot, name, file);
    }
    let length = builder.length() + 7 * UNIT;
    builder.close(length)
}

/// The second name of a card whose first has up to 8 bytes.
const SECOND_NAME: u64 = 10;

struct Trial<'a, 'b> {
    step: &'a mut Step<'b>,
    tally: &'a mut Tally,
    /// A card that holds nothing.
    empty: Vec<u8>,
}

impl Trial<'_, '_> {
    fn answer(&mut self, card: &mut Vec<u8>, call: &Call) -> Result<Refusal, String> {
        (self.step)(card, call).map(|found| found.refusal)
    }

    /// Whether the bytes are a name in a block; 26 must tell its ref.
    fn in_block(&mut self, name: &[u8]) -> Result<bool, String> {
        let mut card = card(&[b"another", name]);
        let bad = Refusal { number: 26, place: SECOND_NAME };
        match self.answer(&mut card, &Call::Check)? {
            Refusal { number: 0, .. } => Ok(true),
            refusal if refusal == bad => Ok(false),
            refusal => Err(format!("check: {refusal}, not 0 or {bad}")),
        }
    }

    /// Whether the bytes behind a slash are a path: find misses it then, a file is made there, and is found.
    fn in_path(&mut self, name: &[u8]) -> Result<bool, String> {
        let mut card = self.empty.clone();
        let path = [b"/", name].concat();
        let (find, make) = (Call::Find { path: path.clone() }, Call::MakeFile { path, room: 0 });
        let mut answers = Vec::new();
        for call in [&find, &make, &find] {
            answers.push(self.answer(&mut card, call)?.number);
        }
        match answers[..] {
            [3, 0, 0] => Ok(true),
            // two components, the first not there
            [3, 3, 3] if name.contains(&b'/') => Ok(true),
            [2, 2, 2] => Ok(false),
            _ => Err(format!("find, make and find: {answers:?}")),
        }
    }

    /// Whether the bytes are a name, in a block and in a path.
    fn is_name(&mut self, name: &[u8]) -> Result<bool, String> {
        let told = |why| format!("\"{}\": {why}", name.escape_ascii());
        let in_block = self.in_block(name).map_err(told)?;
        let in_path = self.in_path(name).map_err(told)?;
        if in_block != in_path && !name.contains(&b'/') {
            return Err(told(format!("a name in a block {in_block}, in a path {in_path}")));
        }
        self.tally.names += 1;
        self.tally.valid += u64::from(in_block);
        Ok(in_block)
    }

    fn expect(&mut self, name: &[u8], wanted: bool) -> Verdict {
        match self.is_name(name)? {
            found if found == wanted => Ok(()),
            found => Err(format!("\"{}\": a name {found}, not {wanted}", name.escape_ascii())),
        }
    }

    /// The tables, with the letters around them, and at each place of a name of 64 bytes.
    fn tables(&mut self) -> Verdict {
        for (bytes, wanted) in table() {
            for [before, behind] in AROUND {
                self.expect(&[before, bytes, behind].concat(), wanted)?;
            }
            for at in 0..=LONGEST_NAME - bytes.len() {
                let mut name = vec![b'n'; LONGEST_NAME];
                name[at..at + bytes.len()].copy_from_slice(bytes);
                self.expect(&name, wanted)?;
            }
        }
        Ok(())
    }

    /// One row of the tables behind another, and with a letter between them. Of two that are none the second
    /// may end what the first begins: the model judges.
    fn pairs(&mut self) -> Verdict {
        for (one, first) in table() {
            for (other, second) in table() {
                let name = [one, other].concat();
                match first || second {
                    true => self.expect(&name, first && second)?,
                    false => self.is_name(&name).map(drop)?,
                }
                self.expect(&[one, b"n", other].concat(), first && second)?;
            }
        }
        Ok(())
    }

    /// Characters without their last byte, or more of them.
    fn cut_short(&mut self) -> Verdict {
        for bytes in CHARACTERS {
            for length in 1..bytes.len() {
                for [before, behind] in AROUND {
                    self.expect(&[before, &bytes[..length], behind].concat(), false)?;
                }
            }
        }
        Ok(())
    }

    /// Judged by the model; so many must be names, alone and with each of the letters around them.
    fn grid(&mut self, rows: &[Row], valid: [u64; 4]) -> Verdict {
        for ([before, behind], wanted) in AROUND.into_iter().zip(valid) {
            let mut found = 0;
            for row in rows {
                found += u64::from(self.is_name(&[before, row, behind].concat())?);
            }
            if found != wanted {
                return Err(format!("{found} names, not {wanted}"));
            }
        }
        Ok(())
    }
}

/// All rows of the two tables, and whether they are names.
fn table() -> impl Iterator<Item = (&'static [u8], bool)> {
    let good = CHARACTERS.into_iter().map(|bytes| (bytes, true));
    good.chain(NO_CHARACTERS.into_iter().map(|bytes| (bytes, false)))
}

#[test]
fn model_takes_utf8() {
    let model = &mut |image: &mut Vec<u8>, call: &Call| Ok(crate::call::on_model(image, call));
    run_with(model, &mut Tally::default()).unwrap();
}

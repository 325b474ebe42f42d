//! The worked cases of the written rules, with the numbers that they give: a fixed history.

use crate::call::{Call, Outcome};
use crate::compare::Bout;
use crate::coverage::Coverage;
use crate::model::layout::*;
use crate::model::list::{show, LINE, LONGEST_SHOWN};
use crate::model::Refusal;

type Verdict = Result<(), String>;
type Step<'a> = dyn FnMut(&mut Vec<u8>, &Call) -> Result<Outcome, String> + 'a;

pub fn run(coverage: &mut Coverage) -> Verdict {
    let mut bout = Bout::new(coverage, false);
    run_with(&mut |image, call| bout.step(image, call))
}

fn run_with(step: &mut Step) -> Verdict {
    let cases = [
        first_card,
        second_file,
        shortest,
        writes,
        points,
        last_point,
        paths,
        detached,
        larger_first,
        regrown,
        listed,
        marked,
        shown,
    ];
    cases.iter().try_for_each(|case| case(&mut Bench { step, image: Vec::new() }))
}

struct Bench<'a, 'b> {
    step: &'a mut Step<'b>,
    image: Vec<u8>,
}

impl Bench<'_, '_> {
    /// The call's answer, without a place, and its out numbers.
    fn expect(&mut self, call: Call, refusal: u8, numbers: &[u64]) -> Result<Outcome, String> {
        self.expect_at(call, Refusal::from(refusal), numbers)
    }

    fn expect_at(&mut self, call: Call, refusal: Refusal, numbers: &[u64]) -> Result<Outcome, String> {
        let found = (self.step)(&mut self.image, &call)?;
        if found.refusal != refusal || found.numbers != numbers {
            return Err(format!("{call}: {} {:?}, not {refusal} {numbers:?}", found.refusal, found.numbers));
        }
        Ok(found)
    }

    fn new_card(&mut self, length: usize, slots: u64, refusal: u8) -> Verdict {
        self.image = vec![0xee; length];
        self.expect(Call::Format { slots }, refusal, &[]).map(drop)
    }

    fn make_file(&mut self, path: &str, room: u64, refusal: u8, reference: u64) -> Verdict {
        self.expect(Call::MakeFile { path: path.into(), room }, refusal, &[reference]).map(drop)
    }

    fn make_directory(&mut self, path: &str, slots: u64, refusal: u8, reference: u64) -> Verdict {
        self.expect(Call::MakeDirectory { path: path.into(), slots }, refusal, &[reference]).map(drop)
    }

    fn find(&mut self, path: &str, refusal: u8, numbers: [u64; 4]) -> Verdict {
        self.expect(Call::Find { path: path.into() }, refusal, &numbers).map(drop)
    }

    fn write(&mut self, path: &str, position: u64, bytes: &[u8], refusal: u8) -> Verdict {
        let call = Call::Write { path: path.into(), position, bytes: bytes.to_vec() };
        self.expect(call, refusal, &[]).map(drop)
    }

    fn set_length(&mut self, path: &str, length: u64, refusal: u8) -> Verdict {
        self.expect(Call::SetLength { path: path.into(), length }, refusal, &[]).map(drop)
    }

    fn remove(&mut self, path: &str, refusal: u8) -> Verdict {
        self.expect(Call::Remove { path: path.into() }, refusal, &[]).map(drop)
    }

    /// The file's bytes from the front, and no more.
    fn holds(&mut self, path: &str, bytes: &[u8]) -> Verdict {
        let buffer = vec![0x77; bytes.len() + 1];
        let call = Call::Read { path: path.into(), position: 0, buffer };
        let found = self.expect(call, 0, &[bytes.len() as u64])?;
        if found.buffer != [bytes, &[0x77]].concat() {
            return Err(format!("{path} holds {:?}, not {bytes:?}", found.buffer));
        }
        Ok(())
    }

    fn point(&mut self, path: &str, number: u64, refusal: u8, point: &[u8]) -> Verdict {
        let found = self.expect(Call::ReadPoint { path: path.into(), number }, refusal, &[])?;
        if found.buffer != point {
            return Err(format!("point {number} of {path} is {:?}, not {point:?}", found.buffer));
        }
        Ok(())
    }

    /// The lines, into these and so many numbers more; what is left of them is as before.
    fn lists(&mut self, lines: &[[u64; LINE]], more: usize) -> Verdict {
        let lent = vec![0x7777; LINE * lines.len() + more];
        let found = self.expect(Call::List { lent }, 0, &[lines.len() as u64])?;
        if found.lines != [lines.concat(), vec![0x7777; more]].concat() {
            return Err(format!("lines {:?}, not {lines:?} and {more} numbers more", found.lines));
        }
        Ok(())
    }

    /// No lines, from so many lent numbers.
    fn lists_none(&mut self, numbers: usize, refusal: u8, count: u64) -> Verdict {
        let found = self.expect(Call::List { lent: vec![0x7777; numbers] }, refusal, &[count])?;
        if found.lines != vec![0x7777; numbers] {
            return Err(format!("a refused listing changed lines: {:?}", found.lines));
        }
        Ok(())
    }

    /// The check with these marks and so many more; those are as before.
    fn marks(&mut self, refusal: u8, marks: &[u8], more: usize) -> Verdict {
        let lent = vec![0x77; marks.len() + more];
        let found = self.expect(Call::CheckMarked { marks: lent }, refusal, &[])?;
        if found.buffer != [marks, &vec![0x77; more]].concat() {
            return Err(format!("marks {:?}, not {marks:?} and {more} more", found.buffer));
        }
        Ok(())
    }

    fn shows(&self, text: &str) -> Verdict {
        let found = show(&self.image);
        if found != text.as_bytes() {
            return Err(format!("shows {:?}, not {text:?}", found.escape_ascii().to_string()));
        }
        Ok(())
    }

    /// A block's kind and size.
    fn block(&self, reference: usize, kind: Kind, size: u32) -> Verdict {
        let at = UNIT * reference;
        if self.image[at..at + 4] != magic(kind)[..] || get32(&self.image, at + 4) != size {
            return Err(format!("no {kind:?} of size {size} at ref {reference}"));
        }
        Ok(())
    }

    /// A free block's units and next ref.
    fn free(&self, reference: usize, units: usize, next: u64) -> Verdict {
        self.block(reference, Kind::Free, free_size(units) as u32)?;
        self.number(UNIT * reference + NEXT_FREE, next)
    }

    fn first_free(&self, reference: u64) -> Verdict {
        self.number(FIRST_FREE, reference)
    }

    fn number(&self, at: usize, value: u64) -> Verdict {
        match get64(&self.image, at) {
            found if found == value => Ok(()),
            found => Err(format!("{found} at byte {at}, not {value}")),
        }
    }
}

/// The card of 256 bytes after /heel and /a are made and /heel is removed.
fn worn_card(bench: &mut Bench) -> Verdict {
    bench.new_card(256, 2, 0)?;
    bench.make_file("/heel", 32, 0, 5)?;
    bench.make_directory("/a", 1, 0, 10)?;
    bench.remove("/heel", 0)
}

fn first_card(bench: &mut Bench) -> Verdict {
    bench.new_card(256, 2, 0)?;
    bench.number(ROOT_REF, 2)?;
    bench.block(2, Kind::Directory, 40)?;
    bench.block(5, Kind::Free, 168)?;
    bench.free(5, 11, 0)?;
    bench.first_free(5)?;
    bench.make_file("/heel", 32, 0, 5)?;
    bench.block(5, Kind::File, 48)?;
    bench.block(9, Kind::Name, 4)?;
    bench.block(10, Kind::Free, 88)?;
    bench.free(10, 6, 0)?;
    bench.make_directory("/a", 1, 0, 10)?;
    bench.block(12, Kind::Name, 1)?;
    bench.free(13, 3, 0)?;
    bench.find("/", 0, [2, 1, 2, 2])?;
    bench.find("/heel", 0, [5, 0, 0, 32])?;
    bench.find("/a", 0, [10, 1, 0, 1])?;
    bench.make_file("/b", 0, 7, 0)?;
    bench.make_directory("/b", 1, 7, 0)?;
    bench.remove("/heel", 0)?;
    bench.first_free(5)?;
    bench.free(5, 5, 13)
}

/// The second file on the worn card, in every size that the cases give.
fn second_file(bench: &mut Bench) -> Verdict {
    worn_card(bench)?;
    bench.make_file("/b", 40, 0, 5)?;
    bench.block(9, Kind::Name, 1)?;
    bench.first_free(13)?;
    worn_card(bench)?;
    bench.make_file("/b", 41, 0, 5)?;
    bench.block(13, Kind::Name, 1)?;
    bench.first_free(14)?;
    worn_card(bench)?;
    bench.make_file("/b", 56, 0, 5)?;
    worn_card(bench)?;
    bench.make_file("/b", 57, 8, 0)?;
    let long = format!("/{}", "n".repeat(64));
    bench.make_file(&long, 24, 0, 13)?;
    bench.block(5, Kind::Name, 64)?;
    bench.first_free(0)
}

fn shortest(bench: &mut Bench) -> Verdict {
    bench.new_card(64, 1, 0)?;
    bench.first_free(0)?;
    bench.new_card(64, 2, 8)?;
    for length in [48, 65, 0] {
        bench.new_card(length, 1, 1)?;
        bench.expect(Call::Check, 21, &[])?;
    }
    Ok(())
}

fn writes(bench: &mut Bench) -> Verdict {
    bench.new_card(256, 2, 0)?;
    bench.make_file("/f", 32, 0, 5)?;
    bench.write("/f", 28, b"abcd", 0)?;
    let mut bytes = [0; 32];
    bytes[28..].copy_from_slice(b"abcd");
    bench.holds("/f", &bytes)?;
    bench.write("/f", 32, b"x", 12)?;
    bench.write("/f", 32, b"", 0)?;
    bench.write("/f", 33, b"", 12)?;
    bench.write("/f", u64::MAX, b"x", 12)?;
    bench.holds("/f", &bytes)
}

/// A file of 40 bytes: two points, and a part of a third that is never read.
fn points(bench: &mut Bench) -> Verdict {
    bench.new_card(256, 2, 0)?;
    bench.make_file("/f", 48, 0, 5)?;
    let bytes: Vec<u8> = (1..=40).collect();
    bench.write("/f", 0, &bytes, 0)?;
    bench.point("/f", 1, 0, &bytes[..16])?;
    bench.point("/f", 2, 0, &bytes[16..32])?;
    bench.point("/f", 3, 13, &[0; 16])?;
    bench.point("/f", 0, 10, &[0; 16])?;
    bench.point("/f", 4097, 10, &[0; 16])
}

fn last_point(bench: &mut Bench) -> Verdict {
    bench.new_card(70_000, 2, 0)?;
    bench.make_file("/f", 65_536, 0, 5)?;
    let bytes: Vec<u8> = (0..65_536u32).map(|index| (index * 7 / 3) as u8).collect();
    bench.write("/f", 0, &bytes, 0)?;
    bench.point("/f", 4096, 0, &bytes[65_520..])?;
    bench.point("/f", 4097, 10, &[0; 16])?;
    bench.set_length("/f", 65_535, 0)?;
    bench.point("/f", 4096, 13, &[0; 16])
}

fn paths(bench: &mut Bench) -> Verdict {
    bench.new_card(256, 2, 0)?;
    for path in ["", "/a/", "//", "a", "/.."] {
        bench.find(path, 2, [0; 4])?;
        bench.make_file(path, 0, 2, 0)?;
        bench.make_directory(path, 1, 2, 0)?;
        bench.remove(path, 2)?;
        bench.write(path, 0, b"", 2)?;
        bench.point(path, 1, 2, &[0; 16])?;
    }
    Ok(())
}

/// A ring of two directories that the root does not reach.
fn detached(bench: &mut Bench) -> Verdict {
    bench.new_card(256, 2, 0)?;
    bench.make_directory("/a", 1, 0, 5)?;
    bench.make_directory("/a/b", 1, 0, 8)?;
    let root_slot = 2 * UNIT + SLOTS;
    let slot = bench.image[root_slot..root_slot + 16].to_vec();
    bench.image[root_slot..root_slot + 16].fill(0);
    bench.image[8 * UNIT + SLOTS..8 * UNIT + SLOTS + 16].copy_from_slice(&slot);
    put64(&mut bench.image, 5 * UNIT + PARENT, 8);
    let refusal = Refusal { number: 25, place: 5 };
    bench.expect_at(Call::Check, refusal, &[])?;
    bench.expect_at(Call::Find { path: b"/".to_vec() }, refusal, &[0; 4])?;
    bench.shows("refused 25 5\n")
}

/// Two holes that fit file and name only if the larger is placed first.
fn larger_first(bench: &mut Bench) -> Verdict {
    bench.new_card(16 * 15, 4, 0)?;
    bench.make_file("/x", 8, 0, 7)?;
    bench.make_file("/y", 8, 0, 10)?;
    bench.remove("/x", 0)?;
    bench.first_free(7)?;
    bench.free(7, 3, 13)?;
    bench.free(13, 2, 0)?;
    bench.make_file("/ninebytes", 24, 0, 7)?;
    bench.block(13, Kind::Name, 9)?;
    bench.first_free(0)
}

/// Old bytes behind the end must not come back when the file grows.
fn regrown(bench: &mut Bench) -> Verdict {
    bench.new_card(256, 2, 0)?;
    bench.make_file("/f", 32, 0, 5)?;
    let content = 5 * UNIT + CONTENT;
    bench.image[content..content + 32].fill(0x99);
    bench.set_length("/f", 20, 0)?;
    bench.holds("/f", &[0; 20])?;
    bench.write("/f", 22, b"z", 0)?;
    bench.holds("/f", &[&[0; 22][..], b"z"].concat())?;
    bench.number(content + 24, 0x9999_9999_9999_9999)
}

/// The card of 256 bytes after /heel and /a are made, listed.
fn listed(bench: &mut Bench) -> Verdict {
    bench.new_card(256, 2, 0)?;
    bench.lists(&[[2, 2, 0, 0, 1, 0, 2]], 0)?;
    bench.make_file("/heel", 32, 0, 5)?;
    bench.make_directory("/a", 1, 0, 10)?;
    let lines = [[2, 2, 0, 0, 1, 2, 2], [5, 2, 9, 1, 0, 0, 32], [10, 2, 12, 1, 1, 0, 1]];
    for more in [0, 1, 6, 7, 20] {
        bench.lists(&lines, more)?;
    }
    for numbers in [0, 6, 7, 14, 20] {
        bench.lists_none(numbers, 14, 3)?;
    }
    bench.remove("/heel", 0)?;
    bench.make_file("/a/b", 40, 0, 5)?;
    bench.write("/a/b", 0, b"abc", 0)?;
    bench.lists(&[[2, 2, 0, 0, 1, 1, 2], [10, 2, 12, 1, 1, 1, 1], [5, 10, 9, 2, 0, 3, 40]], 2)?;
    bench.image[0] = 0;
    bench.lists_none(0, 21, 0)?;
    bench.lists_none(30, 21, 0)
}

/// The same card with marks, as it grows and after a removal; too few marks, and lengths that are not allowed.
fn marked(bench: &mut Bench) -> Verdict {
    bench.new_card(256, 2, 0)?;
    bench.marks(0, &[1, 0, 2, 0, 0, 6, 0, 0, 0, 0, 0, 0, 0, 0, 0, 0], 0)?;
    bench.make_file("/heel", 32, 0, 5)?;
    bench.make_directory("/a", 1, 0, 10)?;
    let marks = [1, 0, 2, 0, 0, 4, 0, 0, 0, 3, 2, 0, 3, 6, 0, 0];
    for more in [0, 1, 20] {
        bench.marks(0, &marks, more)?;
    }
    for few in [0, 1, 15] {
        bench.marks(17, &[], few)?;
    }
    bench.remove("/heel", 0)?;
    bench.marks(0, &[1, 0, 2, 0, 0, 6, 0, 0, 0, 0, 2, 0, 3, 6, 0, 0], 1)?;
    put64(&mut bench.image, FIRST_FREE, 0);
    bench.marks(28, &[0; 16], 1)?;
    bench.marks(17, &[], 15)?;
    for (length, needed) in [(65, 4), (63, 3), (16, 1), (LONGEST + 16, 65_537)] {
        bench.image = vec![0xee; length];
        bench.marks(17, &[], needed - 1)?;
        bench.marks(21, &vec![0; needed], 0)?;
        bench.marks(21, &vec![0; needed], 1)?;
    }
    bench.image = vec![0xee; 15];
    bench.marks(21, &[], 0)
}

/// The same card as text, and what is refused.
fn shown(bench: &mut Bench) -> Verdict {
    bench.new_card(256, 2, 0)?;
    bench.make_file("/heel", 32, 0, 5)?;
    bench.make_directory("/a", 1, 0, 10)?;
    bench.shows("image 256 free 3\n2 d 2/2 /\n5 f 0/32 /heel\n10 d 0/1 /a\n")?;
    bench.image[9 * UNIT] = 0;
    bench.shows("refused 21 9\n")?;
    bench.image.truncate(48);
    bench.shows("refused 21 0\n")?;
    bench.new_card(64, 1, 0)?;
    bench.shows("image 64 free 0\n2 d 0/1 /\n")?;
    bench.new_card(LONGEST_SHOWN, 1, 0)?;
    bench.shows("image 65536 free 4092\n2 d 0/1 /\n")?;
    bench.new_card(LONGEST_SHOWN + 16, 1, 0)?;
    bench.shows("refused 1\n")
}

#[test]
fn model_keeps_the_cases() {
    let model = &mut |image: &mut Vec<u8>, call: &Call| Ok(crate::call::on_model(image, call));
    run_with(model).unwrap();
}

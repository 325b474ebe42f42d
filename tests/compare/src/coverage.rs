//! What the histories have met.

use crate::call::{can_answer, BROKEN, CALLS};
use crate::model::list::LINE;
use crate::model::Refusal;
use std::collections::BTreeSet;

/// Answers but those of `BROKEN`.
const ANSWERS: [u8; 16] = [0, 1, 2, 3, 4, 5, 6, 7, 8, 9, 10, 11, 12, 13, 14, 17];
const NUMBERS: usize = 29;
const SIZES: [usize; 6] = [256, 1024, 4096, 65_536, 1_048_576, usize::MAX];

/// How many lines or marks are lent, against those that are needed.
const LENT: [&str; 5] = ["none", "too few", "one too few", "just enough", "more"];

#[derive(Default)]
pub struct Coverage {
    calls: [[u64; NUMBERS]; CALLS.len()],
    /// Answers with a place that is not 0.
    placed: u64,
    lengths: BTreeSet<usize>,
    images: [u64; SIZES.len()],
    pub bad_lengths: u64,
    pub scattered: u64,
    pub foreign: u64,
    broken: [u64; 9],
    pub deepest: usize,
    pub most_free_blocks: usize,
    pub most_objects: usize,
    pub full_cards: u64,
    lent: [u64; LENT.len()],
    lent_over: u64,
    listed_full: u64,
    most_lines: usize,
    marks: [u64; LENT.len()],
    /// Too few marks on images that are not well formed.
    marks_first: u64,
    most_marks: usize,
    /// Comparisons with the book, and objects that were looked at one by one.
    books: u64,
    book_objects: u64,
}

/// An index of `LENT`.
fn lent_class(lent: usize, needed: usize) -> usize {
    match lent {
        _ if lent > needed => 4,
        _ if lent == needed => 3,
        0 => 0,
        _ if lent + 1 == needed => 2,
        _ => 1,
    }
}

impl Coverage {
    pub fn count_call(&mut self, call: usize, answer: Refusal) {
        self.calls[call][answer.number as usize] += 1;
        self.placed += u64::from(answer.place != 0);
    }

    pub fn count_image(&mut self, length: usize) {
        self.lengths.insert(length);
        let class = SIZES.iter().position(|&most| length <= most).unwrap();
        self.images[class] += 1;
    }

    /// A damaged image, by the first rule that it breaks; 0 where it broke none.
    pub fn count_damaged(&mut self, rule: u8) {
        self.broken[rule as usize] += 1;
    }

    pub fn count_scene(&mut self, depth: usize, free_blocks: usize, objects: usize) {
        self.deepest = self.deepest.max(depth);
        self.most_free_blocks = self.most_free_blocks.max(free_blocks);
        self.most_objects = self.most_objects.max(objects);
        self.full_cards += u64::from(free_blocks == 0);
    }

    /// A listing of a well-formed image.
    pub fn count_list(&mut self, numbers: usize, needed: usize, full: bool) {
        let class = lent_class(numbers / LINE, needed);
        self.lent[class] += 1;
        self.lent_over += u64::from(!numbers.is_multiple_of(LINE));
        self.listed_full += u64::from(full);
        if class > 2 {
            self.most_lines = self.most_lines.max(needed);
        }
    }

    /// A check with lent marks; whether the image is well formed.
    pub fn count_marks(&mut self, lent: usize, needed: usize, sound: bool) {
        self.marks[lent_class(lent, needed)] += 1;
        self.marks_first += u64::from(lent < needed && !sound);
        if lent >= needed && sound {
            self.most_marks = self.most_marks.max(needed);
        }
    }

    /// A comparison with the book, and so many of its objects.
    pub fn count_book(&mut self, objects: usize) {
        self.books += 1;
        self.book_objects += objects as u64;
    }

    pub fn calls_in_all(&self) -> u64 {
        self.calls.iter().flatten().sum()
    }

    /// Lines for calls that are counted apart: how many of each were accepted, and refused by each rule.
    pub fn print_short(&self, title: &str) {
        let images: u64 = self.images.iter().sum();
        println!("{title}: images {images}, calls {}", self.calls_in_all());
        print!("  accepted:");
        for (name, answers) in CALLS.iter().zip(self.calls).filter(|(_, answers)| answers[0] > 0) {
            print!(" {name} {},", answers[0]);
        }
        println!(" most lines listed {}, most units marked {}", self.most_lines, self.most_marks);
        print!("  refused:");
        for number in BROKEN {
            let count: u64 = self.calls.iter().map(|answers| answers[number as usize]).sum();
            print!(" {number} {count} times,");
        }
        println!(" with a place {}", self.placed);
        if self.books > 0 {
            self.print_books("  ");
        }
    }

    fn print_books(&self, indent: &str) {
        println!(
            "{indent}compared with the book {} times, objects looked at {}",
            self.books, self.book_objects
        );
    }

    pub fn print(&self) {
        self.print_calls();
        self.print_lists();
        self.print_marks();
        self.print_images();
        let damaged: u64 = self.broken.iter().sum();
        println!("damaged images {damaged}; by the first rule broken:");
        for (rule, count) in self.broken.iter().enumerate().skip(1) {
            println!("  rule {rule}  {count}");
        }
        println!("  none    {}", self.broken[0]);
        println!("scattered images {}, foreign bytes put {} times", self.scattered, self.foreign);
        println!(
            "deepest path {}, most free blocks {}, most objects {}, calls on full cards {}",
            self.deepest, self.most_free_blocks, self.most_objects, self.full_cards
        );
        self.print_books("");
    }

    fn print_lists(&self) {
        print!("listings by lines lent:");
        for (what, count) in LENT.iter().zip(self.lent) {
            print!(" {what} {count},");
        }
        println!(" with numbers over {}", self.lent_over);
        println!("most lines listed {}, listings of full cards {}", self.most_lines, self.listed_full);
    }

    fn print_marks(&self) {
        print!("marked checks by marks lent:");
        for (what, count) in LENT.iter().zip(self.marks) {
            print!(" {what} {count},");
        }
        println!(" too few on an image not well formed {}", self.marks_first);
        println!("most units marked {}", self.most_marks);
    }

    fn print_calls(&self) {
        self.print_answers("answers", &ANSWERS);
        self.print_answers("rule broken", &BROKEN);
        println!("calls {}, answers with a place {}", self.calls_in_all(), self.placed);
        for missing in self.never_seen() {
            println!("never seen: {missing}");
        }
    }

    /// A table: a row for each call, a column for each number.
    fn print_answers(&self, title: &str, numbers: &[u8]) {
        print!("{title:<15}");
        for number in numbers {
            print!("{number:>8}");
        }
        println!();
        for (call, name) in CALLS.iter().enumerate() {
            print!("{name:<15}");
            for &number in numbers {
                print!("{:>8}", self.cell(call, number));
            }
            println!();
        }
    }

    /// A count, or a point where the call cannot give this answer.
    fn cell(&self, call: usize, number: u8) -> String {
        match self.calls[call][number as usize] {
            0 if !can_answer(call, number) => ".".to_string(),
            count => count.to_string(),
        }
    }

    fn never_seen(&self) -> Vec<String> {
        let mut missing = Vec::new();
        for (call, name) in CALLS.iter().enumerate() {
            for number in 0..NUMBERS as u8 {
                if can_answer(call, number) && self.calls[call][number as usize] == 0 {
                    missing.push(format!("{name} answering {number}"));
                }
            }
        }
        missing
    }

    fn print_images(&self) {
        println!(
            "image lengths {}, not allowed {} times; images by length:",
            self.lengths.len(),
            self.bad_lengths
        );
        for (most, count) in SIZES.iter().zip(self.images) {
            match *most {
                usize::MAX => println!("  longer   {count}"),
                most => println!("  to {most:<8}{count}"),
            }
        }
    }
}

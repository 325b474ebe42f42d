//! The store under test, through its C interface. Everything lent stands between guard bytes.

use crate::call::{Call, Outcome};
use crate::model::Refusal;
use sffs1::*;

/// What an out number holds before the call: never an answer.
const JUNK: u64 = 0xa5c3_9687_b4d2_e1f0;
const GUARD: [u8; 37] = [0xdb; 37];
const NUMBER_GUARD: [u64; 37] = [0xdbdb_dbdb_dbdb_dbdb; 37];

/// Lent bytes or numbers between two guards.
struct Lent<T> {
    guard: [T; 37],
    whole: Vec<T>,
    length: usize,
}

impl<T: Copy + PartialEq> Lent<T> {
    fn new(guard: [T; 37], content: &[T]) -> Lent<T> {
        Lent { guard, whole: [&guard, content, &guard].concat(), length: content.len() }
    }

    fn pointer(&mut self) -> *mut T {
        self.whole[self.guard.len()..].as_mut_ptr()
    }

    fn content(&self) -> &[T] {
        &self.whole[self.guard.len()..][..self.length]
    }

    fn guarded(&self) -> bool {
        let (before, rest) = self.whole.split_at(self.guard.len());
        before == self.guard && rest[self.length..] == self.guard
    }
}

/// The lent path, the lent buffer, bytes or marks, and the lent lines; each call uses what it needs.
struct Loan {
    path: Lent<u8>,
    buffer: Lent<u8>,
    lines: Lent<u64>,
}

fn loan(call: &Call) -> Loan {
    let none: &[u8] = &[];
    let (path, buffer): (&[u8], &[u8]) = match call {
        Call::Format { .. } | Call::Check | Call::List { .. } => (none, none),
        Call::Find { path } | Call::Remove { path } | Call::SetLength { path, .. } => (path, none),
        Call::MakeDirectory { path, .. } | Call::MakeFile { path, .. } => (path, none),
        Call::Read { path, buffer, .. } => (path, buffer),
        Call::ReadPoint { path, .. } => (path, &[0x6b; 16]),
        Call::Write { path, bytes, .. } => (path, bytes),
        Call::CheckMarked { marks } => (none, marks),
    };
    let lines: &[u64] = if let Call::List { lent } = call { lent } else { &[] };
    Loan {
        path: Lent::new(GUARD, path),
        buffer: Lent::new(GUARD, buffer),
        lines: Lent::new(NUMBER_GUARD, lines),
    }
}

/// What a call tells beside its answer; each call uses what it needs.
struct Out {
    /// A ref or a count.
    number: u64,
    directory: u8,
    first: u64,
    second: u64,
    place: u64,
}

impl Out {
    fn junk() -> Out {
        Out { number: JUNK, directory: JUNK as u8, first: JUNK, second: JUNK, place: JUNK }
    }

    /// The out numbers of this call but the place.
    fn numbers(&self, call: &Call) -> Vec<u64> {
        match call {
            Call::Find { .. } => vec![self.number, self.directory.into(), self.first, self.second],
            Call::MakeDirectory { .. } | Call::MakeFile { .. } => vec![self.number],
            Call::Read { .. } | Call::List { .. } => vec![self.number],
            _ => Vec::new(),
        }
    }

    /// The place that the call told; format has none.
    fn place(&self, call: &Call) -> u64 {
        match call {
            Call::Format { .. } => 0,
            _ => self.place,
        }
    }
}

/// An image in the library's hands, between guards.
pub struct Card(Lent<u8>);

impl Card {
    pub fn new(image: &[u8]) -> Card {
        Card(Lent::new(GUARD, image))
    }

    pub fn image(&self) -> &[u8] {
        self.0.content()
    }

    /// The call's outcome, or what it overran.
    pub fn call(&mut self, call: &Call) -> Result<Outcome, String> {
        let mut loan = loan(call);
        let path = loan.path.content().to_vec();
        let lent = loan.buffer.content().to_vec();
        let mut out = Out::junk();
        let number = enter(&mut self.0, &mut loan, &mut out, call);
        if let Some(what) = overrun(&self.0, &loan) {
            return Err(format!("what stands beside the {what} was changed"));
        }
        if loan.path.content() != path {
            return Err("the path was changed".to_string());
        }
        let mut buffer = loan.buffer.content().to_vec();
        if matches!(call, Call::Write { .. }) {
            if buffer != lent {
                return Err("the bytes to write were changed".to_string());
            }
            buffer.clear();
        }
        let lines = loan.lines.content().to_vec();
        let refusal = Refusal { number, place: out.place(call) };
        Ok(Outcome { refusal, numbers: out.numbers(call), buffer, lines })
    }
}

/// What has a changed guard.
fn overrun(card: &Lent<u8>, loan: &Loan) -> Option<&'static str> {
    let kept = [
        ("image", card.guarded()),
        ("path", loan.path.guarded()),
        ("buffer", loan.buffer.guarded()),
        ("lines", loan.lines.guarded()),
    ];
    kept.into_iter().find(|(_, kept)| !kept).map(|(what, _)| what)
}

/// The call's answer; what else it tells is in `out`.
fn enter(card: &mut Lent<u8>, loan: &mut Loan, out: &mut Out, call: &Call) -> u8 {
    let (image, length) = (card.pointer(), card.length);
    let (path, path_len) = (loan.path.pointer(), loan.path.length);
    let (buffer, buffer_len) = (loan.buffer.pointer(), loan.buffer.length);
    let (lines, lines_len) = (loan.lines.pointer(), loan.lines.length);
    let Out { number, directory, first, second, place } = out;
    // SAFETY: every pointer is to lent bytes or numbers that live through the call, with their true lengths,
    // and none overlap.
    unsafe {
        match *call {
            Call::Format { slots } => sffs1_format(image, length, slots),
            Call::Check => sffs1_check(image, length, place),
            Call::Find { .. } => {
                sffs1_find(image, length, path, path_len, number, directory, first, second, place)
            }
            Call::MakeDirectory { slots, .. } => {
                sffs1_make_directory(image, length, path, path_len, slots, number, place)
            }
            Call::MakeFile { room, .. } => {
                sffs1_make_file(image, length, path, path_len, room, number, place)
            }
            Call::Read { position, .. } => {
                sffs1_read(image, length, path, path_len, position, buffer, buffer_len, number, place)
            }
            Call::ReadPoint { number, .. } => {
                sffs1_read_point(image, length, path, path_len, number, buffer, place)
            }
            Call::Write { position, .. } => {
                sffs1_write(image, length, path, path_len, position, buffer, buffer_len, place)
            }
            Call::SetLength { length: new, .. } => {
                sffs1_set_length(image, length, path, path_len, new, place)
            }
            Call::Remove { .. } => sffs1_remove(image, length, path, path_len, place),
            Call::List { .. } => sffs1_list(image, length, lines, lines_len, number, place),
            Call::CheckMarked { .. } => sffs1_check_marked(image, length, buffer, buffer_len, place),
        }
    }
}

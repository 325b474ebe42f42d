//! A call with its arguments as values, and what comes of it.

use crate::model::marks::check_marked;
use crate::model::{calls, list, Refusal};
use std::fmt;

/// What an accepted call answers.
pub const DONE: Refusal = Refusal { number: 0, place: 0 };

#[derive(Clone, Debug)]
pub enum Call {
    Format { slots: u64 },
    Check,
    Find { path: Vec<u8> },
    MakeDirectory { path: Vec<u8>, slots: u64 },
    MakeFile { path: Vec<u8>, room: u64 },
    Read { path: Vec<u8>, position: u64, buffer: Vec<u8> },
    ReadPoint { path: Vec<u8>, number: u64 },
    Write { path: Vec<u8>, position: u64, bytes: Vec<u8> },
    SetLength { path: Vec<u8>, length: u64 },
    Remove { path: Vec<u8> },
    List { lent: Vec<u64> },
    CheckMarked { marks: Vec<u8> },
}

/// Names of the calls, by `Call::index`.
pub const CALLS: [&str; 12] = [
    "format",
    "check",
    "find",
    "make directory",
    "make file",
    "read",
    "read point",
    "write",
    "set length",
    "remove",
    "list",
    "check marked",
];

/// The answers of a call that meets an image that is not well formed: 20 + the rule.
pub const BROKEN: [u8; 8] = [21, 22, 23, 24, 25, 26, 27, 28];

/// The answers that each call can give, by `Call::index`; all but format give those of `BROKEN` too.
pub const ANSWERS: [&[u8]; 12] = [
    &[0, 1, 8, 10],
    &[0],
    &[0, 2, 3, 4],
    &[0, 2, 3, 4, 6, 7, 8, 10],
    &[0, 2, 3, 4, 6, 7, 8, 10],
    &[0, 2, 3, 4, 5],
    &[0, 2, 3, 4, 5, 10, 13],
    &[0, 2, 3, 4, 5, 12],
    &[0, 2, 3, 4, 5, 12],
    &[0, 2, 3, 4, 9, 11],
    &[0, 14],
    &[0, 17],
];

/// Whether the call can give this answer.
pub fn can_answer(call: usize, answer: u8) -> bool {
    ANSWERS[call].contains(&answer) || call != 0 && BROKEN.contains(&answer)
}

impl Call {
    pub fn index(&self) -> usize {
        match self {
            Call::Format { .. } => 0,
            Call::Check => 1,
            Call::Find { .. } => 2,
            Call::MakeDirectory { .. } => 3,
            Call::MakeFile { .. } => 4,
            Call::Read { .. } => 5,
            Call::ReadPoint { .. } => 6,
            Call::Write { .. } => 7,
            Call::SetLength { .. } => 8,
            Call::Remove { .. } => 9,
            Call::List { .. } => 10,
            Call::CheckMarked { .. } => 11,
        }
    }
}

impl fmt::Display for Call {
    fn fmt(&self, out: &mut fmt::Formatter) -> fmt::Result {
        write!(out, "{}", CALLS[self.index()])?;
        match self {
            Call::Check => Ok(()),
            Call::Format { slots } => write!(out, " slots {slots}"),
            Call::Find { path } | Call::Remove { path } => write!(out, " \"{}\"", path.escape_ascii()),
            Call::MakeDirectory { path, slots } => write!(out, " \"{}\" slots {slots}", path.escape_ascii()),
            Call::MakeFile { path, room } => write!(out, " \"{}\" room {room}", path.escape_ascii()),
            Call::Read { path, position, buffer } => {
                write!(out, " \"{}\" from {position}, buffer of {}", path.escape_ascii(), buffer.len())
            }
            Call::ReadPoint { path, number } => write!(out, " \"{}\" point {number}", path.escape_ascii()),
            Call::Write { path, position, bytes } => {
                write!(out, " \"{}\" at {position}, {} bytes", path.escape_ascii(), bytes.len())
            }
            Call::SetLength { path, length } => write!(out, " \"{}\" length {length}", path.escape_ascii()),
            Call::List { lent } => write!(out, ", {} numbers lent", lent.len()),
            Call::CheckMarked { marks } => write!(out, ", {} marks lent", marks.len()),
        }
    }
}

/// The answer's number and place, its other out numbers, and the lent buffer, the point, the lent marks or the
/// lent lines afterwards. Number and place of an accepted call are 0.
#[derive(Clone, PartialEq, Eq, Debug)]
pub struct Outcome {
    pub refusal: Refusal,
    pub numbers: Vec<u64>,
    pub buffer: Vec<u8>,
    pub lines: Vec<u64>,
}

impl Outcome {
    fn of<T>(result: Result<T, Refusal>, numbers: Vec<u64>, buffer: Vec<u8>) -> Outcome {
        Outcome { refusal: result.err().unwrap_or(DONE), numbers, buffer, lines: Vec::new() }
    }

    fn alone(result: Result<(), Refusal>) -> Outcome {
        Outcome::of(result, Vec::new(), Vec::new())
    }

    fn made(result: Result<u64, Refusal>) -> Outcome {
        Outcome::of(result, vec![result.unwrap_or(0)], Vec::new())
    }

    fn listed(answer: Result<u64, (Refusal, u64)>, lines: Vec<u64>) -> Outcome {
        let (refusal, count) = match answer {
            Ok(count) => (DONE, count),
            Err(told) => told,
        };
        Outcome { refusal, numbers: vec![count], buffer: Vec::new(), lines }
    }
}

/// The call on the model.
pub fn on_model(image: &mut [u8], call: &Call) -> Outcome {
    match call {
        Call::Format { slots } => Outcome::alone(calls::format(image, *slots).map_err(Refusal::from)),
        Call::Check => Outcome::alone(calls::check(image)),
        Call::Find { path } => {
            let found = calls::find(image, path);
            let numbers = match found {
                Ok(found) => vec![found.reference, found.directory.into(), found.first, found.second],
                Err(_) => vec![0; 4],
            };
            Outcome::of(found, numbers, Vec::new())
        }
        Call::MakeDirectory { path, slots } => Outcome::made(calls::make_directory(image, path, *slots)),
        Call::MakeFile { path, room } => Outcome::made(calls::make_file(image, path, *room)),
        Call::Read { path, position, buffer } => {
            let mut buffer = buffer.clone();
            let count = calls::read(image, path, *position, &mut buffer);
            Outcome::of(count, vec![count.unwrap_or(0)], buffer)
        }
        Call::ReadPoint { path, number } => {
            let point = calls::read_point(image, path, *number);
            Outcome::of(point, Vec::new(), point.unwrap_or([0; 16]).to_vec())
        }
        Call::Write { path, position, bytes } => Outcome::alone(calls::write(image, path, *position, bytes)),
        Call::SetLength { path, length } => Outcome::alone(calls::set_length(image, path, *length)),
        Call::Remove { path } => Outcome::alone(calls::remove(image, path)),
        Call::List { lent } => {
            let mut lines = lent.clone();
            let answer = list::list(image, &mut lines);
            Outcome::listed(answer, lines)
        }
        Call::CheckMarked { marks } => {
            let mut marks = marks.clone();
            let answer = check_marked(image, &mut marks);
            Outcome::of(answer, Vec::new(), marks)
        }
    }
}

//! The calls that are measured, each as it is made on a card.

use crate::scene::Scene;
use crate::store::{Answer, Check, Store};
use std::hint::black_box;
use std::marker::PhantomData;

/// A call that is measured.
#[derive(Clone, Copy, PartialEq, Eq, Debug)]
pub enum Call {
    Check,
    CheckMarked,
    Find,
    ReadPoint,
    Read,
    MakeFile,
    Write,
    SetLength,
    Remove,
    List,
}

/// All calls, in the order in which they are shown.
pub const CALLS: [Call; 10] = [
    Call::Check,
    Call::CheckMarked,
    Call::Find,
    Call::ReadPoint,
    Call::Read,
    Call::MakeFile,
    Call::Write,
    Call::SetLength,
    Call::Remove,
    Call::List,
];

impl Call {
    pub fn name(self) -> &'static str {
        match self {
            Call::Check => "check",
            Call::CheckMarked => "check_marked",
            Call::Find => "find",
            Call::ReadPoint => "read_point",
            Call::Read => "read",
            Call::MakeFile => "make_file",
            Call::Write => "write",
            Call::SetLength => "set_length",
            Call::Remove => "remove",
            Call::List => "list",
        }
    }

    /// The call that leads back to the image before this one; none for a call that changes nothing.
    pub fn undone_by(self) -> Option<Call> {
        match self {
            Call::MakeFile => Some(Call::Remove),
            Call::Remove => Some(Call::MakeFile),
            Call::SetLength => Some(Call::Write),
            Call::Write => Some(Call::SetLength),
            _ => None,
        }
    }

    /// Whether it needs the image that the other call of its pair leaves.
    pub fn comes_second(self) -> bool {
        matches!(self, Call::Remove | Call::Write)
    }
}

/// Makes one of the two checks, which are all that some stores have.
#[inline]
pub fn check<C: Check>(call: Call, image: &[u8], marks: &mut [u8]) -> Answer<u64> {
    match call {
        Call::Check => C::check(image).map(|_| 0),
        Call::CheckMarked => C::check_marked(image, marks).map(|_| 0),
        _ => panic!("{} is no check", call.name()),
    }
}

/// The calls of a store on a card, with all that they are lent.
pub struct Job<'a, S> {
    scene: &'a Scene,
    bytes: Vec<u8>,
    pub marks: Vec<u8>,
    pub buffer: Vec<u8>,
    pub numbers: Vec<u64>,
    store: PhantomData<S>,
}

impl<'a, S: Store> Job<'a, S> {
    pub fn new(scene: &'a Scene) -> Job<'a, S> {
        let mut content = vec![0; scene.size];
        let read = S::read(&scene.image, scene.file.as_bytes(), 0, &mut content);
        assert_eq!(read, Ok(scene.size as u64), "read on card {}", scene.name);
        Job {
            scene,
            bytes: content[scene.cut..].to_vec(),
            marks: vec![0; scene.image.len() / 16],
            buffer: vec![0; scene.size],
            numbers: vec![0; 7 * scene.objects],
            store: PhantomData,
        }
    }

    /// Makes the call once; tells the number that it tells, if any.
    #[inline]
    pub fn act(&mut self, call: Call, image: &mut [u8]) -> Answer<u64> {
        let scene = self.scene;
        let image = black_box(image);
        let (file, new) = (black_box(scene.file.as_bytes()), black_box(scene.new.as_bytes()));
        let cut = scene.cut as u64;
        match call {
            Call::Check | Call::CheckMarked => check::<S>(call, image, &mut self.marks),
            Call::Find => S::find(image, file).map(|found| found.reference),
            Call::ReadPoint => S::read_point(image, file, 2).map(|point| point[0].into()),
            Call::Read => S::read(image, file, 0, &mut self.buffer),
            Call::MakeFile => S::make_file(image, new, scene.room),
            Call::Write => S::write(image, file, cut, &self.bytes).map(|_| 0),
            Call::SetLength => S::set_length(image, file, cut).map(|_| 0),
            Call::Remove => S::remove(image, new).map(|_| 0),
            Call::List => S::list(image, &mut self.numbers),
        }
    }
}

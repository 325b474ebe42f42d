//! Times: the least of many samples, those of several works taken in turn.

use crate::job::{check, Call, Job};
use crate::lean::Lean;
use crate::ours::Ours;
use crate::plain::Plain;
use crate::scene::Scene;
use crate::store::{Answer, Store};
use std::hint::black_box;
use std::time::Instant;

/// A sample takes at least so long, in nanoseconds.
const SAMPLE: f64 = 2e6;
/// So many samples are taken; fewer, but three at least, where they would take longer than `LONG` in all.
const SAMPLES: usize = 51;
const LONG: f64 = 2e9;
/// Small cards are changed in several copies, of so many bytes in all: the clock is read less often so.
const COPIES: usize = 1 << 14;

/// The nanoseconds of a call, and of the one that undoes it (0 where it changes nothing).
pub type Times = [f64; 2];

/// A call, and what undoes it, made again and again.
pub trait Work {
    fn run(&mut self, times: usize) -> Times;
}

struct Repeated<F> {
    act: F,
    call: Call,
    cards: Vec<Vec<u8>>,
}

impl<F: FnMut(Call, &mut [u8]) -> Answer<u64>> Repeated<F> {
    /// One call on each card.
    fn round(&mut self, call: Call) {
        for card in &mut self.cards {
            assert!(black_box((self.act)(call, card)).is_ok());
        }
    }
}

impl<F: FnMut(Call, &mut [u8]) -> Answer<u64>> Work for Repeated<F> {
    fn run(&mut self, times: usize) -> Times {
        let rounds = times.div_ceil(self.cards.len());
        let mut spent = [0.0; 2];
        if let Some(undo) = self.call.undone_by() {
            for _ in 0..rounds {
                for (call, spent) in [self.call, undo].into_iter().zip(&mut spent) {
                    let begun = Instant::now();
                    self.round(call);
                    *spent += begun.elapsed().as_nanos() as f64;
                }
            }
        } else {
            let begun = Instant::now();
            for _ in 0..rounds {
                self.round(self.call);
            }
            spent[0] = begun.elapsed().as_nanos() as f64;
        }
        spent.map(|spent| spent / (rounds * self.cards.len()) as f64)
    }
}

fn repeated<'a>(
    scene: &Scene,
    call: Call,
    act: impl FnMut(Call, &mut [u8]) -> Answer<u64> + 'a,
) -> Box<dyn Work + 'a> {
    let copies = match call.undone_by() {
        Some(_) => (COPIES / scene.image.len()).max(1),
        None => 1,
    };
    Box::new(Repeated { act, call, cards: vec![scene.image.clone(); copies] })
}

fn of_store<'a, S: Store + 'a>(scene: &'a Scene, call: Call) -> Box<dyn Work + 'a> {
    let mut job = Job::<S>::new(scene);
    repeated(scene, call, move |call, image| job.act(call, image))
}

/// The call on the proved store.
pub fn ours(scene: &Scene, call: Call) -> Box<dyn Work + '_> {
    of_store::<Ours>(scene, call)
}

/// The call on the plain store.
pub fn plain(scene: &Scene, call: Call) -> Box<dyn Work + '_> {
    of_store::<Plain>(scene, call)
}

/// The lean check.
pub fn lean(scene: &Scene, call: Call) -> Box<dyn Work + '_> {
    let mut marks = vec![0; scene.image.len() / 16];
    repeated(scene, call, move |call, image| check::<Lean>(call, black_box(image), &mut marks))
}

/// The least times of each work.
pub fn least<const N: usize>(mut works: [Box<dyn Work + '_>; N]) -> [Times; N] {
    // for each work: the calls of a sample, and the time of one with what undoes it
    let plans = works.each_mut().map(|work| {
        let once: f64 = work.run(1).iter().sum();
        let spent = work.run((SAMPLE / 10.0 / once).ceil() as usize);
        let shortest = spent.into_iter().filter(|part| *part > 0.0).fold(f64::MAX, f64::min);
        ((SAMPLE / shortest).ceil() as usize, spent.iter().sum::<f64>())
    });
    let all: f64 = plans.iter().map(|(times, each)| (*times as f64 + 1.0) * each).sum();
    let samples = ((LONG / all) as usize).clamp(3, SAMPLES);
    let mut least = [[f64::MAX; 2]; N];
    for _ in 0..samples {
        for ((work, (times, each)), least) in works.iter_mut().zip(plans).zip(&mut least) {
            if each < 10.0 * SAMPLE {
                // what the other works left in the caches is not measured
                work.run(1);
            }
            for (least, spent) in least.iter_mut().zip(work.run(times)) {
                *least = least.min(spent);
            }
        }
    }
    least
}

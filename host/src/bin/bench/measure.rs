//! Times, and marks for an instruction counter.

use std::ffi::{c_int, c_long};
use std::fmt::Debug;
use std::hint::black_box;

/// A call that every side makes from the same beginning.
pub trait Measured {
    type Side: Copy + Debug + 'static;
    /// What the call is made on.
    type Ground;
    /// The last does nothing: what the measuring itself costs.
    const SIDES: &'static [Self::Side];

    fn name(&self) -> &str;
    fn length(&self) -> usize;
    fn ground(&self) -> Self::Ground;
    fn run(&self, side: Self::Side, ground: &mut Self::Ground) -> u64;
    /// Puts back what the call may have changed.
    fn restore(&self, ground: &mut Self::Ground);
}

/// What one call by one side cost.
pub struct Figure {
    pub name: String,
    pub length: usize,
    pub side: String,
    pub cost: f64,
}

impl Figure {
    pub fn line(&self) -> String {
        format!("{}\t{}\t{}\t{}", self.name, self.length, self.side, self.cost)
    }

    pub fn read(line: &str) -> Option<Figure> {
        let mut fields = line.split('\t');
        Some(Figure {
            name: fields.next()?.to_string(),
            length: fields.next()?.parse().ok()?,
            side: fields.next()?.to_string(),
            cost: fields.next()?.parse().ok()?,
        })
    }
}

extern "C" {
    fn clock_gettime(clock: c_int, time: *mut [c_long; 2]) -> c_int;
    fn syscall(number: c_long, ...) -> c_long;
}

/// The processor time of this thread, in nanoseconds: other programs on the machine do not count.
fn clock() -> f64 {
    const THREAD_CPU_TIME: c_int = 3;
    let mut time = [0; 2];
    // SAFETY: `time` is a timespec of two longs, written by the call.
    assert_eq!(unsafe { clock_gettime(THREAD_CPU_TIME, &mut time) }, 0);
    time[0] as f64 * 1e9 + time[1] as f64
}

/// A system call that no kernel knows: the instruction counter notes what it has counted when it sees it.
const MARK: c_long = 19_777;

fn mark() {
    // SAFETY: an unknown system call does nothing.
    unsafe { syscall(MARK) };
}

/// Nanoseconds for one call by each side: the least of alternating rounds, less what the measuring itself takes.
pub fn times<M: Measured>(scene: &M, rounds: usize) -> Vec<Figure> {
    let mut ground = scene.ground();
    let mut calls = |side: M::Side, count: usize| {
        let began = clock();
        for _ in 0..count {
            black_box(scene.run(side, black_box(&mut ground)));
            scene.restore(&mut ground);
        }
        (clock() - began) / count as f64
    };
    let mut count = |side: &M::Side| (2e6 / calls(*side, 20).max(1.0)).clamp(5.0, 200_000.0) as usize;
    let counts: Vec<usize> = M::SIDES.iter().map(&mut count).collect();
    let mut least = vec![f64::INFINITY; M::SIDES.len()];
    for _ in 0..rounds {
        for (place, side) in M::SIDES.iter().enumerate() {
            least[place] = least[place].min(calls(*side, counts[place]));
        }
    }
    figures(scene, &least)
}

/// Makes each side's call once between two marks. The counter's notes, two for each side, are read by `counted`.
pub fn marked<M: Measured>(scene: &M) {
    let mut ground = scene.ground();
    for side in M::SIDES {
        for marks in [false, true] {
            if marks {
                mark();
            }
            black_box(scene.run(*side, black_box(&mut ground)));
            if marks {
                mark();
            }
            scene.restore(&mut ground);
        }
    }
}

/// The instructions of each side's call, from the counter's next notes.
pub fn counted<M: Measured>(scene: &M, notes: &mut impl Iterator<Item = u64>) -> Option<Vec<Figure>> {
    let mut count = |_: &M::Side| {
        let (before, after) = (notes.next()?, notes.next()?);
        Some((after - before) as f64)
    };
    let counts: Vec<f64> = M::SIDES.iter().map(&mut count).collect::<Option<_>>()?;
    Some(figures(scene, &counts))
}

fn figures<M: Measured>(scene: &M, costs: &[f64]) -> Vec<Figure> {
    let (nothing, costs) = costs.split_last().expect("a side that does nothing");
    let figure = |(side, cost): (&M::Side, &f64)| Figure {
        name: scene.name().to_string(),
        length: scene.length(),
        side: format!("{side:?}"),
        cost: (cost - nothing).max(0.0),
    };
    M::SIDES.iter().zip(costs).map(figure).collect()
}

//! The speed of both sides on the same trees.

mod clock;
mod earlier;
mod measure;
mod page;
mod sets;

use crate::port::Run;
use earlier::Earlier;
use measure::{keep_memory, measure, original, Times};
use sets::Set;
use std::path::Path;
use std::process::ExitCode;

/// Rounds over all trees, so that other work on the machine meets all alike.
const ROUNDS: usize = 10;
const KEPT_ROUNDS: usize = 5;

/// The times of a set's trees with both runs.
struct Measured {
    set: Set,
    fresh: Rounds,
    settled: Rounds,
}

#[derive(Clone)]
struct Rounds {
    /// Of each tree, those of each round.
    trees: Vec<Vec<Times>>,
    /// The original's of all trees, when memory stays with the process, of some rounds more.
    kept: Vec<f64>,
}

impl Measured {
    fn new(set: Set) -> Self {
        let none = Rounds { trees: vec![Vec::new(); set.inputs.len()], kept: Vec::new() };
        Measured { set, fresh: none.clone(), settled: none }
    }

    fn both(&mut self) -> (&Set, [(Run, &mut Rounds); 2]) {
        (&self.set, [(Run::Fresh, &mut self.fresh), (Run::Settled, &mut self.settled)])
    }

    fn measure(&mut self, earlier: Option<&Earlier>) {
        let (set, both) = self.both();
        for (run, rounds) in both {
            let times = measure(&set.inputs, run, earlier);
            rounds.trees.iter_mut().zip(times).for_each(|(tree, times)| tree.push(times));
        }
    }

    fn measure_kept(&mut self) {
        let (set, both) = self.both();
        for (run, rounds) in both {
            rounds.kept.push(original(&set.inputs, run));
        }
    }
}

/// With the folder of an earlier port, that is measured beside.
pub fn bench(seed: u64, before: Option<&Path>) -> ExitCode {
    match measure_all(seed, before) {
        Ok(()) => ExitCode::SUCCESS,
        Err(message) => {
            eprintln!("{message}");
            ExitCode::FAILURE
        }
    }
}

fn measure_all(seed: u64, before: Option<&Path>) -> Result<(), String> {
    let earlier = before.map(Earlier::load).transpose()?;
    let earlier = earlier.as_ref();
    let (shapes, series) = sets::sets(seed);
    let all = |sets: Vec<Set>| sets.into_iter().map(Measured::new).collect();
    let (mut shapes, mut series): (Vec<Measured>, Vec<Measured>) = (all(shapes), all(series));
    for round in 1..=ROUNDS {
        eprintln!("round {round} of {ROUNDS}");
        shapes.iter_mut().chain(&mut series).for_each(|set| set.measure(earlier));
    }
    keep_memory();
    for round in 1..=KEPT_ROUNDS {
        eprintln!("memory kept: round {round} of {KEPT_ROUNDS}");
        shapes.iter_mut().for_each(Measured::measure_kept);
    }
    page::write(seed, earlier.map_or("", |e| &e.about), &shapes, &series)
}

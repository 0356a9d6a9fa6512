//! How long both sides take: of many repetitions the shortest, of the rounds the middle one.

use super::clock::{least, now};
use super::earlier::Earlier;
use crate::node::nodes;
use crate::port::{self, Run, LENGTHS};
use crate::record::{records, Input};
use crate::syntax::expressions;
use original::Analysis;
use std::hint::black_box;
use std::time::{Duration, Instant};

/// The lent tables, of one port's lengths.
pub type Tables = [Vec<u32>; LENGTHS.len()];

/// Nanoseconds.
#[derive(Clone, Copy)]
pub struct Port {
    pub call: f64,
    /// Without a call of no records, which is clearing the tables.
    pub net: f64,
}

/// Nanoseconds.
#[derive(Clone, Copy)]
pub struct Times {
    /// The original on an empty `Analysis`.
    pub analysis: f64,
    /// With making and dropping that.
    pub whole: f64,
    pub port: Port,
    pub earlier: Option<Port>,
}

/// The middle one of some, or of the two in the middle.
pub fn middle(mut times: Vec<f64>) -> f64 {
    times.sort_by(f64::total_cmp);
    (times[(times.len() - 1) / 2] + times[times.len() / 2]) / 2.0
}

impl Port {
    /// Each time, of those of many.
    fn of(many: &[Port], join: impl Fn(Vec<f64>) -> f64) -> Port {
        let each = |time: fn(&Port) -> f64| join(many.iter().map(time).collect());
        Port { call: each(|t| t.call), net: each(|t| t.net) }
    }
}

impl Times {
    /// Each time, of those of many; the earlier port's where all have one.
    fn of(many: &[Times], join: impl Fn(Vec<f64>) -> f64) -> Times {
        let each = |time: fn(&Times) -> f64| join(many.iter().map(time).collect());
        let ports: Vec<Port> = many.iter().map(|t| t.port).collect();
        let earlier: Option<Vec<Port>> = many.iter().map(|t| t.earlier).collect();
        Times {
            analysis: each(|t| t.analysis),
            whole: each(|t| t.whole),
            port: Port::of(&ports, &join),
            earlier: earlier.map(|ports| Port::of(&ports, &join)),
        }
    }

    /// The middle one of each: a round in which the clock or the machine was disturbed does not count.
    pub fn median(rounds: &[Times]) -> Times {
        Times::of(rounds, middle)
    }

    pub fn sum(many: &[Times]) -> Times {
        Times::of(many, |times| times.iter().sum())
    }
}

const LEAST_REPETITIONS: usize = 5;
const LEAST_TIME: Duration = Duration::from_millis(40);

/// The shortest of each, repeated until enough.
fn shortest<const N: usize>(mut once: impl FnMut() -> [f64; N]) -> [f64; N] {
    let start = Instant::now();
    let mut best = [f64::INFINITY; N];
    let mut repetitions = 0;
    while repetitions < LEAST_REPETITIONS || start.elapsed() < LEAST_TIME {
        let times = once();
        best.iter_mut().zip(times).for_each(|(best, time)| *best = time.min(*best));
        repetitions += 1;
    }
    let asking = least();
    best.map(|time| time - asking)
}

fn original_times(input: &Input, runs: usize) -> [f64; 2] {
    let records = records(&input.numbers);
    let exprs = expressions(&records, &nodes(&records));
    original::set_classes(&input.classes);
    shortest(|| {
        let mut analysis = Analysis::default();
        let start = now();
        for _ in 0..runs {
            analysis.run_with_scope(black_box(&exprs), true);
        }
        let alone = now() - start;
        drop(black_box(analysis));
        let start = now();
        let mut analysis = Analysis::default();
        for _ in 0..runs {
            analysis.run_with_scope(black_box(&exprs), true);
        }
        drop(black_box(analysis));
        [alone, now() - start]
    })
}

/// A call that is accepted.
fn port_time(mut call: impl FnMut() -> bool) -> f64 {
    let [time] = shortest(|| {
        let start = now();
        let accepted = call();
        let time = now() - start;
        assert!(accepted);
        [time]
    });
    time
}

/// The times of each input, over one set of tables.
fn port_times(
    inputs: &[Input],
    lengths: [usize; LENGTHS.len()],
    call: impl Fn(&Input, &mut Tables) -> bool,
) -> Vec<Port> {
    let mut tables = lengths.map(|length| vec![0; length]);
    let mut time = |input: &Input| port_time(|| call(black_box(input), &mut tables));
    let empty = time(&Input::default());
    let port = |call| Port { call, net: call - empty };
    inputs.iter().map(|input| port(time(input))).collect()
}

fn runs(run: Run) -> usize {
    match run {
        Run::Fresh => 1,
        Run::Settled => 2,
    }
}

/// The original's times of all inputs together, on an empty `Analysis`.
pub fn original(inputs: &[Input], run: Run) -> f64 {
    inputs.iter().map(|input| original_times(input, runs(run))[0]).sum()
}

/// Memory that is given back stays with the process from now on: the C library keeps blocks below the largest that it was given back.
pub fn keep_memory() {
    const LARGE: usize = 31 << 20;
    drop(black_box(vec![0u8; LARGE]));
}

/// The times of each input.
pub fn measure(inputs: &[Input], run: Run, earlier: Option<&Earlier>) -> Vec<Times> {
    let ports = port_times(inputs, LENGTHS, |input, tables| {
        port::call(run, input, tables.each_mut().map(Vec::as_mut_slice)).is_none()
    });
    let earlier = earlier.map(|e| port_times(inputs, e.lengths, |input, tables| e.call(run, input, tables)));
    let times = |(i, input): (usize, &Input)| {
        let [analysis, whole] = original_times(input, runs(run));
        Times { analysis, whole, port: ports[i], earlier: earlier.as_ref().map(|times| times[i]) }
    };
    inputs.iter().enumerate().map(times).collect()
}

#[cfg(test)]
mod tests {
    use super::*;

    fn times(time: f64) -> Times {
        let port = Port { call: 3.0 * time, net: 2.0 * time };
        Times { analysis: time, whole: 2.0 * time, port, earlier: Some(port) }
    }

    #[test]
    fn a_round_that_was_disturbed_does_not_count() {
        let median = Times::median(&[times(4.0), times(-100.0), times(5.0), times(900.0)]);
        assert_eq!((median.analysis, median.whole, median.port.net), (4.5, 9.0, 9.0));
        assert_eq!(median.earlier.map(|port| port.net), Some(9.0));
    }

    #[test]
    fn a_sum_has_an_earlier_port_where_all_have_one() {
        let sum = Times::sum(&[times(1.0), times(2.0)]);
        assert_eq!((sum.analysis, sum.port.net, sum.earlier.map(|port| port.net)), (3.0, 6.0, Some(6.0)));
        let without = Times { earlier: None, ..times(2.0) };
        assert!(Times::sum(&[times(1.0), without]).earlier.is_none());
    }
}

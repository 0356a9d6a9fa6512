//! The port, by its crate in bindings/rust, which links the static library.

use crate::record::Input;
use crate::refusals::Refusal;
use scheme_analysis::{fresh, settled, Tables, ARGUMENTS_LENGTH, CAPTURED_LENGTH, FACTS_LENGTH, WORK_LENGTH};

/// The set lengths of the lent tables, in numbers: facts, captured, arguments, work.
pub const LENGTHS: [usize; 4] = [FACTS_LENGTH, CAPTURED_LENGTH, ARGUMENTS_LENGTH, WORK_LENGTH];

#[derive(Clone, Copy, Debug, PartialEq, Eq)]
pub enum Run {
    Fresh,
    Settled,
}

/// What stands for the port in a comparison; tests have others.
pub type Port = dyn Fn(Run, &Input, [&mut [u32]; 4]) -> Option<Refusal> + Sync;

/// The refusal, if there is one. The tables stand in the order of `LENGTHS` and may have any length.
pub fn call(run: Run, input: &Input, [facts, captured, arguments, work]: [&mut [u32]; 4]) -> Option<Refusal> {
    let operation = match run {
        Run::Fresh => fresh,
        Run::Settled => settled,
    };
    let answer = operation(&input.numbers, &input.classes, Tables { facts, captured, arguments, work });
    answer.err().map(|refusal| Refusal { number: refusal.reason.number(), at: refusal.record })
}

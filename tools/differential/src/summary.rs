//! What a run prints at its end.

use crate::expected::Listed;
use crate::tally::{Seen, Tally};

/// The refusals that there are.
const REFUSALS: [usize; 13] = [1, 2, 3, 4, 5, 6, 7, 16, 8, 9, 10, 11, 12];

/// What each stage was answered: two lines a stage, one for each run; the refusals in the order of their checks.
pub fn answers(stages: &[(&str, Tally)]) -> String {
    let numbers: String = REFUSALS.iter().map(|number| format!("{number:>7}")).collect();
    let mut out =
        format!("{:<17}{:<8}{:>9}{:>9}{:>9}{numbers}\n", "", "run", "inputs", "records", "accepted");
    for (name, tally) in stages {
        let Tally { inputs, records, fresh, settled, .. } = tally;
        for (start, run, seen) in [(*name, "fresh", fresh), ("", "settled", settled)] {
            let refused: String =
                REFUSALS.iter().map(|number| format!("{:>7}", seen.answers[*number])).collect();
            let accepted = seen.answers[0];
            out += &format!("{start:<17}{run:<8}{inputs:>9}{records:>9}{accepted:>9}{refused}\n");
        }
    }
    out
}

/// What the accepted trees held.
pub fn held(total: &Tally) -> String {
    let spaced = |counts: &[u64]| counts.iter().map(u64::to_string).collect::<Vec<_>>().join(" ");
    let run = |name: &str, seen: &Seen| {
        let Seen { identifiers, calls, captured, mutated, arguments, .. } = seen;
        format!(
            "{name}: identifiers of kind 1 to 7: {}\n  calls of kind 1 to 3: {}, without a fact: {}\n  \
             captured entries: {captured}, mutated: {mutated}; argument entries: {arguments}\n",
            spaced(&identifiers[1..]),
            spaced(&calls[1..]),
            calls[0],
        )
    };
    let expanded = format!("records of forms 10 to 12: {}\n", spaced(&total.expanded));
    run("fresh", &total.fresh) + &run("settled", &total.settled) + &expanded
}

/// The differences of docs/DIFFERENCES.md that were met.
pub fn listed(total: &Tally) -> String {
    let line = |(listed, count): (&Listed, &u64)| format!("{count:>9} {}\n", text(*listed));
    total.listed.iter().map(line).collect()
}

fn text(listed: Listed) -> &'static str {
    match listed {
        Listed::NotGiven => "inputs refused 1 to 8 or 16, which the original is not given",
        Listed::TwicePanics => "trees refused 9 where the original panics",
        Listed::TwiceGoesOn => "trees refused 9 where the original goes on",
        Listed::TooManyCaptures => "trees refused 10, which the original takes",
        Listed::SecondRunPanics => "trees refused 11 or 12, where the original's second run panics",
        Listed::ArgumentOrder => "argument lists that the original holds in the order of a hash set",
    }
}

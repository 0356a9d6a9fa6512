//! One case on both sides: every answer and every number of every table.

use crate::case::Case;
use crate::expected::{expected, Answer, Expected};
use crate::port::{Port, Run};
use crate::random::Random;
use crate::refusals::Refusal;
use crate::tables::{Tables, Wanted, Wrong};

/// How a case differs.
#[derive(Clone, Debug)]
pub enum Difference {
    /// The original did what it is not expected to do.
    Original(String),
    Refusal {
        run: Run,
        wanted: Option<Refusal>,
        found: Option<Refusal>,
    },
    Numbers {
        run: Run,
        wrong: Vec<Wrong>,
    },
}

/// Numbers told of a table that is wrong.
const MOST_TOLD: usize = 8;

/// What was expected, and the differences; the first alone where the original itself is one.
pub fn compare(
    port: &Port,
    case: &Case,
    tables: &mut Tables,
    random: &mut Random,
) -> (Option<Expected>, Vec<Difference>) {
    match expected(case) {
        Err(text) => (None, vec![Difference::Original(text)]),
        Ok(expected) => {
            let runs = [(Run::Fresh, &expected.fresh), (Run::Settled, &expected.settled)];
            let mut differences = Vec::new();
            for (run, answer) in runs {
                let found = port(run, &case.input, tables.lend(case.lent, random));
                differences.extend(of_call(run, answer, found, tables));
            }
            (Some(expected), differences)
        }
    }
}

fn of_call(run: Run, answer: &Answer, found: Option<Refusal>, tables: &Tables) -> Vec<Difference> {
    let wanted = match answer {
        Answer::Refused(refusal) => Some(*refusal),
        Answer::Accepted(_) => None,
    };
    let mut out = Vec::new();
    if found != wanted {
        out.push(Difference::Refusal { run, wanted, found });
    }
    let wrong = wrong_numbers(answer, tables);
    if !wrong.is_empty() {
        out.push(Difference::Numbers { run, wrong });
    }
    out
}

fn wrong_numbers(answer: &Answer, tables: &Tables) -> Vec<Wrong> {
    use Wanted::{Numbers, Unchanged};
    match answer {
        Answer::Refused(Refusal { number: 1, .. }) => {
            tables.wrong(&[Unchanged, Unchanged, Unchanged, Unchanged], MOST_TOLD)
        }
        Answer::Refused(_) => {
            tables.wrong(&[Numbers(&[]), Numbers(&[]), Numbers(&[]), Numbers(&[])], MOST_TOLD)
        }
        Answer::Accepted(rows) => {
            let facts = rows.facts.as_flattened();
            let captured = rows.captured.as_flattened();
            let arguments = rows.arguments.as_flattened();
            let wanted = [Numbers(facts), Numbers(captured), Numbers(arguments), Numbers(&[])];
            tables.wrong(&wanted, MOST_TOLD)
        }
    }
}

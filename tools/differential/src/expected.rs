//! What both operations have to answer: the original's facts of the expansion, and the documents' refusals.

use crate::case::Case;
use crate::expand::{expand, Expanded};
use crate::layers::{layers, End};
use crate::node::nodes;
use crate::record::{records, Record, LAMBDA};
use crate::refusals::{self, Refusal};
use crate::rows::{rows, Rows, FACT};
use crate::syntax::expressions;
use original::{Analysis, Panic};

pub enum Answer {
    Refused(Refusal),
    Accepted(Rows),
}

/// Where the original and the port do not do the same, and docs/DIFFERENCES.md says so.
#[derive(Clone, Copy, Debug, PartialEq, Eq, PartialOrd, Ord)]
pub enum Listed {
    NotGiven,
    TwicePanics,
    TwiceGoesOn,
    TooManyCaptures,
    SecondRunPanics,
    ArgumentOrder,
}

pub struct Expected {
    pub fresh: Answer,
    pub settled: Answer,
    /// With how often.
    pub listed: Vec<(Listed, usize)>,
}

impl Expected {
    fn refused(refusal: Refusal, why: Listed) -> Self {
        let both = || Answer::Refused(refusal);
        Expected { fresh: both(), settled: both(), listed: vec![(why, 1)] }
    }
}

/// An error is something that neither document 01 nor docs/DIFFERENCES.md allows the original to do.
pub fn expected(case: &Case) -> Result<Expected, String> {
    match refusals::first(case) {
        Some(refusal) => Ok(Expected::refused(refusal, Listed::NotGiven)),
        None => of_tree(&records(&case.input.numbers), &case.input.classes),
    }
}

/// The answer to the expansion, by the written records.
fn of_tree(records: &[Record], classes: &[u8]) -> Result<Expected, String> {
    let Expanded { records: expanded, written } = expand(records);
    let Expected { fresh, settled, listed } = of_expanded(&expanded, classes)?;
    let [fresh, settled] = [fresh, settled].map(|answer| by_written(answer, records.len(), &written));
    Ok(Expected { fresh: fresh?, settled: settled?, listed })
}

fn by_written(answer: Answer, count: usize, written: &[Option<usize>]) -> Result<Answer, String> {
    match answer {
        Answer::Refused(Refusal { number, at }) => {
            let at =
                written[at].ok_or_else(|| format!("refusal {number} at a record that is not written"))?;
            Ok(Answer::Refused(Refusal { number, at }))
        }
        Answer::Accepted(rows) => {
            let mut facts = vec![[0; FACT]; count];
            for (row, at) in rows.facts.into_iter().zip(written) {
                match at {
                    Some(at) => facts[*at] = row,
                    None if row == [0; FACT] => {}
                    None => {
                        return Err(format!(
                            "the original has a fact of a record that is not written: {row:?}"
                        ))
                    }
                }
            }
            Ok(Answer::Accepted(Rows { facts, ..rows }))
        }
    }
}

/// Of a tree without forms 10 to 12.
fn of_expanded(records: &[Record], classes: &[u8]) -> Result<Expected, String> {
    let tops = nodes(records);
    let layers = layers(records, &tops);
    let exprs = expressions(records, &tops);
    let mut analysis = Analysis::default();
    original::set_classes(classes);
    let first = original::run(&mut analysis, &exprs);
    if let Some(at) = layers.twice {
        let why = if first.is_err() { Listed::TwicePanics } else { Listed::TwiceGoesOn };
        return Ok(Expected::refused(Refusal { number: 9, at }, why));
    }
    first.map_err(|panic| format!("the original panics in its first run: {panic:?}"))?;
    let fresh = rows(&analysis, records, &layers.ends, None)?;
    if let Some(at) = past_limit(records, &layers.ends, &fresh) {
        return Ok(Expected::refused(Refusal { number: 10, at }, Listed::TooManyCaptures));
    }
    let mut listed = vec![(Listed::ArgumentOrder, fresh.other_order)];
    let settled = match original::run(&mut analysis, &exprs) {
        Ok(()) => Answer::Accepted(rows(&analysis, records, &layers.ends, Some(&fresh))?),
        Err(panic) => {
            listed.push((Listed::SecondRunPanics, 1));
            Answer::Refused(refusal_of(panic, records)?)
        }
    };
    Ok(Expected { fresh: Answer::Accepted(fresh), settled, listed })
}

const MOST_CAPTURED: usize = 4096;

/// The lambda whose captured list makes them more than the limit together.
fn past_limit(records: &[Record], ends: &[End], fresh: &Rows) -> Option<usize> {
    let mut total = 0;
    let mut passes = |end: &&End| {
        let lambda = records[end.at].form == LAMBDA;
        total += if lambda { fresh.facts[end.at][2] as usize } else { 0 };
        total > MOST_CAPTURED
    };
    ends.iter().find(|end| passes(end)).map(|end| end.at)
}

/// The lines of the original's analysis.rs whose panics in the second run are refusals 11 and 12.
const PANICS: [(u32, u32); 2] = [(1338, 11), (1966, 12)];

fn refusal_of(panic: Panic, records: &[Record]) -> Result<Refusal, String> {
    let known = PANICS.iter().find(|(line, _)| *line == panic.line);
    let at = records.iter().position(|r| r.id == panic.id);
    match (known, at) {
        (Some((_, number)), Some(at)) => Ok(Refusal { number: *number, at }),
        _ => Err(format!("the original panics in its second run: {panic:?}")),
    }
}

#[cfg(test)]
mod tests {
    use super::*;
    use crate::generate::limits::limits;
    use crate::generate::scripts::script;
    use crate::rows::{CALL_ROW, NONE};
    use crate::stage::with_stack;

    fn answers(case: &Case) -> [Answer; 2] {
        let expected = expected(case).expect("nothing but what is listed");
        [expected.fresh, expected.settled]
    }

    /// Number and record of each run's refusal, 0 and 0 where it accepts.
    fn refusals_of(case: &Case) -> [(u32, usize); 2] {
        answers(case).map(|answer| match answer {
            Answer::Refused(refusal) => (refusal.number, refusal.at),
            Answer::Accepted(_) => (0, 0),
        })
    }

    /// Document 01, "Scripts to try".
    #[test]
    fn refusals_of_the_document() {
        let of = |line| refusals_of(&Case::new(script(line)));
        assert_eq!(of("(lambda (x) (let ((x 1)) x))"), [(9, 3), (9, 3)]);
        assert_eq!(of("(lambda (x) (lambda () (begin (lambda () x) (set! x 1))))"), [(0, 0), (12, 5)]);
        assert_eq!(of("(let ((x 1)) (lambda () (set! x 2)))"), [(0, 0), (11, 1)]);
        assert_eq!(of("(7 1)"), [(0, 0), (0, 0)]);
    }

    /// Document 01, "The printed facts": its first script, whose call is a SelfTailCall with number 1.
    #[test]
    fn facts_of_the_document() {
        let case = Case::new(script("(define f (lambda (x) (f x)))"));
        let [Answer::Accepted(rows), _] = answers(&case) else { panic!("accepted") };
        let kinds: Vec<u32> = rows.facts.iter().map(|row| row[0]).collect();
        assert_eq!(kinds, [0, 1, 8, 2, CALL_ROW, 1, 2]);
        assert_eq!(rows.facts[4][1..3], [3, 1]);
        // x is read from slot 0, for the last time; f has no slot.
        let (f, x) = (rows.facts[5], rows.facts[6]);
        assert_eq!((f[11], f[10], x[11], x[10]), (NONE, 0, 0, 1));
        // Each refers to its binder, at record 1 and 3.
        let ids = records(&case.input.numbers);
        assert_eq!((f[7], x[7]), (ids[1].id, ids[3].id));
    }

    #[test]
    fn refusals_at_the_limits() {
        let fresh = |input| refusals_of(&Case::new(input))[0].0;
        let fresh: Vec<u32> = with_stack(|| limits().into_iter().map(fresh).collect());
        let checks = [0, 0, 2, 0, 2, 0, 5, 4, 4, 0, 3, 3, 3, 3, 1];
        let others = [3, 0, 3, 0, 3, 4, 0, 10, 10, 0, 0, 0];
        let and = [0, 7, 8, 0, 0, 5, 0, 3, 4, 3, 3];
        let tested = [16, 7, 16, 0, 0, 5, 0, 3, 4, 3, 3];
        assert_eq!(
            fresh,
            [&checks[..], &others[..], &and[..], &tested[..], &tested[..], &[0; 3][..]].concat()
        );
    }

    /// Order 7 in document 02: what an `and` of one child is, and what a `when` or `unless` is, on the expansion.
    #[test]
    fn facts_of_the_expansion() {
        let row = |line, at: usize| {
            let [Answer::Accepted(rows), _] = answers(&Case::new(script(line))) else { panic!("accepted") };
            rows.facts[at]
        };
        assert_eq!(row("(define f (and (lambda (x) (f x))))", 5)[..3], [CALL_ROW, 3, 1]);
        assert_eq!(row("f (define f (and (and (lambda () 1))))", 0)[0], 1);
        assert_eq!(row("f (define f (and 1 (lambda () 1)))", 0)[0], 6);
        assert_eq!(row("f (when 1 (define f (lambda () 1)))", 0)[0], 6);
        assert_eq!(row("((and) 1)", 0), [0; FACT]);
        assert_eq!(row("((and 1 f) 1)", 0)[..2], [CALL_ROW, 1]);
        assert_eq!(row("(lambda (c) (and (c) (c)))", 5)[..2], [CALL_ROW, 2]);
        assert_eq!(row("(lambda (c) (when (c)))", 3)[..2], [CALL_ROW, 1]);
        assert_eq!(row("(lambda (c) (unless 1 (c) (c)))", 6)[..2], [CALL_ROW, 2]);
        let of = |line| refusals_of(&Case::new(script(line)));
        assert_eq!(of("(lambda () (unless 1 (define f 2) (define f (lambda () 3))))"), [(9, 4), (9, 4)]);
        assert_eq!(of("(let ((x 1)) (and (lambda () (set! x 2))))"), [(0, 0), (11, 1)]);
        assert_eq!(of("(lambda (x) (lambda () (when (lambda () x) (set! x 1))))"), [(0, 0), (12, 5)]);
    }

    #[test]
    fn a_lent_table_of_another_length() {
        for table in 0..4 {
            let mut case = Case::new(script("x"));
            case.lent[table] -= 1;
            assert_eq!(refusals_of(&case), [(1, 0), (1, 0)]);
        }
    }
}

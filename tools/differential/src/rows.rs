//! The original's facts as the rows of docs/ROWS.md.

use crate::layers::End;
use crate::record::{Record, CALL, CONSTANT, IDENTIFIER, LET};
use original::parser::interner::InternedString;
use original::parser::parser::SyntaxObjectId;
use original::{Analysis, CallKind, CallSiteInformation, IdentifierStatus, ScopeInfo, SemanticInformation};

/// How many numbers a row of the facts has, and one of the captured and argument entries.
pub const FACT: usize = 20;
pub const ENTRY: usize = 13;

pub type Fact = [u32; FACT];
pub type Entry = [u32; ENTRY];

pub const NONE: u32 = u32::MAX;

/// The first number of a row that is no identifier's.
pub const LAMBDA_ROW: u32 = 8;
pub const LET_ROW: u32 = 9;
pub const CALL_ROW: u32 = 10;

/// What the tables hold up to their last row that is not zero.
#[derive(Clone, Debug, Default)]
pub struct Rows {
    pub facts: Vec<Fact>,
    pub captured: Vec<Entry>,
    pub arguments: Vec<Entry>,
    /// Argument lists that the original holds in another order.
    pub other_order: usize,
}

/// The rows of an analysis. `before` are those of the run before: a list stays where that run has put it.
/// An error is a fact that the original lacks.
pub fn rows(
    analysis: &Analysis,
    records: &[Record],
    ends: &[End],
    before: Option<&Rows>,
) -> Result<Rows, String> {
    let simple = |r: &Record| simple_fact(analysis, r);
    let mut rows = Rows { facts: records.iter().map(simple).collect(), ..Rows::default() };
    for end in ends {
        let added = match records[end.at].form {
            LET => rows.add_let(analysis, records, end),
            _ => rows.add_lambda(analysis, records, end, before),
        };
        added.ok_or_else(|| format!("the original has no fact, or other names, at record {}", end.at))?;
    }
    Ok(rows)
}

impl Rows {
    fn add_let(&mut self, analysis: &Analysis, records: &[Record], end: &End) -> Option<()> {
        let fact = analysis.let_at(records[end.at].id)?;
        let names = end.binders.iter().map(|at| InternedString(records[*at].name));
        let entries: Vec<Entry> =
            names.filter_map(|name| Some(entry(name, fact.arguments.get(&name)?))).collect();
        let first = self.arguments.len();
        self.facts[end.at] = padded(&[
            LET_ROW,
            number(fact.stack_offset),
            option(fact.function_context),
            number(first),
            number(entries.len()),
        ]);
        let whole = entries.len() == end.binders.len() && entries.len() == fact.arguments.len();
        self.arguments.extend(entries);
        whole.then_some(())
    }

    fn add_lambda(
        &mut self,
        analysis: &Analysis,
        records: &[Record],
        end: &End,
        before: Option<&Rows>,
    ) -> Option<()> {
        let fact = analysis.lambda_at(records[end.at].id)?;
        let (captured, arguments) = (fact.captured_vars(), fact.arguments());
        let place_of = |at: &usize| arguments.iter().position(|x| x.0 .0 == records[*at].name);
        let places: Vec<usize> = end.binders.iter().filter_map(place_of).collect();
        self.facts[end.at] = padded(&[
            LAMBDA_ROW,
            number(self.captured.len()),
            number(captured.len()),
            number(self.arguments.len()),
            number(places.len()),
            fact.escapes.into(),
            id(fact.aliases_to),
            number(fact.depth),
        ]);
        let length_before = before.map_or(0, |rows| rows.facts[end.at][2] as usize);
        let given_up = length_before.saturating_sub(captured.len());
        self.captured.extend(captured.iter().map(|(name, info)| entry(*name, info)));
        self.captured.extend(vec![[0; ENTRY]; given_up]);
        self.arguments.extend(places.iter().map(|i| entry(arguments[*i].0, &arguments[*i].1)));
        self.other_order += usize::from(places.windows(2).any(|pair| pair[0] > pair[1]));
        (places.len() == end.binders.len() && places.len() == arguments.len()).then_some(())
    }
}

/// The row of a record that has no list; zeros where it has no fact.
fn simple_fact(analysis: &Analysis, r: &Record) -> Fact {
    match r.form {
        IDENTIFIER | CONSTANT => analysis.identifier_at(r.id).map_or([0; FACT], identifier),
        CALL => analysis.call_at(r.id).map_or([0; FACT], call),
        _ => [0; FACT],
    }
}

fn identifier(f: &SemanticInformation) -> Fact {
    [
        kind(f.kind),
        f.set_bang.into(),
        f.depth,
        id(f.shadows),
        f.usage_count,
        f.span.start,
        f.span.end,
        id(f.refers_to),
        id(f.aliases_to),
        f.builtin.into(),
        f.last_usage.into(),
        option(f.stack_offset),
        f.escapes.into(),
        option(f.capture_index),
        option(f.read_capture_offset),
        f.captured_from_enclosing.into(),
        option(f.heap_offset),
        option(f.read_heap_offset),
        f.is_shadowed.into(),
        f.is_required_identifier.into(),
    ]
}

fn kind(kind: IdentifierStatus) -> u32 {
    match kind {
        IdentifierStatus::Global => 1,
        IdentifierStatus::Local => 2,
        IdentifierStatus::LocallyDefinedFunction => 3,
        IdentifierStatus::LetVar => 4,
        IdentifierStatus::Captured => 5,
        IdentifierStatus::Free => 6,
        IdentifierStatus::HeapAllocated => 7,
    }
}

fn call(f: &CallSiteInformation) -> Fact {
    let (kind, depth) = match &f.kind {
        CallKind::Normal => (1, NONE),
        CallKind::TailCall => (2, NONE),
        CallKind::SelfTailCall(depth) => (3, number(*depth)),
        other => unreachable!("{other:?} is another pass's"),
    };
    padded(&[CALL_ROW, kind, depth, f.span.start, f.span.end])
}

fn entry(name: InternedString, s: &ScopeInfo) -> Entry {
    let mark = |yes: bool, value: u32| if yes { value } else { 0 };
    [
        name.0,
        s.id.0,
        mark(s.captured, 1) + mark(s.escapes, 2) + mark(s.captured_from_enclosing, 4) + mark(s.mutated, 8),
        number(s.usage_count),
        id(s.last_used),
        option(s.stack_offset),
        option(s.capture_offset),
        option(s.heap_offset),
        option(s.read_capture_offset),
        option(s.read_heap_offset),
        option(s.parent_heap_offset),
        option(s.local_heap_offset),
        option(s.depth),
    ]
}

fn padded(numbers: &[u32]) -> Fact {
    let mut row = [0; FACT];
    row[..numbers.len()].copy_from_slice(numbers);
    row
}

fn number(n: usize) -> u32 {
    u32::try_from(n).expect("counts and offsets are small")
}

fn option<T: Into<u32>>(n: Option<T>) -> u32 {
    n.map_or(NONE, T::into)
}

fn id(id: Option<SyntaxObjectId>) -> u32 {
    option(id.map(|id| id.0))
}

//! The smallest input that differs, in full.

use crate::compare::Difference;
use crate::record::{records, Record, CALL, IDENTIFIER, LAMBDA, LET};
use crate::refusals::{self, Refusal};
use crate::rows::{ENTRY, FACT};
use crate::scheme;
use crate::stage::Differing;
use crate::tables::{Wrong, NAMES};
use crate::tree::Tree;

pub fn differing(d: &Differing) -> String {
    let records = records(&d.case.input.numbers);
    let tree = refusals::first(&d.case).is_none().then(|| Tree::new(&d.case.input));
    let mut out = format!("smallest input that differs: {} number {}, ", d.stage, d.number);
    out += &match d.shrunk {
        None => format!("as it is, {} records\n", records.len()),
        Some(by) => {
            format!("shrunk from {} to {} records in {} tries\n", by.records, records.len(), by.tries)
        }
    };
    let text = tree.as_ref().map(scheme::text).filter(|text| !text.is_empty());
    out += &text.map_or(String::new(), |text| format!("    {text}\n"));
    out += &format!("lent tables: {:?} numbers\n{}", d.case.lent, d.case.input);
    let texts = tree.as_ref().map_or(Vec::new(), scheme::texts);
    for difference in &d.differences {
        out += &match difference {
            Difference::Original(text) => format!("{text}\n"),
            Difference::Refusal { run, wanted, found } => {
                format!("{run:?}: expected {}, found {}\n", answer(*wanted), answer(*found))
            }
            Difference::Numbers { run, wrong } => {
                wrong.iter().map(|w| format!("{run:?}: {}\n", number(w, &records, &texts))).collect()
            }
        };
    }
    out
}

fn answer(refusal: Option<Refusal>) -> String {
    refusal.map_or("accepted".to_string(), |r| format!("refused={} at={}", r.number, r.at))
}

/// The texts are those of the records, where they are a tree.
fn number(w: &Wrong, records: &[Record], texts: &[String]) -> String {
    let width = if w.table == 0 { FACT } else { ENTRY } as isize;
    let (row, place) = (w.place.div_euclid(width), w.place.rem_euclid(width) as usize);
    let at = usize::try_from(row).ok().filter(|_| w.table == 0);
    let field = match w.table {
        0 => at.and_then(|at| fact_field(records.get(at)?.form, place)),
        1 | 2 => ENTRY_FIELDS.get(place).copied(),
        _ => None,
    };
    let field = field.map_or(String::new(), |field| format!(" ({field})"));
    let text = at.and_then(|at| texts.get(at)).map_or(String::new(), |text| format!(" of {}", cut(text)));
    let name = NAMES[w.table];
    format!("{name} row {row}{text} place {place}{field}: expected {}, found {}", w.wanted, w.found)
}

/// The start of a long text. All its characters are one byte long.
fn cut(text: &str) -> String {
    if text.len() > 60 {
        format!("{} ..", &text[..57])
    } else {
        text.to_string()
    }
}

fn fact_field(form: u32, place: usize) -> Option<&'static str> {
    let fields: &[&str] = match form {
        IDENTIFIER => &IDENTIFIER_FIELDS,
        LAMBDA => &LAMBDA_FIELDS,
        LET => &LET_FIELDS,
        CALL => &CALL_FIELDS,
        _ => &[],
    };
    fields.get(place).copied()
}

const IDENTIFIER_FIELDS: [&str; FACT] = [
    "kind",
    "set_bang",
    "depth",
    "shadows",
    "usage_count",
    "from",
    "to",
    "refers_to",
    "aliases_to",
    "builtin",
    "last_usage",
    "stack_offset",
    "escapes",
    "capture_index",
    "read_capture_offset",
    "captured_from_enclosing",
    "heap_offset",
    "read_heap_offset",
    "is_shadowed",
    "is_required_identifier",
];

const LAMBDA_FIELDS: [&str; 8] = [
    "lambda",
    "captured_vars: first",
    "captured_vars: length",
    "arguments: first",
    "arguments: length",
    "escapes",
    "aliases_to",
    "depth",
];

const LET_FIELDS: [&str; 5] =
    ["let", "stack_offset", "function_context", "arguments: first", "arguments: length"];

const CALL_FIELDS: [&str; 5] = ["call", "kind", "number of a SelfTailCall", "from", "to"];

const ENTRY_FIELDS: [&str; ENTRY] = [
    "name",
    "id",
    "captured, escapes, captured_from_enclosing, mutated",
    "usage_count",
    "last_used",
    "stack_offset",
    "capture_offset",
    "heap_offset",
    "read_capture_offset",
    "read_heap_offset",
    "parent_heap_offset",
    "local_heap_offset",
    "depth",
];

#[cfg(test)]
mod tests {
    use super::*;
    use crate::case::Case;
    use crate::generate::scripts::script;
    use crate::port::Run;

    fn told(case: Case, wrong: Wrong) -> String {
        let differences = vec![
            Difference::Refusal {
                run: Run::Settled,
                wanted: None,
                found: Some(Refusal { number: 12, at: 2 }),
            },
            Difference::Numbers { run: Run::Fresh, wrong: vec![wrong] },
        ];
        differing(&Differing { stage: "fixed", number: 7, case, differences, shrunk: None })
    }

    /// The third record is the read of x; place 10 of its fact is last_usage.
    #[test]
    fn a_tree_is_told_as_text_and_as_records() {
        let wrong = Wrong { table: 0, place: 50, wanted: 1, found: 0 };
        let expected = "\
smallest input that differs: fixed number 7, as it is, 3 records
    n0:4 (lambda (n0) n0)
lent tables: [81920, 53248, 53248, 59392] numbers
names=1
class=4
form=6 id=1 name=0 count=1 from=1000 to=2000
form=1 id=38 name=0 count=0 from=1001 to=2001
form=1 id=75 name=0 count=0 from=1002 to=2002
Settled: expected accepted, found refused=12 at=2
Fresh: facts row 2 of n0 place 10 (last_usage): expected 1, found 0
";
        assert_eq!(told(Case::new(script("x:4 (lambda (x) x)")), wrong), expected);
    }

    /// Two whole records, and one number more; place 1 of a row of the captured entries is its id.
    #[test]
    fn what_is_no_tree_is_told_as_records_alone() {
        let mut case = Case::new(script("(x)"));
        case.input.numbers.push(5);
        let expected = "\
smallest input that differs: fixed number 7, as it is, 2 records
lent tables: [81920, 53248, 53248, 59392] numbers
names=1
class=0
form=8 id=1 name=0 count=1 from=1000 to=2000
form=1 id=38 name=0 count=0 from=1001 to=2001
[5]
Settled: expected accepted, found refused=12 at=2
Fresh: captured row 1 place 1 (id): expected 0, found 9
";
        assert_eq!(told(case, Wrong { table: 1, place: 14, wanted: 0, found: 9 }), expected);
    }

    #[test]
    fn a_long_text_is_cut() {
        assert_eq!(cut(&"n".repeat(60)), "n".repeat(60));
        assert_eq!(cut(&"n".repeat(61)), "n".repeat(57) + " ..");
    }
}

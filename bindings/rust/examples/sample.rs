//! Analyses `(define f (lambda (x) (f x)))`, says the facts of each record in words and compares them with those of document 01.
//! Then a script that is refused. Exit status 1 where anything differs. Run by bindings/run.

use scheme_analysis::{fresh, CallKind, CallSiteInformation, Entries, Facts, FunctionInformation, IdentifierStatus};
use scheme_analysis::{LetInformation, Reason, Refusal, Row, Script, SemanticInformation, Storage};
use std::process::ExitCode;
use std::sync::Mutex;

static STORAGE: Mutex<Storage> = Mutex::new(Storage::new());

/// A script with room for what is analysed here.
type Small = Script<'static, 16, 4>;

/// `(define f (lambda (x) (f x)))`
fn sample() -> Small {
    let mut script = Small::sized();
    script.define("f", |s| {
        s.lambda(["x"], |s| {
            s.call(|s| {
                s.identifier("f");
                s.identifier("x");
            })
        })
    });
    script
}

/// `(lambda (x) (let ((x 1)) x))`: the let binds x where the lambda's x is live
fn twice() -> Small {
    let mut script = Small::sized();
    script.lambda(["x"], |s| {
        s.let_(["x"], |s| {
            s.constant();
            s.identifier("x");
        })
    });
    script
}

/// The fields that document 01 prints of a fact.
#[derive(Debug, PartialEq)]
enum Fact {
    None,
    Variable { kind: IdentifierStatus, depth: u32, uses: u32, refers: Option<u32>, slot: Option<u32>, last: bool },
    Function { captured: usize, escapes: bool, depth: u32 },
    Let { height: u32, lambda: Option<u32> },
    Call(CallKind),
}

/// Document 01, "The printed facts".
const EXPECTED: [Fact; 7] = [
    Fact::None,
    Fact::Variable { kind: IdentifierStatus::Global, depth: 1, uses: 1, refers: None, slot: None, last: false },
    Fact::Function { captured: 0, escapes: false, depth: 1 },
    Fact::Variable { kind: IdentifierStatus::Local, depth: 2, uses: 1, refers: None, slot: None, last: false },
    Fact::Call(CallKind::SelfTailCall(1)),
    Fact::Variable { kind: IdentifierStatus::Global, depth: 1, uses: 1, refers: Some(1), slot: None, last: false },
    Fact::Variable { kind: IdentifierStatus::Local, depth: 2, uses: 1, refers: Some(3), slot: Some(0), last: true },
];

impl Fact {
    fn of(row: Row<'_>) -> Fact {
        match row {
            Row::Blank => Fact::None,
            Row::Variable(v) => Fact::Variable {
                kind: v.kind(),
                depth: v.depth(),
                uses: v.usage_count(),
                refers: v.refers_to(),
                slot: v.stack_offset(),
                last: v.last_usage(),
            },
            Row::Function(f) => Fact::Function { captured: f.captured_vars().len(), escapes: f.escapes(), depth: f.depth() },
            Row::Let(l) => Fact::Let { height: l.stack_offset(), lambda: l.function_context() },
            Row::CallSite(c) => Fact::Call(c.kind()),
        }
    }
}

fn names_of(list: Entries<'_>, names: &[&str]) -> String {
    list.iter().map(|entry| names[entry.name() as usize]).collect::<Vec<_>>().join(" ")
}

fn variable_in_words(v: SemanticInformation<'_>, name: &str) -> String {
    let mut words = format!("{name}, {:?}, depth {}, uses {}", v.kind(), v.depth(), v.usage_count());
    if let Some(id) = v.refers_to() {
        words += &format!(", refers to id {id}");
    }
    if let Some(slot) = v.stack_offset() {
        words += &format!(", slot {slot}");
    }
    if v.last_usage() {
        words += ", last use";
    }
    words
}

fn function_in_words(f: FunctionInformation<'_>, names: &[&str]) -> String {
    let escapes = if f.escapes() { "escapes" } else { "does not escape" };
    let (captured, arguments) = (names_of(f.captured_vars(), names), names_of(f.arguments(), names));
    format!("lambda, depth {}, captures ({captured}), arguments ({arguments}), {escapes}", f.depth())
}

fn let_in_words(l: LetInformation<'_>, names: &[&str]) -> String {
    format!("let, height {}, names ({})", l.stack_offset(), names_of(l.arguments(), names))
}

fn call_in_words(c: CallSiteInformation<'_>) -> String {
    format!("call, {:?}", c.kind())
}

fn say(facts: Facts<'_>, names: &[&str]) {
    for (number, row) in facts.rows().enumerate() {
        let words = match row {
            Row::Blank => "no fact".to_string(),
            Row::Variable(v) => {
                let record = facts.record(number).expect("it has a row");
                variable_in_words(v, names[record.name as usize])
            }
            Row::Function(f) => function_in_words(f, names),
            Row::Let(l) => let_in_words(l, names),
            Row::CallSite(c) => call_in_words(c),
        };
        println!("record {number}: {words}");
    }
}

fn analysed<'t>(script: &'t Small, storage: &'t mut Storage) -> Result<Facts<'t>, Refusal> {
    let records = script.records().expect("a good script");
    fresh(records, script.classes(), storage.tables())
}

/// Whether the sample's facts are document 01's.
fn sample_is_right(storage: &mut Storage) -> bool {
    println!("(define f (lambda (x) (f x)))");
    let script = sample();
    let answer = analysed(&script, storage);
    match answer {
        Ok(facts) => {
            say(facts, script.names());
            facts.rows().map(Fact::of).eq(EXPECTED)
        }
        Err(refusal) => {
            println!("{refusal}");
            false
        }
    }
}

/// Whether it is refused as document 01 says.
fn refusal_is_right(storage: &mut Storage) -> bool {
    println!("(lambda (x) (let ((x 1)) x))");
    let script = twice();
    let answer = analysed(&script, storage);
    match answer {
        Ok(_) => {
            println!("accepted");
            false
        }
        Err(refusal) => {
            println!("{refusal}");
            (refusal.reason, refusal.at()) == (Reason::LiveName, Some(3))
        }
    }
}

fn main() -> ExitCode {
    let mut storage = STORAGE.lock().expect("nobody else has it");
    let facts = sample_is_right(&mut storage);
    let refusal = refusal_is_right(&mut storage);
    if facts && refusal {
        return ExitCode::SUCCESS;
    }
    eprintln!("sample.rs: {} not document 01's", if facts { "the refusal is" } else { "the facts are" });
    ExitCode::FAILURE
}

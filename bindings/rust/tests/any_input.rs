//! Any lengths and contents are answered, and nothing outside the tables is touched.

mod common;

use common::{Room, Run, Script, PAINT};
use scheme_analysis::{CallKind, Facts, Form, IdentifierStatus, Reason, Refusal, Row};
use scheme_analysis::{ARGUMENTS_LENGTH, CAPTURED_LENGTH, FACTS_LENGTH, WORK_LENGTH};
use scheme_analysis::{DEEPEST, MOST_COUNT, MOST_NAMES, MOST_RECORDS, NONE, RECORD_WIDTH, STACK};
use std::thread;

const SAMPLE: &str = "(define f (lambda (x) (f x)))";

const LENGTHS: [usize; 4] = [FACTS_LENGTH, CAPTURED_LENGTH, ARGUMENTS_LENGTH, WORK_LENGTH];

/// Runs over painted tables, and holds what they are left with to the answer.
fn answer(run: Run, records: &[u32], classes: &[u8], room: &mut Room) -> Result<(), Refusal> {
    room.paint();
    let answer = run.of(records, classes, room.tables()).map(look_at_all);
    assert!(room.margins_are_whole(), "{run:?} {records:?}");
    match answer {
        Ok(()) => assert!(room.work_is_zero(), "{run:?} {records:?}"),
        Err(Refusal { reason: Reason::Length, record }) => assert_eq!(record, 0),
        Err(refusal) => {
            assert!(room.holds_only(0), "{run:?} {records:?}");
            assert!(refusal.record <= records.len() / RECORD_WIDTH, "{refusal}");
        }
    }
    answer
}

fn refused(reason: Reason, record: usize) -> Result<(), Refusal> {
    Err(Refusal { reason, record })
}

/// The rows can be viewed, lists have entries, and past the last record all is blank.
fn look_at_all(facts: Facts<'_>) {
    for row in facts.rows() {
        match row {
            Row::Blank => {}
            Row::Variable(v) => assert_ne!((v.kind(), v.refers_to()), (IdentifierStatus::Free, Some(0))),
            Row::CallSite(call) => assert_ne!(call.kind(), CallKind::SelfTailCall(NONE)),
            Row::Let(l) => assert!(l.arguments().iter().all(|entry| entry.id() > 0)),
            Row::Function(f) => assert!(f.arguments().iter().chain(f.captured_vars().iter()).all(|entry| entry.id() > 0)),
        }
    }
    assert!((facts.records()..MOST_RECORDS).all(|record| matches!(facts.row(record), Row::Blank)));
}

#[test]
fn a_table_of_another_length_is_refused_and_left_alone() {
    let script = Script::read(SAMPLE);
    for table in 0..4 {
        for length in [0, 1, LENGTHS[table] - 1, LENGTHS[table] + 1] {
            let mut lengths = LENGTHS;
            lengths[table] = length;
            let mut room = Room::of(lengths);
            for run in Run::BOTH {
                assert_eq!(answer(run, &script.records, &script.classes(), &mut room), refused(Reason::Length, 0));
                assert!(room.holds_only(PAINT));
            }
        }
    }
}

#[test]
fn a_part_of_a_record_is_refused_and_the_tables_are_left_alone() {
    let script = Script::read(SAMPLE);
    let mut room = Room::new();
    for length in (1..script.records.len()).filter(|length| length % RECORD_WIDTH != 0) {
        assert_eq!(answer(Run::Fresh, &script.records[..length], &[0, 0], &mut room), refused(Reason::Length, 0));
        assert!(room.holds_only(PAINT));
    }
}

#[test]
fn each_check_names_its_record() {
    let cases: [(&[[u32; RECORD_WIDTH]], Reason, usize); 15] = [
        (&[[2, 1, 0, 0, 0, 0], [13, 0, 0, 0, 0, 0]], Reason::Field, 1),
        (&[[1, 1, 1, 0, 0, 0]], Reason::Field, 0),
        (&[[7, 0, 0, MOST_COUNT + 1, 0, 0]], Reason::Field, 0),
        (&[[12, 0, 0, MOST_COUNT + 1, 0, 0]], Reason::Field, 0),
        (&[[10, 1, 0, 0, 0, 0]], Reason::Field, 0),
        (&[[3, 0, 0, 0, 0, 0], [2, 1, 0, 0, 0, 0]], Reason::Missing, 2),
        (&[[7, 0, 0, MOST_COUNT, 0, 0]], Reason::Missing, 1),
        (&[[6, 1, 0, 1, 0, 0], [2, 2, 0, 0, 0, 0], [2, 3, 0, 0, 0, 0]], Reason::NotAName, 1),
        (&[[5, 0, 0, 0, 0, 0], [10, 0, 0, 1, 0, 0], [1, 1, 0, 0, 0, 0], [2, 2, 0, 0, 0, 0]], Reason::NotAName, 1),
        (&[[2, 1, 0, 0, 0, 0], [8, 2, 0, 0, 0, 0]], Reason::EmptyCall, 1),
        (&[[7, 0, 0, 1, 0, 0], [11, 0, 0, 0, 0, 0]], Reason::NoTest, 1),
        // 6 and 7 cover all records before 16, which does before 8
        (&[[11, 0, 0, 0, 0, 0], [5, 0, 0, 0, 0, 0], [2, 1, 0, 0, 0, 0], [2, 2, 0, 0, 0, 0]], Reason::NotAName, 2),
        (&[[12, 0, 0, 0, 0, 0], [8, 1, 0, 0, 0, 0]], Reason::EmptyCall, 1),
        (&[[2, 1, 0, 0, 0, 0], [2, 1, 0, 0, 0, 0], [11, 0, 0, 0, 0, 0]], Reason::NoTest, 2),
        (&[[2, 1, 0, 0, 0, 0], [2, 1, 0, 0, 0, 0]], Reason::RepeatedId, 1),
    ];
    let mut room = Room::new();
    for (records, reason, record) in cases {
        for run in Run::BOTH {
            assert_eq!(answer(run, records.as_flattened(), &[0], &mut room), refused(reason, record));
        }
    }
}

#[test]
fn records_and_names_have_a_limit() {
    let empty_begin = [Form::Begin as u32, 0, 0, 0, 0, 0];
    let mut room = Room::new();
    for run in Run::BOTH {
        assert_eq!(answer(run, &empty_begin.repeat(MOST_RECORDS), &[0; MOST_NAMES], &mut room), Ok(()));
        assert_eq!(answer(run, &empty_begin.repeat(MOST_RECORDS + 1), &[], &mut room), refused(Reason::TooMany, 0));
        assert_eq!(answer(run, &[], &[0; MOST_NAMES + 1], &mut room), refused(Reason::TooMany, 0));
    }
}

/// `(let ((a1 1)) (let ((a2 1)) .. 1))`, the innermost 1 nested so deep
fn lets(nesting: usize) -> Script {
    let opened: String = (1..nesting).map(|n| format!("(let ((a{n} 1)) ")).collect();
    Script::read(&format!("{opened}1{}", ")".repeat(nesting - 1)))
}

/// A form in itself; the innermost 1 is nested so deep
fn nested(form: &str, nesting: usize) -> Script {
    Script::read(&format!("{}1{}", form.repeat(nesting - 1), ")".repeat(nesting - 1)))
}

/// So many `and`s of so many children, each the last of the one around: as many ifs in one another stand for them.
fn row_of_rows(ands: usize, children: usize) -> Script {
    let opened = format!("(and{} ", " x".repeat(children - 1));
    Script::read(&format!("(lambda (x) {}(x x){})", opened.repeat(ands), ")".repeat(ands)))
}

#[test]
fn nesting_has_a_limit() {
    let mut room = Room::new();
    for run in Run::BOTH {
        let (deepest, deeper) = (lets(DEEPEST), lets(DEEPEST + 1));
        assert_eq!(answer(run, &deepest.records, &deepest.classes(), &mut room), Ok(()));
        assert_eq!(answer(run, &deeper.records, &deeper.classes(), &mut room), refused(Reason::Deep, 3 * (DEEPEST - 1) + 1));
        for form in [AND_OF_ONE, UNLESS_TEST] {
            let (deepest, deeper) = (nested(form, DEEPEST), nested(form, DEEPEST + 1));
            assert_eq!(answer(run, &deepest.records, &[], &mut room), Ok(()));
            assert_eq!(answer(run, &deeper.records, &[], &mut room), refused(Reason::Deep, DEEPEST));
        }
    }
}

/// The start of a form, up to where the next stands in it; _ is for its nesting.
const LET: &str = "(let ((b_ 1)) ";
const AND: &str = "(and 1 ";
const AND_OF_ONE: &str = "(and ";
const WHEN: &str = "(when 1 2 ";
const UNLESS_TEST: &str = "(unless ";

/// Lambdas of ten parameters and another form in one another, so deep that the innermost call's arguments have this nesting.
/// The call reads sixty of more than 256 names, and ids fall: a captured list is sorted while all are open.
fn lambdas_and(form: &str, nesting: usize) -> Script {
    let names = |n: usize| (0..10).map(|k| format!(" a{n}_{k}")).collect::<String>();
    let other = |n: usize| form.replace('_', &n.to_string());
    let opening = |n: usize| if n % 2 == 1 { format!("(lambda ({}) ", names(n)) } else { other(n) };
    let opened: String = (1..nesting - 1).map(opening).collect();
    let read: String = (1..12).step_by(2).map(names).collect();
    let mut script = Script::read(&format!("{opened}({read}){}", ")".repeat(nesting - 2)));
    let ids = script.records.chunks_exact_mut(RECORD_WIDTH).map(|record| &mut record[1]);
    ids.filter(|id| **id != 0).for_each(|id| *id = u32::MAX - *id);
    script
}

#[test]
fn the_deepest_scripts_run_on_the_stack_that_is_promised() {
    let mut room = Room::new();
    let of_one_form = [AND, AND_OF_ONE, WHEN, UNLESS_TEST].map(|form| nested(form, DEEPEST));
    let with_lambdas = [LET, AND, AND_OF_ONE, WHEN, UNLESS_TEST].map(|form| lambdas_and(form, DEEPEST));
    for script in [lets(DEEPEST), row_of_rows(15, 250)].into_iter().chain(of_one_form).chain(with_lambdas) {
        let classes = script.classes();
        for run in Run::BOTH {
            let (records, tables) = (&script.records, room.tables());
            thread::scope(|scope| {
                let small = thread::Builder::new().stack_size(STACK);
                let done = small.spawn_scoped(scope, || run.of(records, &classes, tables).is_ok());
                assert!(done.expect("a thread").join().expect("no panic"));
            });
        }
    }
}

#[test]
fn captured_entries_have_a_limit() {
    let parameters: String = (0..255).map(|n| format!(" a{n}")).collect();
    let others = |n| "(lambda () 1)".repeat(n);
    let script = |n| Script::read(&format!("(lambda ({parameters}) (begin (lambda () (begin {parameters})) {}))", others(n)));
    let mut room = Room::new();
    for run in Run::BOTH {
        let (below, above) = (script(15), script(16));
        assert_eq!(answer(run, &below.records, &below.classes(), &mut room), Ok(()));
        let last = above.records.len() / RECORD_WIDTH - 2;
        assert_eq!(answer(run, &above.records, &above.classes(), &mut room), refused(Reason::TooManyCaptured, last));
    }
}

#[test]
fn damaged_scripts_are_answered() {
    let scripts = [
        SAMPLE,
        "(lambda (x y) (begin (set! x 1) (lambda () (let ((z y)) (if #f x z)))))",
        "(begin (define g (lambda () (begin (define h (lambda () (h))) (h)))) (define k (g 1)))",
        "(and (define f (and (lambda (x) (when (and x f) (set! x 1) (and (f x)))))) (unless #f (and)))",
    ];
    let odd = [0, 1, 2, 3, 4, 5, 6, 7, 8, 9, 10, 11, 12, 13, 255, 256, 65536, 1 << 31, u32::MAX - 1, u32::MAX];
    let mut room = Room::new();
    for script in scripts.map(Script::read) {
        for place in 0..script.records.len() {
            for number in odd {
                let mut records = script.records.clone();
                records[place] = number;
                let _ = answer(Run::Settled, &records, &script.classes(), &mut room);
            }
        }
    }
}

#[test]
fn noise_is_answered() {
    let mut state = 1_u64;
    let mut next = |below: u32| {
        state = state.wrapping_mul(6_364_136_223_846_793_005).wrapping_add(1_442_695_040_888_963_407);
        (state >> 33) as u32 % below
    };
    let mut room = Room::new();
    for _ in 0..2_000 {
        let below = [4, 14, u32::MAX][next(3) as usize];
        let length = RECORD_WIDTH as u32 * next(40) + next(8) / 7;
        let records: Vec<u32> = (0..length).map(|_| next(below)).collect();
        let classes: Vec<u8> = (0..next(9)).map(|_| next(256) as u8).collect();
        let _ = answer(Run::BOTH[next(2) as usize], &records, &classes, &mut room);
    }
}

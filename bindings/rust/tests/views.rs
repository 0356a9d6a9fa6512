//! What the views and refusals say, printed and by id. Expected values are document 01's, or by hand from docs/RULES.md.

mod common;

use common::{Room, Run, Script};
use scheme_analysis::{fresh, Facts, Reason, Refusal, Row, SemanticInformation, NONE, RECORD_WIDTH, VERSION};

fn with_facts(run: Run, text: &str, check: impl FnOnce(Facts<'_>)) {
    let (script, mut room) = (Script::read(text), Room::new());
    check(run.of(&script.records, &script.classes(), room.tables()).expect(text));
}

fn variable<'t>(facts: &Facts<'t>, record: usize) -> SemanticInformation<'t> {
    match facts.row(record) {
        Row::Variable(v) => v,
        other => panic!("record {record}: {other:?}"),
    }
}

#[test]
fn the_version_is_that_of_the_symbols() {
    assert_eq!(VERSION, 2);
}

#[test]
fn an_id_has_its_record() {
    // the id of record i is i + 1
    with_facts(Run::Fresh, "(lambda (x) (lambda (x) (let ((y x)) y)))", |facts| {
        let record_of = |id: Option<u32>| id.and_then(|id| facts.record_of(id));
        assert_eq!(record_of(variable(&facts, 3).shadows()), Some(1));
        assert_eq!(record_of(variable(&facts, 6).refers_to()), Some(3));
        assert_eq!(record_of(variable(&facts, 7).refers_to()), Some(5));
        let Row::Let(l) = facts.row(4) else { panic!("a let") };
        assert_eq!(record_of(l.function_context()), Some(2));
        assert_eq!([9, NONE].map(|id| facts.record_of(id)), [None; 2]);
    });
}

#[test]
fn ids_need_not_be_in_order_and_0_is_none() {
    // (begin (f x)), ids 7 3 5
    let records = [[7, 0, 0, 1, 0, 0], [8, 7, 0, 2, 0, 0], [1, 3, 0, 0, 0, 0], [1, 5, 0, 0, 0, 0]];
    let mut room = Room::new();
    let facts = fresh(records.as_flattened(), &[0], room.tables()).expect("accepted");
    assert_eq!([7, 3, 5].map(|id| facts.record_of(id)), [Some(1), Some(2), Some(3)]);
    assert_eq!([0, 1, 2, 4, 6, 8].map(|id| facts.record_of(id)), [None; 6]);
    assert_eq!(facts.record(1).map(|record| record.numbers()), Some(records[1]));
    assert_eq!(facts.record(4), None);
}

/// `(define f (lambda (x) (f x)))`, as the C header has it
const SAMPLE: [[u32; RECORD_WIDTH]; 7] = [
    [5, 0, 0, 0, 0, 29],
    [1, 1, 0, 0, 8, 9],
    [6, 2, 0, 1, 10, 28],
    [1, 3, 1, 0, 19, 20],
    [8, 4, 0, 2, 22, 27],
    [1, 5, 0, 0, 23, 24],
    [1, 6, 1, 0, 25, 26],
];

#[test]
fn facts_are_printed_by_field() {
    let mut room = Room::new();
    let facts = fresh(SAMPLE.as_flattened(), &[0, 0], room.tables()).expect("accepted");
    assert_eq!(format!("{:?}", facts.row(0)), "Blank");
    assert_eq!(
        format!("{:?}", facts.row(6)),
        "Variable(SemanticInformation { kind: Local, set_bang: false, depth: 2, shadows: None, usage_count: 1, \
         span: Span { start: 25, end: 26 }, refers_to: Some(3), aliases_to: None, builtin: false, last_usage: true, \
         stack_offset: Some(0), escapes: false, capture_index: None, read_capture_offset: None, \
         captured_from_enclosing: false, heap_offset: None, read_heap_offset: None, is_shadowed: false, \
         is_required_identifier: false })"
    );
    assert_eq!(
        format!("{:?}", facts.row(4)),
        "CallSite(CallSiteInformation { kind: SelfTailCall(1), span: Span { start: 23, end: 24 } })"
    );
    assert_eq!(
        format!("{:?}", facts.row(2)),
        "Function(FunctionInformation { captured_vars: [], arguments: [ScopeInfo { name: 1, id: 3, captured: false, \
         escapes: false, captured_from_enclosing: false, mutated: false, usage_count: 1, last_used: Some(6), \
         stack_offset: Some(0), capture_offset: None, heap_offset: None, read_capture_offset: None, \
         read_heap_offset: None, parent_heap_offset: None, local_heap_offset: None, depth: 2 }], escapes: false, \
         aliases_to: None, depth: 1 })"
    );
    let all = format!("{facts:?}");
    assert!(all.starts_with("{0: Blank, 1: Variable(SemanticInformation { kind: Global, "), "{all}");
    assert_eq!(all.matches("SemanticInformation").count(), 4);
}

#[test]
fn a_let_and_its_list_are_printed_by_field() {
    with_facts(Run::Fresh, "(lambda () (let () 1))", |facts| {
        let Row::Let(l) = facts.row(1) else { panic!("a let") };
        assert_eq!(format!("{l:?}"), "LetInformation { stack_offset: 0, function_context: Some(1), arguments: [] }");
    });
    with_facts(Run::Fresh, "(let ((a 1) (b 2)) 1)", |facts| {
        let Row::Let(l) = facts.row(0) else { panic!("a let") };
        let list = format!("{:?}", l.arguments());
        assert!(list.starts_with("[ScopeInfo { name: 0, id: 2, "), "{list}");
        assert!(list.contains("}, ScopeInfo { name: 1, id: 3, "), "{list}");
        assert!(format!("{l:?}").contains("function_context: None"));
    });
}

#[test]
fn tables_are_printed_by_their_lengths() {
    assert_eq!(
        format!("{:?}", Room::new().tables()),
        "Tables { facts: [u32; 81920], captured: [u32; 53248], arguments: [u32; 53248], work: [u32; 59392] }"
    );
}

#[test]
fn a_refusal_names_a_record_only_where_there_is_one() {
    let said = |reason, record| Refusal { reason, record }.to_string();
    assert_eq!(said(Reason::Length, 0), "refused 1: the records or a table have a wrong length");
    assert_eq!(said(Reason::TooMany, 0), "refused 2: too many records or names");
    assert_eq!(said(Reason::Field, 0), "refused 3 at record 0: a field is out of range");
    assert_eq!(said(Reason::LiveName, 5), "refused 9 at record 5: the name is live in the same scope");

    let mut room = Room::new();
    let at = |records: &[u32], room: &mut Room| fresh(records, &[], room.tables()).map(|_| ()).map_err(|refusal| refusal.at());
    assert_eq!(at(&[0; 5], &mut room), Err(None));
    assert_eq!(at(&[0; 6 * 4097], &mut room), Err(None));
    assert_eq!(at(&[0; 6], &mut room), Err(Some(0)));
}

/// Boxed tables do not pass through the stack: a quarter of their size is enough for them and a run.
#[cfg(feature = "alloc")]
#[test]
fn tables_on_the_heap_need_no_room_on_the_stack() {
    use scheme_analysis::{Storage, STACK};
    let small = std::thread::Builder::new().stack_size(STACK);
    let run = || {
        let mut storage = Storage::boxed();
        let facts = fresh(SAMPLE.as_flattened(), &[0, 0], storage.tables()).expect("accepted");
        assert_eq!(facts.records(), 7);
        assert_eq!(format!("{storage:?}"), "BoxedStorage { .. }");
    };
    small.spawn(run).expect("a thread").join().expect("no panic");
}

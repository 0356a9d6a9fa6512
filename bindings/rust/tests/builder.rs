//! Scripts made by `Script`. The records are worked out by hand from the table of records.

mod common;

use common::Room;
use scheme_analysis::{fresh, CallKind, Facts, Form, IdentifierStatus, Reason, Record, Row, Script, ScriptError, Span};
use scheme_analysis::{MOST_COUNT, MOST_NAMES, MOST_RECORDS, PRELUDE, RECORD_WIDTH};

/// A script with room for what is tried here.
type Small<'n> = Script<'n, 16, 4>;

/// `(define f (lambda (x) (f x)))`
fn sample() -> Small<'static> {
    let mut script = Small::sized();
    script.define("f", |s| {
        s.lambda(["x"], |s| {
            s.call(|s| {
                s.identifier("f");
                s.identifier("x");
            })
        })
    });
    script
}

/// Form, id, name and count of each record.
fn bare(script: &Small<'_>) -> Vec<[u32; 4]> {
    let records = script.records().expect("nothing wrong");
    records.chunks_exact(RECORD_WIDTH).map(|record| [record[0], record[1], record[2], record[3]]).collect()
}

fn printed(row: Row<'_>) -> String {
    let or_none = |number: Option<u32>| number.map_or("-".to_string(), |number| number.to_string());
    match row {
        Row::Blank => String::new(),
        Row::Variable(v) => format!(
            "kind={} depth={} uses={} refers={} slot={} last={}",
            v.kind() as u32 + 1,
            v.depth(),
            v.usage_count(),
            or_none(v.refers_to()),
            or_none(v.stack_offset()),
            u32::from(v.last_usage())
        ),
        Row::Function(f) => {
            format!("captured={} escapes={} depth={}", f.captured_vars().len(), u32::from(f.escapes()), f.depth())
        }
        Row::Let(l) => format!("let={} in={}", l.stack_offset(), or_none(l.function_context())),
        Row::CallSite(call) => match call.kind() {
            CallKind::Normal => "call=1 self=-".to_string(),
            CallKind::TailCall => "call=2 self=-".to_string(),
            CallKind::SelfTailCall(number) => format!("call=3 self={number}"),
        },
    }
}

fn with_facts<const R: usize, const N: usize>(script: &Script<'_, R, N>, check: impl FnOnce(Facts<'_>)) {
    let mut room = Room::new();
    check(fresh(script.records().expect("nothing wrong"), script.classes(), room.tables()).expect("accepted"));
}

#[test]
fn the_sample_has_the_records_of_the_c_header() {
    let mut script = sample();
    let numbers = [
        [5, 0, 0, 0, 0, 29],
        [1, 1, 0, 0, 8, 9],
        [6, 2, 0, 1, 10, 28],
        [1, 3, 1, 0, 19, 20],
        [8, 4, 0, 2, 22, 27],
        [1, 5, 0, 0, 23, 24],
        [1, 6, 1, 0, 25, 26],
    ];
    let without_positions = numbers.map(|[form, id, name, count, _, _]| [form, id, name, count, 0, 0]);
    assert_eq!(script.records(), Ok(without_positions.as_flattened()));
    for (record, [.., start, end]) in numbers.into_iter().enumerate() {
        script.set_span(record, Span { start, end });
    }
    script.set_span(numbers.len(), Span { start: 1, end: 2 });
    assert_eq!(script.records(), Ok(numbers.as_flattened()));
    assert_eq!((script.names(), script.classes()), (&["f", "x"][..], &[0, 0][..]));
}

#[test]
fn the_sample_has_the_facts_of_document_01() {
    with_facts(&sample(), |facts| {
        let expected = [
            "",
            "kind=1 depth=1 uses=1 refers=- slot=- last=0",
            "captured=0 escapes=0 depth=1",
            "kind=2 depth=2 uses=1 refers=- slot=- last=0",
            "call=3 self=1",
            "kind=1 depth=1 uses=1 refers=1 slot=- last=0",
            "kind=2 depth=2 uses=1 refers=3 slot=0 last=1",
        ];
        assert!(facts.rows().map(printed).eq(expected));
    });
}

#[test]
fn each_form_has_its_record() {
    // (let ((a 1) (b #f)) (begin (set! a (if b a 2)) (lambda () (f))))
    let mut script = Small::sized();
    script.let_(["a", "b"], |s| {
        s.constant();
        s.constant_false();
        s.begin(|s| {
            s.set("a", |s| {
                s.if_(|s| {
                    s.identifier("b");
                    s.identifier("a");
                    s.constant();
                })
            });
            s.lambda([], |s| s.call(|s| s.identifier("f")));
        })
    });
    let expected = [
        [4, 1, 0, 2],
        [1, 2, 0, 0],
        [1, 3, 1, 0],
        [2, 4, 0, 0],
        [2, 5, 1, 0],
        [7, 0, 0, 2],
        [9, 0, 0, 0],
        [1, 6, 0, 0],
        [3, 0, 0, 0],
        [1, 7, 1, 0],
        [1, 8, 0, 0],
        [2, 9, 0, 0],
        [6, 10, 0, 0],
        [8, 11, 0, 1],
        [1, 12, 2, 0],
    ];
    assert_eq!(bare(&script), expected);
    with_facts(&script, |facts| {
        assert_eq!(facts.record(13), Record::of([8, 11, 0, 1, 0, 0]));
        assert_eq!((facts.record(5).map(|record| record.form), facts.record(15)), (Some(Form::Begin), None));
    });
}

#[test]
fn and_when_and_unless_have_their_records() {
    // (and (when x (and)) (unless #f x 1))
    let mut script = Small::sized();
    script.and(|s| {
        s.when(|s| {
            s.identifier("x");
            s.and(|_| ());
        });
        s.unless(|s| {
            s.constant_false();
            s.identifier("x");
            s.constant();
        });
    });
    let expected =
        [[10, 0, 0, 2], [11, 0, 0, 2], [1, 1, 0, 0], [10, 0, 0, 0], [12, 0, 0, 3], [2, 2, 1, 0], [1, 3, 0, 0], [2, 4, 0, 0]];
    assert_eq!(bare(&script), expected);
    with_facts(&script, |facts| {
        let free = "kind=6 depth=1 uses=0 refers=- slot=- last=0";
        assert!(facts.rows().map(printed).eq(["", "", free, "", "", "", free, ""]));
    });
}

#[test]
fn a_method_answers_the_number_of_its_record() {
    let mut script = Small::sized();
    assert_eq!(script.constant(), 0);
    assert_eq!(script.call(|s| assert_eq!((s.identifier("f"), s.identifier("x")), (2, 3))), 1);
    assert_eq!(script.define("y", |s| assert_eq!(s.constant_false(), 6)), 4);
}

#[test]
fn an_empty_script_is_good() {
    let script = Script::new();
    assert_eq!((script.records(), script.classes()), (Ok(&[][..]), &[][..]));
    with_facts(&script, |facts| assert_eq!(facts.records(), 0));
}

#[test]
fn a_wrong_number_of_children_is_told_with_its_record() {
    let at = |record| Err(ScriptError::Children { record });
    let wrong = |put: fn(&mut Small<'_>)| {
        let mut script = Small::sized();
        script.constant();
        put(&mut script);
        script.records().map(<[u32]>::to_vec)
    };
    fn twice(s: &mut Small<'_>) {
        s.constant();
        s.constant();
    }
    fn nothing(_: &mut Small<'_>) {}
    assert_eq!(wrong(|s| _ = s.if_(twice)), at(1));
    assert_eq!(wrong(|s| _ = s.define("x", nothing)), at(1));
    assert_eq!(wrong(|s| _ = s.define("x", twice)), at(1));
    assert_eq!(wrong(|s| _ = s.set("x", twice)), at(1));
    assert_eq!(wrong(|s| _ = s.lambda(["x"], twice)), at(1));
    assert_eq!(wrong(|s| _ = s.lambda(["x"], nothing)), at(1));
    assert_eq!(wrong(|s| _ = s.let_(["x", "y"], twice)), at(1));
    assert_eq!(wrong(|s| _ = s.begin(|s| s.begin(|s| s.set("x", nothing)))), at(3));
    // the inner one ends first
    assert_eq!(wrong(|s| _ = s.define("x", |s| _ = s.if_(twice))), at(3));
}

#[test]
fn a_script_has_the_room_that_its_type_says() {
    let mut script = Script::<2, 1>::sized();
    script.identifier("a");
    script.identifier("a");
    assert_eq!(script.records().map(<[u32]>::len), Ok(2 * RECORD_WIDTH));
    assert_eq!(script.constant(), 2);
    assert_eq!(script.records(), Err(ScriptError::Records));
    assert_eq!(script.call(|s| s.identifier("b")), 3);
    assert_eq!(script.records(), Err(ScriptError::Records));

    let mut script = Script::<2, 1>::sized();
    script.set_class("a", PRELUDE);
    script.set_class("b", PRELUDE);
    assert_eq!((script.records(), script.names()), (Err(ScriptError::Names), &["a"][..]));
}

#[test]
fn a_new_script_has_room_for_all_that_the_library_takes() {
    let names: Vec<String> = (0..=MOST_NAMES).map(|number| number.to_string()).collect();
    let mut script = Script::new();
    names[..MOST_NAMES].iter().for_each(|name| _ = script.identifier(name));
    (MOST_NAMES..MOST_RECORDS).for_each(|_| _ = script.constant());
    with_facts(&script, |facts| assert_eq!(facts.records(), MOST_RECORDS));
    let full = script.clone();
    script.constant();
    assert_eq!(script.records(), Err(ScriptError::Records));
    script = full;
    script.set_class(&names[MOST_NAMES], 0);
    assert_eq!(script.records(), Err(ScriptError::Names));
}

#[test]
fn what_else_is_unfit_the_library_refuses() {
    let mut room = Room::new();
    let mut refusal = |script: &Script<'_>| {
        let refusal = fresh(script.records().expect("nothing wrong"), script.classes(), room.tables()).map(|_| ()).err();
        refusal.map(|refusal| (refusal.reason, refusal.at()))
    };
    let wide = |count| {
        let mut script = Script::new();
        script.begin(|s| (0..count).for_each(|_| _ = s.constant()));
        script
    };
    assert_eq!(refusal(&wide(MOST_COUNT)), None);
    assert_eq!(refusal(&wide(MOST_COUNT + 1)), Some((Reason::Field, Some(0))));
    let mut script = Script::new();
    script.begin(|s| s.call(|_| ()));
    assert_eq!(refusal(&script), Some((Reason::EmptyCall, Some(1))));
    let mut script = Script::new();
    script.and(|s| s.unless(|_| ()));
    assert_eq!(refusal(&script), Some((Reason::NoTest, Some(1))));
}

#[test]
fn a_class_is_its_names() {
    // (car x)
    let mut script = Small::sized();
    script.call(|s| {
        s.identifier("car");
        s.identifier("x");
    });
    script.set_class("car", PRELUDE);
    script.set_class("cdr", PRELUDE);
    assert_eq!((script.names(), script.classes()), (&["car", "x", "cdr"][..], &[PRELUDE, 0, PRELUDE][..]));
    with_facts(&script, |facts| {
        assert!(matches!(facts.row(1), Row::Variable(car) if car.kind() == IdentifierStatus::Global && car.builtin()));
        assert!(matches!(facts.row(2), Row::Variable(x) if x.kind() == IdentifierStatus::Free && !x.builtin()));
    });
}

#[test]
fn a_script_and_its_error_can_be_printed() {
    let mut script = Script::<2, 1>::sized();
    script.identifier("a");
    assert_eq!(format!("{script:?}"), r#"Script { records: [[1, 1, 0, 0, 0, 0]], names: ["a"], classes: [0], error: None }"#);
    assert_eq!(ScriptError::Children { record: 3 }.to_string(), "record 3 has too few children or too many");
    assert_eq!(ScriptError::Records.to_string(), "no room for so many records");
    assert_eq!(ScriptError::Names.to_string(), "no room for so many names");
}

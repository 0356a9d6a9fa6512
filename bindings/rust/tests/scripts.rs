//! The scripts of document 01, "Scripts to try", with what it and docs/RULES.md say of them; then order 7 of document 02.

mod common;

use common::{Room, Run, Script};
use scheme_analysis::{CallKind, Facts, IdentifierStatus, Reason, Row, SemanticInformation};

fn facts_of(run: Run, text: &str, check: impl FnOnce(Facts<'_>)) {
    let (script, mut room) = (Script::read(text), Room::new());
    match run.of(&script.records, &script.classes(), room.tables()) {
        Ok(facts) => check(facts),
        Err(refusal) => panic!("{text}: {refusal}"),
    }
}

fn refusal_of(run: Run, text: &str) -> (Reason, usize) {
    let (script, mut room) = (Script::read(text), Room::new());
    let refusal = run.of(&script.records, &script.classes(), room.tables()).expect_err(text);
    (refusal.reason, refusal.record)
}

fn variable<'t>(facts: &Facts<'t>, record: usize) -> SemanticInformation<'t> {
    match facts.row(record) {
        Row::Variable(v) => v,
        other => panic!("record {record}: {other:?}"),
    }
}

fn call(facts: &Facts<'_>, record: usize) -> CallKind {
    match facts.row(record) {
        Row::CallSite(c) => c.kind(),
        other => panic!("record {record}: {other:?}"),
    }
}

#[test]
fn no_records_have_no_facts() {
    for run in Run::BOTH {
        facts_of(run, "", |facts| assert_eq!((facts.records(), facts.rows().count()), (0, 0)));
    }
}

#[test]
fn a_call_at_top_level_is_normal_and_its_names_are_free() {
    facts_of(Run::Fresh, "(f x)", |facts| {
        assert_eq!(call(&facts, 0), CallKind::Normal);
        assert_eq!(variable(&facts, 1).kind(), IdentifierStatus::Free);
        assert_eq!(variable(&facts, 2).kind(), IdentifierStatus::Free);
    });
}

#[test]
fn the_branches_of_an_if_are_in_tail_position() {
    facts_of(Run::Fresh, "(lambda (c) (if (p c) (q c) (r c)))", |facts| {
        assert_eq!(call(&facts, 3), CallKind::Normal);
        assert_eq!(call(&facts, 6), CallKind::TailCall);
        assert_eq!(call(&facts, 9), CallKind::TailCall);
    });
}

#[test]
fn a_let_name_lies_above_the_arguments_before_it() {
    facts_of(Run::Fresh, "(lambda (p) (g 7 (let ((y p)) y)))", |facts| {
        assert_eq!(variable(&facts, 8).stack_offset(), Some(2));
        let Row::Let(l) = facts.row(5) else { panic!("a let") };
        assert_eq!((l.stack_offset(), l.function_context()), (2, Some(1)));
        assert!(l.arguments().iter().map(|entry| entry.id()).eq([7]));
    });
}

#[test]
fn a_captured_name_has_its_home_slot() {
    facts_of(Run::Fresh, "(lambda (x) (lambda () x))", |facts| {
        let x = variable(&facts, 3);
        assert_eq!((x.kind(), x.stack_offset(), x.depth()), (IdentifierStatus::Captured, Some(0), 3));
        let Row::Function(inner) = facts.row(2) else { panic!("a lambda") };
        assert!(inner.captured_vars().iter().map(|entry| (entry.id(), entry.captured())).eq([(2, true)]));
    });
}

#[test]
fn settled_a_captured_name_has_its_number_for_a_slot() {
    facts_of(Run::Settled, "(lambda (x) (lambda () x))", |facts| {
        let x = variable(&facts, 3);
        assert_eq!((x.stack_offset(), x.capture_index(), x.read_capture_offset()), (None, Some(0), Some(0)));
        let Row::Function(inner) = facts.row(2) else { panic!("a lambda") };
        assert!(inner.captured_vars().iter().map(|entry| entry.read_capture_offset()).eq([Some(0)]));
    });
}

#[test]
fn a_set_counts_for_two_uses_of_a_local_name() {
    facts_of(Run::Fresh, "(lambda (x) (set! x 1))", |facts| {
        let x = variable(&facts, 1);
        assert_eq!((x.usage_count(), x.set_bang()), (2, true));
    });
}

#[test]
fn a_call_of_a_constant_has_no_fact() {
    facts_of(Run::Fresh, "(7 1)", |facts| assert!(facts.rows().all(|row| matches!(row, Row::Blank))));
}

#[test]
fn a_let_in_a_lambda_may_not_bind_its_parameter_again() {
    for run in Run::BOTH {
        assert_eq!(refusal_of(run, "(lambda (x) (let ((x 1)) x))"), (Reason::LiveName, 3));
    }
}

#[test]
fn a_capture_mutated_late_has_no_capture_offset() {
    let text = "(lambda (x) (lambda () (begin (lambda () x) (set! x 1))))";
    assert_eq!(refusal_of(Run::Settled, text), (Reason::NoCaptureOffset, 5));
    facts_of(Run::Fresh, text, |facts| assert_eq!(facts.records(), 9));
}

#[test]
fn a_let_outside_lambdas_has_no_cells() {
    assert_eq!(refusal_of(Run::Settled, "(let ((x 1)) (lambda () (set! x 2)))"), (Reason::HeapLet, 1));
}

/// How often the binder at this record is used, by a fresh and by a settled run.
fn uses(text: &str, binder: usize) -> (u32, u32) {
    let mut uses = [0; 2];
    for (run, uses) in Run::BOTH.into_iter().zip(&mut uses) {
        facts_of(run, text, |facts| *uses = variable(&facts, binder).usage_count());
    }
    (uses[0], uses[1])
}

#[test]
fn settled_uses_of_a_parameter_are_those_in_its_own_lambda() {
    assert_eq!(uses("(lambda (x) (lambda () x))", 1), (1, 0));
    assert_eq!(uses("(lambda (x) (begin x x (lambda () x)))", 1), (3, 2));
    // a set! counts one for itself, here by the name's entry, and one for its target, here by the capture
    assert_eq!(uses("(lambda (x) (lambda () (set! x 1)))", 1), (2, 1));
}

#[test]
fn settled_uses_of_a_let_name_are_what_its_last_read_left() {
    // the capture starts at 1 and is read once
    assert_eq!(uses("(lambda () (let ((y 1)) (lambda () y)))", 2), (1, 2));
    // the last read is the only one in its own lambda
    assert_eq!(uses("(lambda () (let ((y 1)) (begin (lambda () y) y)))", 2), (2, 1));
}

#[test]
fn settled_uses_of_a_define_are_the_fresh_ones() {
    assert_eq!(uses("(define f (lambda () (lambda () (f)))) (f) (set! f 1)", 1), (3, 3));
}

#[test]
fn the_number_of_a_self_tail_call_is_that_of_the_lambdas_around() {
    for run in Run::BOTH {
        facts_of(run, "(define f (lambda (x) (lambda (y) (f x))))", |facts| {
            assert_eq!(call(&facts, 6), CallKind::SelfTailCall(2));
        });
        // directly in an inner begin the define starts anew, elsewhere not
        facts_of(run, "(lambda () (begin (define g (lambda () (g))) 1))", |facts| {
            assert_eq!(call(&facts, 5), CallKind::SelfTailCall(1));
        });
        facts_of(run, "(lambda () (define g (lambda () (g))))", |facts| {
            assert_eq!(call(&facts, 4), CallKind::SelfTailCall(2));
        });
    }
}

#[test]
fn settled_a_set_ends_self_tail_calls() {
    let text = "(define f (lambda (x) (begin (set! f x) (f x))))";
    facts_of(Run::Fresh, text, |facts| assert_eq!(call(&facts, 8), CallKind::SelfTailCall(1)));
    facts_of(Run::Settled, text, |facts| assert_eq!(call(&facts, 8), CallKind::TailCall));
}

#[test]
fn nested_lets_of_one_name_are_refused_until_one_is_renamed() {
    for run in Run::BOTH {
        assert_eq!(refusal_of(run, "(lambda () (let ((a 1)) (let ((a 2)) a)))"), (Reason::LiveName, 5));
        assert_eq!(refusal_of(run, "(let ((a 1)) (let ((a 2)) a))"), (Reason::LiveName, 4));
        facts_of(run, "(lambda () (let ((a 1)) (let ((b a)) b)))", |facts| {
            // in the initial expression the outer one, in the body the renamed one
            assert_eq!((variable(&facts, 6).refers_to(), variable(&facts, 7).refers_to()), (Some(3), Some(6)));
            assert_eq!((variable(&facts, 6).stack_offset(), variable(&facts, 7).stack_offset()), (Some(0), Some(1)));
        });
        // one after another, and in a lambda inside, a name may come again
        facts_of(run, "(lambda (a) (begin (let ((b 1)) b) (let ((b 2)) b) (lambda (a b) a)))", |_| ());
    }
}

#[test]
fn the_premises_of_the_execution_property_are_not_checked() {
    let set = "((lambda (x) (let ((f (lambda () x))) (begin (set! x 2) (f)))) 3)";
    facts_of(Run::Fresh, set, |facts| {
        let x = variable(&facts, 6);
        assert_eq!((x.kind(), x.stack_offset()), (IdentifierStatus::Captured, Some(0)));
    });
    // the inner lambda ends before the set!: to it x is no cell, and its own lambda has one for it
    facts_of(Run::Settled, set, |facts| {
        assert_eq!(variable(&facts, 6).kind(), IdentifierStatus::Captured);
        assert_eq!(variable(&facts, 2).kind(), IdentifierStatus::HeapAllocated);
    });
    facts_of(Run::Settled, "(lambda (x) (begin (set! x 2) (lambda () x)))", |facts| {
        assert_eq!(variable(&facts, 7).kind(), IdentifierStatus::HeapAllocated);
    });
    facts_of(Run::Fresh, "(lambda () (begin (define x 1) x))", |facts| {
        let x = variable(&facts, 5);
        assert_eq!((x.kind(), x.depth(), x.stack_offset()), (IdentifierStatus::Global, 1, None));
    });
}

#[test]
fn settled_a_let_name_that_is_a_cell_has_its_place_for_a_slot() {
    let text = "(lambda (p) (let ((y p)) (begin (lambda () (set! y 1)) y)))";
    let slot = |run| {
        let mut slot = None;
        facts_of(run, text, |facts| slot = variable(&facts, 10).stack_offset());
        slot
    };
    assert_eq!((slot(Run::Fresh), slot(Run::Settled)), (Some(1), Some(0)));
}

/// Kind and what it refers to.
fn reference(facts: &Facts<'_>, record: usize) -> (IdentifierStatus, Option<u32>) {
    (variable(facts, record).kind(), variable(facts, record).refers_to())
}

#[test]
fn an_and_of_one_child_is_that_child() {
    for run in Run::BOTH {
        // a define's body: it enters first, and its call is its own
        facts_of(run, "f (define f (and (and (lambda (x) (f x)))))", |facts| {
            assert_eq!(reference(&facts, 0), (IdentifierStatus::Global, Some(3)));
            assert_eq!(call(&facts, 7), CallKind::SelfTailCall(1));
        });
        // a call's head: the name of the define around, a constant
        facts_of(run, "(define f (lambda (x) ((and f) x)))", |facts| assert_eq!(call(&facts, 4), CallKind::SelfTailCall(1)));
        facts_of(run, "((and 7) 1)", |facts| assert!(facts.rows().all(|row| matches!(row, Row::Blank))));
        // at top level: a define there
        facts_of(run, "f (and (begin (and (define f (lambda () 1)))))", |facts| {
            assert_eq!(reference(&facts, 0), (IdentifierStatus::Global, Some(6)));
        });
    }
}

#[test]
fn an_and_of_more_is_an_if() {
    facts_of(Run::Fresh, "f (define f (and 1 (lambda () 1)))", |facts| {
        assert_eq!(reference(&facts, 0), (IdentifierStatus::Free, None));
    });
    facts_of(Run::Fresh, "(lambda (c) (and (c) (c)))", |facts| {
        assert_eq!((call(&facts, 3), call(&facts, 5)), (CallKind::Normal, CallKind::TailCall));
    });
}

#[test]
fn what_follows_a_test_is_an_inner_begin() {
    for run in Run::BOTH {
        facts_of(run, "f (when 1 (define f (lambda () 1)))", |facts| {
            assert_eq!(reference(&facts, 0), (IdentifierStatus::Free, None));
        });
        for text in
            ["(lambda () (when 1 (f) (define f (lambda () (f)))))", "(lambda () (unless 1 (f) (define f (lambda () (f)))))"]
        {
            facts_of(run, text, |facts| {
                assert_eq!(reference(&facts, 4), (IdentifierStatus::Global, Some(7)));
                assert_eq!(call(&facts, 8), CallKind::SelfTailCall(1));
            });
        }
        assert_eq!(refusal_of(run, "(lambda () (unless 1 (define f 2) (define f (lambda () 3))))"), (Reason::LiveName, 4));
    }
    facts_of(Run::Fresh, "(lambda (c) (when (c)))", |facts| assert_eq!(call(&facts, 3), CallKind::Normal));
}

#[test]
fn settled_refusals_name_records_as_they_are_given() {
    assert_eq!(refusal_of(Run::Settled, "(let ((x 1)) (and (lambda () (set! x 2))))"), (Reason::HeapLet, 1));
    let text = "(lambda (x) (lambda () (when (lambda () x) (set! x 1))))";
    assert_eq!(refusal_of(Run::Settled, text), (Reason::NoCaptureOffset, 5));
}

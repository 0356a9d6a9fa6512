//! The original's syntax tree of good records.

use crate::node::Node;
use crate::record::{Record, BEGIN, CALL, CONSTANT, DEFINE, IDENTIFIER, IF, LAMBDA, LET, SET};
use original::parser::ast::{Atom, Begin, Define, ExprKind, If, LambdaFunction, Let, List, Set};
use original::parser::interner::InternedString;
use original::parser::parser::{SyntaxObject, SyntaxObjectId};
use original::parser::span::Span;
use original::parser::tokens::TokenType;

pub fn expressions(records: &[Record], tops: &[Node]) -> Vec<ExprKind> {
    tops.iter().map(|top| expression(records, top)).collect()
}

fn span(r: Record) -> Span {
    Span { start: r.from, end: r.to }
}

fn atom(r: Record) -> ExprKind {
    let ty = match r.form {
        IDENTIFIER => TokenType::Identifier(InternedString(r.name)),
        _ => TokenType::Constant,
    };
    let syntax_object_id = SyntaxObjectId(r.id);
    ExprKind::Atom(Atom { syn: SyntaxObject { ty, span: span(r), syntax_object_id } })
}

fn expression(records: &[Record], node: &Node) -> ExprKind {
    let r = records[node.at];
    let mut names = node.names.clone().map(|at| atom(records[at]));
    let mut kids = node.kids.iter().map(|kid| expression(records, kid));
    let mut name = || names.next().expect("a name");
    let mut kid = || kids.next().expect("a child");
    match r.form {
        IDENTIFIER | CONSTANT => atom(r),
        IF => ExprKind::If(Box::new(If { test_expr: kid(), then_expr: kid(), else_expr: kid() })),
        LET => {
            let bindings = names.zip(kids.by_ref().take(r.count as usize)).collect();
            let body_expr = kids.next().expect("a body");
            ExprKind::Let(Box::new(Let { bindings, body_expr, syntax_object_id: r.id }))
        }
        DEFINE => ExprKind::Define(Box::new(Define { name: name(), body: kid() })),
        LAMBDA => {
            let lambda = LambdaFunction { body: kid(), args: names.collect(), syntax_object_id: r.id };
            ExprKind::LambdaFunction(Box::new(lambda))
        }
        BEGIN => ExprKind::Begin(Box::new(Begin { exprs: kids.collect() })),
        CALL => ExprKind::List(List { args: kids.collect(), syntax_object_id: r.id, location: span(r) }),
        SET => ExprKind::Set(Box::new(Set { variable: name(), expr: kid() })),
        form => unreachable!("form {form} passed the checks"),
    }
}

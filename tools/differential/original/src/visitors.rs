//! The visitor that the pass implements. The pass gives every one of the visits below; none is left to a default.

use crate::parser::ast::{Atom, Begin, Define, ExprKind, If, LambdaFunction, Let, List, Quote, Set, Vector};

pub trait VisitorMutUnitRef<'a> {
    fn visit(&mut self, expr: &'a ExprKind) {
        match expr {
            ExprKind::Atom(x) => self.visit_atom(x),
            ExprKind::If(x) => self.visit_if(x),
            ExprKind::Let(x) => self.visit_let(x),
            ExprKind::Define(x) => self.visit_define(x),
            ExprKind::LambdaFunction(x) => self.visit_lambda_function(x),
            ExprKind::Begin(x) => self.visit_begin(x),
            ExprKind::List(x) => self.visit_list(x),
            ExprKind::Set(x) => self.visit_set(x),
        }
    }

    fn visit_atom(&mut self, _: &'a Atom) {
        unreachable!()
    }

    fn visit_if(&mut self, _: &'a If) {
        unreachable!()
    }

    fn visit_let(&mut self, _: &'a Let) {
        unreachable!()
    }

    fn visit_define(&mut self, _: &'a Define) {
        unreachable!()
    }

    fn visit_lambda_function(&mut self, _: &'a LambdaFunction) {
        unreachable!()
    }

    fn visit_begin(&mut self, _: &'a Begin) {
        unreachable!()
    }

    fn visit_list(&mut self, _: &'a List) {
        unreachable!()
    }

    fn visit_set(&mut self, _: &'a Set) {
        unreachable!()
    }

    // No tree here has one of these two.

    #[allow(dead_code)]
    fn visit_quote(&mut self, _: &'a Quote) {
        unreachable!()
    }

    #[allow(dead_code)]
    fn visit_vector(&mut self, _: &'a Vector) {
        unreachable!()
    }
}

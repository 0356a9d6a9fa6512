//! A tree as Scheme text: names n0, n1, .., a constant as its id, or #f.
//!
//! Words such as n0:4 before it give the classes that are not 0, as in tools/trial/scripts.txt.

use crate::record::{
    Record, AND, BEGIN, CALL, CONSTANT, DEFINE, IDENTIFIER, IF, LAMBDA, LET, SET, UNLESS, WHEN,
};
use crate::tree::{Part, Tree};

pub fn text(tree: &Tree) -> String {
    let classed = tree.classes.iter().enumerate().filter(|(_, class)| **class != 0);
    let classes = classed.map(|(name, class)| format!("n{name}:{class}"));
    classes.chain(tree.root.kids.iter().map(expression)).collect::<Vec<_>>().join(" ")
}

/// The text of each record's expression, in the order of the input.
pub fn texts(tree: &Tree) -> Vec<String> {
    let mut out = Vec::new();
    tree.root.kids.iter().for_each(|top| put(top, &mut out));
    out
}

fn put(part: &Part, out: &mut Vec<String>) {
    out.push(expression(part));
    out.extend(part.names.iter().map(name));
    part.kids.iter().for_each(|kid| put(kid, out));
}

fn name(record: &Record) -> String {
    format!("n{}", record.name)
}

fn expression(part: &Part) -> String {
    let Part { record, names, kids } = part;
    let names: Vec<String> = names.iter().map(name).collect();
    let kids: Vec<String> = kids.iter().map(expression).collect();
    let words = names.join(" ");
    match (record.form, kids.as_slice()) {
        (IDENTIFIER, _) => name(record),
        (CONSTANT, _) if record.name == 1 => "#f".to_string(),
        (CONSTANT, _) => record.id.to_string(),
        (IF, kids) => words_of("if", kids),
        (LET, [initial @ .., body]) => {
            let bindings: Vec<String> =
                names.iter().zip(initial).map(|(name, initial)| format!("({name} {initial})")).collect();
            format!("(let ({}) {body})", bindings.join(" "))
        }
        (DEFINE, [body]) => format!("(define {words} {body})"),
        (LAMBDA, [body]) => format!("(lambda ({words}) {body})"),
        (BEGIN, kids) => words_of("begin", kids),
        (AND, kids) => words_of("and", kids),
        (WHEN, kids) => words_of("when", kids),
        (UNLESS, kids) => words_of("unless", kids),
        (CALL, _) => format!("({})", kids.join(" ")),
        (SET, [value]) => format!("(set! {words} {value})"),
        (form, _) => unreachable!("form {form} passed the checks"),
    }
}

fn words_of(word: &str, kids: &[String]) -> String {
    let words: Vec<&str> = [word].into_iter().chain(kids.iter().map(String::as_str)).collect();
    format!("({})", words.join(" "))
}

#[cfg(test)]
mod tests {
    use super::*;
    use crate::generate::scripts::{script, scripts};
    use crate::record::{Input, CALL};

    fn of(line: &str) -> String {
        text(&Tree::new(&script(line)))
    }

    /// `script` numbers the names as they come; a record's id is 1 + 37 times its place, modulo 101.
    #[test]
    fn every_form() {
        assert_eq!(of("x"), "n0");
        assert_eq!(of("#f y 5"), "#f n0 75");
        assert_eq!(of("(if a #f (begin))"), "(if n0 #f (begin))");
        assert_eq!(of("(let ((x 1) (y #f)) (x y))"), "(let ((n0 11) (n1 #f)) (n0 n1))");
        assert_eq!(of("(let () x)"), "(let () n0)");
        assert_eq!(of("(define f (lambda (x y) (f y x)))"), "(define n0 (lambda (n1 n2) (n0 n2 n1)))");
        assert_eq!(of("(lambda () (begin (set! x y) (x)))"), "(lambda () (begin (set! n0 n1) (n0)))");
        assert_eq!(of("g:4 a:2 (g b a) ((g))"), "n0:4 n2:2 (n0 n1 n2) ((n0))");
        assert_eq!(
            of("(and) (and x (and 5)) (when y) (unless #f x y)"),
            "(and) (and n0 (and 48)) (when n1) (unless #f n0 n1)"
        );
        assert_eq!(of(""), "");
    }

    /// By hand: a call of name 1, of class 8, with the constants #f and 30.
    #[test]
    fn records_as_text() {
        let records = [[CALL, 7, 0, 3, 0, 0], [1, 10, 1, 0, 0, 0], [2, 20, 1, 0, 0, 0], [2, 30, 0, 0, 0, 0]];
        let tree = Tree::new(&Input { classes: vec![0, 8], numbers: records.concat() });
        assert_eq!(text(&tree), "n1:8 (n1 #f 30)");
        assert_eq!(texts(&tree), ["(n1 #f 30)", "n1", "#f", "30"]);
        let binders = texts(&Tree::new(&script("(lambda (x) (set! y x))")));
        assert_eq!(binders, ["(lambda (n0) (set! n1 n0))", "n0", "(set! n1 n0)", "n1", "n0"]);
    }

    /// The text of a script is a script with the same text, but for the ids.
    #[test]
    fn the_text_can_be_read_again() {
        for input in scripts() {
            let once = text(&Tree::new(&input));
            let again = script(&once);
            assert_eq!(text(&Tree::new(&again)), once);
            assert_eq!(again.numbers, input.numbers);
        }
    }
}

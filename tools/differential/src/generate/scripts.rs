//! The scripts of tools/trial: document 01's, and odd corners of the rules.

use crate::expression::{numbers, Expression, Own};
use crate::record::{Input, AND, BEGIN, CALL, DEFINE, IF, LAMBDA, LET, SET, UNLESS, WHEN};

const TEXT: &str = include_str!("../../../trial/scripts.txt");

/// One script a line; `;` starts a comment.
pub fn scripts() -> Vec<Input> {
    let is_script = |line: &&str| !line.is_empty() && !line.starts_with(';');
    TEXT.lines().filter(is_script).map(script).collect()
}

/// Words `name:class` may stand before a script.
pub fn script(line: &str) -> Input {
    let (classed, source): (Vec<&str>, Vec<&str>) = line.split(' ').partition(|w| w.contains(':'));
    let spaced = source.join(" ").replace('(', " ( ").replace(')', " ) ");
    let mut tokens = spaced.split_whitespace();
    let mut names = Names::default();
    let mut all = Vec::new();
    while let Some(token) = tokens.next() {
        all.push(expression(&datum(token, &mut tokens), &mut names));
    }
    let class_of = |name: &String| {
        let found = classed.iter().find_map(|w| w.strip_prefix(name.as_str())?.strip_prefix(':'));
        found.map_or(0, |class| class.parse().expect("a class byte"))
    };
    // Ids neither rise nor fall.
    let own = |at: usize| Own { id: 1 + at as u32 * 37 % 101, from: 1000 + at as u32, to: 2000 + at as u32 };
    Input { classes: names.0.iter().map(class_of).collect(), numbers: numbers(&all, own) }
}

enum Datum {
    Word(String),
    List(Vec<Datum>),
}

fn datum<'a>(token: &'a str, tokens: &mut impl Iterator<Item = &'a str>) -> Datum {
    if token != "(" {
        return Datum::Word(token.to_string());
    }
    let mut list = Vec::new();
    loop {
        match tokens.next().expect("a closing bracket") {
            ")" => return Datum::List(list),
            token => list.push(datum(token, tokens)),
        }
    }
}

/// By their numbers.
#[derive(Default)]
struct Names(Vec<String>);

impl Names {
    fn number(&mut self, datum: &Datum) -> u32 {
        let Datum::Word(name) = datum else { panic!("a name") };
        let known = self.0.iter().position(|n| n == name);
        known.unwrap_or_else(|| {
            self.0.push(name.clone());
            self.0.len() - 1
        }) as u32
    }
}

fn expression(datum: &Datum, names: &mut Names) -> Expression {
    let list = match datum {
        Datum::Word(word) if word == "#f" => return Expression::constant(true),
        Datum::Word(word) if word.parse::<u32>().is_ok() => return Expression::constant(false),
        Datum::Word(_) => return Expression::identifier(names.number(datum)),
        Datum::List(list) => list,
    };
    let word = match list.first() {
        Some(Datum::Word(word)) => word.as_str(),
        _ => "",
    };
    let mut every = |all: &[Datum]| all.iter().map(|d| expression(d, names)).collect();
    match word {
        "if" => Expression::new(IF, vec![], every(&list[1..])),
        "begin" => Expression::new(BEGIN, vec![], every(&list[1..])),
        "and" => Expression::new(AND, vec![], every(&list[1..])),
        "when" => Expression::new(WHEN, vec![], every(&list[1..])),
        "unless" => Expression::new(UNLESS, vec![], every(&list[1..])),
        "let" => bindings(&list[1], &list[2], names),
        "lambda" => {
            let Datum::List(parameters) = &list[1] else { panic!("parameters") };
            let parameters = parameters.iter().map(|p| names.number(p)).collect();
            Expression::new(LAMBDA, parameters, vec![expression(&list[2], names)])
        }
        "define" | "set!" => {
            let name = names.number(&list[1]);
            let form = if word == "define" { DEFINE } else { SET };
            Expression::new(form, vec![name], vec![expression(&list[2], names)])
        }
        _ => Expression::new(CALL, vec![], every(list)),
    }
}

fn bindings(bindings: &Datum, body: &Datum, names: &mut Names) -> Expression {
    let Datum::List(bindings) = bindings else { panic!("bindings") };
    let (mut bound, mut kids) = (Vec::new(), Vec::new());
    for binding in bindings {
        let Datum::List(pair) = binding else { panic!("a binding") };
        bound.push(names.number(&pair[0]));
        kids.push(expression(&pair[1], names));
    }
    kids.push(expression(body, names));
    Expression::new(LET, bound, kids)
}

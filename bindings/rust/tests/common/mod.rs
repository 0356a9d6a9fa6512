//! Scripts as records, and tables between margins.
#![allow(missing_docs, dead_code)]

use scheme_analysis::{fresh, settled, Facts, Form, Refusal, Tables};
use scheme_analysis::{ARGUMENTS_LENGTH, CAPTURED_LENGTH, FACTS_LENGTH, RECORD_WIDTH, WORK_LENGTH};

enum Expression<'a> {
    Word(&'a str),
    List(Vec<Expression<'a>>),
}

use Expression::{List, Word};

/// Expressions up to the bracket that ends them, or the end.
fn expressions<'a>(words: &mut impl Iterator<Item = &'a str>) -> Vec<Expression<'a>> {
    let mut out = Vec::new();
    while let Some(word) = words.next() {
        match word {
            "(" => out.push(List(expressions(words))),
            ")" => break,
            _ => out.push(Word(word)),
        }
    }
    out
}

/// The records of a script. The id of a record is one more than its number; names are numbered as they come.
#[derive(Default)]
pub struct Script {
    pub records: Vec<u32>,
    names: Vec<String>,
}

impl Script {
    pub fn read(text: &str) -> Script {
        let spaced = text.replace('(', " ( ").replace(')', " ) ");
        let mut script = Script::default();
        script.all(&expressions(&mut spaced.split_whitespace()));
        script
    }

    pub fn classes(&self) -> Vec<u8> {
        vec![0; self.names.len()]
    }

    fn record(&mut self, form: Form, name: usize, count: usize) {
        let id = match form {
            Form::If | Form::Define | Form::Begin | Form::Set | Form::And | Form::When | Form::Unless => 0,
            _ => self.records.len() / RECORD_WIDTH + 1,
        };
        self.records.extend([form as u32, id as u32, name as u32, count as u32, 0, 0]);
    }

    fn all<'a>(&mut self, parts: impl IntoIterator<Item = &'a Expression<'a>>) {
        parts.into_iter().for_each(|part| self.one(part));
    }

    fn one(&mut self, part: &Expression<'_>) {
        match part {
            List(parts) => self.form(parts),
            Word("#f") => self.record(Form::Constant, 1, 0),
            Word(word) if word.parse::<u32>().is_ok() => self.record(Form::Constant, 0, 0),
            Word(word) => {
                let name = self.number(word);
                self.record(Form::Identifier, name, 0);
            }
        }
    }

    fn number(&mut self, word: &str) -> usize {
        self.names.iter().position(|name| name == word).unwrap_or_else(|| {
            self.names.push(word.to_string());
            self.names.len() - 1
        })
    }

    fn form(&mut self, parts: &[Expression<'_>]) {
        match parts {
            [Word("if"), rest @ ..] => self.put(Form::If, 0, rest),
            [Word("define"), rest @ ..] => self.put(Form::Define, 0, rest),
            [Word("set!"), rest @ ..] => self.put(Form::Set, 0, rest),
            [Word("begin"), rest @ ..] => self.put(Form::Begin, rest.len(), rest),
            [Word("and"), rest @ ..] => self.put(Form::And, rest.len(), rest),
            [Word("when"), rest @ ..] => self.put(Form::When, rest.len(), rest),
            [Word("unless"), rest @ ..] => self.put(Form::Unless, rest.len(), rest),
            [Word("lambda"), List(parameters), body] => {
                self.put(Form::Lambda, parameters.len(), parameters.iter().chain([body]))
            }
            [Word("let"), List(pairs), body] => {
                let place =
                    |at: usize| pairs.iter().map(move |pair| if let List(pair) = pair { &pair[at] } else { panic!("no pair") });
                self.put(Form::Let, pairs.len(), place(0).chain(place(1)).chain([body]));
            }
            _ => self.put(Form::Call, parts.len(), parts),
        }
    }

    fn put<'a>(&mut self, form: Form, count: usize, children: impl IntoIterator<Item = &'a Expression<'a>>) {
        self.record(form, 0, count);
        self.all(children);
    }
}

/// Which run.
#[derive(Clone, Copy, Debug)]
pub enum Run {
    Fresh,
    Settled,
}

impl Run {
    pub const BOTH: [Run; 2] = [Run::Fresh, Run::Settled];

    pub fn of<'t>(self, records: &'t [u32], classes: &[u8], tables: Tables<'t>) -> Result<Facts<'t>, Refusal> {
        match self {
            Run::Fresh => fresh(records, classes, tables),
            Run::Settled => settled(records, classes, tables),
        }
    }
}

/// How many numbers stand before and after each table.
const MARGIN: usize = 32;

/// What the tables and their margins hold at first.
pub const PAINT: u32 = 0xA5A5_A5A5;

/// The four tables on the heap, each between margins.
pub struct Room {
    facts: Vec<u32>,
    captured: Vec<u32>,
    arguments: Vec<u32>,
    work: Vec<u32>,
}

impl Room {
    /// Of the set lengths.
    pub fn new() -> Room {
        Room::of([FACTS_LENGTH, CAPTURED_LENGTH, ARGUMENTS_LENGTH, WORK_LENGTH])
    }

    pub fn of(lengths: [usize; 4]) -> Room {
        let [facts, captured, arguments, work] = lengths.map(|length| vec![PAINT; length + 2 * MARGIN]);
        Room { facts, captured, arguments, work }
    }

    pub fn tables(&mut self) -> Tables<'_> {
        fn between(table: &mut [u32]) -> &mut [u32] {
            let end = table.len() - MARGIN;
            &mut table[MARGIN..end]
        }
        Tables {
            facts: between(&mut self.facts),
            captured: between(&mut self.captured),
            arguments: between(&mut self.arguments),
            work: between(&mut self.work),
        }
    }

    pub fn paint(&mut self) {
        for table in [&mut self.facts, &mut self.captured, &mut self.arguments, &mut self.work] {
            table.fill(PAINT);
        }
    }

    fn all(&self) -> [&[u32]; 4] {
        [&self.facts, &self.captured, &self.arguments, &self.work]
    }

    pub fn margins_are_whole(&self) -> bool {
        self.all().iter().all(|table| {
            let (before, rest) = table.split_at(MARGIN);
            let (_, after) = rest.split_at(rest.len() - MARGIN);
            before == [PAINT; MARGIN] && after == [PAINT; MARGIN]
        })
    }

    /// Whether every number of every table is this one.
    pub fn holds_only(&mut self, number: u32) -> bool {
        let Tables { facts, captured, arguments, work } = self.tables();
        [facts, captured, arguments, work].iter().all(|table| is_only(table, number))
    }

    pub fn work_is_zero(&mut self) -> bool {
        is_only(self.tables().work, 0)
    }
}

fn is_only(table: &[u32], number: u32) -> bool {
    table == vec![number; table.len()]
}

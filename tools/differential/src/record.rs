//! Document 01's input: records of six numbers, the class of each name, and their text.

use std::fmt;

pub const IDENTIFIER: u32 = 1;
pub const CONSTANT: u32 = 2;
pub const IF: u32 = 3;
pub const LET: u32 = 4;
pub const DEFINE: u32 = 5;
pub const LAMBDA: u32 = 6;
pub const BEGIN: u32 = 7;
pub const CALL: u32 = 8;
pub const SET: u32 = 9;
pub const AND: u32 = 10;
pub const WHEN: u32 = 11;
pub const UNLESS: u32 = 12;

/// How many numbers a record has.
pub const WIDTH: usize = 6;

#[derive(Clone, Copy, Debug, PartialEq, Eq)]
pub struct Record {
    pub form: u32,
    pub id: u32,
    pub name: u32,
    pub count: u32,
    pub from: u32,
    pub to: u32,
}

impl Record {
    pub fn numbers(self) -> [u32; WIDTH] {
        [self.form, self.id, self.name, self.count, self.from, self.to]
    }
}

/// The whole records; numbers left over at the end are no record.
pub fn records(numbers: &[u32]) -> Vec<Record> {
    let read = |r: &[u32]| Record { form: r[0], id: r[1], name: r[2], count: r[3], from: r[4], to: r[5] };
    numbers.chunks_exact(WIDTH).map(read).collect()
}

pub fn has_id(form: u32) -> bool {
    matches!(form, IDENTIFIER | CONSTANT | LET | LAMBDA | CALL)
}

pub fn has_count(form: u32) -> bool {
    matches!(form, LET | LAMBDA) || has_counted_kids(form)
}

/// Whether the count is that of the children, none of which is a name's place.
pub fn has_counted_kids(form: u32) -> bool {
    matches!(form, BEGIN | CALL | AND | WHEN | UNLESS)
}

/// Whether it is one of forms 10 to 12, which the original is given expanded.
pub fn is_expanded(form: u32) -> bool {
    matches!(form, AND | WHEN | UNLESS)
}

/// Whether a count of 0 is refused: by 7, or by 16.
pub fn needs_a_child(form: u32) -> bool {
    matches!(form, CALL | WHEN | UNLESS)
}

/// How many children are names, and how many others follow them. The form is 1 to 12.
pub fn children(form: u32, count: u32) -> (u32, u32) {
    match form {
        IF => (0, 3),
        LET => (count, count + 1),
        DEFINE | SET => (1, 1),
        LAMBDA => (count, 1),
        BEGIN | CALL | AND | WHEN | UNLESS => (0, count),
        _ => (0, 0),
    }
}

/// What an operation is given. The numbers need not be records, nor the records a tree.
#[derive(Clone, Debug, Default)]
pub struct Input {
    pub classes: Vec<u8>,
    pub numbers: Vec<u32>,
}

impl fmt::Display for Input {
    /// As the program `facts` reads it; numbers that are no whole record stand on a line of their own.
    fn fmt(&self, f: &mut fmt::Formatter<'_>) -> fmt::Result {
        writeln!(f, "names={}", self.classes.len())?;
        for class in &self.classes {
            writeln!(f, "class={class}")?;
        }
        for r in records(&self.numbers) {
            let Record { form, id, name, count, from, to } = r;
            writeln!(f, "form={form} id={id} name={name} count={count} from={from} to={to}")?;
        }
        let rest = self.numbers.chunks_exact(WIDTH).remainder();
        if rest.is_empty() {
            Ok(())
        } else {
            writeln!(f, "{rest:?}")
        }
    }
}

//! A record by its fields.

use crate::RECORD_WIDTH;

/// The form of a record: its first number.
#[derive(Clone, Copy, Debug, PartialEq, Eq, Hash)]
#[repr(u32)]
#[allow(missing_docs)]
pub enum Form {
    Identifier = 1,
    Constant = 2,
    If = 3,
    Let = 4,
    Define = 5,
    Lambda = 6,
    Begin = 7,
    Call = 8,
    Set = 9,
    And = 10,
    When = 11,
    Unless = 12,
}

impl Form {
    /// All of them, by number from 1.
    pub const ALL: [Form; 12] = [
        Form::Identifier,
        Form::Constant,
        Form::If,
        Form::Let,
        Form::Define,
        Form::Lambda,
        Form::Begin,
        Form::Call,
        Form::Set,
        Form::And,
        Form::When,
        Form::Unless,
    ];

    /// The form of a number; `None` where no form has it.
    pub fn of(number: u32) -> Option<Form> {
        Form::ALL.get((number as usize).checked_sub(1)?).copied()
    }

    /// Whether a record of this form has an id. The others have 0.
    pub const fn has_id(self) -> bool {
        matches!(self, Form::Identifier | Form::Constant | Form::Let | Form::Lambda | Form::Call)
    }
}

/// A record by its fields. The table of records in the crate's documentation says what each may be.
///
/// [`Script`](crate::Script) makes the records of a script; this is for those who number ids and names themselves.
///
/// ```
/// use scheme_analysis::{Form, Record};
///
/// // the x of (f x), where x is name 1
/// let x = Record { form: Form::Identifier, id: 3, name: 1, count: 0, from: 3, to: 4 };
/// assert_eq!(x.numbers(), [1, 3, 1, 0, 3, 4]);
/// assert_eq!(Record::of(x.numbers()), Some(x));
/// ```
#[derive(Clone, Copy, Debug, PartialEq, Eq, Hash)]
pub struct Record {
    /// What it is.
    pub form: Form,
    /// Its id; 0 on the forms that have none.
    pub id: u32,
    /// An identifier's name number; 1 on the constant `#f`; else 0.
    pub name: u32,
    /// How many names a let or lambda has, or children a begin, call, and, when or unless; else 0.
    pub count: u32,
    /// Where it starts in the script's text.
    pub from: u32,
    /// Where it ends in the script's text.
    pub to: u32,
}

impl Record {
    /// The six numbers, in the order that the library takes.
    pub const fn numbers(self) -> [u32; RECORD_WIDTH] {
        [self.form as u32, self.id, self.name, self.count, self.from, self.to]
    }

    /// The record of six numbers; `None` where the first is no form's. The other fields are taken as they are.
    pub fn of(numbers: [u32; RECORD_WIDTH]) -> Option<Record> {
        let [form, id, name, count, from, to] = numbers;
        Some(Record { form: Form::of(form)?, id, name, count, from, to })
    }
}

impl From<Record> for [u32; RECORD_WIDTH] {
    fn from(record: Record) -> Self {
        record.numbers()
    }
}

#[cfg(test)]
mod tests {
    use super::*;

    #[test]
    fn every_form_stands_at_its_number() {
        for number in 1..=12 {
            assert_eq!(Form::of(number).unwrap() as u32, number);
        }
        assert_eq!([0, 13, u32::MAX].map(Form::of), [None; 3]);
    }

    #[test]
    fn a_record_is_its_six_numbers() {
        let record = Record { form: Form::Call, id: 51, name: 52, count: 53, from: 54, to: 55 };
        assert_eq!(<[u32; 6]>::from(record), [8, 51, 52, 53, 54, 55]);
        assert_eq!(Record::of([8, 51, 52, 53, 54, 55]), Some(record));
        assert_eq!(Record::of([13, 51, 52, 53, 54, 55]), None);
    }
}

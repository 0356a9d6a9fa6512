use core::error::Error;
use core::fmt;

/// Why a script is refused. The number of a reason is the library's answer.
///
/// Each check from 1 to 7, then 16, then each from 8 to 10, covers the whole script before the next.
#[derive(Clone, Copy, Debug, PartialEq, Eq, Hash)]
#[repr(u32)]
#[non_exhaustive]
pub enum Reason {
    /// The records are not a multiple of six numbers, or a table is not of its length. The tables are unchanged.
    Length = 1,
    /// There are more than [`MOST_RECORDS`](crate::MOST_RECORDS) records or [`MOST_NAMES`](crate::MOST_NAMES) names.
    TooMany = 2,
    /// A field is not as the table of records says, but for a count of 0: see [`EmptyCall`](Self::EmptyCall) and
    /// [`NoTest`](Self::NoTest).
    Field = 3,
    /// Children are missing at the end; the record is the number of records.
    Missing = 4,
    /// A nesting of 65, where a top-level expression counts 1.
    Deep = 5,
    /// Another form stands where a name should.
    NotAName = 6,
    /// A call has count 0.
    EmptyCall = 7,
    /// An earlier record has the same id.
    RepeatedId = 8,
    /// A name is bound where it is live in the same scope. A lambda opens a scope, and so does a let outside all scopes. Any other
    /// let, and an inner define, binds its names in the scope around it. At the top level a name may be defined again.
    ///
    /// Legal Scheme meets it, as `(lambda () (let ((a 1)) (let ((a 2)) a)))`. The crate's documentation says how to rename.
    LiveName = 9,
    /// The captured lists have more than 4,096 entries; the record is the lambda whose list passes that.
    TooManyCaptured = 10,
    /// A let outside all lambdas has a name that is captured and mutated. Only of [`settled`](crate::settled).
    HeapLet = 11,
    /// A captured name is read, and its capture has only a read offset. Only of [`settled`](crate::settled).
    NoCaptureOffset = 12,
    /// A when or unless has count 0.
    NoTest = 16,
}

impl Reason {
    /// All of them, by number.
    pub const ALL: [Reason; 13] = [
        Reason::Length,
        Reason::TooMany,
        Reason::Field,
        Reason::Missing,
        Reason::Deep,
        Reason::NotAName,
        Reason::EmptyCall,
        Reason::RepeatedId,
        Reason::LiveName,
        Reason::TooManyCaptured,
        Reason::HeapLet,
        Reason::NoCaptureOffset,
        Reason::NoTest,
    ];

    /// The library's number of it.
    pub const fn number(self) -> u32 {
        self as u32
    }

    /// Whether a refusal for it names a record: all but [`Length`](Self::Length) and [`TooMany`](Self::TooMany).
    pub const fn names_a_record(self) -> bool {
        !matches!(self, Reason::Length | Reason::TooMany)
    }
}

impl fmt::Display for Reason {
    fn fmt(&self, f: &mut fmt::Formatter<'_>) -> fmt::Result {
        f.write_str(match self {
            Reason::Length => "the records or a table have a wrong length",
            Reason::TooMany => "too many records or names",
            Reason::Field => "a field is out of range",
            Reason::Missing => "children are missing at the end",
            Reason::Deep => "nested too deep",
            Reason::NotAName => "not a name, where a name should stand",
            Reason::EmptyCall => "a call of nothing",
            Reason::RepeatedId => "the id is used before",
            Reason::LiveName => "the name is live in the same scope",
            Reason::TooManyCaptured => "too many captured entries",
            Reason::HeapLet => "a let name outside all lambdas is captured and mutated",
            Reason::NoCaptureOffset => "the capture has no capture offset",
            Reason::NoTest => "a when or unless of nothing",
        })
    }
}

/// A script that is refused: why, and the first record that this applies to.
#[derive(Clone, Copy, Debug, PartialEq, Eq, Hash)]
pub struct Refusal {
    /// Why.
    pub reason: Reason,
    /// The library's number of the record. It is 0 where the reason names none: [`at`](Self::at) tells the two apart.
    pub record: usize,
}

impl Refusal {
    /// The record, counted from 0; `None` where the reason names none. After [`Reason::Missing`] it is the number of records.
    pub const fn at(&self) -> Option<usize> {
        if self.reason.names_a_record() {
            Some(self.record)
        } else {
            None
        }
    }

    /// What the library's answer says: `None` where it accepted.
    ///
    /// # Panics
    ///
    /// On a number that the library does not answer, as one of another version would.
    pub(crate) fn of(number: u32, at: usize) -> Option<Refusal> {
        if number == 0 {
            return None;
        }
        let reason = Reason::ALL.into_iter().find(|reason| reason.number() == number);
        Some(Refusal { reason: reason.expect("a library of the version that this crate is for"), record: at })
    }
}

impl fmt::Display for Refusal {
    fn fmt(&self, f: &mut fmt::Formatter<'_>) -> fmt::Result {
        match self.at() {
            Some(record) => write!(f, "refused {} at record {record}: {}", self.reason.number(), self.reason),
            None => write!(f, "refused {}: {}", self.reason.number(), self.reason),
        }
    }
}

impl Error for Refusal {}

#[cfg(test)]
mod tests {
    use super::Refusal;

    const NUMBERS: [u32; 13] = [1, 2, 3, 4, 5, 6, 7, 8, 9, 10, 11, 12, 16];

    #[test]
    fn every_number_has_its_reason() {
        for number in NUMBERS {
            let refusal = Refusal::of(number, 7).unwrap();
            assert_eq!((refusal.reason.number(), refusal.record), (number, 7));
        }
    }

    #[test]
    fn the_first_two_reasons_name_no_record() {
        for number in NUMBERS {
            let refusal = Refusal::of(number, 0).unwrap();
            assert_eq!(refusal.at(), if number <= 2 { None } else { Some(0) });
        }
    }

    #[test]
    fn no_number_is_no_refusal() {
        assert_eq!(Refusal::of(0, 0), None);
    }

    #[test]
    #[should_panic(expected = "a library of the version")]
    fn an_unknown_number_is_another_version() {
        let _ = Refusal::of(13, 0);
    }
}

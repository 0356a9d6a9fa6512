//! Refusals 1 to 8 from document 01, and 16 from document 02: each check covers the whole input before the next.

use crate::case::Case;
use crate::record::{children, has_count, has_id, records, Record};
use crate::record::{CALL, CONSTANT, IDENTIFIER, UNLESS, WHEN, WIDTH};
use std::collections::HashSet;

#[derive(Clone, Copy, Debug, PartialEq, Eq)]
pub struct Refusal {
    pub number: u32,
    pub at: usize,
}

const MOST_RECORDS: usize = 4096;
const MOST_NAMES: usize = 1024;
const MOST_NESTING: usize = 64;
const MOST_COUNT: u32 = 255;
pub const LAST_ID: u32 = 4294967294;

pub fn first(case: &Case) -> Option<Refusal> {
    let (numbers, names) = (&case.input.numbers, case.input.classes.len());
    let refused = |number, at| Some(Refusal { number, at });
    if numbers.len() % WIDTH != 0 || !case.lends_set_lengths() {
        return refused(1, 0);
    }
    let records = records(numbers);
    if records.len() > MOST_RECORDS || names > MOST_NAMES {
        return refused(2, 0);
    }
    let one = |at: Option<usize>, number| at.map(|at| Refusal { number, at });
    one(records.iter().position(|r| !fields_fit(r, names)), 3).or_else(|| {
        let (places, missing) = places(&records);
        let not_a_name = |(p, r): (&Place, &Record)| p.name && r.form != IDENTIFIER;
        None.or(one(missing.then_some(records.len()), 4))
            .or(one(places.iter().position(|p| p.nesting > MOST_NESTING), 5))
            .or(one(places.iter().zip(&records).position(not_a_name), 6))
            .or(one(records.iter().position(|r| r.form == CALL && r.count == 0), 7))
            .or(one(records.iter().position(|r| matches!(r.form, WHEN | UNLESS) && r.count == 0), 16))
            .or(one(repeated_id(&records), 8))
    })
}

fn fields_fit(r: &Record, names: usize) -> bool {
    let id = if has_id(r.form) { (1..=LAST_ID).contains(&r.id) } else { r.id == 0 };
    let name = match r.form {
        IDENTIFIER => (r.name as usize) < names,
        CONSTANT => r.name <= 1,
        _ => r.name == 0,
    };
    let count = r.count <= if has_count(r.form) { MOST_COUNT } else { 0 };
    (1..=12).contains(&r.form) && id && name && count
}

/// Where a record stands.
struct Place {
    nesting: usize,
    /// A name's place.
    name: bool,
}

/// Records in preorder take the places that the records before them opened. Also: whether places are left at the end.
fn places(records: &[Record]) -> (Vec<Place>, bool) {
    // The names and the other children still to come, of each record around.
    let mut open: Vec<(u32, u32)> = Vec::new();
    let place = |r: &Record| {
        let nesting = open.len() + 1;
        let name = match open.last_mut() {
            Some((names @ 1.., _)) => {
                *names -= 1;
                true
            }
            Some((_, others)) => {
                *others -= 1;
                false
            }
            None => false,
        };
        open.push(children(r.form, r.count));
        while open.last() == Some(&(0, 0)) {
            open.pop();
        }
        Place { nesting, name }
    };
    let places = records.iter().map(place).collect();
    (places, !open.is_empty())
}

fn repeated_id(records: &[Record]) -> Option<usize> {
    let mut seen = HashSet::new();
    records.iter().position(|r| has_id(r.form) && !seen.insert(r.id))
}

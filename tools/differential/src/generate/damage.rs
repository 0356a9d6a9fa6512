//! Damaged copies: what is no tree, or no longer the tree it was; and tables of other lengths.

use crate::case::Case;
use crate::port::LENGTHS;
use crate::random::Random;
use crate::record::{has_count, has_id, AND, BEGIN, CALL, CONSTANT, UNLESS, WHEN, WIDTH};

type Way = fn(&mut Case, &mut Random);

const WAYS: [(usize, Way); 15] = [
    (6, change_field),
    (6, change_form),
    (4, change_count),
    (3, repeat_id),
    (3, empty_call),
    (3, no_test),
    (3, drop_record),
    (3, double_record),
    (3, swap_records),
    (4, cut_end),
    (1, add_numbers),
    (2, change_names),
    (2, change_lent),
    (1, too_many),
    (2, too_deep),
];

/// Damages a case in one or two ways.
pub fn damage(case: &mut Case, random: &mut Random) {
    for _ in 0..random.from(1, 2) {
        let way = random.weighted(&WAYS.map(|(weight, _)| weight));
        if count(case) > 0 {
            WAYS[way].1(case, random);
        }
    }
}

fn count(case: &Case) -> usize {
    case.input.numbers.len() / WIDTH
}

fn some_record(case: &Case, random: &mut Random) -> usize {
    WIDTH * random.below(count(case))
}

/// A record that the condition holds of, if there is one.
fn some_such(case: &Case, random: &mut Random, such: impl Fn(&[u32]) -> bool) -> Option<usize> {
    let numbers = &case.input.numbers;
    let found: Vec<usize> =
        (0..count(case)).map(|at| WIDTH * at).filter(|at| such(&numbers[*at..*at + WIDTH])).collect();
    if found.is_empty() {
        None
    } else {
        Some(random.pick(&found))
    }
}

fn change_field(case: &mut Case, random: &mut Random) {
    let place = some_record(case, random) + random.below(WIDTH);
    let small = random.below(15) as u32;
    let names = case.input.classes.len() as u32;
    let values = [0, 1, 2, 3, 9, 10, 255, 256, u32::MAX - 1, u32::MAX, small, names, names.wrapping_sub(1)];
    case.input.numbers[place] = random.pick(&values);
}

/// Another form, with fields that fit it.
fn change_form(case: &mut Case, random: &mut Random) {
    let at = some_record(case, random);
    let form = random.from(1, 12) as u32;
    let r = &mut case.input.numbers[at..at + WIDTH];
    let id = if r[1] == 0 { u32::MAX - 2 } else { r[1] };
    let count = random.below(3) as u32;
    r[0] = form;
    r[1] = if has_id(form) { id } else { 0 };
    r[2] = if form == CONSTANT { random.below(2) as u32 } else { 0 };
    r[3] = if has_count(form) { count } else { 0 };
}

fn change_count(case: &mut Case, random: &mut Random) {
    if let Some(at) = some_such(case, random, |r| has_count(r[0])) {
        case.input.numbers[at + 3] = random.pick(&[0, 0, 1, 2, 3, 255]);
    }
}

fn empty_call(case: &mut Case, random: &mut Random) {
    if let Some(at) = some_such(case, random, |r| r[0] == CALL) {
        empty(case, random, at);
    }
}

/// Of a `when` or `unless`; where there is none, of a new one before all others or behind them.
fn no_test(case: &mut Case, random: &mut Random) {
    match some_such(case, random, |r| matches!(r[0], WHEN | UNLESS)) {
        Some(at) => empty(case, random, at),
        None => {
            let at = random.pick(&[0, case.input.numbers.len()]);
            let form = random.pick(&[WHEN, UNLESS]);
            case.input.numbers.splice(at..at, [form, 0, 0, 0, 0, 0]);
        }
    }
}

/// What were its children stand after it, or the next record is dropped too.
fn empty(case: &mut Case, random: &mut Random, at: usize) {
    case.input.numbers[at + 3] = 0;
    let next = at + WIDTH..at + 2 * WIDTH;
    if random.percent(50) && next.end <= case.input.numbers.len() {
        case.input.numbers.drain(next);
    }
}

fn repeat_id(case: &mut Case, random: &mut Random) {
    let owners = [(); 2].map(|_| some_such(case, random, |r| has_id(r[0])));
    if let [Some(one), Some(other)] = owners {
        case.input.numbers[one + 1] = case.input.numbers[other + 1];
    }
}

fn drop_record(case: &mut Case, random: &mut Random) {
    let at = some_record(case, random);
    case.input.numbers.drain(at..at + WIDTH);
}

fn double_record(case: &mut Case, random: &mut Random) {
    let (from, to) = (some_record(case, random), some_record(case, random));
    let copy = case.input.numbers[from..from + WIDTH].to_vec();
    case.input.numbers.splice(to..to, copy);
}

fn swap_records(case: &mut Case, random: &mut Random) {
    let (one, other) = (some_record(case, random), some_record(case, random));
    (0..WIDTH).for_each(|place| case.input.numbers.swap(one + place, other + place));
}

/// Mostly between two records.
fn cut_end(case: &mut Case, random: &mut Random) {
    let at = some_record(case, random);
    let ragged = if random.percent(20) { random.below(WIDTH) } else { 0 };
    case.input.numbers.truncate(at + ragged);
}

fn add_numbers(case: &mut Case, random: &mut Random) {
    let count = random.from(1, 2 * WIDTH);
    case.input.numbers.extend((0..count).map(|_| random.below(14) as u32));
}

fn change_names(case: &mut Case, random: &mut Random) {
    let names = case.input.classes.len();
    let length = random.pick(&[0, names.saturating_sub(1), names + 1, 1024, 1025, 2000]);
    case.input.classes.resize(length, 0);
}

/// One table shorter or longer than it is set to be.
fn change_lent(case: &mut Case, random: &mut Random) {
    let table = random.below(LENGTHS.len());
    let set = LENGTHS[table];
    case.lent[table] = random.pick(&[0, 1, set / 2, set - 1, set + 1]);
}

/// One record more than 4,096, or exactly so many: empty begins or `and`s at the end.
fn too_many(case: &mut Case, random: &mut Random) {
    let whole = WIDTH * random.from(4096, 4097);
    let form = random.pick(&[BEGIN, AND]);
    while case.input.numbers.len() + WIDTH <= whole {
        case.input.numbers.extend([form, 0, 0, 0, 0, 0]);
    }
}

/// Forms of one child around what starts at some record.
fn too_deep(case: &mut Case, random: &mut Random) {
    let at = some_record(case, random);
    let form = random.pick(&[BEGIN, AND, WHEN, UNLESS]);
    let around = [form, 0, 0, 1, 0, 0].repeat(random.from(50, 64));
    case.input.numbers.splice(at..at, around);
}

#[cfg(test)]
mod tests {
    use super::*;
    use crate::generate::damaged_case;

    /// A buffer has room for one number more than the set length.
    #[test]
    fn lent_tables_fit_their_buffers() {
        for number in 0..20_000 {
            let lent = damaged_case(2, number, (1, 60)).lent;
            assert!(lent.iter().zip(LENGTHS).all(|(lent, set)| *lent <= set + 1));
        }
    }
}

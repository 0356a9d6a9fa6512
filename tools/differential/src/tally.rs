//! What was seen, counted.

use crate::case::Case;
use crate::expected::{Answer, Expected, Listed};
use crate::record::{is_expanded, records, AND, CALL};
use crate::rows::{Rows, CALL_ROW};
use std::collections::BTreeMap;
use std::ops::AddAssign;

/// Of one run.
#[derive(Clone, Debug, Default)]
pub struct Seen {
    /// By the refusal's number, 0 for accepted.
    pub answers: [u64; 17],
    /// Rows of identifiers by kind.
    pub identifiers: [u64; 8],
    /// Calls by kind, 0 for those without a fact.
    pub calls: [u64; 4],
    pub captured: u64,
    pub mutated: u64,
    pub arguments: u64,
}

#[derive(Clone, Debug, Default)]
pub struct Tally {
    pub inputs: u64,
    pub records: u64,
    pub fresh: Seen,
    pub settled: Seen,
    /// Records of forms 10 to 12, of trees that a fresh run accepts.
    pub expanded: [u64; 3],
    pub listed: BTreeMap<Listed, u64>,
}

impl Seen {
    fn add(&mut self, answer: &Answer, calls: usize) {
        match answer {
            Answer::Refused(refusal) => self.answers[refusal.number as usize] += 1,
            Answer::Accepted(rows) => {
                self.answers[0] += 1;
                self.add_rows(rows, calls as u64);
            }
        }
    }

    fn add_rows(&mut self, rows: &Rows, calls: u64) {
        let told: u64 = self.calls[1..].iter().sum();
        for row in &rows.facts {
            match row[0] {
                kind @ 1..=7 => self.identifiers[kind as usize] += 1,
                CALL_ROW => self.calls[row[1] as usize] += 1,
                _ => {}
            }
        }
        self.calls[0] += calls - (self.calls[1..].iter().sum::<u64>() - told);
        let live = rows.captured.iter().filter(|entry| entry[1] != 0);
        self.captured += live.clone().count() as u64;
        self.mutated += live.filter(|entry| entry[2] & 8 != 0).count() as u64;
        self.arguments += rows.arguments.len() as u64;
    }
}

impl Tally {
    pub fn add(&mut self, case: &Case, expected: Option<&Expected>) {
        let records = records(&case.input.numbers);
        let calls = records.iter().filter(|r| r.form == CALL).count();
        self.inputs += 1;
        self.records += records.len() as u64;
        if let Some(expected) = expected {
            self.fresh.add(&expected.fresh, calls);
            self.settled.add(&expected.settled, calls);
            if matches!(expected.fresh, Answer::Accepted(_)) {
                let forms = records.iter().map(|r| r.form).filter(|form| is_expanded(*form));
                forms.for_each(|form| self.expanded[(form - AND) as usize] += 1);
            }
            for (listed, count) in &expected.listed {
                *self.listed.entry(*listed).or_default() += *count as u64;
            }
        }
    }
}

impl AddAssign<&Seen> for Seen {
    fn add_assign(&mut self, other: &Seen) {
        add(&mut self.answers, &other.answers);
        add(&mut self.identifiers, &other.identifiers);
        add(&mut self.calls, &other.calls);
        self.captured += other.captured;
        self.mutated += other.mutated;
        self.arguments += other.arguments;
    }
}

impl AddAssign<&Tally> for Tally {
    fn add_assign(&mut self, other: &Tally) {
        self.inputs += other.inputs;
        self.records += other.records;
        self.fresh += &other.fresh;
        self.settled += &other.settled;
        add(&mut self.expanded, &other.expanded);
        for (listed, count) in &other.listed {
            *self.listed.entry(*listed).or_default() += count;
        }
    }
}

fn add(to: &mut [u64], from: &[u64]) {
    to.iter_mut().zip(from).for_each(|(to, from)| *to += from);
}

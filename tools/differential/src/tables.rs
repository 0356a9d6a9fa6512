//! The four tables that a call is lent: full of noise before it, looked at whole after it.

use crate::port::LENGTHS;
use crate::random::Random;

/// Numbers of the buffer on each side of a table, which no call may touch.
const MARGIN: usize = 64;
/// The noise of a table starts at one of so many places.
const SHIFTS: usize = 4096;

pub const NAMES: [&str; 4] = ["facts", "captured", "arguments", "work"];

/// What a table has to hold after a call.
pub enum Wanted<'a> {
    /// What it held before.
    Unchanged,
    /// These numbers, then zeros.
    Numbers(&'a [u32]),
}

/// A number that is not what it has to be. Places count from the table's start, and may lie outside it.
#[derive(Clone, Copy, Debug, PartialEq, Eq)]
pub struct Wrong {
    pub table: usize,
    pub place: isize,
    pub wanted: u32,
    pub found: u32,
}

pub struct Tables {
    noise: Vec<u32>,
    buffers: [Vec<u32>; 4],
    /// Where each table's noise starts, and how long the lent part is.
    shifts: [usize; 4],
    lent: [usize; 4],
}

impl Tables {
    pub fn new(seed: u64) -> Self {
        let mut random = Random::new(seed, "noise", 0);
        let buffers = LENGTHS.map(|length| vec![0; length + 3 * MARGIN]);
        // Small numbers too, which could pass for facts; no zeros, which could pass for cleared ones.
        let mut number = || match random.next() {
            n if n % 2 == 0 => (n >> 32) as u32 % 12 + 1,
            n => (n >> 32) as u32 | 1,
        };
        let longest = buffers.iter().map(Vec::len).max().unwrap_or(0);
        let noise = (0..longest + SHIFTS).map(|_| number()).collect();
        Tables { noise, buffers, shifts: [0; 4], lent: LENGTHS }
    }

    /// Fills all with noise and hands out the tables, of these lengths.
    pub fn lend<'a>(&'a mut self, lent: [usize; 4], random: &mut Random) -> [&'a mut [u32]; 4] {
        self.lent = lent;
        self.shifts = [0; 4].map(|_| random.below(SHIFTS));
        for (buffer, shift) in self.buffers.iter_mut().zip(self.shifts) {
            let length = buffer.len();
            buffer.copy_from_slice(&self.noise[shift..shift + length]);
        }
        let mut lengths = lent.into_iter();
        let part = |buffer: &'a mut Vec<u32>| &mut buffer[MARGIN..][..lengths.next().unwrap_or(0)];
        self.buffers.each_mut().map(part)
    }

    /// What is wrong, at most `most` numbers a table.
    pub fn wrong(&self, wanted: &[Wanted; 4], most: usize) -> Vec<Wrong> {
        (0..4).flat_map(|table| self.wrong_in(table, &wanted[table]).into_iter().take(most)).collect()
    }

    fn wrong_in(&self, table: usize, wanted: &Wanted) -> Vec<Wrong> {
        let (buffer, shift) = (&self.buffers[table], self.shifts[table]);
        let before = &self.noise[shift..shift + buffer.len()];
        let end = MARGIN + self.lent[table];
        let (numbers, rest) = match wanted {
            Wanted::Unchanged => (&before[MARGIN..end], end),
            Wanted::Numbers(numbers) => (*numbers, MARGIN + numbers.len()),
        };
        let same = buffer[..MARGIN] == before[..MARGIN]
            && buffer[MARGIN..rest] == *numbers
            && buffer[rest..end].iter().fold(0, |all, n| all | n) == 0
            && buffer[end..] == before[end..];
        if same {
            return Vec::new();
        }
        let outside = |i: usize| i < MARGIN || i >= end;
        let wanted_at = |i: usize| match i {
            i if outside(i) => before[i],
            i if i < rest => numbers[i - MARGIN],
            _ => 0,
        };
        let wrong = |i: usize| {
            let place = i as isize - MARGIN as isize;
            Wrong { table, place, wanted: wanted_at(i), found: buffer[i] }
        };
        (0..buffer.len()).map(wrong).filter(|w| w.wanted != w.found).collect()
    }
}

#[cfg(test)]
mod tests {
    use super::*;

    const NUMBERS: [u32; 40] = [7; 40];

    fn filled(tables: &mut Tables) {
        for table in tables.lend(LENGTHS, &mut Random::new(1, "test", 0)) {
            table.fill(0);
            table[..NUMBERS.len()].copy_from_slice(&NUMBERS);
        }
    }

    fn wanted<'a>() -> [Wanted<'a>; 4] {
        [(); 4].map(|_| Wanted::Numbers(&NUMBERS))
    }

    /// Places of a buffer inside and outside its table, at every edge.
    fn places(table: usize) -> Vec<usize> {
        let (end, last) = (MARGIN + LENGTHS[table], LENGTHS[table] + 3 * MARGIN);
        let near = |place: usize| [place - 1, place, place + 1];
        let edges = [1, MARGIN, MARGIN + NUMBERS.len(), LENGTHS[table] / 2, end, last - 2];
        edges.into_iter().flat_map(near).collect()
    }

    #[test]
    fn one_changed_number_is_told() {
        let mut tables = Tables::new(1);
        for table in 0..4 {
            for place in places(table) {
                filled(&mut tables);
                assert_eq!(tables.wrong(&wanted(), 9), []);
                tables.buffers[table][place] ^= 1 << 31;
                let told: Vec<_> = tables.wrong(&wanted(), 9).iter().map(|w| (w.table, w.place)).collect();
                assert_eq!(told, [(table, place as isize - MARGIN as isize)]);
            }
        }
    }

    #[test]
    fn noise_is_no_zero_and_what_is_unchanged_is_seen() {
        let mut tables = Tables::new(1);
        assert!(!tables.noise.contains(&0));
        let unchanged = || [(); 4].map(|_| Wanted::Unchanged);
        tables.lend([0, 1, LENGTHS[2] + 1, LENGTHS[3]], &mut Random::new(1, "test", 0))[1][0] ^= 1;
        assert_eq!(tables.wrong(&unchanged(), 9).len(), 1);
    }
}

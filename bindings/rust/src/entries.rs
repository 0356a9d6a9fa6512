//! Typed views of the captured and argument lists.

use crate::{optional, part, ENTRY_WIDTH};
use core::fmt;

/// The numbers of an entry.
pub(crate) type Entry = [u32; ENTRY_WIDTH];

/// A captured or an argument list.
#[derive(Clone, Copy)]
pub struct Entries<'t>(&'t [u32]);

impl<'t> Entries<'t> {
    pub(crate) fn of(table: &'t [u32], first: u32, length: u32) -> Self {
        Entries(&table[ENTRY_WIDTH * first as usize..][..ENTRY_WIDTH * length as usize])
    }

    /// How many entries it has.
    pub fn len(&self) -> usize {
        self.0.len() / ENTRY_WIDTH
    }

    /// Whether it has none.
    pub fn is_empty(&self) -> bool {
        self.0.is_empty()
    }

    /// The entry at a place, counted from 0.
    pub fn get(&self, place: usize) -> Option<ScopeInfo<'t>> {
        part(self.0, place).map(ScopeInfo)
    }

    /// The entries in order.
    pub fn iter(self) -> impl ExactSizeIterator<Item = ScopeInfo<'t>> {
        (0..self.len()).map(move |place| self.get(place).expect("it is below the length"))
    }
}

impl fmt::Debug for Entries<'_> {
    fn fmt(&self, f: &mut fmt::Formatter<'_>) -> fmt::Result {
        f.debug_list().entries(self.iter()).finish()
    }
}

/// An entry of a list: a binder, and what the scope knew of it when the list was made.
///
/// The settled run numbers each captured list: the entries that are not mutated from 0
/// ([`read_capture_offset`](Self::read_capture_offset)), then the mutated ones from 0
/// ([`read_heap_offset`](Self::read_heap_offset), [`local_heap_offset`](Self::local_heap_offset)). The other three offsets say
/// where the lambda around has the value or its cell (docs/RULES.md, 10). There are none after a fresh run, and never any in an
/// argument list.
#[derive(Clone, Copy)]
pub struct ScopeInfo<'t>(&'t Entry);

debug_by_field!(ScopeInfo: name, id, captured, escapes, captured_from_enclosing, mutated, usage_count, last_used, stack_offset,
    capture_offset, heap_offset, read_capture_offset, read_heap_offset, parent_heap_offset, local_heap_offset, depth);

impl ScopeInfo<'_> {
    fn mark(&self, bit: u32) -> bool {
        self.0[2] & bit != 0
    }

    /// The name's number.
    pub fn name(&self) -> u32 {
        self.0[0]
    }

    /// The binder's id.
    pub fn id(&self) -> u32 {
        self.0[1]
    }

    /// Whether an inner lambda mentions it.
    pub fn captured(&self) -> bool {
        self.mark(1)
    }

    /// Never.
    pub fn escapes(&self) -> bool {
        self.mark(2)
    }

    /// Whether the next lambda around captures it too.
    pub fn captured_from_enclosing(&self) -> bool {
        self.mark(4)
    }

    /// Whether a set! sets it.
    pub fn mutated(&self) -> bool {
        self.mark(8)
    }

    /// How often the fresh run had met it when the list was made: a read counts 1, a set! 2. The settled run keeps the number.
    pub fn usage_count(&self) -> u32 {
        self.0[3]
    }

    /// The id of its last reference.
    pub fn last_used(&self) -> Option<u32> {
        optional(self.0[4])
    }

    /// Its slot.
    pub fn stack_offset(&self) -> Option<u32> {
        optional(self.0[5])
    }

    /// The value's number in the lambda around where that captures it too
    /// ([`captured_from_enclosing`](Self::captured_from_enclosing)), else its number in this one.
    pub fn capture_offset(&self) -> Option<u32> {
        optional(self.0[6])
    }

    /// The cell's number in the lambda around, or its slot where that does not capture it.
    pub fn heap_offset(&self) -> Option<u32> {
        optional(self.0[7])
    }

    /// The value's number in this lambda.
    pub fn read_capture_offset(&self) -> Option<u32> {
        optional(self.0[8])
    }

    /// The cell's number in this lambda.
    pub fn read_heap_offset(&self) -> Option<u32> {
        optional(self.0[9])
    }

    /// The cell's number in the lambda around, or its slot where that does not capture it.
    pub fn parent_heap_offset(&self) -> Option<u32> {
        optional(self.0[10])
    }

    /// The cell's number in this lambda.
    pub fn local_heap_offset(&self) -> Option<u32> {
        optional(self.0[11])
    }

    /// Its depth; 1 of a define.
    pub fn depth(&self) -> u32 {
        self.0[12]
    }
}

#[cfg(test)]
pub(crate) mod tests {
    use super::*;

    /// Each place of an entry holds its own number, but for the marks.
    pub(crate) fn entry(first: u32, marks: u32) -> Entry {
        let mut entry = [0; ENTRY_WIDTH];
        for (place, number) in (first..).zip(&mut entry) {
            *number = place;
        }
        entry[2] = marks;
        entry
    }

    #[test]
    fn an_entry_has_its_fields_at_their_places() {
        let numbers = entry(50, 0);
        let e = ScopeInfo(&numbers);
        assert_eq!((e.name(), e.id(), e.usage_count(), e.depth()), (50, 51, 53, 62));
        assert_eq!((e.last_used(), e.stack_offset()), (Some(54), Some(55)));
        assert_eq!((e.capture_offset(), e.heap_offset()), (Some(56), Some(57)));
        assert_eq!((e.read_capture_offset(), e.read_heap_offset()), (Some(58), Some(59)));
        assert_eq!((e.parent_heap_offset(), e.local_heap_offset()), (Some(60), Some(61)));
    }

    #[test]
    fn each_mark_of_an_entry_is_its_own() {
        for mark in [1, 2, 4, 8] {
            let numbers = entry(50, mark);
            let e = ScopeInfo(&numbers);
            assert_eq!(e.captured(), mark == 1);
            assert_eq!(e.escapes(), mark == 2);
            assert_eq!(e.captured_from_enclosing(), mark == 4);
            assert_eq!(e.mutated(), mark == 8);
        }
    }

    #[test]
    fn a_list_has_its_entries() {
        let table = [entry(10, 0), entry(20, 0), entry(30, 0)];
        let list = Entries::of(table.as_flattened(), 1, 2);
        assert_eq!((list.len(), list.is_empty()), (2, false));
        assert_eq!(list.get(0).map(|entry| entry.name()), Some(20));
        assert_eq!(list.get(1).map(|entry| entry.name()), Some(30));
        assert!(list.get(2).is_none());
        assert!(list.iter().map(|entry| entry.name()).eq([20, 30]));
        assert!(Entries::of(table.as_flattened(), 3, 0).is_empty());
    }
}

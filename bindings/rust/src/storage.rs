//! Room for the tables.

use crate::{ARGUMENTS_LENGTH, CAPTURED_LENGTH, FACTS_LENGTH, WORK_LENGTH};
use core::fmt;

/// The four tables that a run writes, lent by the caller. What they hold before does not matter.
pub struct Tables<'t> {
    /// Row i is the fact of record i; zeros where it has none, and past the last record.
    pub facts: &'t mut [u32],
    /// The captured lists of the lambdas, in the order in which they end; zeros where no list lies.
    pub captured: &'t mut [u32],
    /// The argument lists of the lambdas and lets, the same way.
    pub arguments: &'t mut [u32],
    /// Room for the run: 0 after every call but one refused for a length.
    pub work: &'t mut [u32],
}

/// The length of each table. [`Facts`](crate::Facts) shows what they hold.
impl fmt::Debug for Tables<'_> {
    fn fmt(&self, f: &mut fmt::Formatter<'_>) -> fmt::Result {
        let mut tables = f.debug_struct("Tables");
        tables.field("facts", &format_args!("[u32; {}]", self.facts.len()));
        tables.field("captured", &format_args!("[u32; {}]", self.captured.len()));
        tables.field("arguments", &format_args!("[u32; {}]", self.arguments.len()));
        tables.field("work", &format_args!("[u32; {}]", self.work.len())).finish()
    }
}

/// Room for the four tables at their lengths: about a million bytes, so a `static`, and not a local.
///
/// For room on the heap: `Storage::boxed`, with the feature `alloc`.
pub struct Storage {
    facts: [u32; FACTS_LENGTH],
    captured: [u32; CAPTURED_LENGTH],
    arguments: [u32; ARGUMENTS_LENGTH],
    work: [u32; WORK_LENGTH],
}

impl Storage {
    /// Tables of zeros.
    pub const fn new() -> Self {
        Storage {
            facts: [0; FACTS_LENGTH],
            captured: [0; CAPTURED_LENGTH],
            arguments: [0; ARGUMENTS_LENGTH],
            work: [0; WORK_LENGTH],
        }
    }

    /// Lends the tables.
    pub fn tables(&mut self) -> Tables<'_> {
        Tables { facts: &mut self.facts, captured: &mut self.captured, arguments: &mut self.arguments, work: &mut self.work }
    }

    /// Tables of zeros on the heap. They are allocated as zeros, and never stand on the stack.
    ///
    /// ```
    /// use scheme_analysis::{fresh, Storage};
    ///
    /// let mut storage = Storage::boxed();
    /// let facts = fresh(&[], &[], storage.tables()).unwrap();
    /// assert_eq!(facts.records(), 0);
    /// ```
    #[cfg(feature = "alloc")]
    pub fn boxed() -> BoxedStorage {
        BoxedStorage::new()
    }
}

impl Default for Storage {
    fn default() -> Self {
        Self::new()
    }
}

impl fmt::Debug for Storage {
    fn fmt(&self, f: &mut fmt::Formatter<'_>) -> fmt::Result {
        f.debug_struct("Storage").finish_non_exhaustive()
    }
}

/// Room for the four tables on the heap, as [`Storage`] is room in place. With the feature `alloc`.
///
/// Four boxes, and no `Box<Storage>`: a box of a million bytes can be filled in place by unsafe code alone.
#[cfg(feature = "alloc")]
pub struct BoxedStorage {
    facts: alloc::boxed::Box<[u32]>,
    captured: alloc::boxed::Box<[u32]>,
    arguments: alloc::boxed::Box<[u32]>,
    work: alloc::boxed::Box<[u32]>,
}

#[cfg(feature = "alloc")]
impl BoxedStorage {
    /// Tables of zeros.
    pub fn new() -> Self {
        let zeros = |length| alloc::vec![0; length].into_boxed_slice();
        BoxedStorage {
            facts: zeros(FACTS_LENGTH),
            captured: zeros(CAPTURED_LENGTH),
            arguments: zeros(ARGUMENTS_LENGTH),
            work: zeros(WORK_LENGTH),
        }
    }

    /// Lends the tables.
    pub fn tables(&mut self) -> Tables<'_> {
        Tables { facts: &mut self.facts, captured: &mut self.captured, arguments: &mut self.arguments, work: &mut self.work }
    }
}

#[cfg(feature = "alloc")]
impl Default for BoxedStorage {
    fn default() -> Self {
        Self::new()
    }
}

#[cfg(feature = "alloc")]
impl fmt::Debug for BoxedStorage {
    fn fmt(&self, f: &mut fmt::Formatter<'_>) -> fmt::Result {
        f.debug_struct("BoxedStorage").finish_non_exhaustive()
    }
}

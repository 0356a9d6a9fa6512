//! A run of the pass, and where it was if it panicked.

use crate::parser::ast::ExprKind;
use crate::Analysis;
use std::cell::Cell;
use std::panic::{self, AssertUnwindSafe};
use std::sync::Once;

/// A panic inside the pass.
#[derive(Clone, Copy, Debug, PartialEq, Eq)]
pub struct Panic {
    /// Of the original's analysis.rs; 0 for one elsewhere.
    pub line: u32,
    /// The id of the atom that the pass was at.
    pub id: u32,
}

thread_local! {
    static RUNNING: Cell<bool> = const { Cell::new(false) };
    static LINE: Cell<u32> = const { Cell::new(0) };
    static ATOM: Cell<u32> = const { Cell::new(0) };
}

/// The pass asks each atom for its name on coming to it.
#[inline(always)]
pub(crate) fn note_atom(id: u32) {
    ATOM.set(id);
}

/// A panic inside the pass is noted and prints nothing; others print what they did.
fn note_panics() {
    let before = panic::take_hook();
    panic::set_hook(Box::new(move |info| {
        if RUNNING.get() {
            let own = info.location().filter(|place| place.file().ends_with("analysis.rs"));
            LINE.set(own.map_or(0, panic::Location::line));
        } else {
            before(info);
        }
    }));
}

/// One run with the scope cleared; the facts of the runs before stay.
pub fn run(analysis: &mut Analysis, exprs: &[ExprKind]) -> Result<(), Panic> {
    static NOTES: Once = Once::new();
    NOTES.call_once(note_panics);
    RUNNING.set(true);
    let ended = panic::catch_unwind(AssertUnwindSafe(|| analysis.run_with_scope(exprs, true)));
    RUNNING.set(false);
    ended.map_err(|_| Panic { line: LINE.get(), id: ATOM.get() })
}

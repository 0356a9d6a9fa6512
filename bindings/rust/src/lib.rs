//! Names, slots and tail calls of a Scheme script.
//!
//! [`fresh`] and [`settled`] take a script as a tree of records. They say for each name in which slot its value lies, and for
//! each call whether it may give up its frame. What is unfit they refuse, by number and record. The library below is written in
//! Rattle and proved: for every input the answer and every number of every table are those of a definition. It has no heap and
//! no variables of its own. This crate adds types over the same numbers, and copies nothing.
//!
//! # Records
//!
//! A record is six numbers: form, id, name, count, from, to. Records stand in preorder, each before its children, and top-level
//! expressions one after another. No records at all are a good script.
//!
//! | [`Form`] | children, in this order | id | name | count |
//! |---|---|---|---|---|
//! | 1 identifier | none | yes | its number | 0 |
//! | 2 constant | none | yes | 1 for `#f` | 0 |
//! | 3 if | test, then, else | 0 | 0 | 0 |
//! | 4 let | count names, count initial expressions, body | yes | 0 | 0 to 255 |
//! | 5 define | name, body | 0 | 0 | 0 |
//! | 6 lambda | count parameters, body | yes | 0 | 0 to 255 |
//! | 7 begin | count expressions | 0 | 0 | 0 to 255 |
//! | 8 call | count: the head, then the arguments | yes | 0 | 1 to 255 |
//! | 9 set! | name, expression | 0 | 0 | 0 |
//! | 10 and | count expressions | 0 | 0 | 0 to 255 |
//! | 11 when | count: the test, then what follows | 0 | 0 | 1 to 255 |
//! | 12 unless | count: the test, then what follows | 0 | 0 | 1 to 255 |
//!
//! An id is 1 to 4294967294, and no two records have the same. Names are numbered from 0. The names of a let, define, lambda or
//! set! are records of form 1. from and to are a position in the script's text: carried to the facts, and never consulted.
//!
//! Forms 10 to 12 have no facts. All others are those of the script that has these in their place:
//!
//! | given | stands for |
//! |---|---|
//! | `(and)` | `#t` |
//! | `(and e)` | `e` |
//! | `(and e1 e2 ..)` | `(if e1 (and e2 ..) #f)` |
//! | `(when e es ..)` | `(if e (begin es ..) (begin))` |
//! | `(unless e es ..)` | `(if e (begin) (begin es ..))` |
//!
//! So `(define f (and (lambda () 1)))` defines a lambda, and a define in a when is an inner one. Limits are those of the script as
//! it is given.
//!
//! # Classes
//!
//! A byte for each name, at its number: [`PRELUDE`], [`MODULE_GETTER`], [`MODULE_NAME`] and [`HASH_GETTER`] added together.
//! Higher bits are not looked at.
//!
//! # Example
//!
//! [`Script`] makes the records: it gives ids, numbers names and counts children. `(f x)`:
//!
//! ```
//! use scheme_analysis::{fresh, CallKind, IdentifierStatus, Row, Script, Storage};
//! use std::sync::Mutex;
//!
//! static STORAGE: Mutex<Storage> = Mutex::new(Storage::new());
//!
//! let mut script = Script::new();
//! script.call(|s| {
//!     s.identifier("f");
//!     s.identifier("x");
//! });
//! let mut storage = STORAGE.lock().unwrap();
//! let facts = fresh(script.records().unwrap(), script.classes(), storage.tables()).unwrap();
//! assert!(matches!(facts.row(0), Row::CallSite(call) if call.kind() == CallKind::Normal));
//! assert!(matches!(facts.row(2), Row::Variable(x) if x.kind() == IdentifierStatus::Free));
//! ```
//!
//! The same by hand, where f is name 0 and x is name 1:
//!
//! ```
//! # use scheme_analysis::{fresh, CallKind, Form, Record, Row, Storage};
//! # use std::sync::Mutex;
//! # static STORAGE: Mutex<Storage> = Mutex::new(Storage::new());
//! # let mut storage = STORAGE.lock().unwrap();
//! let records = [
//!     Record { form: Form::Call, id: 1, name: 0, count: 2, from: 0, to: 5 },
//!     Record { form: Form::Identifier, id: 2, name: 0, count: 0, from: 1, to: 2 },
//!     Record { form: Form::Identifier, id: 3, name: 1, count: 0, from: 3, to: 4 },
//! ];
//! let numbers = records.map(Record::numbers);
//! let facts = fresh(numbers.as_flattened(), &[0, 0], storage.tables()).unwrap();
//! assert!(matches!(facts.row(0), Row::CallSite(call) if call.kind() == CallKind::Normal));
//! ```
//!
//! # Which run for what
//!
//! **A fresh run's slots are for a machine whose closures keep frames.** A reference that is
//! [`Local`](IdentifierStatus::Local) reads its slot in the running frame. One that is [`Captured`](IdentifierStatus::Captured)
//! reads the same slot of its binder's frame, which the closure has a copy of: the frame of the depth that the fact of the binder
//! has ([`refers_to`](SemanticInformation::refers_to), [`Facts::record_of`]). For such a machine the execution property is proved.
//!
//! **A settled run's offsets are for a machine whose closures keep values and cells**, one for each entry of the lambda's
//! [`captured_vars`](FunctionInformation::captured_vars). A reference through a capture has
//! [`read_capture_offset`](SemanticInformation::read_capture_offset), or
//! [`read_heap_offset`](SemanticInformation::read_heap_offset) to a cell, and no slot of a frame; the other offsets of an entry
//! ([`ScopeInfo`]) tell where the value or cell is taken from when the closure is made (docs/RULES.md, 10). Binding and tail
//! position are proved of these facts too. The execution property is not.
//!
//! The numbers of one run are not for the other machine. Both runs record the same tail calls; a settled run may record one as a
//! [`TailCall`](CallKind::TailCall) that is a [`SelfTailCall`](CallKind::SelfTailCall) after a fresh run (docs/RULES.md, 4.6). How
//! often a name is used is to be asked of a fresh run ([`usage_count`](SemanticInformation::usage_count)).
//!
//! # The execution property, and what leaves it
//!
//! It says that a machine which goes by a fresh run's references, depths and slots alone, and gives up a frame early only at
//! recorded tail calls, stays in step with a plain Scheme machine for ever. It has two premises, and neither run checks them. A
//! script outside them is accepted, and its slots do not have to give Scheme's values:
//!
//! - No set! of a parameter or let name that an inner lambda mentions. Closures copy frames, so they would not see it:
//!   `((lambda (x) (let ((f (lambda () x))) (begin (set! x 2) (f)))) 3)` gives 2 in Scheme, and 3 by the slots. A settled run
//!   makes x a cell ([`HeapAllocated`](IdentifierStatus::HeapAllocated)), but to a lambda that ends before the set!, as here, x is
//!   still a captured value: so its offsets do not have to give Scheme's values either.
//! - No inner define, which is one neither at top level nor directly in a top-level begin. Its name is recorded as global:
//!   `(lambda () (begin (define x 1) x))`. A let does instead, where the value does not mention its own name.
//!
//! # Renaming
//!
//! [`Reason::LiveName`] meets legal Scheme: `(lambda () (let ((a 1)) (let ((a 2)) a)))`. A lambda opens a scope, and so does a let
//! outside all scopes. Any other let puts its names into the scope around it, where a name may be live once. So where a let binds
//! a name that is live in its scope, give it a new name, and with it each reference in the let's body that means it. The initial
//! expressions still mean the outer one. Any text that no other name has will do, as one with a space. It needs no class.
//! Parameters hide what is outside their lambda, and only have to differ from one another; lets one after another may share names.
//!
//! ```
//! # use scheme_analysis::{fresh, Reason, Row, Script, Storage};
//! # use std::sync::Mutex;
//! # static STORAGE: Mutex<Storage> = Mutex::new(Storage::new());
//! # let mut storage = STORAGE.lock().unwrap();
//! fn nested<'n>(inner: &'n str) -> Script<'n> {
//!     let mut script = Script::new();
//!     script.lambda([], |s| {
//!         s.let_(["a"], |s| {
//!             s.constant();
//!             s.let_([inner], |s| {
//!                 s.constant();
//!                 s.identifier(inner);
//!             });
//!         });
//!     });
//!     script
//! }
//!
//! let script = nested("a");
//! let refusal = fresh(script.records().unwrap(), script.classes(), storage.tables()).unwrap_err();
//! assert_eq!((refusal.reason, refusal.at()), (Reason::LiveName, Some(5)));
//!
//! let script = nested("a 2");
//! let facts = fresh(script.records().unwrap(), script.classes(), storage.tables()).unwrap();
//! assert!(matches!(facts.row(7), Row::Variable(a) if a.stack_offset() == Some(1)));
//! ```
//!
//! # Linking
//!
//! The crate links `libscheme_analysis.a` from the folder that the variable `SCHEME_ANALYSIS_LIB` names, or from where
//! `rt lib` in `crates/scheme_analysis` writes it. Without the library everything but linking works, and cargo warns. A
//! library of another [`VERSION`] does not link: its symbols have other names.
//!
//! # Features
//!
//! None is on by default. `alloc`: tables on the heap, by `Storage::boxed`.

#![no_std]

#[cfg(feature = "alloc")]
extern crate alloc;

/// `Debug` by the fields of a view, as its methods give them.
macro_rules! debug_by_field {
    ($view:ident: $($field:ident),+) => {
        impl core::fmt::Debug for $view<'_> {
            fn fmt(&self, f: &mut core::fmt::Formatter<'_>) -> core::fmt::Result {
                f.debug_struct(stringify!($view))$(.field(stringify!($field), &self.$field()))+.finish()
            }
        }
    };
}

mod entries;
mod facts;
mod ffi;
mod record;
mod refusal;
mod script;
mod storage;

pub use entries::{Entries, ScopeInfo};
pub use facts::{CallKind, CallSiteInformation, Facts, FunctionInformation};
pub use facts::{IdentifierStatus, LetInformation, Row, SemanticInformation, Span};
pub use record::{Form, Record};
pub use refusal::{Reason, Refusal};
pub use script::{Script, ScriptError};
#[cfg(feature = "alloc")]
pub use storage::BoxedStorage;
pub use storage::{Storage, Tables};

/// The version of the interface: of the records, the tables and the two functions. The library's symbols have it in their names,
/// so that a crate and a library of different versions do not link.
pub const VERSION: u32 = 2;

/// How many numbers a record has.
pub const RECORD_WIDTH: usize = 6;

/// How many numbers a row of [`Tables::facts`] has.
pub const ROW_WIDTH: usize = 20;

/// How many numbers an entry of [`Tables::captured`] or [`Tables::arguments`] has.
pub const ENTRY_WIDTH: usize = 13;

/// At most so many records are accepted.
pub const MOST_RECORDS: usize = 4096;

/// At most so many names are accepted.
pub const MOST_NAMES: usize = 1024;

/// A record's count is at most this.
pub const MOST_COUNT: u32 = 255;

/// Records nest at most so deep; a top-level expression counts 1.
pub const DEEPEST: usize = 64;

/// How many numbers [`Tables::facts`] must have.
pub const FACTS_LENGTH: usize = 81920;

/// How many numbers [`Tables::captured`] must have.
pub const CAPTURED_LENGTH: usize = 53248;

/// How many numbers [`Tables::arguments`] must have.
pub const ARGUMENTS_LENGTH: usize = 53248;

/// How many numbers [`Tables::work`] must have.
pub const WORK_LENGTH: usize = 59392;

/// So many bytes of stack are enough for any call. Not proved: the most seen, of expressions nested 64 deep, was 121,720.
pub const STACK: usize = 262144;

/// The number that stands for none in the tables. The views answer an [`Option`] instead.
pub const NONE: u32 = u32::MAX;

const fn optional(number: u32) -> Option<u32> {
    match number {
        NONE => None,
        number => Some(number),
    }
}

/// The row of a table at a place, where there is one.
fn part<const WIDTH: usize>(table: &[u32], place: usize) -> Option<&[u32; WIDTH]> {
    table.get(WIDTH.checked_mul(place)?..)?.first_chunk()
}

/// The class of a name that the language has: Global where no binder is found.
pub const PRELUDE: u8 = 1;

/// The class of g where `(define x (g m ..))` makes x a builtin.
pub const MODULE_GETTER: u8 = 2;

/// The class of m where `(define x (g m ..))` makes x a builtin.
pub const MODULE_NAME: u8 = 4;

/// The class of g where `(define x (g ..))` makes x a required identifier.
pub const HASH_GETTER: u8 = 8;

/// The fresh run: what each name refers to, its depth and slot, and the kind of each call.
///
/// # Errors
///
/// A refusal says why, and at which record ([`Refusal::at`]). The tables are then unchanged after [`Reason::Length`], else zero.
pub fn fresh<'t>(records: &'t [u32], classes: &[u8], mut tables: Tables<'t>) -> Result<Facts<'t>, Refusal> {
    let answer = ffi::fresh(records, classes, &mut tables);
    facts_or_refusal(answer, records, tables)
}

/// The settled run: goes over the script again with the fresh run's facts. Captured names are numbered, those also mutated as
/// cells of the heap, and a reference through a capture has these offsets in place of a slot.
///
/// # Errors
///
/// As of [`fresh`], with two more reasons.
pub fn settled<'t>(records: &'t [u32], classes: &[u8], mut tables: Tables<'t>) -> Result<Facts<'t>, Refusal> {
    let answer = ffi::settled(records, classes, &mut tables);
    facts_or_refusal(answer, records, tables)
}

fn facts_or_refusal<'t>(answer: ffi::Answer, records: &'t [u32], tables: Tables<'t>) -> Result<Facts<'t>, Refusal> {
    match Refusal::of(answer.number, answer.at) {
        None => Ok(Facts::new(records, tables)),
        Some(refusal) => Err(refusal),
    }
}

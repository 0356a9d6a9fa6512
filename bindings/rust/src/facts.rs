//! Typed views of the tables after an accepted run. A view is a reference to its numbers.

use crate::{optional, part, Entries, Record, Tables, RECORD_WIDTH, ROW_WIDTH};
use core::fmt;

/// The numbers of a row of the facts.
type Numbers = [u32; ROW_WIDTH];

/// The facts of a script: a row for each record.
#[derive(Clone, Copy)]
pub struct Facts<'t> {
    records: &'t [u32],
    rows: &'t [u32],
    lists: Lists<'t>,
}

/// The two tables of lists.
#[derive(Clone, Copy)]
struct Lists<'t> {
    captured: &'t [u32],
    arguments: &'t [u32],
}

impl<'t> Facts<'t> {
    pub(crate) fn new(records: &'t [u32], tables: Tables<'t>) -> Self {
        Facts { records, rows: tables.facts, lists: Lists { captured: tables.captured, arguments: tables.arguments } }
    }

    /// How many records the script has.
    pub fn records(&self) -> usize {
        self.records.len() / RECORD_WIDTH
    }

    /// A record of the script.
    pub fn record(&self, record: usize) -> Option<Record> {
        part(self.records, record).copied().and_then(Record::of)
    }

    /// The number of the record that has this id: that of a binder, from [`refers_to`](SemanticInformation::refers_to) or
    /// [`shadows`](SemanticInformation::shadows), or of a lambda, from [`function_context`](LetInformation::function_context).
    ///
    /// It goes through the records from the first. Whoever asks often keeps a table.
    ///
    /// ```
    /// # use scheme_analysis::{fresh, Row, Script, Storage};
    /// # use std::sync::Mutex;
    /// # static STORAGE: Mutex<Storage> = Mutex::new(Storage::new());
    /// # let mut storage = STORAGE.lock().unwrap();
    /// // (lambda (x) x)
    /// let mut script = Script::new();
    /// script.lambda(["x"], |s| s.identifier("x"));
    /// let facts = fresh(script.records().unwrap(), script.classes(), storage.tables()).unwrap();
    /// let Row::Variable(x) = facts.row(2) else { panic!("an identifier") };
    /// assert_eq!(x.refers_to().and_then(|id| facts.record_of(id)), Some(1));
    /// ```
    pub fn record_of(&self, id: u32) -> Option<usize> {
        // 0 stands in the records that have no id
        if id == 0 {
            return None;
        }
        self.records.chunks_exact(RECORD_WIDTH).position(|record| record[1] == id)
    }

    /// The fact of a record. Blank where it has none, or there is no such record.
    pub fn row(&self, record: usize) -> Row<'t> {
        match part(self.rows, record) {
            Some(row) => Row::of(row, self.lists),
            None => Row::Blank,
        }
    }

    /// The rows of all records, in order.
    pub fn rows(self) -> impl ExactSizeIterator<Item = Row<'t>> {
        (0..self.records()).map(move |record| self.row(record))
    }
}

/// The row of each record, by the record's number.
impl fmt::Debug for Facts<'_> {
    fn fmt(&self, f: &mut fmt::Formatter<'_>) -> fmt::Result {
        f.debug_map().entries(self.rows().enumerate()).finish()
    }
}

/// The fact of a record: `SemanticInformationType`.
#[derive(Clone, Copy, Debug)]
pub enum Row<'t> {
    /// None. Constants, if, define, begin, set!, and, when and unless have none, and neither has a call whose head is a constant.
    Blank,
    /// Of an identifier.
    Variable(SemanticInformation<'t>),
    /// Of a lambda.
    Function(FunctionInformation<'t>),
    /// Of a call.
    CallSite(CallSiteInformation<'t>),
    /// Of a let.
    Let(LetInformation<'t>),
}

impl<'t> Row<'t> {
    fn of(row: &'t Numbers, lists: Lists<'t>) -> Self {
        match row[0] {
            0 => Row::Blank,
            1..=7 => Row::Variable(SemanticInformation(row)),
            8 => Row::Function(FunctionInformation { row, lists }),
            9 => Row::Let(LetInformation { row, lists }),
            10 => Row::CallSite(CallSiteInformation(row)),
            _ => unreachable!("no row starts so"),
        }
    }
}

/// A position in the script's text: the from and to of a record.
#[derive(Clone, Copy, Debug, PartialEq, Eq, Hash)]
pub struct Span {
    /// from
    pub start: u32,
    /// to
    pub end: u32,
}

/// What an identifier is.
#[derive(Clone, Copy, Debug, PartialEq, Eq, Hash)]
#[allow(missing_docs)]
pub enum IdentifierStatus {
    Global,
    Local,
    LocallyDefinedFunction,
    LetVar,
    Captured,
    Free,
    HeapAllocated,
}

impl IdentifierStatus {
    fn of(number: u32) -> Self {
        match number {
            1 => IdentifierStatus::Global,
            2 => IdentifierStatus::Local,
            3 => IdentifierStatus::LocallyDefinedFunction,
            4 => IdentifierStatus::LetVar,
            5 => IdentifierStatus::Captured,
            6 => IdentifierStatus::Free,
            7 => IdentifierStatus::HeapAllocated,
            _ => unreachable!("no identifier's row starts so"),
        }
    }
}

/// The fact of an identifier: a binder, where a define, lambda or let names it, else a reference.
#[derive(Clone, Copy)]
pub struct SemanticInformation<'t>(&'t Numbers);

debug_by_field!(SemanticInformation: kind, set_bang, depth, shadows, usage_count, span, refers_to, aliases_to, builtin, last_usage,
    stack_offset, escapes, capture_index, read_capture_offset, captured_from_enclosing, heap_offset, read_heap_offset, is_shadowed,
    is_required_identifier);

impl SemanticInformation<'_> {
    /// What it is.
    pub fn kind(&self) -> IdentifierStatus {
        IdentifierStatus::of(self.0[0])
    }

    /// Of a binder: whether a set! sets it.
    pub fn set_bang(&self) -> bool {
        self.0[1] == 1
    }

    /// 1, and 1 for each scope around; 1 of a reference to a define.
    pub fn depth(&self) -> u32 {
        self.0[2]
    }

    /// Of a binder: the id of the binder that it hides.
    pub fn shadows(&self) -> Option<u32> {
        optional(self.0[3])
    }

    /// Of a binder, after a fresh run: how often it is used. A read counts 1; a set! counts 2 for a parameter or let name, and 1
    /// for a define. Exact where no define is inner.
    ///
    /// Of a binder, after a settled run, it is a number of that run, and not how often the name is used (docs/RULES.md, 5.4 and
    /// 9.3):
    ///
    /// - a parameter: the uses in its own lambda, as above, and 1 for each set! in a lambda inside. Reads in lambdas inside go
    ///   through captures, which count for themselves: 0 of the x of `(lambda (x) (lambda () x))`, which a fresh run counts 1.
    /// - a let name: what the last read of it left. After a read in its own lambda that is counted as for a parameter, so far.
    ///   After a read through a capture it is the [`usage_count`](crate::ScopeInfo::usage_count) of the capture's entry, and 1 for
    ///   each read through that capture so far: 2 of the y of `(lambda () (let ((y 1)) (lambda () y)))`, which a fresh run counts 1.
    /// - a define: as after a fresh run.
    ///
    /// So whether a name is used at all is to be asked of a fresh run.
    ///
    /// Of a reference: 1, or 0 without a binder (settled: 1).
    pub fn usage_count(&self) -> u32 {
        self.0[4]
    }

    /// Its position.
    pub fn span(&self) -> Span {
        Span { start: self.0[5], end: self.0[6] }
    }

    /// Of a reference: the id of its binder.
    pub fn refers_to(&self) -> Option<u32> {
        optional(self.0[7])
    }

    /// Of a top-level define's binder: the id of the identifier that is the define's body.
    pub fn aliases_to(&self) -> Option<u32> {
        optional(self.0[8])
    }

    /// Whether it is of class prelude, or a module getter defines it.
    pub fn builtin(&self) -> bool {
        self.0[9] == 1
    }

    /// Of a reference: whether it is the last, or the last before a tail call.
    pub fn last_usage(&self) -> bool {
        self.0[10] == 1
    }

    /// Of a reference: the slot in its binder's frame. After a settled run a reference through a capture has none, and one to
    /// a let name that is a cell has the name's place in its let, which is no slot. The crate's documentation says which run to use
    /// for what.
    pub fn stack_offset(&self) -> Option<u32> {
        optional(self.0[11])
    }

    /// Never.
    pub fn escapes(&self) -> bool {
        self.0[12] == 1
    }

    /// Of a settled reference through a capture: its [`capture_offset`](crate::ScopeInfo::capture_offset).
    pub fn capture_index(&self) -> Option<u32> {
        optional(self.0[13])
    }

    /// Of a settled reference through a capture: its [`read_capture_offset`](crate::ScopeInfo::read_capture_offset).
    pub fn read_capture_offset(&self) -> Option<u32> {
        optional(self.0[14])
    }

    /// Of a settled reference through a capture: whether the next lambda around captures it too.
    pub fn captured_from_enclosing(&self) -> bool {
        self.0[15] == 1
    }

    /// Of a settled reference to a cell: its [`heap_offset`](crate::ScopeInfo::heap_offset).
    pub fn heap_offset(&self) -> Option<u32> {
        optional(self.0[16])
    }

    /// Of a settled reference to a cell: its [`read_heap_offset`](crate::ScopeInfo::read_heap_offset).
    pub fn read_heap_offset(&self) -> Option<u32> {
        optional(self.0[17])
    }

    /// Of a builtin's binder: whether a later define hides it.
    pub fn is_shadowed(&self) -> bool {
        self.0[18] == 1
    }

    /// Of a binder: whether a hash getter defines it.
    pub fn is_required_identifier(&self) -> bool {
        self.0[19] == 1
    }
}

/// The fact of a lambda.
#[derive(Clone, Copy)]
pub struct FunctionInformation<'t> {
    row: &'t Numbers,
    lists: Lists<'t>,
}

debug_by_field!(FunctionInformation: captured_vars, arguments, escapes, aliases_to, depth);

impl<'t> FunctionInformation<'t> {
    /// The captured names around it, sorted by id (docs/RULES.md, 9 and 10).
    pub fn captured_vars(&self) -> Entries<'t> {
        Entries::of(self.lists.captured, self.row[1], self.row[2])
    }

    /// Its parameters in order, then its inner defines as they enter.
    pub fn arguments(&self) -> Entries<'t> {
        Entries::of(self.lists.arguments, self.row[3], self.row[4])
    }

    /// Whether it stands in an argument, or inside the head of a tail call.
    pub fn escapes(&self) -> bool {
        self.row[5] == 1
    }

    /// Never any.
    pub fn aliases_to(&self) -> Option<u32> {
        optional(self.row[6])
    }

    /// The depth around it.
    pub fn depth(&self) -> u32 {
        self.row[7]
    }
}

/// The fact of a let.
#[derive(Clone, Copy)]
pub struct LetInformation<'t> {
    row: &'t Numbers,
    lists: Lists<'t>,
}

debug_by_field!(LetInformation: stack_offset, function_context, arguments);

impl<'t> LetInformation<'t> {
    /// The height of the frame before it.
    pub fn stack_offset(&self) -> u32 {
        self.row[1]
    }

    /// The id of the next lambda around.
    pub fn function_context(&self) -> Option<u32> {
        optional(self.row[2])
    }

    /// Its names in order.
    pub fn arguments(&self) -> Entries<'t> {
        Entries::of(self.lists.arguments, self.row[3], self.row[4])
    }
}

/// What a call may do with its frame.
#[derive(Clone, Copy, Debug, PartialEq, Eq, Hash)]
pub enum CallKind {
    /// It keeps the frame.
    Normal,
    /// It may give up the frame.
    TailCall,
    /// It may give up the frame, and calls the define that it stands in. The number is how many lambdas stand around the call:
    /// all up to the top level, but where the define stands directly in an inner begin, only those inside the define.
    ///
    /// It is 1 in `(define f (lambda (x) (f x)))` and 2 in `(define f (lambda (x) (lambda (y) (f x))))`: there the frame given up
    /// is that of the lambda inside, and none of f's.
    ///
    /// What is proved takes each as a tail call. To make a jump of one is the caller's own step: its number has to be 1, f may be
    /// neither set! nor defined again, and the arguments have to be as many as the parameters.
    ///
    /// ```
    /// # use scheme_analysis::{fresh, CallKind, Row, Script, Storage};
    /// # use std::sync::Mutex;
    /// # static STORAGE: Mutex<Storage> = Mutex::new(Storage::new());
    /// # let mut storage = STORAGE.lock().unwrap();
    /// // (define f (lambda (x) (lambda (y) (f x))))
    /// let (mut script, mut call) = (Script::new(), 0);
    /// script.define("f", |s| {
    ///     s.lambda(["x"], |s| {
    ///         s.lambda(["y"], |s| {
    ///             call = s.call(|s| {
    ///                 s.identifier("f");
    ///                 s.identifier("x");
    ///             });
    ///         });
    ///     });
    /// });
    /// let facts = fresh(script.records().unwrap(), script.classes(), storage.tables()).unwrap();
    /// assert!(matches!(facts.row(call), Row::CallSite(c) if c.kind() == CallKind::SelfTailCall(2)));
    /// ```
    SelfTailCall(u32),
}

/// The fact of a call.
#[derive(Clone, Copy)]
pub struct CallSiteInformation<'t>(&'t Numbers);

debug_by_field!(CallSiteInformation: kind, span);

impl CallSiteInformation<'_> {
    /// What it may do.
    pub fn kind(&self) -> CallKind {
        match self.0[1] {
            1 => CallKind::Normal,
            2 => CallKind::TailCall,
            3 => CallKind::SelfTailCall(self.0[2]),
            _ => unreachable!("no call has this kind"),
        }
    }

    /// The position of its head where that is an identifier, else its own.
    pub fn span(&self) -> Span {
        Span { start: self.0[3], end: self.0[4] }
    }
}

#[cfg(test)]
mod tests {
    use super::*;
    use crate::entries::tests::entry;
    use crate::NONE;

    /// The row of a script with one record, over captured entries from 100 and 200 and argument entries from 300 and 400.
    fn with_row(numbers: &[u32], check: impl FnOnce(Row<'_>)) {
        let mut row = [0; ROW_WIDTH];
        row[..numbers.len()].copy_from_slice(numbers);
        let captured = [entry(100, 0), entry(200, 0)];
        let arguments = [entry(300, 0), entry(400, 0)];
        let lists = Lists { captured: captured.as_flattened(), arguments: arguments.as_flattened() };
        let facts = Facts { records: &[0; RECORD_WIDTH], rows: &row, lists };
        check(facts.row(0));
    }

    fn variable(numbers: &[u32; ROW_WIDTH], check: impl FnOnce(SemanticInformation<'_>)) {
        with_row(numbers, |row| match row {
            Row::Variable(v) => check(v),
            other => panic!("{other:?}"),
        });
    }

    #[test]
    fn an_identifier_has_its_fields_at_their_places() {
        let row = [2, 1, 52, 53, 54, 55, 56, 57, 58, 0, 1, 61, 0, 63, 64, 1, 66, 67, 0, 1];
        variable(&row, |v| {
            assert_eq!(v.kind(), IdentifierStatus::Local);
            assert_eq!((v.depth(), v.usage_count()), (52, 54));
            assert_eq!(v.span(), Span { start: 55, end: 56 });
            assert_eq!((v.shadows(), v.refers_to(), v.aliases_to()), (Some(53), Some(57), Some(58)));
            assert_eq!((v.stack_offset(), v.capture_index()), (Some(61), Some(63)));
            assert_eq!((v.read_capture_offset(), v.heap_offset()), (Some(64), Some(66)));
            assert_eq!(v.read_heap_offset(), Some(67));
        });
    }

    #[test]
    fn each_yes_or_no_of_an_identifier_is_its_own() {
        for place in [1, 9, 10, 12, 15, 18, 19] {
            let mut row = [0; ROW_WIDTH];
            row[0] = 1;
            row[place] = 1;
            variable(&row, |v| {
                let said = [
                    (1, v.set_bang()),
                    (9, v.builtin()),
                    (10, v.last_usage()),
                    (12, v.escapes()),
                    (15, v.captured_from_enclosing()),
                    (18, v.is_shadowed()),
                    (19, v.is_required_identifier()),
                ];
                for (at, yes) in said {
                    assert_eq!(yes, at == place, "field {at} where {place} is 1");
                }
            });
        }
    }

    #[test]
    fn the_none_mark_is_no_number() {
        let mut row = [NONE; ROW_WIDTH];
        row[0] = 1;
        variable(&row, |v| {
            let options = [
                v.shadows(),
                v.refers_to(),
                v.aliases_to(),
                v.stack_offset(),
                v.capture_index(),
                v.read_capture_offset(),
                v.heap_offset(),
                v.read_heap_offset(),
            ];
            assert_eq!(options, [None; 8]);
        });
    }

    #[test]
    fn a_row_is_told_by_its_first_number() {
        use IdentifierStatus::*;
        let kinds = [Global, Local, LocallyDefinedFunction, LetVar, Captured, Free, HeapAllocated];
        for (number, kind) in (1..).zip(kinds) {
            with_row(&[number], |row| assert!(matches!(row, Row::Variable(v) if v.kind() == kind)));
        }
        with_row(&[0], |row| assert!(matches!(row, Row::Blank)));
        with_row(&[8], |row| assert!(matches!(row, Row::Function(_))));
        with_row(&[9], |row| assert!(matches!(row, Row::Let(_))));
        with_row(&[10, 1], |row| assert!(matches!(row, Row::CallSite(_))));
    }

    #[test]
    fn a_lambda_has_its_lists() {
        with_row(&[8, 1, 1, 0, 2, 1, NONE, 57], |row| {
            let Row::Function(f) = row else { panic!("{row:?}") };
            assert!(f.captured_vars().iter().map(|entry| entry.name()).eq([200]));
            assert!(f.arguments().iter().map(|entry| entry.name()).eq([300, 400]));
            assert_eq!((f.escapes(), f.aliases_to(), f.depth()), (true, None, 57));
        });
    }

    #[test]
    fn a_let_has_its_list() {
        with_row(&[9, 51, 52, 1, 1], |row| {
            let Row::Let(l) = row else { panic!("{row:?}") };
            assert_eq!((l.stack_offset(), l.function_context()), (51, Some(52)));
            assert!(l.arguments().iter().map(|entry| entry.name()).eq([400]));
        });
    }

    #[test]
    fn a_call_has_its_kind_and_position() {
        let kinds = [CallKind::Normal, CallKind::TailCall, CallKind::SelfTailCall(52)];
        for (number, kind) in (1..).zip(kinds) {
            with_row(&[10, number, 52, 53, 54], |row| {
                let Row::CallSite(call) = row else { panic!("{row:?}") };
                assert_eq!((call.kind(), call.span()), (kind, Span { start: 53, end: 54 }));
            });
        }
    }

    #[test]
    fn where_there_is_no_record_the_row_is_blank() {
        let lists = Lists { captured: &[], arguments: &[] };
        let facts = Facts { records: &[], rows: &[], lists };
        assert!(matches!(facts.row(0), Row::Blank));
        assert!(matches!(facts.row(usize::MAX), Row::Blank));
        assert_eq!((facts.record(0), facts.record(usize::MAX)), (None, None));
        assert_eq!((facts.records(), facts.rows().len()), (0, 0));
    }
}

//! Makes the records of a script.

use crate::{Form, Record, Span, MOST_NAMES, MOST_RECORDS, RECORD_WIDTH};
use core::error::Error;
use core::fmt;
use core::mem;

/// Makes the records of a script, form by form: ids are 1, 2, 3, .., names are numbered as they come, and children are counted.
///
/// A method puts one record after those before it, and takes what puts its children. It answers the record's number, by which
/// [`Facts::row`](crate::Facts::row) finds its fact. The names of a let, define, lambda or set! are records too, and stand right
/// behind it. A body is one expression: more are a [`begin`](Self::begin).
///
/// A script has room for `RECORDS` records and `NAMES` names, and is that big: [`Script::new`] makes one of about 115,000 bytes
/// that has room for all that the library takes, [`Script::sized`] one of any size. What is wrong is answered at the end, by
/// [`records`](Self::records).
///
/// ```
/// use scheme_analysis::{fresh, CallKind, Row, Script, Storage};
/// use std::sync::Mutex;
///
/// static STORAGE: Mutex<Storage> = Mutex::new(Storage::new());
///
/// // (define f (lambda (x) (f x)))
/// let mut script = Script::new();
/// let mut call = 0;
/// script.define("f", |s| {
///     s.lambda(["x"], |s| {
///         call = s.call(|s| {
///             s.identifier("f");
///             s.identifier("x");
///         });
///     });
/// });
///
/// let mut storage = STORAGE.lock().unwrap();
/// let facts = fresh(script.records().unwrap(), script.classes(), storage.tables()).unwrap();
/// assert!(matches!(facts.row(call), Row::CallSite(c) if c.kind() == CallKind::SelfTailCall(1)));
/// assert_eq!(script.names(), ["f", "x"]);
/// ```
///
/// A compiler puts its own tree by a function that calls itself:
///
/// ```
/// use scheme_analysis::Script;
///
/// enum Expression {
///     Name(String),
///     Number(f64),
///     Call(Vec<Expression>),
///     Lambda(Vec<String>, Box<Expression>),
/// }
///
/// fn put<'n>(script: &mut Script<'n>, expression: &'n Expression) {
///     match expression {
///         Expression::Name(name) => script.identifier(name),
///         Expression::Number(_) => script.constant(),
///         Expression::Call(parts) => script.call(|s| parts.iter().for_each(|part| put(s, part))),
///         Expression::Lambda(names, body) => script.lambda(names.iter().map(String::as_str), |s| put(s, body)),
///     };
/// }
///
/// // (lambda (x) (f x 7))
/// let name = |name: &str| Expression::Name(name.to_string());
/// let call = Expression::Call(vec![name("f"), name("x"), Expression::Number(7.0)]);
/// let lambda = Expression::Lambda(vec!["x".to_string()], Box::new(call));
/// let mut script = Script::new();
/// put(&mut script, &lambda);
/// assert_eq!(script.records().unwrap()[..6], [6, 1, 0, 1, 0, 0]);
/// ```
#[derive(Clone)]
pub struct Script<'n, const RECORDS: usize = MOST_RECORDS, const NAMES: usize = MOST_NAMES> {
    records: [[u32; RECORD_WIDTH]; RECORDS],
    /// How many records were put, those without room too.
    length: usize,
    last_id: u32,
    names: [&'n str; NAMES],
    classes: [u8; NAMES],
    names_length: usize,
    /// How many children the open form has so far.
    children: usize,
    error: Option<ScriptError>,
}

impl Script<'_> {
    /// No records yet, and room for all that the library takes.
    pub const fn new() -> Self {
        Self::sized()
    }
}

impl<'n, const RECORDS: usize, const NAMES: usize> Script<'n, RECORDS, NAMES> {
    /// No records yet. `Script::<64, 16>::sized()` has room for 64 records and 16 names.
    pub const fn sized() -> Self {
        Script {
            records: [[0; RECORD_WIDTH]; RECORDS],
            length: 0,
            last_id: 0,
            names: [""; NAMES],
            classes: [0; NAMES],
            names_length: 0,
            children: 0,
            error: None,
        }
    }

    /// Puts a name that is read.
    pub fn identifier(&mut self, name: &'n str) -> usize {
        let name = self.number(name);
        self.put(Form::Identifier, name)
    }

    /// Puts a constant other than `#f`.
    pub fn constant(&mut self) -> usize {
        self.put(Form::Constant, 0)
    }

    /// Puts the constant `#f`.
    pub fn constant_false(&mut self) -> usize {
        self.put(Form::Constant, 1)
    }

    /// Puts an if. Its three children: the test, then, else.
    pub fn if_<R>(&mut self, children: impl FnOnce(&mut Self) -> R) -> usize {
        self.open(Form::If, [], children)
    }

    /// Puts a let of these names. Its children: an initial expression for each name, then the body.
    pub fn let_<R>(&mut self, names: impl IntoIterator<Item = &'n str>, children: impl FnOnce(&mut Self) -> R) -> usize {
        self.open(Form::Let, names, children)
    }

    /// Puts a define of this name. Its child: the body.
    pub fn define<R>(&mut self, name: &'n str, body: impl FnOnce(&mut Self) -> R) -> usize {
        self.open(Form::Define, [name], body)
    }

    /// Puts a lambda of these parameters. Its child: the body.
    pub fn lambda<R>(&mut self, parameters: impl IntoIterator<Item = &'n str>, body: impl FnOnce(&mut Self) -> R) -> usize {
        self.open(Form::Lambda, parameters, body)
    }

    /// Puts a begin. Its children: any number of expressions.
    pub fn begin<R>(&mut self, children: impl FnOnce(&mut Self) -> R) -> usize {
        self.open(Form::Begin, [], children)
    }

    /// Puts a call. Its children: the head, then the arguments.
    pub fn call<R>(&mut self, children: impl FnOnce(&mut Self) -> R) -> usize {
        self.open(Form::Call, [], children)
    }

    /// Puts a set! of this name. Its child: the expression.
    pub fn set<R>(&mut self, name: &'n str, expression: impl FnOnce(&mut Self) -> R) -> usize {
        self.open(Form::Set, [name], expression)
    }

    /// Puts an and. Its children: any number of expressions.
    pub fn and<R>(&mut self, children: impl FnOnce(&mut Self) -> R) -> usize {
        self.open(Form::And, [], children)
    }

    /// Puts a when. Its children: the test, then any number of expressions.
    pub fn when<R>(&mut self, children: impl FnOnce(&mut Self) -> R) -> usize {
        self.open(Form::When, [], children)
    }

    /// Puts an unless. Its children: the test, then any number of expressions.
    pub fn unless<R>(&mut self, children: impl FnOnce(&mut Self) -> R) -> usize {
        self.open(Form::Unless, [], children)
    }

    /// Gives a record that was put its position in the script's text. It is 0 to 0 until then.
    pub fn set_span(&mut self, record: usize, span: Span) {
        let kept = self.kept();
        if let Some([.., from, to]) = self.records[..kept].get_mut(record) {
            (*from, *to) = (span.start, span.end);
        }
    }

    /// Gives a name its class, as [`PRELUDE`](crate::PRELUDE). Without it the class is 0. The name need not be used.
    pub fn set_class(&mut self, name: &'n str, class: u8) {
        let number = self.number(name) as usize;
        if let Some(place) = self.classes.get_mut(number) {
            *place = class;
        }
    }

    /// The numbers of the records, as [`fresh`](crate::fresh) and [`settled`](crate::settled) take them.
    ///
    /// # Errors
    ///
    /// The first thing that went wrong.
    pub fn records(&self) -> Result<&[u32], ScriptError> {
        match self.error {
            None => Ok(self.records[..self.kept()].as_flattened()),
            Some(error) => Err(error),
        }
    }

    /// The class of each name.
    pub fn classes(&self) -> &[u8] {
        &self.classes[..self.names_length]
    }

    /// The names, each at its number.
    pub fn names(&self) -> &[&'n str] {
        &self.names[..self.names_length]
    }

    fn kept(&self) -> usize {
        self.length.min(RECORDS)
    }

    fn note(&mut self, error: ScriptError) {
        self.error.get_or_insert(error);
    }

    fn number(&mut self, name: &'n str) -> u32 {
        let number = self.names().iter().position(|known| *known == name).unwrap_or(self.names_length);
        if number == self.names_length {
            match self.names.get_mut(number) {
                Some(place) => {
                    *place = name;
                    self.names_length += 1;
                }
                None => self.note(ScriptError::Names),
            }
        }
        number as u32
    }

    fn put(&mut self, form: Form, name: u32) -> usize {
        let mut id = 0;
        if form.has_id() {
            self.last_id += 1;
            id = self.last_id;
        }
        let record = self.length;
        match self.records.get_mut(record) {
            Some(place) => *place = Record { form, id, name, count: 0, from: 0, to: 0 }.numbers(),
            None => self.note(ScriptError::Records),
        }
        self.length += 1;
        self.children += 1;
        record
    }

    fn open<R>(
        &mut self,
        form: Form,
        names: impl IntoIterator<Item = &'n str>,
        children: impl FnOnce(&mut Self) -> R,
    ) -> usize {
        let record = self.put(form, 0);
        let around = mem::replace(&mut self.children, 0);
        for name in names {
            self.identifier(name);
        }
        let names = self.children;
        children(self);
        let children = mem::replace(&mut self.children, around);

        let (count, fitting) = match form {
            Form::Identifier | Form::Constant => (0, 0),
            Form::If => (0, 3),
            Form::Let => (names, 2 * names + 1),
            Form::Define | Form::Set => (0, 2),
            Form::Lambda => (names, names + 1),
            Form::Begin | Form::Call | Form::And | Form::When | Form::Unless => (children, children),
        };
        if children != fitting {
            self.note(ScriptError::Children { record });
        }
        if let Some(place) = self.records.get_mut(record) {
            place[3] = count as u32;
        }
        record
    }
}

impl<const RECORDS: usize, const NAMES: usize> Default for Script<'_, RECORDS, NAMES> {
    fn default() -> Self {
        Self::sized()
    }
}

impl<const RECORDS: usize, const NAMES: usize> fmt::Debug for Script<'_, RECORDS, NAMES> {
    fn fmt(&self, f: &mut fmt::Formatter<'_>) -> fmt::Result {
        let mut script = f.debug_struct("Script");
        script.field("records", &&self.records[..self.kept()]).field("names", &self.names());
        script.field("classes", &self.classes()).field("error", &self.error).finish()
    }
}

/// Why a [`Script`] has no records to give.
#[derive(Clone, Copy, Debug, PartialEq, Eq, Hash)]
#[non_exhaustive]
pub enum ScriptError {
    /// There is no room for so many records.
    Records,
    /// There is no room for so many names.
    Names,
    /// This record has too few children or too many.
    Children {
        /// The record, counted from 0.
        record: usize,
    },
}

impl fmt::Display for ScriptError {
    fn fmt(&self, f: &mut fmt::Formatter<'_>) -> fmt::Result {
        match self {
            ScriptError::Records => f.write_str("no room for so many records"),
            ScriptError::Names => f.write_str("no room for so many names"),
            ScriptError::Children { record } => write!(f, "record {record} has too few children or too many"),
        }
    }
}

impl Error for ScriptError {}

/*
 * Names, slots and tail calls of a Scheme script.
 *
 * The library takes a script as a tree of records. It says for each name in which slot its value lies, and for each call
 * whether it may give up its frame. What is unfit it refuses, by number and record. It is written in Rattle and proved: for
 * every input the answer and every number of every table are those of a definition, nothing else is written, and the call
 * returns.
 *
 * LINK    cc -I bindings/c device.c crates/scheme_analysis/out/libscheme_analysis.a
 *         `rt lib` in crates/scheme_analysis proves the library and writes the archive, for x86-64 and the System V calling
 *         convention. It asks for one symbol from outside, memset. `bindings/run install PREFIX` installs header, archive and
 *         a file for pkg-config.
 * MEMORY  No heap, and no variables of its own: calls on different tables may run at once. The tables are lent by the caller;
 *         scheme_analysis_tables has all four. SCHEME_ANALYSIS_STACK bytes of stack are enough for any call.
 * TRUST   Rattle's compiler; and of the caller, that each pointer is aligned for its type and good for its length, for writing
 *         too where it is not const, and that the tables and *at overlap neither each other nor the inputs. Nothing else: any
 *         length and any content is answered, and the tables need not be initialised. A pointer of length 0 may be NULL; at
 *         must not.
 *
 * docs/ROWS.md has every table, docs/RULES.md every rule by which a field is set.
 */
#ifndef SCHEME_ANALYSIS_H
#define SCHEME_ANALYSIS_H

#include <stddef.h>
#include <stdint.h>

#ifdef __cplusplus
extern "C" {
#endif

/*
 * The version of this interface. It stands in the names of the library's symbols, so that a header and an archive of
 * different versions fail at link time: the symbol that is undefined then has the header's version.
 */
#define SCHEME_ANALYSIS_VERSION 2
#define scheme_analysis_fresh scheme_analysis_fresh_v2
#define scheme_analysis_settled scheme_analysis_settled_v2

/*
 * Sizes
 */
enum {
    SCHEME_ANALYSIS_RECORD_WIDTH = 6, /* numbers of a record, .. */
    SCHEME_ANALYSIS_ROW_WIDTH = 20,   /* .. of a row of facts, .. */
    SCHEME_ANALYSIS_ENTRY_WIDTH = 13, /* .. of a captured or argument entry */

    SCHEME_ANALYSIS_MOST_RECORDS = 4096,
    SCHEME_ANALYSIS_MOST_NAMES = 1024,
    SCHEME_ANALYSIS_MOST_COUNT = 255,
    SCHEME_ANALYSIS_DEEPEST = 64,         /* nesting; a top-level expression counts 1 */
    SCHEME_ANALYSIS_MOST_CAPTURED = 4096, /* captured entries, of all lambdas together */

    /* how many numbers each table has */
    SCHEME_ANALYSIS_FACTS_LENGTH = 81920,
    SCHEME_ANALYSIS_CAPTURED_LENGTH = 53248,
    SCHEME_ANALYSIS_ARGUMENTS_LENGTH = 53248,
    SCHEME_ANALYSIS_WORK_LENGTH = 59392,

    /* bytes, not proved; the most seen, of expressions nested 64 deep, was 121,720 */
    SCHEME_ANALYSIS_STACK = 262144
};

/* In a field that may have no value: none */
#define SCHEME_ANALYSIS_NONE UINT32_MAX

/*
 * Records
 *
 * A record is six numbers: form, id, name, count, from, to. Records stand in preorder, each before its children, and top-level
 * expressions one after another. No records at all are a good script.
 *
 *     form           children, in this order                        id    name          count
 *     1 identifier   none                                           yes   its number    0
 *     2 constant     none                                           yes   1 for #f      0
 *     3 if           test, then, else                               0     0             0
 *     4 let          count names, count initial expressions, body   yes   0             0 to 255
 *     5 define       name, body                                     0     0             0
 *     6 lambda       count parameters, body                         yes   0             0 to 255
 *     7 begin        count expressions                              0     0             0 to 255
 *     8 call         count: the head, then the arguments            yes   0             1 to 255
 *     9 set!         name, expression                               0     0             0
 *     10 and         count expressions                              0     0             0 to 255
 *     11 when        count: the test, then what follows             0     0             1 to 255
 *     12 unless      count: the test, then what follows             0     0             1 to 255
 *
 * An id is 1 to 4294967294, and no two records have the same. Names are numbered from 0. The names of a let, define, lambda or
 * set! are records of form 1. from and to are a position in the script's text: carried to the facts, and never consulted.
 *
 * (define f (lambda (x) (f x))), where f is name 0 and x is name 1:
 *
 *     5,0,0,0,0,29   1,1,0,0,8,9   6,2,0,1,10,28   1,3,1,0,19,20   8,4,0,2,22,27   1,5,0,0,23,24   1,6,1,0,25,26
 *
 * Forms 10 to 12 have no facts. All others are those of the script that has these in their place:
 *
 *     (and)              #t
 *     (and e)            e
 *     (and e1 e2 ..)     (if e1 (and e2 ..) #f)
 *     (when e es ..)     (if e (begin es ..) (begin))
 *     (unless e es ..)   (if e (begin) (begin es ..))
 *
 * So (define f (and (lambda () 1))) defines a lambda, and a define in a when is an inner one. Limits are those of the script as
 * it is given.
 */
enum scheme_analysis_form {
    SCHEME_ANALYSIS_FORM_IDENTIFIER = 1,
    SCHEME_ANALYSIS_FORM_CONSTANT = 2,
    SCHEME_ANALYSIS_FORM_IF = 3,
    SCHEME_ANALYSIS_FORM_LET = 4,
    SCHEME_ANALYSIS_FORM_DEFINE = 5,
    SCHEME_ANALYSIS_FORM_LAMBDA = 6,
    SCHEME_ANALYSIS_FORM_BEGIN = 7,
    SCHEME_ANALYSIS_FORM_CALL = 8,
    SCHEME_ANALYSIS_FORM_SET = 9,
    SCHEME_ANALYSIS_FORM_AND = 10,
    SCHEME_ANALYSIS_FORM_WHEN = 11,
    SCHEME_ANALYSIS_FORM_UNLESS = 12
};

/*
 * Classes: a byte for each name, at its number, of these added together. Higher bits are not looked at.
 */
enum scheme_analysis_class {
    SCHEME_ANALYSIS_CLASS_PRELUDE = 1,       /* the language has it: Global where no binder is found */
    SCHEME_ANALYSIS_CLASS_MODULE_GETTER = 2, /* (define x (GETTER MODULE ..)) makes x a builtin */
    SCHEME_ANALYSIS_CLASS_MODULE_NAME = 4,
    SCHEME_ANALYSIS_CLASS_HASH_GETTER = 8 /* (define x (GETTER ..)) makes x a required identifier */
};

/*
 * The answer: 0, or the number of a refusal. *at is then the first record that it applies to, and 0 where it names none, as
 * after 0. Each check from 1 to 7, then 16, then each from 8 to 10, covers the whole script before the next. _X stands for
 * SCHEME_ANALYSIS_X below.
 *
 * Refusal 9 meets legal Scheme: (lambda () (let ((a 1)) (let ((a 2)) a))). A lambda opens a scope, and so does a let outside
 * all scopes. Any other let, and an inner define, binds its names in the scope around it, the let until its body ends, the
 * define until the scope does: here the second a meets the first. At the top level a name may be defined again.
 *
 * Such a script is to be renamed before the call. It suffices that these have different name numbers, what stands in inner
 * lambdas aside: the parameters of a lambda and the names of all lets and inner defines in its body; and the names of a let
 * outside all lambdas and of all lets and inner defines in its body. To rename is to give the binder and each of its
 * references a number that nothing else in the script has, with class 0.
 */
enum scheme_analysis_answer {
    SCHEME_ANALYSIS_ACCEPTED = 0,

    /* The tables are unchanged: */
    SCHEME_ANALYSIS_REFUSED_LENGTH = 1, /* the records are not a multiple of six numbers, or a table is not of its length */

    /* Every number of every table is 0: */
    SCHEME_ANALYSIS_REFUSED_TOO_MANY = 2,           /* too many records or names: above _MOST_RECORDS or _MOST_NAMES */
    SCHEME_ANALYSIS_REFUSED_FIELD = 3,              /* a field of a record is not as above; a count of 0 is 7 or 16 */
    SCHEME_ANALYSIS_REFUSED_MISSING = 4,            /* children are missing at the end: *at is the number of records */
    SCHEME_ANALYSIS_REFUSED_DEEP = 5,               /* an expression is nested too deep: above _DEEPEST */
    SCHEME_ANALYSIS_REFUSED_NOT_A_NAME = 6,         /* another form stands where a name should */
    SCHEME_ANALYSIS_REFUSED_EMPTY_CALL = 7,         /* a call has count 0 */
    SCHEME_ANALYSIS_REFUSED_NO_TEST = 16,           /* a when or unless has count 0 */
    SCHEME_ANALYSIS_REFUSED_REPEATED_ID = 8,        /* an earlier record has the same id */
    SCHEME_ANALYSIS_REFUSED_LIVE_NAME = 9,          /* a name is bound where it is live in the same scope: *at is that name */
    SCHEME_ANALYSIS_REFUSED_TOO_MANY_CAPTURED = 10, /* too many captured entries: *at is the lambda that passes _MOST_CAPTURED */

    /* The same, of scheme_analysis_settled alone; the first that its second run meets: */
    SCHEME_ANALYSIS_REFUSED_HEAP_LET = 11,         /* a let name outside all lambdas is captured and mutated: *at is that name */
    SCHEME_ANALYSIS_REFUSED_NO_CAPTURE_OFFSET = 12 /* a captured name is read, and its capture has only a read offset */
};

/* An answer in words */
static inline const char *scheme_analysis_reason(uint32_t answer)
{
    switch (answer) {
    case SCHEME_ANALYSIS_ACCEPTED: return "accepted";
    case SCHEME_ANALYSIS_REFUSED_LENGTH: return "the records are not a multiple of six numbers, or a table is not of its length";
    case SCHEME_ANALYSIS_REFUSED_TOO_MANY: return "too many records or names";
    case SCHEME_ANALYSIS_REFUSED_FIELD: return "a field of a record is not as it should be";
    case SCHEME_ANALYSIS_REFUSED_MISSING: return "children are missing at the end";
    case SCHEME_ANALYSIS_REFUSED_DEEP: return "an expression is nested too deep";
    case SCHEME_ANALYSIS_REFUSED_NOT_A_NAME: return "another form stands where a name should";
    case SCHEME_ANALYSIS_REFUSED_EMPTY_CALL: return "a call has count 0";
    case SCHEME_ANALYSIS_REFUSED_NO_TEST: return "a when or unless has count 0";
    case SCHEME_ANALYSIS_REFUSED_REPEATED_ID: return "an earlier record has the same id";
    case SCHEME_ANALYSIS_REFUSED_LIVE_NAME: return "a name is bound where it is live in the same scope";
    case SCHEME_ANALYSIS_REFUSED_TOO_MANY_CAPTURED: return "too many captured entries";
    case SCHEME_ANALYSIS_REFUSED_HEAP_LET: return "a let name outside all lambdas is captured and mutated";
    case SCHEME_ANALYSIS_REFUSED_NO_CAPTURE_OFFSET: return "a captured name is read, and its capture has only a read offset";
    default: return "no answer of this library";
    }
}

/*
 * The fresh run tells what each name refers to, its depth and slot, and the kind of each call. The settled run goes over the
 * script again with these facts: captured names are numbered, those also mutated as cells of the heap, and a reference
 * through a capture has these offsets in place of a slot.
 *
 * Fresh slots are for a machine that runs by frames. A call starts a frame with its arguments. Arguments and initial values are
 * pushed on the frame as they are worked out; the call takes its arguments off, and the let its names when its body ends. A
 * top-level expression has one frame, for depth 1 and the depth 2 of its lets. A lambda takes along a copy of the frames from
 * depth 2 to its own. The value of a reference lies in the frame of its binder's depth, at the reference's stack_offset. Proved:
 * a machine that finds parameters and let names by refers_to, depth and stack_offset alone, and gives up a frame before its
 * return only at tail calls, stays in step with a plain Scheme machine. That is not said of a script with an inner define, nor
 * of one where a set! sets a parameter or let name that an inner lambda mentions.
 *
 * Settled offsets are for closures that hold captured values, and cells for those that are set. A reference through a capture
 * has no slot then, and a let name that became a cell has its place in the let for a slot: no machine can go by settled slots
 * alone. The offsets are the definition's; that a machine can run by them is not proved.
 *
 *     facts       row i is the fact of record i; zeros where it has none, and past the last record
 *     captured    the captured lists of the lambdas, in the order in which they end; zeros where no list lies
 *     arguments   the argument lists of the lambdas and lets, the same way
 *     work        0 after every call but one answered 1
 *
 * What they hold before does not matter. A length is a number of elements.
 */
uint32_t scheme_analysis_fresh(const uint32_t *records, size_t records_length,
                               const uint8_t *classes, size_t classes_length,
                               uint32_t *facts, size_t facts_length,
                               uint32_t *captured, size_t captured_length,
                               uint32_t *arguments, size_t arguments_length,
                               uint32_t *work, size_t work_length, size_t *at);

uint32_t scheme_analysis_settled(const uint32_t *records, size_t records_length,
                                 const uint8_t *classes, size_t classes_length,
                                 uint32_t *facts, size_t facts_length,
                                 uint32_t *captured, size_t captured_length,
                                 uint32_t *arguments, size_t arguments_length,
                                 uint32_t *work, size_t work_length, size_t *at);

/* The four tables at their lengths: about a million bytes, so make it static and not a local. */
typedef struct scheme_analysis_tables {
    uint32_t facts[SCHEME_ANALYSIS_FACTS_LENGTH];
    uint32_t captured[SCHEME_ANALYSIS_CAPTURED_LENGTH];
    uint32_t arguments[SCHEME_ANALYSIS_ARGUMENTS_LENGTH];
    uint32_t work[SCHEME_ANALYSIS_WORK_LENGTH];
} scheme_analysis_tables;

static inline uint32_t scheme_analysis_fresh_in(scheme_analysis_tables *tables,
                                                const uint32_t *records, size_t records_length,
                                                const uint8_t *classes, size_t classes_length, size_t *at)
{
    return scheme_analysis_fresh(records, records_length, classes, classes_length,
                                 tables->facts, SCHEME_ANALYSIS_FACTS_LENGTH,
                                 tables->captured, SCHEME_ANALYSIS_CAPTURED_LENGTH,
                                 tables->arguments, SCHEME_ANALYSIS_ARGUMENTS_LENGTH,
                                 tables->work, SCHEME_ANALYSIS_WORK_LENGTH, at);
}

static inline uint32_t scheme_analysis_settled_in(scheme_analysis_tables *tables,
                                                  const uint32_t *records, size_t records_length,
                                                  const uint8_t *classes, size_t classes_length, size_t *at)
{
    return scheme_analysis_settled(records, records_length, classes, classes_length,
                                   tables->facts, SCHEME_ANALYSIS_FACTS_LENGTH,
                                   tables->captured, SCHEME_ANALYSIS_CAPTURED_LENGTH,
                                   tables->arguments, SCHEME_ANALYSIS_ARGUMENTS_LENGTH,
                                   tables->work, SCHEME_ANALYSIS_WORK_LENGTH, at);
}

/*
 * Facts
 *
 * A row's first number tells what it is: 0 no fact, 1 to 7 an identifier and its kind, 8 a lambda, 9 a let, 10 a call. The
 * other forms have no fact, and neither has a call whose head is a constant. Fields are named as in the original.
 * "id" is a record's; "or none" is said where a field can be SCHEME_ANALYSIS_NONE; "whether" is 1 or 0.
 */
enum scheme_analysis_kind {
    SCHEME_ANALYSIS_KIND_GLOBAL = 1,
    SCHEME_ANALYSIS_KIND_LOCAL = 2,
    SCHEME_ANALYSIS_KIND_LOCALLY_DEFINED_FUNCTION = 3,
    SCHEME_ANALYSIS_KIND_LET_VAR = 4,
    SCHEME_ANALYSIS_KIND_CAPTURED = 5,
    SCHEME_ANALYSIS_KIND_FREE = 6,
    SCHEME_ANALYSIS_KIND_HEAP_ALLOCATED = 7
};

enum scheme_analysis_row {
    SCHEME_ANALYSIS_ROW_BLANK = 0,
    SCHEME_ANALYSIS_ROW_FUNCTION = 8,
    SCHEME_ANALYSIS_ROW_LET = 9,
    SCHEME_ANALYSIS_ROW_CALL_SITE = 10
};

/* The from and to of a record */
typedef struct scheme_analysis_span {
    uint32_t start;
    uint32_t end;
} scheme_analysis_span;

/* The entries of a list are the rows first, first + 1, .. of its table, as many as length says. */
typedef struct scheme_analysis_list {
    uint32_t first;
    uint32_t length;
} scheme_analysis_list;

/*
 * An identifier: a binder, where a define, lambda or let names it, else a reference. The target of a set! is a reference.
 *
 * usage_count after a fresh run: a binder has its references, and a parameter or let name each set! once more; a reference has
 * 1, or 0 without a binder. After a settled run it no longer says how often a name is used: of a parameter the references from
 * inner lambdas are left out, so that the x of (lambda (x) (lambda () x)) has 0; a let name that inner lambdas mention has what
 * its last reference left, which is no count; other binders are as fresh, and every reference has 1. All this where no define
 * is inner. The entries of argument lists keep the fresh counts.
 */
typedef struct scheme_analysis_variable {
    uint32_t kind;                    /* enum scheme_analysis_kind */
    uint32_t set_bang;                /* binder: whether a set! sets it */
    uint32_t depth;                   /* 1, and 1 for each scope around; 1 of a reference to a define */
    uint32_t shadows;                 /* binder: id of the binder that it hides, or none */
    uint32_t usage_count;             /* see above */
    scheme_analysis_span span;
    uint32_t refers_to;               /* reference: id of its binder, or none */
    uint32_t aliases_to;              /* binder of a top-level define: id of the identifier that is its body, or none */
    uint32_t builtin;                 /* whether it is of class prelude, or a module getter defines it */
    uint32_t last_usage;              /* reference: whether it is the last, or the last before a tail call */
    uint32_t stack_offset;            /* reference: the slot in its binder's frame, or none, as settled through a capture */
    uint32_t escapes;                 /* 0 */
    uint32_t capture_index;           /* settled reference through a capture: its capture_offset, or none; see the entry */
    uint32_t read_capture_offset;     /* the same: its read_capture_offset, or none */
    uint32_t captured_from_enclosing; /* the same: whether the next lambda around captures it too */
    uint32_t heap_offset;             /* settled reference to a cell: its heap_offset, or none */
    uint32_t read_heap_offset;        /* the same: its read_heap_offset, or none */
    uint32_t is_shadowed;             /* builtin's binder: whether a later define hides it */
    uint32_t is_required_identifier;  /* binder: whether a hash getter defines it */
} scheme_analysis_variable;

/* A lambda */
typedef struct scheme_analysis_function {
    uint32_t row;                       /* SCHEME_ANALYSIS_ROW_FUNCTION */
    scheme_analysis_list captured_vars; /* in captured: the captured names around it, sorted by id (docs/RULES.md, 9 and 10) */
    scheme_analysis_list arguments;     /* in arguments: its parameters in order, then its inner defines as they enter */
    uint32_t escapes;                   /* whether it stands in an argument, or inside the head of a tail call */
    uint32_t aliases_to;                /* none */
    uint32_t depth;                     /* that around it */
    uint32_t unused[12];
} scheme_analysis_function;

/* A let */
typedef struct scheme_analysis_let {
    uint32_t row;                   /* SCHEME_ANALYSIS_ROW_LET */
    uint32_t stack_offset;          /* the height of the frame before it */
    uint32_t function_context;      /* id of the next lambda around, or none */
    scheme_analysis_list arguments; /* in arguments: its names in order */
    uint32_t unused[15];
} scheme_analysis_let;

/*
 * A call
 *
 * self is the number of lambdas around the call, from the nearest define directly in an inner begin on. The call of f in
 * (define f (lambda (x) (lambda (y) (f x)))) is a self tail call with self 2: the frame that it gives up is not one of f's. And
 * f may have been set by then. What is proved of tail calls is of a machine that takes a self tail call for a tail call.
 */
typedef struct scheme_analysis_call_site {
    uint32_t row;              /* SCHEME_ANALYSIS_ROW_CALL_SITE */
    uint32_t kind;             /* enum scheme_analysis_call_kind */
    uint32_t self;             /* of a self tail call, else none */
    scheme_analysis_span span; /* of its head where that is an identifier, else its own */
    uint32_t unused[15];
} scheme_analysis_call_site;

enum scheme_analysis_call_kind {
    SCHEME_ANALYSIS_CALL_NORMAL = 1,
    SCHEME_ANALYSIS_CALL_TAIL_CALL = 2,     /* may give up its frame */
    SCHEME_ANALYSIS_CALL_SELF_TAIL_CALL = 3 /* a tail call by the name of the define that it stands in */
};

/*
 * An entry of a captured or an argument list: a binder, and what the scope knew of it when the fresh run made the list.
 *
 * The settled run numbers each captured list: the entries that are not mutated from 0 (read_capture_offset), then the mutated
 * ones from 0 (read_heap_offset, local_heap_offset). capture_offset, heap_offset and parent_heap_offset say where the lambda
 * around has the value or its cell (docs/RULES.md, 10). Each of the six is a number or none; none after a fresh run, and always
 * in an argument list.
 */
typedef struct scheme_analysis_entry {
    uint32_t name; /* its number */
    uint32_t id;
    uint32_t marks; /* enum scheme_analysis_mark, added together */
    uint32_t usage_count;
    uint32_t last_used;    /* id of the last reference, or none */
    uint32_t stack_offset; /* slot, or none */
    uint32_t capture_offset;
    uint32_t heap_offset;
    uint32_t read_capture_offset;
    uint32_t read_heap_offset;
    uint32_t parent_heap_offset;
    uint32_t local_heap_offset;
    uint32_t depth; /* as of a variable; 1 of a define */
} scheme_analysis_entry;

enum scheme_analysis_mark {
    SCHEME_ANALYSIS_MARK_CAPTURED = 1,
    SCHEME_ANALYSIS_MARK_ESCAPES = 2,
    SCHEME_ANALYSIS_MARK_CAPTURED_FROM_ENCLOSING = 4,
    SCHEME_ANALYSIS_MARK_MUTATED = 8
};

/* The structs lie over rows of numbers: compiled only where their sizes are the rows'. */
typedef char scheme_analysis_sizes_fit[
    sizeof(scheme_analysis_variable) == SCHEME_ANALYSIS_ROW_WIDTH * sizeof(uint32_t) &&
    sizeof(scheme_analysis_function) == SCHEME_ANALYSIS_ROW_WIDTH * sizeof(uint32_t) &&
    sizeof(scheme_analysis_let) == SCHEME_ANALYSIS_ROW_WIDTH * sizeof(uint32_t) &&
    sizeof(scheme_analysis_call_site) == SCHEME_ANALYSIS_ROW_WIDTH * sizeof(uint32_t) &&
    sizeof(scheme_analysis_entry) == SCHEME_ANALYSIS_ENTRY_WIDTH * sizeof(uint32_t) ? 1 : -1];

/*
 * The fact of a record below SCHEME_ANALYSIS_MOST_RECORDS, in its place in the table; NULL where it is no such fact.
 */
static inline const uint32_t *scheme_analysis_row_of(const uint32_t *facts, size_t record)
{
    return facts + SCHEME_ANALYSIS_ROW_WIDTH * record;
}

static inline const scheme_analysis_variable *scheme_analysis_variable_of(const uint32_t *facts, size_t record)
{
    const uint32_t *row = scheme_analysis_row_of(facts, record);

    return row[0] != SCHEME_ANALYSIS_ROW_BLANK && row[0] < SCHEME_ANALYSIS_ROW_FUNCTION
               ? (const scheme_analysis_variable *)row : NULL;
}

static inline const scheme_analysis_function *scheme_analysis_function_of(const uint32_t *facts, size_t record)
{
    const uint32_t *row = scheme_analysis_row_of(facts, record);

    return row[0] == SCHEME_ANALYSIS_ROW_FUNCTION ? (const scheme_analysis_function *)row : NULL;
}

static inline const scheme_analysis_let *scheme_analysis_let_of(const uint32_t *facts, size_t record)
{
    const uint32_t *row = scheme_analysis_row_of(facts, record);

    return row[0] == SCHEME_ANALYSIS_ROW_LET ? (const scheme_analysis_let *)row : NULL;
}

static inline const scheme_analysis_call_site *scheme_analysis_call_site_of(const uint32_t *facts, size_t record)
{
    const uint32_t *row = scheme_analysis_row_of(facts, record);

    return row[0] == SCHEME_ANALYSIS_ROW_CALL_SITE ? (const scheme_analysis_call_site *)row : NULL;
}

/*
 * The number of the record with an id, such as refers_to, shadows or function_context, in the records that the facts are of.
 * SCHEME_ANALYSIS_NONE where there is none, as for the ids 0 and SCHEME_ANALYSIS_NONE. It looks at one record after another.
 */
static inline uint32_t scheme_analysis_record_of(const uint32_t *records, size_t records_length, uint32_t id)
{
    size_t i, count = records_length / SCHEME_ANALYSIS_RECORD_WIDTH;

    if (id == 0 || id == SCHEME_ANALYSIS_NONE)
        return SCHEME_ANALYSIS_NONE;
    for (i = 0; i < count; i++)
        if (records[SCHEME_ANALYSIS_RECORD_WIDTH * i + 1] == id)
            return (uint32_t)i;
    return SCHEME_ANALYSIS_NONE;
}

/* The first entry of a list, in its place in the table that the list is of. */
static inline const scheme_analysis_entry *scheme_analysis_entries_of(const uint32_t *table, scheme_analysis_list list)
{
    return (const scheme_analysis_entry *)(table + SCHEME_ANALYSIS_ENTRY_WIDTH * (size_t)list.first);
}

#ifdef __cplusplus
}
#endif

#endif

/*
 * Analyses (define f (lambda (x) (f x))), says the facts of each record in words and compares them with those of document 01.
 * Then two scripts that are refused, with the reason. Exit status 1 where anything differs. Built and run by bindings/run.
 */
#include <stdio.h>
#include <string.h>

#include "scheme_analysis.h"

#define NONE SCHEME_ANALYSIS_NONE
#define NUMBERS(records) (sizeof(records) / sizeof(uint32_t))

static scheme_analysis_tables tables;

/* form, id, name, count, from, to */
static const uint32_t sample[][SCHEME_ANALYSIS_RECORD_WIDTH] = {
    {SCHEME_ANALYSIS_FORM_DEFINE, 0, 0, 0, 0, 29},
    {SCHEME_ANALYSIS_FORM_IDENTIFIER, 1, 0, 0, 8, 9},
    {SCHEME_ANALYSIS_FORM_LAMBDA, 2, 0, 1, 10, 28},
    {SCHEME_ANALYSIS_FORM_IDENTIFIER, 3, 1, 0, 19, 20},
    {SCHEME_ANALYSIS_FORM_CALL, 4, 0, 2, 22, 27},
    {SCHEME_ANALYSIS_FORM_IDENTIFIER, 5, 0, 0, 23, 24},
    {SCHEME_ANALYSIS_FORM_IDENTIFIER, 6, 1, 0, 25, 26},
};
enum { SAMPLE_RECORDS = sizeof sample / sizeof sample[0] };
static const char *const sample_names[] = {"f", "x"};
static const uint8_t sample_classes[] = {0, 0};

/* Document 01, "The printed facts" */
static const struct {
    size_t at;
    uint32_t kind, depth, uses, refers, slot, last;
} expected_variables[] = {
    {1, SCHEME_ANALYSIS_KIND_GLOBAL, 1, 1, NONE, NONE, 0},
    {3, SCHEME_ANALYSIS_KIND_LOCAL, 2, 1, NONE, NONE, 0},
    {5, SCHEME_ANALYSIS_KIND_GLOBAL, 1, 1, 1, NONE, 0},
    {6, SCHEME_ANALYSIS_KIND_LOCAL, 2, 1, 3, 0, 1},
};
static const struct {
    size_t at;
    uint32_t captured, escapes, depth;
} expected_function = {2, 0, 0, 1};
static const struct {
    size_t at;
    uint32_t kind, self;
} expected_call = {4, SCHEME_ANALYSIS_CALL_SELF_TAIL_CALL, 1};

/* (lambda (x) (let ((x 1)) x)): the let binds x where the lambda's x is live */
static const uint32_t twice[][SCHEME_ANALYSIS_RECORD_WIDTH] = {
    {SCHEME_ANALYSIS_FORM_LAMBDA, 1, 0, 1, 0, 28},
    {SCHEME_ANALYSIS_FORM_IDENTIFIER, 2, 0, 0, 9, 10},
    {SCHEME_ANALYSIS_FORM_LET, 3, 0, 1, 12, 27},
    {SCHEME_ANALYSIS_FORM_IDENTIFIER, 4, 0, 0, 19, 20},
    {SCHEME_ANALYSIS_FORM_CONSTANT, 5, 0, 0, 21, 22},
    {SCHEME_ANALYSIS_FORM_IDENTIFIER, 6, 0, 0, 25, 26},
};
static const uint8_t twice_classes[] = {0};

/* (and x (when)): the when has no test */
static const uint32_t untested[][SCHEME_ANALYSIS_RECORD_WIDTH] = {
    {SCHEME_ANALYSIS_FORM_AND, 0, 0, 2, 0, 14},
    {SCHEME_ANALYSIS_FORM_IDENTIFIER, 1, 0, 0, 5, 6},
    {SCHEME_ANALYSIS_FORM_WHEN, 0, 0, 0, 7, 13},
};

static const char *kind_in_words(uint32_t kind)
{
    switch (kind) {
    case SCHEME_ANALYSIS_KIND_GLOBAL: return "global";
    case SCHEME_ANALYSIS_KIND_LOCAL: return "local";
    case SCHEME_ANALYSIS_KIND_LOCALLY_DEFINED_FUNCTION: return "locally defined function";
    case SCHEME_ANALYSIS_KIND_LET_VAR: return "let variable";
    case SCHEME_ANALYSIS_KIND_CAPTURED: return "captured";
    case SCHEME_ANALYSIS_KIND_FREE: return "free";
    default: return "on the heap";
    }
}

static const char *call_in_words(uint32_t kind)
{
    switch (kind) {
    case SCHEME_ANALYSIS_CALL_NORMAL: return "normal call";
    case SCHEME_ANALYSIS_CALL_TAIL_CALL: return "tail call";
    default: return "self tail call";
    }
}

static void say_variable(const scheme_analysis_variable *v, const char *name)
{
    printf("%s, %s, depth %u, uses %u", name, kind_in_words(v->kind), (unsigned)v->depth, (unsigned)v->usage_count);
    if (v->refers_to != NONE)
        printf(", refers to record %u", (unsigned)scheme_analysis_record_of(sample[0], NUMBERS(sample), v->refers_to));
    if (v->stack_offset != NONE)
        printf(", slot %u", (unsigned)v->stack_offset);
    if (v->last_usage)
        printf(", last use");
    printf("\n");
}

static void say_list(const char *what, const uint32_t *table, scheme_analysis_list list)
{
    const scheme_analysis_entry *entries = scheme_analysis_entries_of(table, list);
    uint32_t i;

    printf(", %s (", what);
    for (i = 0; i < list.length; i++)
        printf("%s%s", i == 0 ? "" : " ", sample_names[entries[i].name]);
    printf(")");
}

static void say_function(const scheme_analysis_function *f)
{
    printf("lambda, depth %u", (unsigned)f->depth);
    say_list("captures", tables.captured, f->captured_vars);
    say_list("arguments", tables.arguments, f->arguments);
    printf(", %s\n", f->escapes ? "escapes" : "does not escape");
}

static void say_let(const scheme_analysis_let *l)
{
    printf("let, height %u", (unsigned)l->stack_offset);
    say_list("names", tables.arguments, l->arguments);
    printf("\n");
}

static void say_call(const scheme_analysis_call_site *c)
{
    printf("%s", call_in_words(c->kind));
    if (c->self != NONE)
        printf(" %u", (unsigned)c->self);
    printf("\n");
}

static void say(size_t record)
{
    const scheme_analysis_variable *v = scheme_analysis_variable_of(tables.facts, record);
    const scheme_analysis_function *f = scheme_analysis_function_of(tables.facts, record);
    const scheme_analysis_let *l = scheme_analysis_let_of(tables.facts, record);
    const scheme_analysis_call_site *c = scheme_analysis_call_site_of(tables.facts, record);

    printf("record %u: ", (unsigned)record);
    if (v)
        say_variable(v, sample_names[sample[record][2]]);
    else if (f)
        say_function(f);
    else if (l)
        say_let(l);
    else if (c)
        say_call(c);
    else
        printf("no fact\n");
}

static void say_refusal(uint32_t answer, size_t at)
{
    printf("refused %u at record %u: %s\n", (unsigned)answer, (unsigned)at, scheme_analysis_reason(answer));
}

static int variables_are_right(void)
{
    size_t i;

    for (i = 0; i < sizeof expected_variables / sizeof expected_variables[0]; i++) {
        const scheme_analysis_variable *v = scheme_analysis_variable_of(tables.facts, expected_variables[i].at);

        if (!v || v->kind != expected_variables[i].kind || v->depth != expected_variables[i].depth ||
            v->usage_count != expected_variables[i].uses || v->refers_to != expected_variables[i].refers ||
            v->stack_offset != expected_variables[i].slot || v->last_usage != expected_variables[i].last)
            return 0;
    }
    return 1;
}

static int function_is_right(void)
{
    const scheme_analysis_function *f = scheme_analysis_function_of(tables.facts, expected_function.at);

    return f && f->captured_vars.length == expected_function.captured && f->escapes == expected_function.escapes &&
           f->depth == expected_function.depth;
}

static int call_is_right(void)
{
    const scheme_analysis_call_site *c = scheme_analysis_call_site_of(tables.facts, expected_call.at);

    return c && c->kind == expected_call.kind && c->self == expected_call.self;
}

static int define_is_blank(void)
{
    return scheme_analysis_row_of(tables.facts, 0)[0] == SCHEME_ANALYSIS_ROW_BLANK;
}

/* Whether the sample's facts are document 01's */
static int sample_is_right(void)
{
    size_t at, record;
    uint32_t answer = scheme_analysis_fresh_in(&tables, sample[0], NUMBERS(sample), sample_classes, sizeof sample_classes, &at);

    printf("(define f (lambda (x) (f x)))\n");
    if (answer != SCHEME_ANALYSIS_ACCEPTED) {
        say_refusal(answer, at);
        return 0;
    }
    for (record = 0; record < SAMPLE_RECORDS; record++)
        say(record);
    return define_is_blank() && variables_are_right() && function_is_right() && call_is_right();
}

/* Whether the one is refused as document 01 says, 9 at record 3, and the other as document 02 says, 16 at record 2 */
static int refusals_are_right(void)
{
    size_t at, untested_at;
    uint32_t answer = scheme_analysis_fresh_in(&tables, twice[0], NUMBERS(twice), twice_classes, sizeof twice_classes, &at);
    uint32_t untested_answer =
        scheme_analysis_fresh_in(&tables, untested[0], NUMBERS(untested), twice_classes, sizeof twice_classes, &untested_at);

    printf("(lambda (x) (let ((x 1)) x))\n");
    say_refusal(answer, at);
    printf("(and x (when))\n");
    say_refusal(untested_answer, untested_at);
    return answer == SCHEME_ANALYSIS_REFUSED_LIVE_NAME && at == 3 && untested_answer == SCHEME_ANALYSIS_REFUSED_NO_TEST &&
           untested_at == 2;
}

/* Whether ids lead to their records, and ids that no record has to none: those of twice are 1 to 6, at the records 0 to 5 */
static int records_are_found(void)
{
    static const uint32_t absent[] = {0, 7, NONE};
    uint32_t id;
    size_t i;

    for (id = 1; id <= 6; id++)
        if (scheme_analysis_record_of(twice[0], NUMBERS(twice), id) != id - 1)
            return 0;
    for (i = 0; i < sizeof absent / sizeof absent[0]; i++)
        if (scheme_analysis_record_of(twice[0], NUMBERS(twice), absent[i]) != NONE)
            return 0;
    /* a define has no id, and no records at all have none */
    return scheme_analysis_record_of(sample[0], NUMBERS(sample), 0) == NONE && scheme_analysis_record_of(NULL, 0, 1) == NONE;
}

/* Whether the answers 0 to 12 and 16 have each a reason of their own, and all other numbers one more */
static int reasons_differ(void)
{
    const char *other = scheme_analysis_reason(NONE);
    uint32_t a, b;

    for (a = 0; a <= SCHEME_ANALYSIS_REFUSED_NO_TEST + 1; a++) {
        int is_answer = a <= SCHEME_ANALYSIS_REFUSED_NO_CAPTURE_OFFSET || a == SCHEME_ANALYSIS_REFUSED_NO_TEST;

        if ((strcmp(scheme_analysis_reason(a), other) != 0) != is_answer)
            return 0;
        for (b = 0; is_answer && b < a; b++)
            if (strcmp(scheme_analysis_reason(a), scheme_analysis_reason(b)) == 0)
                return 0;
    }
    return 1;
}

static int stated(int right, const char *what)
{
    if (!right)
        fprintf(stderr, "example.c: wrong: %s\n", what);
    return right;
}

int main(void)
{
    int facts = stated(sample_is_right(), "the facts are not document 01's");
    int refusal = stated(refusals_are_right(), "a refusal is not the documents'");
    int records = stated(records_are_found(), "an id leads to another record");
    int reasons = stated(reasons_differ(), "two answers have the same reason");

    return facts && refusal && records && reasons ? 0 : 1;
}

/* Recipe runs under watch, for C and C++: the functions of the proved static library. `embed/build` makes the library and puts it
 * beside a copy of this header, in `target/library`; a program is linked with
 *
 *     cc program.c -Itarget/library -Ltarget/library -lbuzorinde
 *
 * A slice is a pointer to 32-bit words, or to bytes where it is a text, and how many there are. Every pointer is valid for these,
 * aligned and not null, even where there are none, and a slice that is written to overlaps no other one of the same call.
 *
 * A call returns a status. Its answer is laid over the first words of the buffer `answer`; the words after it keep their
 * contents. A buffer that is too short is refused by a status, and then nothing at all has changed; where both buffers of a run
 * are too short, the status is the answer's.
 *
 * Of every function:
 * - It is reentrant and has no state: calls that lend different buffers may run at the same time, and a text, or a table that none of
 *   them writes, may be lent to many calls at once.
 * - It reads and writes nothing but what it is lent and at most BUZORINDE_JUDGE_STACK, BUZORINDE_CHECK_STACK, BUZORINDE_RUN_STACK or
 *   BUZORINDE_READ_STACK bytes of the caller's stack. It allocates nothing, has no globals, makes no system call, and calls nothing
 *   outside the library but memcpy and memset.
 * - It is for x86-64 with the System V calling convention, and a word is an unsigned number in the machine's byte order.
 * - It always returns, and cannot be cancelled before it does. A run takes at most as many steps as its budget: on a small virtual
 *   machine about 100,000,000 a second where expressions are small, and about 1,000,000 a second where expressions have hundreds of
 *   rows. The largest budget is then about a minute or about an hour; the caller chooses the budget. */
#ifndef BUZORINDE_H
#define BUZORINDE_H

#include <stddef.h>
#include <stdint.h>

/* The version of this header: a number changes whenever something here changes its meaning. */
#define BUZORINDE_VERSION_MAJOR 0
#define BUZORINDE_VERSION_MINOR 4
#define BUZORINDE_VERSION_PATCH 0

/* The version as one number that grows, to be compared. */
#define BUZORINDE_VERSION (BUZORINDE_VERSION_MAJOR * 10000 + BUZORINDE_VERSION_MINOR * 100 + BUZORINDE_VERSION_PATCH)

#ifdef __cplusplus
extern "C" {
#endif

/* What a call returns. */
enum {
    BUZORINDE_ANSWERED = 0,
    BUZORINDE_ANSWER_TOO_SHORT = 1, /* `answer` has fewer words than the answer takes */
    BUZORINDE_MEMORY_TOO_SHORT = 2  /* `memory` has fewer than BUZORINDE_VARIABLES words */
};

/* How many words memory and answers take. */
enum {
    BUZORINDE_VARIABLES = 32,
    BUZORINDE_JUDGE_WORDS = 3,
    BUZORINDE_CHECK_WORDS = 4,
    BUZORINDE_RUN_WORDS = 7, /* 6 before version 0.4.0: a caller that lends 6 is told BUZORINDE_ANSWER_TOO_SHORT */
    BUZORINDE_READ_WORDS = 7
};

/* The most bytes of the caller's stack that each function takes, on any table or text: measured, not proved. Where memcpy and memset
 * are bound by the call that needs them first (a dynamic program that is not linked with -z now), that call takes about 4 KiB more. */
enum {
    BUZORINDE_JUDGE_STACK = 2048,
    BUZORINDE_CHECK_STACK = 4096,
    BUZORINDE_RUN_STACK = 16384,
    BUZORINDE_READ_STACK = 655360
};

/* The limits. What is beyond them is refused; any memory, mark set and budget is allowed. */
enum {
    BUZORINDE_ROW_WORDS = 4,           /* a row of a table: kind, p, q, r */
    BUZORINDE_MOST_ROWS = 512,         /* a table has 1 row at least and this many at most */
    BUZORINDE_MOST_HEIGHT = 16,        /* of an expression */
    BUZORINDE_MOST_NESTING = 8,        /* of ifs and whiles */
    BUZORINDE_MOST_LOOP_NESTING = 3,   /* of whiles */
    BUZORINDE_RECORD_WORDS = 2,        /* a record of a trace: channel, value */
    BUZORINDE_MOST_TRACE_WORDS = 16384, /* that may be lent; of an odd number of words, the last one is never written */
    BUZORINDE_MOST_TEXT_BYTES = 16384   /* of a recipe's text */
};

/* The places of an answer's words. The first three are those of every answer. */
enum {
    BUZORINDE_REFUSAL = 0, /* the number of the refusal, or 0 */
    BUZORINDE_VERDICT = 1, /* of a run from BUZORINDE_DONE on, of a check BUZORINDE_PASS or BUZORINDE_FAIL; else 0 */
    BUZORINDE_ROW = 2,     /* the refusal's row; of a run that was not refused its place, of a check that fails its row; else 0 */
    BUZORINDE_CHECK_MARKS = 3, /* of a check: the final mark set */
    BUZORINDE_STEPS = 3,   /* of a run: the steps taken */
    BUZORINDE_RECORDS = 4, /* of a run: how many records the trace begins with, two words each: channel, value */
    BUZORINDE_MARKS = 5,   /* of a run: the mark set reached; bit i set means that variable i is provisional */
    BUZORINDE_BECAUSE = 6, /* of a run with BUZORINDE_STOPPED: the set of the provisional variables that the output's expression
                              reads, bit i for variable i, or 0 where it reads none and its context alone is provisional; else 0 */
    BUZORINDE_READ_ROWS = 3,  /* of a reading: how many rows the table begins with, or 0 where it is refused */
    BUZORINDE_READ_START = 4, /* of a reading: where the part of the text starts that is handed back */
    BUZORINDE_READ_SIZE = 5,  /* of a reading: how many bytes that part has */
    BUZORINDE_READ_MARKS = 6  /* of a reading: the start marks, or 0 where it is refused */
};

/* The verdicts of a run, and the place that BUZORINDE_ROW has with them. */
enum {
    BUZORINDE_DONE = 0,    /* the run has finished; 0 */
    BUZORINDE_STOPPED = 1, /* the next step is an output on the settled channel of something provisional; the output's row */
    BUZORINDE_SPENT = 2,   /* the run has not finished, and its budget is used up; 0 */
    BUZORINDE_NO_ROOM = 3  /* the next step is an output, and the trace has no room for its record; the output's row */
};

/* The verdicts of a level check. */
enum {
    BUZORINDE_PASS = 0, /* no run from these marks is stopped */
    BUZORINDE_FAIL = 1  /* some output on the settled channel may be provisional; BUZORINDE_ROW is the lowest such row */
};

/* The refusals. Of 1 to 6 the lowest that applies anywhere is given, with its lowest row. A text is refused by the first of 9, 10, 11,
 * 12, 5 and 13 that applies, each over the whole text. */
enum {
    BUZORINDE_REFUSED_COUNT = 1, /* the table's words are not a multiple of 4, or it has 0 rows or over 512; row 0 */
    BUZORINDE_REFUSED_WORD = 2,  /* unknown kind; variable over 31, channel over 1, operator over 5; unnamed word not 0; the row */
    BUZORINDE_REFUSED_CHILD = 3, /* a child's number not below its parent's, or a child of the wrong sort; the parent's row */
    BUZORINDE_REFUSED_TREE = 4,  /* a row before the last is a child of no row or in more than one place, or the last row is an
                                    expression; the row */
    BUZORINDE_REFUSED_DEPTH = 5, /* expression height over 16, nesting over 8 or loop nesting over 3; the row */
    BUZORINDE_REFUSED_TRACE = 6, /* of a run alone: the trace that is lent has over 16,384 words; row 0 */
    BUZORINDE_REFUSED_TEXT = 9,  /* of a reading, as are those that follow: the text has over 16,384 bytes; row 0 for each of these */
    BUZORINDE_REFUSED_FAULTY = 10, /* no recipe that begins with the words before it goes on with this word, or the text ends before
                                      its recipe does */
    BUZORINDE_REFUSED_AGAIN = 11,  /* this variable is declared a second time */
    BUZORINDE_REFUSED_ROWS = 12,   /* the recipe has over 512 rows */
    BUZORINDE_REFUSED_TABLE = 13   /* the table that is lent has fewer words than the rows take */
};

/* The channels of outputs and records. */
enum {
    BUZORINDE_SETTLED = 0,
    BUZORINDE_PROVISIONAL = 1
};

/* The kinds of rows with their words p, q and r; words that are not named are 0. The rows are a tree, children first; the last
 * row is the whole recipe. */
enum {
    BUZORINDE_SKIP = 0,
    BUZORINDE_ASSIGN = 1,   /* variable, expression */
    BUZORINDE_SEQUENCE = 2, /* first statement, second statement */
    BUZORINDE_IF = 3,       /* expression, then, else */
    BUZORINDE_WHILE = 4,    /* expression, body */
    BUZORINDE_OUTPUT = 5,   /* channel, expression */
    BUZORINDE_CONSTANT = 8, /* value */
    BUZORINDE_VARIABLE = 9, /* variable */
    BUZORINDE_BINARY = 10   /* operator, left expression, right expression */
};

/* The operators of a binary row. */
enum {
    BUZORINDE_SUM = 0,        /* modulo 2^32, as are difference and product */
    BUZORINDE_DIFFERENCE = 1,
    BUZORINDE_PRODUCT = 2,
    BUZORINDE_QUOTIENT = 3,   /* whole, and 4294967295 where the divisor is 0; there it was 0 before version 0.3.0 */
    BUZORINDE_EQUAL = 4,      /* 1 or 0 */
    BUZORINDE_LESS = 5        /* 1 or 0 */
};

/* Judges a table: accepted, or the lowest refusal from 1 to 5 that applies anywhere, with its lowest row. */
uint32_t buzorinde_judge(const uint32_t *table, size_t table_words, uint32_t *answer, size_t answer_words);

/* Checks the levels of a table from a mark set, without running it: pass, or fail with the lowest row of an output that may
 * be denied, and the final marks in either case. A refused check (1 to 5) answers the marks that it was given. */
uint32_t buzorinde_check(const uint32_t *table, size_t table_words, uint32_t marks, uint32_t *answer, size_t answer_words);

/* Runs the recipe of a table under the monitor, within a budget of steps and the room that the trace has. The first 32
 * words of `memory` are the variables, before the call and after it. The records are the first words of `trace`, and the
 * words after the last record keep their contents. A refused run (1 to 6) has changed neither memory nor trace, and answers
 * 0 steps, 0 records and the marks that it was given.
 *
 * The records of channel 0, in order, are what the stations may read. For one table and one mark set, take two memories that are
 * equal in every variable that is not marked: with any budgets and traces, one run's records of channel 0 begin the other's, and
 * they are equal where both runs are done. So every such record may be relied on, and nothing follows from one that is missing:
 * whether it appears may depend on marked variables. So may how long the call takes, whether the run comes to its end, verdict,
 * row, steps, the number of records, memory, what a run was stopped because of, and the marks of a run that is not done. */
uint32_t buzorinde_run(const uint32_t *table, size_t table_words, uint32_t *memory, size_t memory_words, uint32_t marks,
                       uint32_t budget, uint32_t *trace, size_t trace_words, uint32_t *answer, size_t answer_words);

/* Reads a recipe's text, in the language that docs/RECIPES.md explains, into a table and start marks. An accepted text's rows are the
 * first words of `table`, BUZORINDE_ROW_WORDS for each, and the words after them keep their contents; a table of BUZORINDE_MOST_ROWS
 * rows has room for every recipe. What the table then holds is accepted by the judge. A refused reading has not changed the table.
 *
 * The part that is handed back is for an editor to underline: for refusals 10 and 11 the faulty word; for the other refusals, for
 * a fault at the end and for an accepted text the empty part at the text's end. A text of 2^32 bytes or more, which is refused as too
 * long, has its start modulo 2^32. */
uint32_t buzorinde_read(const uint8_t *text, size_t text_bytes, uint32_t *table, size_t table_words, uint32_t *answer,
                        size_t answer_words);

/* What a status means. */
static inline const char *buzorinde_status_text(uint32_t status) {
    switch (status) {
    case BUZORINDE_ANSWERED: return "the call has answered";
    case BUZORINDE_ANSWER_TOO_SHORT: return "the answer's buffer has fewer words than the answer takes";
    case BUZORINDE_MEMORY_TOO_SHORT: return "the memory has fewer than 32 words";
    default: return "no status has this number";
    }
}

/* What the verdict of a run means. */
static inline const char *buzorinde_verdict_text(uint32_t verdict) {
    switch (verdict) {
    case BUZORINDE_DONE: return "the run has finished";
    case BUZORINDE_STOPPED: return "the monitor stopped the run before it told the settled channel something provisional";
    case BUZORINDE_SPENT: return "the budget was used up before the run had finished";
    case BUZORINDE_NO_ROOM: return "the trace has no room for the next record";
    default: return "no verdict of a run has this number";
    }
}

/* What the verdict of a level check means. */
static inline const char *buzorinde_check_text(uint32_t verdict) {
    switch (verdict) {
    case BUZORINDE_PASS: return "no output on the settled channel can be provisional";
    case BUZORINDE_FAIL: return "an output on the settled channel may be provisional";
    default: return "no verdict of a level check has this number";
    }
}

/* What a refusal means. 0 is not the number of one. */
static inline const char *buzorinde_refusal_text(uint32_t refusal) {
    switch (refusal) {
    case BUZORINDE_REFUSED_COUNT: return "the table's words are not a multiple of 4, or it has 0 rows or more than 512";
    case BUZORINDE_REFUSED_WORD: return "the row's kind is unknown, a word is out of range, or a word that must be 0 is not";
    case BUZORINDE_REFUSED_CHILD: return "a child's number is not below the row's, or the child is of the wrong sort";
    case BUZORINDE_REFUSED_TREE: return "the row is a child of no row or in more than one place, or it is the last and an expression";
    case BUZORINDE_REFUSED_DEPTH: return "the expression is higher than 16, or statements nest deeper than 8 or loops than 3";
    case BUZORINDE_REFUSED_TRACE: return "the trace that is lent has more than 16,384 words";
    case BUZORINDE_REFUSED_TEXT: return "the text has more than 16,384 bytes";
    case BUZORINDE_REFUSED_FAULTY: return "no recipe goes on with this word, or the text ends before its recipe does";
    case BUZORINDE_REFUSED_AGAIN: return "the variable is declared a second time";
    case BUZORINDE_REFUSED_ROWS: return "the recipe has more than 512 rows";
    case BUZORINDE_REFUSED_TABLE: return "the table that is lent has fewer words than the recipe's rows take";
    default: return "no refusal has this number";
    }
}

#ifdef __cplusplus
}
#endif

#endif

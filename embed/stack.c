/* Measures how much of the caller's stack each function takes on the tables whose walks go deepest and the texts that open most,
 * prints it, and fails where it is more than the header promises, or where the promise is more than one and a half times as much. Each
 * function is also called on a stack of the promised size, with a page below it that nobody may touch. Functions that take more and
 * less than they should are measured in the same way, and must be found out.
 *
 * With the argument `texts` it does nothing but read each of the texts on the stack that the program has. */
#define _DEFAULT_SOURCE
#include "buzorinde.h"
#include <stdio.h>
#include <string.h>
#include <sys/mman.h>
#include <sys/wait.h>
#include <ucontext.h>
#include <unistd.h>

enum {
    PAINT = 0xA5,
    GUARD = 4096,
    /* what stands on a lent stack before the call: the frames of `enter` and of what calls the function */
    OWN = 64,
    LENT = 2 * (BUZORINDE_JUDGE_STACK + BUZORINDE_CHECK_STACK + BUZORINDE_RUN_STACK + BUZORINDE_READ_STACK) + GUARD,
    TABLE_WORDS = BUZORINDE_MOST_ROWS * BUZORINDE_ROW_WORDS
};

_Static_assert(BUZORINDE_READ_STACK <= 1024 * 1024, "a text is read within 1 MiB of stack");

/* The table that is called with, and how many rows it has. */
static uint32_t table[TABLE_WORDS];
static uint32_t rows;

static uint32_t put_row(uint32_t kind, uint32_t p, uint32_t q, uint32_t r) {
    const uint32_t words[BUZORINDE_ROW_WORDS] = {kind, p, q, r};
    memcpy(table + rows * BUZORINDE_ROW_WORDS, words, sizeof words);
    return rows++;
}

/* Binary rows within binary rows, each the left side of the next or the right one. */
static uint32_t put_expression(uint32_t height, int left) {
    uint32_t whole = put_row(BUZORINDE_VARIABLE, 1, 0, 0);
    while (--height > 0) {
        uint32_t leaf = put_row(BUZORINDE_VARIABLE, 1, 0, 0);
        whole = put_row(BUZORINDE_BINARY, BUZORINDE_SUM, left ? whole : leaf, left ? leaf : whole);
    }
    return whole;
}

static uint32_t put_if(uint32_t variable, uint32_t inner, int then) {
    uint32_t test = put_row(BUZORINDE_VARIABLE, variable, 0, 0), other = put_row(BUZORINDE_SKIP, 0, 0, 0);
    return put_row(BUZORINDE_IF, test, then ? inner : other, then ? other : inner);
}

static uint32_t put_while(uint32_t variable, uint32_t inner) {
    uint32_t test = put_row(BUZORINDE_VARIABLE, variable, 0, 0);
    return put_row(BUZORINDE_WHILE, test, inner, 0);
}

/* A recipe, from within: v2 := an expression of this height, whose binary rows lean to the left or not; in so many ifs and loops on
 * v1; in sequences, of which each is the first part of the next or the second; and all this in an if or a loop on v0. The walks are
 * straight, so one kind of row is the dearest, and a recipe with as many of these as the limits allow is the deepest. */
struct shape {
    uint32_t height, ifs, loops;
    int left, then, first, looped;
};

static void put_recipe(struct shape shape) {
    const uint32_t outer = shape.looped ? 2 : 3;
    rows = 0;
    uint32_t whole = put_row(BUZORINDE_ASSIGN, 2, put_expression(shape.height, shape.left), 0);
    for (uint32_t i = 0; i < shape.ifs; i++)
        whole = put_if(1, whole, shape.then);
    for (uint32_t i = 0; i < shape.loops; i++)
        whole = put_while(1, whole);
    while (rows + 2 + outer <= BUZORINDE_MOST_ROWS) {
        uint32_t other = put_row(BUZORINDE_SKIP, 0, 0, 0);
        whole = put_row(BUZORINDE_SEQUENCE, shape.first ? whole : other, shape.first ? other : whole, 0);
    }
    if (shape.looped)
        put_while(0, whole);
    else
        put_if(0, whole, shape.then);
}

/* What v0 and the marks are where a table is called with. */
static uint32_t value, marks;

/* The tables, by number: a recipe of each shape, with v0 of each value, marked and not. */
enum { TABLES = 512 };

static void put_table(uint32_t number) {
    struct shape shape = {0};
    value = number & 1;
    marks = number >> 1 & 1;
    shape.looped = number >> 2 & 1;
    shape.first = number >> 3 & 1;
    shape.left = number >> 4 & 1;
    shape.then = number >> 5 & 1;
    shape.height = number & 64 ? BUZORINDE_MOST_HEIGHT : 1;
    shape.loops = number & 128 ? BUZORINDE_MOST_LOOP_NESTING - 1 : 0;
    shape.ifs = number & 256 ? BUZORINDE_MOST_NESTING - 1 - shape.loops : 0;
    put_recipe(shape);
}

/* The text that is read, and the refusal that the rules have for it. */
static uint8_t text[BUZORINDE_MOST_TEXT_BYTES];
static uint32_t refusal;

/* A text's words: first ones; then what is opened again and again, as often as there is room; what is begun within the last, and its
 * rest; and what closes each that is open. What an opening adds to the stack does not depend on what it stands in. So the deepest text
 * repeats a single one; those of two are here to see that it is so. */
struct words {
    const char *first, *open, *begun, *rest, *close;
};

static const struct words texts[] = {
    {"", "skip;", "", "skip", ""},
    {"", "skip;", "set v0=(0+", "0)", ""},
    {"", "set v0=0;", "", "skip", ""},
    {"", "settled 0;", "", "skip", ""},
    {"", "provisional 0;", "", "skip", ""},
    {"", "if 0 then ", "", "skip", " else skip end"},
    {"", "if 0 then skip else ", "", "skip", " end"},
    {"", "while 0 do ", "", "skip", " end"},
    {"", "if 0 then skip;", "settled(0+", "0)", " else skip end"},
    {"", "skip;while 0 do ", "provisional(0+", "0)", " end"},
    {"", "while 0 do if 0 then ", "if(0+", "0)then skip else skip end", " else skip end end"},
    {"settled", "(", "", "0", "+0)"},
    {"settled", "(0+", "", "0", ")"}};

/* The texts, by number: each whole, and each cut after what is begun. A text that is cut can go on and is no recipe, so it is refused by
 * 10 at its end; one that is whole has over 512 rows. */
enum { TEXTS = 2 * sizeof texts / sizeof *texts };

/* Puts words into the text, so many times. */
static uint8_t *put_words(uint8_t *at, const char *words, size_t times) {
    for (; times > 0; times--)
        at = (uint8_t *)memcpy(at, words, strlen(words)) + strlen(words);
    return at;
}

static void put_text(uint32_t number) {
    const struct words words = texts[number / 2];
    const int whole = number % 2;
    const size_t room = sizeof text - strlen(words.first) - strlen(words.begun) - (whole ? strlen(words.rest) : 0);
    const size_t times = room / (strlen(words.open) + (whole ? strlen(words.close) : 0));
    memset(text, ' ', sizeof text);
    uint8_t *at = put_words(text, words.first, 1);
    at = put_words(at, words.open, times);
    at = put_words(at, words.begun, 1);
    if (whole)
        put_words(put_words(at, words.rest, 1), words.close, times);
    refusal = whole ? BUZORINDE_REFUSED_ROWS : BUZORINDE_REFUSED_FAULTY;
}

/* The calls. They answer 0 where the call answered as it must: that a table is not refused, or what the rules say of a text. */
typedef uint32_t called(void);

static uint32_t memory[BUZORINDE_VARIABLES], trace[BUZORINDE_RECORD_WORDS], answer[BUZORINDE_READ_WORDS];

static uint32_t judge(void) {
    return buzorinde_judge(table, rows * BUZORINDE_ROW_WORDS, answer, BUZORINDE_JUDGE_WORDS) | answer[BUZORINDE_REFUSAL];
}

static uint32_t check(void) {
    return buzorinde_check(table, rows * BUZORINDE_ROW_WORDS, marks, answer, BUZORINDE_CHECK_WORDS) | answer[BUZORINDE_REFUSAL];
}

static uint32_t run(void) {
    memory[0] = value;
    return buzorinde_run(table, rows * BUZORINDE_ROW_WORDS, memory, BUZORINDE_VARIABLES, marks, 1000, trace, BUZORINDE_RECORD_WORDS,
                         answer, BUZORINDE_RUN_WORDS)
        | answer[BUZORINDE_REFUSAL];
}

static uint32_t read_text(void) {
    const uint32_t said[BUZORINDE_READ_WORDS] = {[BUZORINDE_REFUSAL] = refusal, [BUZORINDE_READ_START] = sizeof text};
    return buzorinde_read(text, sizeof text, table, TABLE_WORDS, answer, BUZORINDE_READ_WORDS) | (memcmp(answer, said, sizeof said) != 0);
}

/* A function, the inputs that take it deepest, how many there are, and what the header promises of it. */
struct promise {
    const char *name;
    called *function;
    void (*put_input)(uint32_t number);
    uint32_t inputs;
    size_t promised;
};

static const struct promise promises[] = {
    {"buzorinde_judge", judge, put_table, TABLES, BUZORINDE_JUDGE_STACK},
    {"buzorinde_check", check, put_table, TABLES, BUZORINDE_CHECK_STACK},
    {"buzorinde_run", run, put_table, TABLES, BUZORINDE_RUN_STACK},
    {"buzorinde_read", read_text, put_text, TEXTS, BUZORINDE_READ_STACK}};

/* A promise's function with half of the promise more in its way, which is too much for every promise that is kept. */
static struct promise deepened;

static uint32_t deeper(void) {
    volatile unsigned char more[deepened.promised / 2];
    more[0] = 1;
    return deepened.function() + more[0] - 1;
}

/* A function that does nothing, which takes far less than any promise. */
static uint32_t idle(void) {
    return 0;
}

/* The stack that a call is lent, above its guard, and what goes there and comes back. */
static unsigned char *lent;
static ucontext_t caller, callee;
static called *entered;
static uint32_t amiss;
static unsigned char *begin;

static void enter(void) {
    begin = __builtin_frame_address(0);
    amiss = entered();
}

/* Calls a function on the lowest bytes of the lent stack. */
static void call_on(size_t bytes, called *function) {
    entered = function;
    amiss = 1;
    getcontext(&callee);
    callee.uc_stack.ss_sp = lent;
    callee.uc_stack.ss_size = bytes;
    callee.uc_link = &caller;
    makecontext(&callee, enter, 0);
    swapcontext(&caller, &callee);
}

/* How many bytes of the stack a call takes, from the frame that it is made in. It has twice what is promised, and a page. */
static size_t taken(struct promise promise) {
    const size_t bytes = 2 * promise.promised + GUARD;
    size_t untouched = 0;
    memset(lent, PAINT, bytes);
    call_on(bytes, promise.function);
    while (lent[untouched] == PAINT)
        untouched++;
    return (size_t)(begin - (lent + untouched));
}

/* The most that a call takes on any of the inputs, and that input is left to be called with again; nothing where an answer is wrong. */
static size_t deepest(struct promise promise) {
    size_t most = 0;
    uint32_t found = 0;
    for (uint32_t number = 0; number < promise.inputs; number++) {
        promise.put_input(number);
        const size_t bytes = taken(promise);
        if (amiss)
            return 0;
        if (bytes > most) {
            most = bytes;
            found = number;
        }
    }
    promise.put_input(found);
    return most;
}

/* Whether the call comes back where it has the promised stack and no more. */
static int comes_back(struct promise promise) {
    int status = 0;
    pid_t child = fork();
    if (child == 0) {
        call_on(promise.promised + OWN, promise.function);
        _exit(amiss != 0);
    }
    return child > 0 && waitpid(child, &status, 0) == child && WIFEXITED(status) && WEXITSTATUS(status) == 0;
}

/* What is wrong with a promise, if anything is. */
static const char *wrong(struct promise promise, size_t *bytes) {
    *bytes = deepest(promise);
    if (*bytes == 0)
        return "an answer is wrong";
    if (*bytes > promise.promised)
        return "more is taken than is promised";
    if (!comes_back(promise))
        return "the promised stack is not enough";
    if (2 * promise.promised > 3 * *bytes)
        return "the promise is more than one and a half times what is taken";
    return NULL;
}

static int failed(const char *name, const char *what) {
    fprintf(stderr, "stack: %s: %s\n", name, what);
    return 1;
}

/* Whether a promise is not kept, or would be taken for kept by a function that takes more, or nothing. */
static int broken(struct promise promise) {
    size_t bytes, other;
    const char *what = wrong(promise, &bytes);
    printf("stack: %s takes %zu bytes of %zu\n", promise.name, bytes, promise.promised);
    if (what)
        return failed(promise.name, what);
    deepened = promise;
    promise.function = deeper;
    if (deepest(promise) <= promise.promised || comes_back(promise))
        return failed(promise.name, "a deeper function would not be found out");
    promise.function = idle;
    return wrong(promise, &other) ? 0 : failed(promise.name, "a promise of too much would not be found out");
}

static int measure(void) {
    int some = 0;
    lent = mmap(NULL, GUARD + LENT, PROT_READ | PROT_WRITE, MAP_PRIVATE | MAP_ANONYMOUS, -1, 0);
    if (lent == MAP_FAILED || mprotect(lent, GUARD, PROT_NONE))
        return failed("the stack", "there is no memory for it");
    lent += GUARD;
    for (size_t i = 0; i < sizeof promises / sizeof *promises; i++)
        some |= broken(promises[i]);
    return some;
}

static int read_texts(void) {
    int some = 0;
    for (uint32_t number = 0; number < TEXTS; number++) {
        put_text(number);
        if (read_text())
            some |= failed(texts[number / 2].open, "a text that repeats this is not refused as it must be");
    }
    return some;
}

int main(int argc, char **argv) {
    return argc > 1 && strcmp(argv[1], "texts") == 0 ? read_texts() : measure();
}

/* How much stack the library takes for the deepest formulas of 255 records, and for the deepest text. Each is valued,
 * written or read on the main thread, under whatever limit the program was started with, and then in a thread whose
 * 4 MiB of stack were filled with a pattern before: how far that was written over is the stack that it took, but for
 * what the deepest frame leaves unwritten. The tables must be those of the valuer by bits, and all that is written or
 * read must be what the writer and the reader in C make of it. */
#include <pthread.h>
#include <stdio.h>
#include <stdlib.h>
#include <string.h>
#include <sys/mman.h>
#include <sys/resource.h>
#include <unistd.h>

#include "shapes.h"
#include "texter.h"
#include "valuers.h"

enum { INSTANTS = PASTUREQUILL_MOST_INSTANTS, STACK = 4 << 20, PATTERN = 0xa5 };

/* What writing and reading text may take. */
enum { MOST_TEXT_STACK = 256 << 10 };

/* ---- the deepest formulas, by what lies inside what */
/* The parts that come last lie deepest: all first parts stand before them. */
static void second_parts(struct formula *f)
{
    size_t firsts = (left(f) - 3) / 2;
    for (size_t i = 0; i < firsts; i++)
        step(f);
    size_t p = back(f);
    for (size_t i = 0; i < firsts; i++)
        p = sequence(f, firsts - 1 - i, p);
    diamond(f, p, atom(f, 0));
}

static void starred_tests(struct formula *f)
{
    size_t g = atom(f, 0);
    while (left(f) >= 4) {
        size_t p = star(f, test(f, g));
        g = diamond(f, p, yes(f));
    }
}

/* One atom: what a thread and the call take by themselves. */
static void nothing_deep(struct formula *f)
{
    atom(f, 0);
}

static const struct shape {
    const char *name;
    void (*build)(struct formula *f);
} shapes[] = {
    {"one atom", nothing_deep},
    {"stars inside stars", stars_of_stars},
    {"sequences in first parts", moves_in_sequence},
    {"sequences in second parts", second_parts},
    {"choices inside choices", moves_in_choice},
    {"tests inside tests", negations},
    {"stars of tests inside each other", starred_tests},
    {"modalities inside modalities", modalities},
};

/* ---- one call */
struct call {
    struct formula formula;
    uint8_t cells[INSTANTS], table[MOST_RECORDS * INSTANTS];
    pasturequill_valued got;
};

static void *value(void *argument)
{
    struct call *c = argument;
    c->got = pasturequill_value(c->formula.records, size_of(&c->formula), 1, INSTANTS, c->cells, sizeof c->cells,
                                c->table, c->formula.n * INSTANTS);
    return NULL;
}

/* Stops unless the library's table is the other valuer's. */
static void check(const char *name, const struct call *c)
{
    static uint8_t table[MOST_RECORDS * INSTANTS];
    struct task task = {c->formula.records, c->formula.n, 1, INSTANTS, c->cells, table};
    uint8_t expected = value_by(value_bits, &task);
    if (c->got.refusal != 0 || c->got.value != expected || memcmp(c->table, table, c->formula.n * INSTANTS) != 0) {
        fprintf(stderr, "%s: refusal %d, value %d, expected value %d and the same table\n", name, c->got.refusal,
                c->got.value, expected);
        exit(1);
    }
}

/* How many bytes of stack a thread takes that makes a call. Below its stack lies a page that may not be touched. */
static size_t stack_taken(void *(*make)(void *), void *call)
{
    size_t page = (size_t)sysconf(_SC_PAGESIZE);
    uint8_t *base = mmap(NULL, page + STACK, PROT_READ | PROT_WRITE, MAP_PRIVATE | MAP_ANONYMOUS, -1, 0);
    pthread_attr_t attributes;
    pthread_t thread;
    if (base == MAP_FAILED || mprotect(base, page, PROT_NONE) != 0) {
        perror("stack");
        exit(2);
    }
    uint8_t *stack = base + page;
    memset(stack, PATTERN, STACK);
    if (pthread_attr_init(&attributes) != 0 || pthread_attr_setstack(&attributes, stack, STACK) != 0 ||
        pthread_create(&thread, &attributes, make, call) != 0 || pthread_join(thread, NULL) != 0) {
        fprintf(stderr, "stack: no thread\n");
        exit(2);
    }
    size_t untouched = 0;
    while (untouched < STACK && stack[untouched] == PATTERN)
        untouched++;
    munmap(base, page + STACK);
    return STACK - untouched;
}

/* ---- text */
struct text_call {
    texting *make;
    uint8_t in[MOST_BYTES], out[MOST_BYTES];
    size_t size;
    pasturequill_counted got;
};

static void *text(void *argument)
{
    struct text_call *c = argument;
    c->got = c->make(c->in, c->size, 1, c->out, sizeof c->out);
    return NULL;
}

/* Stops unless the library gives and writes what its peer does, and takes no more stack than it may. */
static void show_text(const char *name, struct text_call *c, texting *peer)
{
    struct text_call expected = *c;
    expected.make = peer;
    text(&expected);
    text(c);
    size_t taken = stack_taken(text, c);
    if (c->got.refusal != expected.got.refusal || c->got.count != expected.got.count ||
        memcmp(c->out, expected.out, sizeof c->out) != 0 || taken > MOST_TEXT_STACK) {
        fprintf(stderr, "%s: refusal %d, count %zu, %zu bytes of stack\n", name, c->got.refusal, (size_t)c->got.count,
                taken);
        exit(1);
    }
    printf("%-34s %7zu %7d %8.1f\n", name, c->size, c->got.refusal, (double)taken / 1024);
}

static void show_written(const char *name, void (*build)(struct formula *f))
{
    struct formula f = {.n = 0};
    struct text_call c = {.make = pasturequill_write_text};
    build(&f);
    c.size = size_of(&f);
    memcpy(c.in, f.records, c.size);
    show_text(name, &c, write_text_checked);
}

/* As much text as is read: a start, signs, and an end in place of the last ones. */
static void show_read(const char *name, const char *start, const char *signs, const char *end)
{
    struct text_call c = {.make = pasturequill_read_text, .size = PASTUREQUILL_MOST_TEXT};
    size_t head = strlen(start), tail = strlen(end);
    memcpy(c.in, start, head);
    for (size_t i = head; i < c.size; i++)
        c.in[i] = (uint8_t)signs[(i - head) % strlen(signs)];
    memcpy(c.in + c.size - tail, end, tail);
    show_text(name, &c, read_text_checked);
}

static void show_texts(void)
{
    printf("\nStack that writing and reading text take, at most %d KiB:\n\n", MOST_TEXT_STACK / 1024);
    printf("%-34s %7s %7s %8s\n", "written or read", "bytes", "refusal", "KiB");
    show_written("records, stars inside stars", stars_of_stars);
    show_written("records, sequences in first parts", steps_in_a_row);
    show_written("records, tests inside tests", negations);
    show_written("records, stars of tests", starred_tests);
    show_written("records, modalities", modalities);
    show_read("text, brackets alone", "", "(", "");
    show_read("text, stars alone", "", "*", "");
    show_read("text, stars without end", "(", "*", "");
    show_read("text, stars inside stars", "(", "*", "&t.>?p0)");
    show_read("text, tests inside tests", "", "(?", "");
    show_read("text, starred tests", "", "(*?", "");
    show_read("text, modalities", "", "(&t.>?", "");
    show_read("text, sequences in second parts", "(", "(&t;", "");
}

int main(void)
{
    static struct call call;
    struct rlimit limit;
    if (getrlimit(RLIMIT_STACK, &limit) != 0) {
        perror("stack");
        return 2;
    }
    printf("\nStack that valuing takes for formulas of up to %d records at %d instants; the main thread's limit is\n"
           "%.0f KiB, the threads have %d KiB:\n\n",
           MOST_RECORDS, INSTANTS, (double)limit.rlim_cur / 1024, STACK / 1024);
    printf("%-34s %7s %12s\n", "what lies inside what", "records", "stack, KiB");
    for (size_t i = 0; i < sizeof shapes / sizeof *shapes; i++) {
        memset(&call, 0, sizeof call);
        for (size_t k = 0; k < INSTANTS; k++)
            call.cells[k] = k % 3;
        shapes[i].build(&call.formula);
        value(&call);
        check(shapes[i].name, &call);
        memset(call.table, PATTERN, sizeof call.table);
        size_t taken = stack_taken(value, &call);
        check(shapes[i].name, &call);
        printf("%-34s %7zu %12.1f\n", shapes[i].name, call.formula.n, (double)taken / 1024);
    }
    show_texts();
    return 0;
}

/* The library as a process, for programs that can't link it: each request on standard input is one call, and what came
 * of it goes to standard output. Numbers have eight bytes, low byte first.
 *
 * A request is a struct request and then the bytes of its slices; an answer is a struct answer and then the bytes of
 * the same slices after the call. A slice ends at a page that may not be touched, so that a read or write past it ends
 * this process; in front of it are known bytes. */
#include "guarded.h"
#include "pasturequill.h"

enum service { CHECK, EXPAND, VALUE, TRANSLATE, JUDGE, WRITE_TEXT, READ_TEXT };

/* A service takes at most two numbers and three slices, in the order of its declaration; what it does not take is 0. */
enum { NUMBERS = 2, SLICES = 3, RESULTS = 4 };

struct request {
    uint64_t service;
    uint64_t numbers[NUMBERS];
    uint64_t sizes[SLICES]; /* in bytes */
};

struct answer {
    uint64_t results[RESULTS]; /* in the order of the service's struct; the rest is 0 */
    uint64_t beside;           /* how many slices have other bytes in front of them now */
};

/* ---- slices */
/* How many known bytes are in front of a slice, and how many there may be in one. Together they fill pages. */
enum { FRONT = 256, MOST_BYTES = (1 << 18) - FRONT };

struct slice { uint8_t *at; size_t size; }; /* in bytes */

static uint8_t fresh_front[FRONT];
static uint8_t *ends[SLICES];

static void make_room(void)
{
    make_fresh(fresh_front, FRONT);
    for (int i = 0; i < SLICES; i++)
        ends[i] = guarded_pages(FRONT + MOST_BYTES) + FRONT + MOST_BYTES;
}

static struct slice read_slice(int i, uint64_t size)
{
    must(size <= MOST_BYTES, "a slice is too long");
    struct slice slice = {ends[i] - size, (size_t)size};
    must(fread(slice.at, 1, slice.size, stdin) == slice.size, "a slice ends too early");
    memcpy(slice.at - FRONT, fresh_front, FRONT);
    return slice;
}

static int changed_in_front(struct slice slice) { return memcmp(slice.at - FRONT, fresh_front, FRONT) != 0; }

/* ---- calls */
static uint16_t *words(struct slice slice) { return (uint16_t *)(void *)slice.at; }
static size_t word_count(struct slice slice) { return slice.size / sizeof(uint16_t); }

static struct answer counted(pasturequill_counted got) { return (struct answer){.results = {got.refusal, got.count}}; }
static struct answer valued(pasturequill_valued got) { return (struct answer){.results = {got.refusal, got.value}}; }
static struct answer judged(pasturequill_judged got)
{
    return (struct answer){.results = {got.refusal, got.holds, got.rule, got.instant}};
}

static struct answer called(uint64_t service, const uint64_t *n, const struct slice *s)
{
    switch (service) {
    case CHECK: return (struct answer){.results = {pasturequill_check(s[0].at, s[0].size, n[0])}};
    case EXPAND: return counted(pasturequill_expand(s[0].at, s[0].size, n[0], s[1].at, s[1].size));
    case VALUE:
        return valued(pasturequill_value(s[0].at, s[0].size, n[0], n[1], s[1].at, s[1].size, s[2].at, s[2].size));
    case TRANSLATE:
        return counted(pasturequill_translate(s[0].at, s[0].size, n[0], words(s[1]), word_count(s[1])));
    case JUDGE:
        return judged(pasturequill_judge(words(s[0]), word_count(s[0]), n[0], n[1], s[1].at, s[1].size));
    case WRITE_TEXT: return counted(pasturequill_write_text(s[0].at, s[0].size, n[0], s[1].at, s[1].size));
    case READ_TEXT: return counted(pasturequill_read_text(s[0].at, s[0].size, n[0], s[1].at, s[1].size));
    }
    must(0, "no such service");
    return (struct answer){0};
}

int main(void)
{
    struct request request;
    make_room();
    while (fread(&request, sizeof request, 1, stdin) == 1) {
        struct slice slices[SLICES];
        for (int i = 0; i < SLICES; i++)
            slices[i] = read_slice(i, request.sizes[i]);
        struct answer answer = called(request.service, request.numbers, slices);
        for (int i = 0; i < SLICES; i++)
            answer.beside += changed_in_front(slices[i]);
        fwrite(&answer, sizeof answer, 1, stdout);
        for (int i = 0; i < SLICES; i++)
            fwrite(slices[i].at, 1, slices[i].size, stdout);
        must(fflush(stdout) == 0, "an answer can't be written");
    }
    return 0;
}

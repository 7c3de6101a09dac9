/*
 * The stack that the deepest calls take. A thread runs on a stack that is painted; what is no longer paint afterwards was used, the
 * thread's own start included. Then the same calls once more on IGB_STACK_BYTES, with memory below that no one may touch. The deepest
 * run has 256 variables, and no clause that would set one: 256 tries, one below the other.
 */
#define _GNU_SOURCE
#include "check.h"
#include <pthread.h>
#include <sys/mman.h>

enum { LARGE = 8 << 20, BELOW = 4 << 20, PAINT = 0xA5 };

static int32_t entries[IGB_ENTRIES_LEN];
static uint8_t status[IGB_STATUS_LEN], ways[IGB_WAYS_LEN], table[IGB_TABLE_LEN];
static int32_t first[IGB_WITNESS_LEN], other[IGB_WITNESS_LEN];
static uint32_t call_of[IGB_CALLS_LEN], hints[IGB_HINTS_LEN], log_rows[IGB_LOG_LEN];
static uint8_t marks[IGB_MARKS_LEN], values[IGB_VALUES_LEN], sizes[IGB_SIZES_LEN];

static void *nothing(void *unused)
{
    return unused;
}

static void *read_largest(void *unused)
{
    static uint8_t text[IGB_TEXT_MAX];
    memset(text, ' ', sizeof text);
    memcpy(text, "p cnf 256 0", 11);
    CHECK(igb_read(text, sizeof text, entries, IGB_ENTRIES_LEN).vars == 256, "the largest text");
    return unused;
}

static void *run_deepest(void *unused)
{
    igb_report got = igb_run(entries, 0, 256, NULL, 0, UINT32_MAX, 256, status, IGB_STATUS_LEN, call_of, IGB_CALLS_LEN, ways, IGB_WAYS_LEN,
                             hints, IGB_HINTS_LEN, log_rows, IGB_LOG_LEN);
    CHECK(got.answer == IGB_OK && got.tries == 256 && got.free == 256, "the deepest run");
    return unused;
}

static void *why_deepest(void *unused)
{
    igb_why_report got = igb_why(entries, 0, 256, 256, UINT32_MAX, marks, IGB_MARKS_LEN, values, IGB_VALUES_LEN);
    CHECK(got.answer == IGB_NOT_FORCED && got.calls == 2 && got.tries == 511, "the deepest why");
    return unused;
}

/* One clause that settles its last variable in a second call, which is done once more. */
static void *witness_deepest(void *unused)
{
    for (int32_t v = 1; v <= 256; v++)
        entries[v - 1] = v;
    entries[256] = 0;
    igb_report got = igb_witness(entries, 257, 256, NULL, 0, UINT32_MAX, 256, 256, first, IGB_WITNESS_LEN, other, IGB_WITNESS_LEN);
    CHECK(got.answer == IGB_OK && got.calls == 2 && first[255] == 256 && other[255] == -256, "the deepest witness");
    return unused;
}

static void *lines_deepest(void *unused)
{
    CHECK(igb_witness_text((const uint8_t *)"p cnf 256 0", 11, 256, table, IGB_WITNESS_TEXT_LEN) > 2000, "the deepest lines");
    return unused;
}

static void *shorter_deepest(void *unused)
{
    static uint8_t text[IGB_SHORTER_LEN];
    igb_shorter_report got = igb_shorter(entries, 0, 256, UINT32_MAX, 256, text, IGB_SHORTER_LEN);
    CHECK(got.answer == IGB_OK && got.tries == 256 && got.length == 12, "the deepest shorter file");
    return unused;
}

static void *table_deepest(void *unused)
{
    CHECK(igb_table((const uint8_t *)"p cnf 256 0", 11, NULL, 0, table, IGB_TABLE_LEN) > 256, "the deepest table");
    return unused;
}

static void *setup_deepest(void *unused)
{
    igb_report got = igb_setup(entries, 0, 256, NULL, 0, UINT32_MAX, status, IGB_STATUS_LEN);
    CHECK(got.answer == IGB_OK && got.tries == 256 && got.calls == 1, "the deepest setup");
    return unused;
}

/* A chain backwards: as many rounds as a closing may take. It leaves its list in `entries`, which the calls behind it write anew or do not read. */
static void *close_longest(void *unused)
{
    size_t n = 0;
    for (int32_t v = 255; v > 0; v--) {
        entries[n++] = -v;
        entries[n++] = v + 1;
        entries[n++] = 0;
    }
    static const int32_t held[] = {1};
    igb_closing got = igb_close(entries, n, 256, held, 1, values, IGB_VALUES_LEN);
    CHECK(got.answer == IGB_OK && got.rounds == 257 && got.set == 256, "the longest closing");
    return unused;
}

/* As many groups as there may be; of a table of groups the deepest run has a try for each of them. */
static const uint8_t *groups_text(size_t *len)
{
    static char text[IGB_TEXT_MAX];
    *len = (size_t)sprintf(text, "%d", IGB_GROUPS_MAX);
    for (int g = 0; g < IGB_GROUPS_MAX; g++)
        *len += (size_t)sprintf(text + *len, " 2");
    *len += (size_t)sprintf(text + *len, " 0");
    return (const uint8_t *)text;
}

static void *groups_largest(void *unused)
{
    size_t len;
    const uint8_t *text = groups_text(&len);
    CHECK(igb_read_groups(text, len, entries, IGB_ENTRIES_LEN, sizes, IGB_SIZES_LEN).count == 768, "the most groups");
    return unused;
}

static void *groups_table_deepest(void *unused)
{
    size_t len;
    const uint8_t *text = groups_text(&len);
    CHECK(igb_groups_table(text, len, table, IGB_GROUPS_TABLE_LEN) > 2560, "the deepest table of groups");
    return unused;
}

/* A tree of 255 splits under the negation of 1, one below the other: clause 1 is all variables, and clause v has 1 and -v. */
static void *claims_deepest(void *unused)
{
    static char text[8192];
    size_t n = 0, at = 0;
    for (int32_t v = 1; v <= 256; v++)
        entries[n++] = v;
    entries[n++] = 0;
    for (int32_t v = 2; v <= 256; v++) {
        entries[n++] = 1;
        entries[n++] = -v;
        entries[n++] = 0;
    }
    at += (size_t)sprintf(text + at, "256 1");
    for (int32_t v = 2; v <= 256; v++)
        at += (size_t)sprintf(text + at, " -%d", v);
    at += (size_t)sprintf(text + at, " 1 1");
    for (int32_t v = 2; v <= 256; v++)
        at += (size_t)sprintf(text + at, " -%d", v);
    at += (size_t)sprintf(text + at, " 1");
    for (int32_t v = 256; v >= 2; v--)
        at += (size_t)sprintf(text + at, " %d", v);
    igb_verdict got = igb_check_claims(entries, n, 256, (const uint8_t *)text, at);
    CHECK(got.answer == IGB_OK && got.place == 0, "the deepest claims");
    return unused;
}

/* Runs `call` in a thread on the upper `bytes` of a painted mapping and answers how many of them it used. */
static size_t used(void *(*call)(void *), size_t bytes)
{
    uint8_t *whole = mmap(NULL, BELOW + bytes, PROT_NONE, MAP_PRIVATE | MAP_ANONYMOUS, -1, 0);
    uint8_t *stack = whole + BELOW;
    if (whole == MAP_FAILED || mprotect(stack, bytes, PROT_READ | PROT_WRITE) != 0) {
        perror("stack");
        exit(2);
    }
    memset(stack, PAINT, bytes);
    pthread_attr_t attr;
    pthread_t thread;
    pthread_attr_init(&attr);
    CHECK(pthread_attr_setstack(&attr, stack, bytes) == 0, "the stack is taken");
    CHECK(pthread_create(&thread, &attr, call, NULL) == 0, "the thread begins");
    pthread_join(thread, NULL);
    pthread_attr_destroy(&attr);
    size_t untouched = 0;
    while (untouched < bytes && stack[untouched] == PAINT)
        untouched++;
    munmap(whole, BELOW + bytes);
    return bytes - untouched;
}

int main(void)
{
    static const struct {
        const char *name;
        void *(*call)(void *);
    } calls[] = {{"a thread alone", nothing}, {"igb_read", read_largest}, {"igb_run", run_deepest}, {"igb_setup", setup_deepest},
                 {"igb_close", close_longest}, {"igb_check_claims", claims_deepest}, {"igb_why", why_deepest}, {"igb_witness", witness_deepest},
                 {"igb_witness_text", lines_deepest}, {"igb_shorter", shorter_deepest}, {"igb_table", table_deepest}, {"igb_read_groups", groups_largest},
                 {"igb_groups_table", groups_table_deepest}};
    for (size_t i = 0; i < sizeof calls / sizeof *calls; i++) {
        size_t bytes = used(calls[i].call, LARGE);
        CHECK(bytes < IGB_STACK_BYTES, calls[i].name);
        printf("stack: %s: %zu bytes\n", calls[i].name, bytes);
    }
    for (size_t i = 0; i < sizeof calls / sizeof *calls; i++)
        used(calls[i].call, IGB_STACK_BYTES);
    return ended("stack");
}

/*
 * igb_read_groups and igb_groups_table from C: every answer with its place and counts, every element of the lent buffers, and every refusal at its
 * edges. What is expected is written by hand from the rules. Each case runs twice, on two paints: what a buffer held before must not show.
 */
#include "check.h"

#define LEN(array) (sizeof(array) / sizeof *(array))

static const uint32_t paints[] = {1, 2};

/* A text of parts, each so many times in a row; it ends at a part that is NULL. */
typedef struct {
    const char *part;
    size_t times;
} part;

static char text[2 * IGB_TEXT_MAX];

static size_t joined(const part *parts)
{
    size_t n = 0;
    for (; parts->part; parts++)
        for (size_t i = 0; i < parts->times; i++) {
            memcpy(text + n, parts->part, strlen(parts->part));
            n += strlen(parts->part);
        }
    return n;
}

/* Reads `len` bytes of the text. `list` and `sizes` are the fronts that are expected; zeros follow. */
static void reads(const char *what, size_t len, size_t entries_len, size_t sizes_len, igb_groups expected, const int32_t *list, const uint8_t *sizes)
{
    int writes = expected.answer != IGB_SHORT_BUFFER && expected.answer != IGB_LONG_TEXT;
    for (size_t k = 0; k < LEN(paints); k++) {
        painted e = paint(entries_len * sizeof(int32_t), paints[k]), s = paint(sizes_len, paints[k] + 7);
        uint8_t *lent = copied(text, len);
        igb_groups got = igb_read_groups(lent, len, (int32_t *)(void *)e.start, entries_len, s.start, sizes_len);
        CHECK(memcmp(&got, &expected, sizeof got) == 0, what);
        CHECK(len == 0 || memcmp(lent, text, len) == 0, what);
        CHECK(kept(&e, writes ? IGB_ENTRIES_LEN * sizeof(int32_t) : 0), what);
        CHECK(kept(&s, writes ? IGB_SIZES_LEN : 0), what);
        if (writes) {
            const int32_t *entries = (const int32_t *)(const void *)e.start;
            for (size_t i = list ? expected.count : 0; expected.answer == 0 ? list && i < IGB_ENTRIES_LEN : i < IGB_ENTRIES_LEN; i++)
                CHECK(entries[i] == 0, what);
            CHECK(!list || memcmp(entries, list, expected.count * sizeof(int32_t)) == 0, what);
            for (size_t i = 0; i < IGB_SIZES_LEN; i++)
                CHECK(s.start[i] == (sizes && i < expected.groups ? sizes[i] : 0) || (!sizes && expected.answer == 0), what);
        }
        free(lent);
        drop(&e);
        drop(&s);
    }
}

static void in_rooms(const char *what, const part *parts, igb_groups expected, const int32_t *list, const uint8_t *sizes)
{
    size_t len = joined(parts);
    static const igb_groups is_short = {IGB_SHORT_BUFFER, 0, 0, 0, 0, 0};
    reads(what, len, IGB_ENTRIES_LEN, IGB_SIZES_LEN, expected, list, sizes);
    reads(what, len, IGB_ENTRIES_LEN + 5, IGB_SIZES_LEN + 3, expected, list, sizes);
    reads(what, len, IGB_ENTRIES_LEN - 1, IGB_SIZES_LEN, is_short, NULL, NULL);
    reads(what, len, IGB_ENTRIES_LEN, IGB_SIZES_LEN - 1, is_short, NULL, NULL);
    reads(what, len, 0, 0, is_short, NULL, NULL);
}

static void accepted(void)
{
    static const int32_t list[] = {1, 2, 3, 0, -1, -2, 0, -1, -3, 0, -2, -3, 0, 4, 5, 0, -4, -5, 0, -1, 5, 0};
    static const uint8_t sizes[] = {3, 2};
    in_rooms("two groups", (part[]){{"2\n3 2\n1\n-1 5 0\n", 1}, {0}}, (igb_groups){0, 0, 2, 5, 7, 22}, list, sizes);
    in_rooms("no group", (part[]){{"0 0", 1}, {0}}, (igb_groups){0, 0, 0, 0, 0, 0}, list, sizes);
    in_rooms("no group and an empty clause", (part[]){{"0 1 0", 1}, {0}}, (igb_groups){0, 0, 0, 0, 1, 1}, (int32_t[]){0}, sizes);
    in_rooms("128 groups", (part[]){{"128", 1}, {" 2", 128}, {" 0", 1}, {0}}, (igb_groups){0, 0, 128, 256, 256, 768}, NULL, NULL);
    in_rooms("1,024 clauses", (part[]){{"8", 1}, {" 16", 8}, {" 56 ", 1}, {"0 ", 56}, {0}}, (igb_groups){0, 0, 8, 128, 1024, 3072}, NULL, NULL);
    in_rooms("4,096 entries", (part[]){{"8", 1}, {" 16", 8}, {" 1 ", 1}, {"1 ", 1079}, {"0", 1}, {0}}, (igb_groups){0, 0, 8, 128, 969, 4096}, NULL, NULL);
}

static void refusals(void)
{
    static const struct {
        const char *what;
        part parts[6];
        uint32_t answer, place;
    } cases[] = {
        {"129 groups", {{"129", 1}, {" 2", 129}, {" 0", 1}}, IGB_BAD_GROUP, 0},
        {"groups below 0", {{"-1 0", 1}}, IGB_BAD_GROUP, 0},
        {"a size of 1", {{"1 1 0", 1}}, IGB_BAD_GROUP, 2},
        {"a size of 17", {{"1 17 0", 1}}, IGB_BAD_GROUP, 2},
        {"256 variables, and a list that is too long", {{"17", 1}, {" 16", 15}, {" 14 2 0", 1}}, IGB_BAD_LIST, 0},
        {"257 variables", {{"17", 1}, {" 16", 15}, {" 15 2 0", 1}}, IGB_LARGE_HEADER, 51},
        {"258 variables", {{"17", 1}, {" 16", 16}, {" 2 0", 1}}, IGB_LARGE_HEADER, 51},
        {"16 comes before 4", {{"17", 1}, {" 16", 16}, {" 1 0", 1}}, IGB_BAD_GROUP, 51},
        {"clauses below 0", {{"0 -1", 1}}, IGB_LARGE_HEADER, 2},
        {"1,025 clauses of its own", {{"0 1025", 1}}, IGB_LARGE_HEADER, 2},
        {"1,024 clauses announced", {{"0 1024", 1}}, IGB_SHORT_TEXT, 6},
        {"a malformed token", {{"1 2 x", 1}}, IGB_BAD_TOKEN, 4},
        {"no comment", {{"c\n0 0", 1}}, IGB_BAD_TOKEN, 0},
        {"no %", {{"0 0 %", 1}}, IGB_BAD_TOKEN, 4},
        {"a token behind", {{"1 2 1 0 9", 1}}, IGB_TOKEN_BEHIND, 8},
        {"a value above the last", {{"1 2 1 2 -3 0", 1}}, IGB_TOKEN_OVER_VARS, 8},
        {"an empty text", {{"", 1}}, IGB_SHORT_TEXT, 0},
        {"inside a clause", {{"1 2 1 1 -2", 1}}, IGB_SHORT_TEXT, 10},
        {"1,025 clauses", {{"8", 1}, {" 16", 8}, {" 57 ", 1}, {"0 ", 57}}, IGB_BAD_LIST, 0},
        {"4,097 entries", {{"8", 1}, {" 16", 8}, {" 1 ", 1}, {"1 ", 1080}, {"0", 1}}, IGB_BAD_LIST, 0},
        {"groups that are too many", {{"9", 1}, {" 16", 9}, {" 0", 1}}, IGB_BAD_LIST, 0},
        {"9 comes before 11", {{"9", 1}, {" 16", 9}, {" 1", 1}}, IGB_SHORT_TEXT, 30},
        {"7 behind 4,096 entries", {{"9", 1}, {" 16", 9}, {" 1 ", 1}, {"1 ", 1000}, {"145 0", 1}}, IGB_TOKEN_OVER_VARS, 2031},
        {"5 behind 4,096 entries", {{"9", 1}, {" 16", 9}, {" 1 ", 1}, {"1 ", 1000}, {"x", 1}}, IGB_BAD_TOKEN, 2031},
    };
    for (size_t i = 0; i < LEN(cases); i++)
        in_rooms(cases[i].what, cases[i].parts, (igb_groups){cases[i].answer, cases[i].place, 0, 0, 0, 0}, NULL, NULL);
    in_rooms("the longest text", (part[]){{"0 0", 1}, {" ", IGB_TEXT_MAX - 3}, {0}}, (igb_groups){0, 0, 0, 0, 0, 0}, (int32_t[]){0}, (uint8_t[]){0});
    in_rooms("a longer one", (part[]){{"0 0", 1}, {" ", IGB_TEXT_MAX - 2}, {0}}, (igb_groups){IGB_LONG_TEXT, IGB_TEXT_MAX, 0, 0, 0, 0}, NULL, NULL);
}

static void prints(const char *what, const part *parts, size_t room_len, const char *expected)
{
    size_t len = joined(parts), n = strlen(expected);
    for (size_t k = 0; k < LEN(paints); k++) {
        painted p = paint(room_len, paints[k]);
        size_t got = igb_groups_table((const uint8_t *)text, len, p.start, room_len);
        CHECK(got == n, what);
        CHECK(kept(&p, n), what);
        CHECK(n == 0 || memcmp(p.start, expected, n) == 0, what);
        drop(&p);
    }
}

static void tables(void)
{
    static const part two[] = {{"2 3 2 2 -1 0 5 0", 1}, {0}};
    static const char said[] = "answer 0 calls 5 tries 3 forced 3 free 2 open 0\n1:1 dead\n1:2 free\n1:3 free\n2:1 dead\n2:2 settled\n";
    prints("a table", two, IGB_GROUPS_TABLE_LEN, said);
    prints("a table in more room", two, IGB_GROUPS_TABLE_LEN + 9, said);
    prints("a byte too few", two, IGB_GROUPS_TABLE_LEN - 1, "");
    prints("no room", two, 0, "");
    prints("no valid setup", (part[]){{"1 2 2 -1 0 -2 0", 1}, {0}}, IGB_GROUPS_TABLE_LEN, "answer 20 calls 1 tries 0 forced 0 free 0 open 2\n");
    prints("no group", (part[]){{"0 0", 1}, {0}}, IGB_GROUPS_TABLE_LEN, "answer 0 calls 1 tries 0 forced 0 free 0 open 0\n");
    prints("a refusal", (part[]){{"1 17 0", 1}, {0}}, IGB_GROUPS_TABLE_LEN, "refused 16 place 2\n");
}

/* What is read is run: a value is variable sizes[0] + .. + k. */
static void runs(void)
{
    static int32_t entries[IGB_ENTRIES_LEN];
    static uint8_t sizes[IGB_SIZES_LEN], status[IGB_STATUS_LEN], ways[IGB_WAYS_LEN];
    static uint32_t calls[IGB_CALLS_LEN], hints[IGB_HINTS_LEN], log[IGB_LOG_LEN];
    size_t len = joined((part[]){{"2 3 2 2 -1 0 5 0", 1}, {0}});
    igb_groups g = igb_read_groups((const uint8_t *)text, len, entries, IGB_ENTRIES_LEN, sizes, IGB_SIZES_LEN);
    igb_report r = igb_run(entries, g.count, g.vars, NULL, 0, IGB_TABLE_BUDGET, IGB_TABLE_CHUNK, status, IGB_STATUS_LEN, calls, IGB_CALLS_LEN, ways,
                           IGB_WAYS_LEN, hints, IGB_HINTS_LEN, log, IGB_LOG_LEN);
    static const uint8_t expected[] = {IGB_FORCED_OFF, IGB_FREE, IGB_FREE, IGB_FORCED_OFF, IGB_FORCED_ON};
    CHECK(r.answer == IGB_OK && r.forced == 3 && memcmp(status, expected, sizeof expected) == 0, "a run");
    CHECK(status[sizes[0] + 2 - 1] == IGB_FORCED_ON, "value 2 of group 2");
}

int main(void)
{
    accepted();
    refusals();
    tables();
    runs();
    return ended("groups");
}

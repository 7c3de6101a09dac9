/*
 * igb_why from C: layout, every answer with its place, and every byte of both lent buffers. What is expected is written by hand from the
 * rules. Each case runs twice, on two paints: what a buffer held before must not show in what is written.
 */
#include "check.h"

#define LEN(array) (sizeof(array) / sizeof *(array))

static const uint32_t paints[] = {1, 2};

static void layout(void)
{
    const char *what = "layout";
    CHECK(sizeof(igb_why_report) == 16 && offsetof(igb_why_report, answer) == 0 && offsetof(igb_why_report, place) == 4, what);
    CHECK(offsetof(igb_why_report, calls) == 8 && offsetof(igb_why_report, tries) == 12, what);
    CHECK(IGB_MARKS_LEN == IGB_CLAUSES_MAX && IGB_VALUES_LEN == IGB_VARS_MAX, what);
}

typedef struct {
    const int32_t *list;
    size_t len;
    uint32_t vars;
    int32_t literal;
    uint32_t budget;
} given;

/* The first marks, behind which all are 0, and the values; only looked at where the question is not refused. */
typedef struct {
    const uint8_t *marks;
    size_t marked;
    const uint8_t *values;
} filled;

static int is_refused(uint32_t answer)
{
    return answer != IGB_OK && answer != IGB_NO_MODEL && answer != IGB_STOPPED && answer != IGB_NOT_FORCED;
}

static void asks(const char *what, given g, size_t marks_len, size_t values_len, igb_why_report expected, filled want)
{
    int refused = is_refused(expected.answer);
    for (size_t k = 0; k < LEN(paints); k++) {
        painted m = paint(marks_len, paints[k]), v = paint(values_len, paints[k] + 5);
        int32_t *lent = copied(g.list, g.len * sizeof(int32_t));
        igb_why_report got = igb_why(lent, g.len, g.vars, g.literal, g.budget, m.start, marks_len, v.start, values_len);
        CHECK(memcmp(&got, &expected, sizeof got) == 0, what);
        CHECK(g.len == 0 || memcmp(lent, g.list, g.len * sizeof(int32_t)) == 0, what);
        CHECK(kept(&m, refused ? 0 : IGB_MARKS_LEN), what);
        CHECK(kept(&v, refused ? 0 : g.vars), what);
        if (!refused) {
            uint8_t full[IGB_MARKS_LEN] = {0};
            if (want.marked)
                memcpy(full, want.marks, want.marked);
            CHECK(memcmp(m.start, full, sizeof full) == 0, what);
            CHECK(g.vars == 0 || memcmp(v.start, want.values, g.vars) == 0, what);
        }
        free(lent);
        drop(&m);
        drop(&v);
    }
}

/* With exact room, with more, and with an element too few in each buffer. */
static void asks_list(const char *what, given g, igb_why_report expected, filled want)
{
    size_t n = g.vars;
    const igb_why_report refused = {IGB_SHORT_BUFFER, 0, 0, 0};
    asks(what, g, IGB_MARKS_LEN, n, expected, want);
    asks(what, g, IGB_MARKS_LEN + 9, n + 3, expected, want);
    asks(what, g, IGB_MARKS_LEN - 1, n, refused, want);
    asks(what, g, 0, n, refused, want);
    if (n)
        asks(what, g, IGB_MARKS_LEN, n - 1, refused, want);
}

static void refuses(const char *what, given g, size_t values_len, uint32_t answer, uint32_t place)
{
    asks(what, g, IGB_MARKS_LEN, values_len, (igb_why_report){answer, place, 0, 0}, (filled){NULL, 0, NULL});
}

static const struct {
    const char *what;
    size_t len;
    int32_t list[10];
    uint32_t vars;
    int32_t literal;
    uint32_t budget;
    igb_why_report expected;
    uint8_t marks[5], values[3];
} smalls[] = {
    {"`1 0`", 2, {1, 0}, 1, 1, 100, {IGB_OK, 0, 3, 0}, {1}, {0}},
    {"`1 1 0`", 3, {1, 1, 0}, 1, 1, 100, {IGB_OK, 0, 3, 0}, {1}, {0}},
    {"`-1 0`", 2, {-1, 0}, 1, -1, 100, {IGB_OK, 0, 3, 0}, {1}, {0}},
    {"a chain, all of it", 8, {1, 0, -1, 2, 0, -2, 3, 0}, 3, 3, 100, {IGB_OK, 0, 5, 0}, {1, 1, 1}, {0}},
    {"a chain, a part of it", 8, {1, 0, -1, 2, 0, -2, 3, 0}, 3, 2, 100, {IGB_OK, 0, 5, 2}, {1, 1, 0}, {0}},
    {"two reasons, the earlier one", 8, {1, 2, 0, 1, -2, 0, 1, 0}, 2, 1, 100, {IGB_OK, 0, 5, 1}, {1, 1, 0}, {0}},
    {"not forced", 3, {1, 2, 0}, 2, 1, 100, {IGB_NOT_FORCED, 0, 2, 1}, {0}, {0, 1}},
    {"not forced, the other sign", 2, {1, 0}, 1, -1, 100, {IGB_NOT_FORCED, 0, 2, 0}, {0}, {1}},
    {"no clause", 0, {0}, 2, -2, 100, {IGB_NOT_FORCED, 0, 2, 3}, {0}, {0, 1}},
    {"no model", 4, {1, 0, -1, 0}, 1, 1, 100, {IGB_NO_MODEL, 0, 1, 0}, {0}, {0}},
    {"an empty clause", 1, {0}, 1, 1, 100, {IGB_NO_MODEL, 0, 1, 0}, {0}, {0}},
    {"budget 0, nothing to try", 2, {1, 0}, 1, 1, 0, {IGB_OK, 0, 3, 0}, {1}, {0}},
    {"budget 0, stopped in call 1", 0, {0}, 1, 1, 0, {IGB_STOPPED, 0, 1, 0}, {0}, {0}},
    {"stopped in call 2", 3, {1, 2, 0}, 3, 1, 2, {IGB_STOPPED, 0, 2, 2}, {0}, {0}},
    {"stopped while clauses are visited", 8, {1, 0, -1, 2, 0, -2, 3, 0}, 3, 2, 1, {IGB_STOPPED, 0, 5, 1}, {0}, {0}},
};

static void answers(void)
{
    for (size_t i = 0; i < LEN(smalls); i++)
        asks_list(smalls[i].what, (given){smalls[i].list, smalls[i].len, smalls[i].vars, smalls[i].literal, smalls[i].budget}, smalls[i].expected,
                  (filled){smalls[i].marks, LEN(smalls[i].marks), smalls[i].values});
}

static void refusals(void)
{
    static const int32_t unit[] = {1, 0}, not_ended[] = {1, 0, -1}, above[] = {1, 0, 2, 0}, both[] = {2, 0, 2};
    refuses("257 variables", (given){unit, 2, 257, 1, 100}, 300, IGB_BAD_LIMITS, 0);
    refuses("the most variables", (given){unit, 2, UINT32_MAX, 1, 100}, 300, IGB_BAD_LIMITS, 0);
    refuses("not ended by 0", (given){not_ended, 3, 1, 1, 100}, 1, IGB_BAD_LIST, 3);
    refuses("a variable above", (given){above, 4, 1, 1, 100}, 1, IGB_ENTRY_OVER_VARS, 2);
    static const int32_t no_literals[] = {0, 2, -2, INT32_MIN, INT32_MAX};
    for (size_t i = 0; i < LEN(no_literals); i++)
        refuses("no literal", (given){unit, 2, 1, no_literals[i], 100}, 1, IGB_BAD_LITERAL, 0);
    refuses("no variable", (given){NULL, 0, 0, 1, 100}, 0, IGB_BAD_LITERAL, 0);
    asks("10 comes before 1", (given){both, 3, 257, 0, 100}, 0, 0, (igb_why_report){IGB_BAD_LIMITS, 0, 0, 0}, (filled){NULL, 0, NULL});
    asks("1 comes before 11", (given){both, 3, 1, 0, 100}, 0, 1, (igb_why_report){IGB_SHORT_BUFFER, 0, 0, 0}, (filled){NULL, 0, NULL});
    refuses("11 comes before 12", (given){both, 3, 1, 0, 100}, 1, IGB_BAD_LIST, 3);
    refuses("12 comes before 13", (given){above, 4, 1, 0, 100}, 1, IGB_ENTRY_OVER_VARS, 2);

    static int32_t many[IGB_ENTRIES_MAX + 1];
    refuses("a 1,025th zero", (given){many, 1025, 1, 1, 100}, 1, IGB_BAD_LIST, 1024);
    refuses("4,097 entries", (given){many, 4097, 1, 1, 100}, 1, IGB_BAD_LIST, 4096);
    /* 1,024 clauses `1 0`: the last go first, and the first one stays */
    for (size_t i = 0; i < 2 * IGB_CLAUSES_MAX; i += 2)
        many[i] = 1;
    static const uint8_t first[] = {1}, zero[] = {0};
    asks_list("1,024 clauses", (given){many, 2 * IGB_CLAUSES_MAX, 1, 1, 100}, (igb_why_report){IGB_OK, 0, 1026, 0}, (filled){first, 1, zero});
}

int main(void)
{
    layout();
    answers();
    refusals();
    return ended("why");
}

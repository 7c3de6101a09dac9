/*
 * igb_close from C: every answer with its place, rounds and set, and every byte of the lent buffer. What is expected is written by hand from
 * the rules. Each case runs twice, on two paints: what the buffer held before must not show in what is written.
 */
#include "check.h"

#define LEN(array) (sizeof(array) / sizeof *(array))

static const uint32_t paints[] = {1, 2};

typedef struct {
    const int32_t *list;
    size_t len;
    uint32_t vars;
    const int32_t *held;
    size_t held_len;
} given;

static void closes(const char *what, given g, size_t values_len, igb_closing expected, const uint8_t *values)
{
    size_t written = expected.rounds == 0 ? 0 : g.vars;
    for (size_t k = 0; k < LEN(paints); k++) {
        painted p = paint(values_len, paints[k]);
        int32_t *lent = copied(g.list, g.len * sizeof(int32_t)), *held = copied(g.held, g.held_len * sizeof(int32_t));
        igb_closing got = igb_close(lent, g.len, g.vars, held, g.held_len, p.start, values_len);
        CHECK(memcmp(&got, &expected, sizeof got) == 0, what);
        CHECK(g.len == 0 || memcmp(lent, g.list, g.len * sizeof(int32_t)) == 0, what);
        CHECK(g.held_len == 0 || memcmp(held, g.held, g.held_len * sizeof(int32_t)) == 0, what);
        CHECK(kept(&p, written), what);
        CHECK(written == 0 || memcmp(p.start, values, written) == 0, what);
        free(lent);
        free(held);
        drop(&p);
    }
}

/* Small formulas: with exact room, with more, and with a byte too few. */
typedef struct {
    const char *what;
    size_t len;
    int32_t list[12];
    uint32_t vars;
    size_t held_len;
    int32_t held[2];
    igb_closing expected;
    uint8_t values[3];
} small;

static const small smalls[] = {
    {"a chain in file order", 8, {1, 0, -1, 2, 0, -2, 3, 0}, 3, 0, {0}, {0, 0, 2, 3}, {2, 2, 2}},
    {"the same backwards", 8, {-2, 3, 0, -1, 2, 0, 1, 0}, 3, 0, {0}, {0, 0, 4, 3}, {2, 2, 2}},
    {"no clauses", 0, {0}, 2, 0, {0}, {0, 0, 1, 0}, {0, 0}},
    {"an empty clause", 1, {0}, 2, 0, {0}, {20, 0, 1, 0}, {0, 0}},
    {"both signs held", 0, {0}, 2, 2, {2, -2}, {20, 0, 1, 0}, {0, 0}},
    {"a literal twice", 3, {-1, -1, 0}, 2, 0, {0}, {0, 0, 2, 1}, {1, 0}},
    {"both signs in a clause", 3, {1, -1, 0}, 2, 0, {0}, {0, 0, 1, 0}, {0, 0}},
    {"a held literal is set in a round", 3, {-1, 2, 0}, 2, 1, {1}, {0, 0, 3, 2}, {2, 2}},
    {"a clash in the second round", 8, {-1, 2, 0, -1, -2, 0, 3, 0}, 3, 1, {1}, {20, 0, 2, 0}, {0, 0, 0}},
    {"no model, and nothing follows", 12, {1, 2, 0, 1, -2, 0, -1, 2, 0, -1, -2, 0}, 2, 0, {0}, {0, 0, 1, 0}, {0, 0}},
};

static void small_formulas(void)
{
    for (size_t i = 0; i < LEN(smalls); i++) {
        const small *s = &smalls[i];
        given g = {s->list, s->len, s->vars, s->held, s->held_len};
        closes(s->what, g, s->vars, s->expected, s->values);
        closes(s->what, g, s->vars + 3, s->expected, s->values);
        closes(s->what, g, s->vars - 1, (igb_closing){IGB_SHORT_BUFFER, 0, 0, 0}, NULL);
    }
}

static void refusals(void)
{
    static const int32_t unit[] = {1, 0}, bad[] = {2, 0, 2}, above[] = {1, 0, 2, 0}, over[] = {1, -2}, none[] = {0};
    static int32_t many[IGB_HELD_MAX + 1];
    for (size_t i = 0; i < LEN(many); i++)
        many[i] = i == 0 ? 0 : 1;
    closes("257 variables", (given){unit, 2, 257, none, 1}, 300, (igb_closing){IGB_BAD_LIMITS, 0, 0, 0}, NULL);
    closes("1 comes before 11", (given){bad, 3, 1, none, 1}, 0, (igb_closing){IGB_SHORT_BUFFER, 0, 0, 0}, NULL);
    closes("11 comes before 12", (given){bad, 3, 1, none, 1}, 1, (igb_closing){IGB_BAD_LIST, 3, 0, 0}, NULL);
    closes("12 comes before 15", (given){above, 4, 1, many, LEN(many)}, 1, (igb_closing){IGB_ENTRY_OVER_VARS, 2, 0, 0}, NULL);
    closes("15 comes before 13", (given){unit, 2, 1, many, LEN(many)}, 1, (igb_closing){IGB_MANY_HELD, IGB_HELD_MAX, 0, 0}, NULL);
    closes("the second held literal", (given){unit, 2, 1, over, 2}, 1, (igb_closing){IGB_BAD_LITERAL, 1, 0, 0}, NULL);
}

/* The longest chain backwards takes as many rounds as there may be. */
static void longest(void)
{
    enum { VARS = IGB_VARS_MAX };
    static int32_t list[3 * (VARS - 1) + 2];
    static uint8_t values[VARS];
    size_t n = 0;
    for (int32_t v = VARS - 1; v > 0; v--) {
        list[n++] = -v;
        list[n++] = v + 1;
        list[n++] = 0;
    }
    list[n++] = 1;
    list[n++] = 0;
    memset(values, IGB_TRUE, sizeof values);
    closes("the longest chain", (given){list, n, VARS, NULL, 0}, VARS, (igb_closing){0, 0, VARS + 1, VARS}, values);
}

int main(void)
{
    small_formulas();
    refusals();
    longest();
    return ended("close");
}

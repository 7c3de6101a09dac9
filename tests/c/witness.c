/*
 * igb_witness and igb_witness_text from C: every answer with its place, and every literal of both lent buffers. What is expected is written
 * by hand from the rules. Each case runs twice, on two paints: what a buffer held before must not show in what is written.
 */
#include "check.h"

#define LEN(array) (sizeof(array) / sizeof *(array))

static const uint32_t paints[] = {1, 2};

typedef struct {
    const int32_t *list;
    size_t len;
    uint32_t vars, budget, chunk_limit, variable;
} given;

static int is_refused(uint32_t answer)
{
    return answer != IGB_OK && answer != IGB_STOPPED;
}

static void shows(const char *what, given g, size_t first_len, size_t witness_len, igb_report expected, const int32_t *first,
                  const int32_t *witness)
{
    size_t written = is_refused(expected.answer) ? 0 : g.vars * sizeof(int32_t);
    for (size_t k = 0; k < LEN(paints); k++) {
        painted f = paint(first_len * sizeof(int32_t), paints[k]), w = paint(witness_len * sizeof(int32_t), paints[k] + 5);
        int32_t *lent = copied(g.list, g.len * sizeof(int32_t));
        igb_report got = igb_witness(lent, g.len, g.vars, NULL, 0, g.budget, g.chunk_limit, g.variable, (int32_t *)(void *)f.start, first_len,
                                     (int32_t *)(void *)w.start, witness_len);
        CHECK(memcmp(&got, &expected, sizeof got) == 0, what);
        CHECK(g.len == 0 || memcmp(lent, g.list, g.len * sizeof(int32_t)) == 0, what);
        CHECK(kept(&f, written) && kept(&w, written), what);
        CHECK(written == 0 || (memcmp(f.start, first, written) == 0 && memcmp(w.start, witness, written) == 0), what);
        free(lent);
        drop(&f);
        drop(&w);
    }
}

static void refuses(const char *what, given g, size_t first_len, size_t witness_len, uint32_t answer, uint32_t place)
{
    shows(what, g, first_len, witness_len, (igb_report){answer, place, 0, 0, 0, 0}, NULL, NULL);
}

/* Small formulas: with exact room, with more, and with a literal too few in each buffer. */
typedef struct {
    const char *what;
    size_t len;
    int32_t list[6];
    uint32_t vars, budget, variable;
    igb_report expected;
    int32_t first[3], witness[3];
} small;

static const small smalls[] = {
    {"1, none", 0, {0}, 1, 100, 1, {0, 0, 1, 1, 0, 1}, {-1}, {1}},
    {"`1 2 0 -1 -2 0`, compare", 6, {1, 2, 0, -1, -2, 0}, 2, 100, 2, {0, 0, 2, 1, 0, 2}, {-1, 2}, {1, -2}},
    {"`1 2 0 1 -2 0`, flip", 6, {1, 2, 0, 1, -2, 0}, 2, 100, 2, {0, 0, 2, 3, 1, 1}, {1, -2}, {1, 2}},
    {"`1 2 3 0`, flip in call 1", 4, {1, 2, 3, 0}, 3, 100, 2, {0, 0, 2, 3, 0, 3}, {-1, -2, 3}, {-1, 2, 3}},
    {"`1 2 3 0`, compare in call 2", 4, {1, 2, 3, 0}, 3, 100, 3, {0, 0, 2, 3, 0, 3}, {-1, -2, 3}, {-1, 2, -3}},
    {"`1 2 3 0`, before the stop", 4, {1, 2, 3, 0}, 3, 2, 1, {21, 0, 2, 2, 0, 2}, {-1, -2, 3}, {1, -2, 3}},
};

static void pairs(void)
{
    for (size_t i = 0; i < LEN(smalls); i++) {
        const small *s = &smalls[i];
        given g = {s->list, s->len, s->vars, s->budget, 2, s->variable};
        size_t n = s->vars;
        shows(s->what, g, n, n, s->expected, s->first, s->witness);
        shows(s->what, g, n + 3, n + 1, s->expected, s->first, s->witness);
        refuses(s->what, g, n - 1, n, IGB_SHORT_BUFFER, 0);
        refuses(s->what, g, n, n - 1, IGB_SHORT_BUFFER, 0);
    }
}

static void refusals(void)
{
    static const int32_t unit[] = {1, 0}, both[] = {1, 0, -1, 0}, three[] = {1, 2, 3, 0}, bad[] = {2, 0, 2}, above[] = {1, 0, 2, 0};
    refuses("257 variables", (given){unit, 2, 257, 100, 2, 1}, 300, 300, IGB_BAD_LIMITS, 0);
    refuses("chunk limit 0", (given){unit, 2, 1, 100, 0, 1}, 0, 0, IGB_BAD_LIMITS, 0);
    refuses("chunk limit 257", (given){unit, 2, 1, 100, 257, 1}, 1, 1, IGB_BAD_LIMITS, 0);
    refuses("1 comes before 11", (given){bad, 3, 1, 100, 2, 1}, 0, 1, IGB_SHORT_BUFFER, 0);
    refuses("11 comes before 12", (given){bad, 3, 1, 100, 2, 1}, 1, 1, IGB_BAD_LIST, 3);
    refuses("12 comes before 14", (given){above, 4, 1, 100, 2, 0}, 1, 1, IGB_ENTRY_OVER_VARS, 2);
    refuses("forced", (given){unit, 2, 1, 100, 2, 1}, 1, 1, IGB_NOT_FREE, 0);
    refuses("variable 0", (given){three, 4, 3, 100, 2, 0}, 3, 3, IGB_NOT_FREE, 0);
    refuses("a variable above", (given){three, 4, 3, 100, 2, 4}, 3, 3, IGB_NOT_FREE, 0);
    refuses("the greatest variable", (given){three, 4, 3, 100, 2, UINT32_MAX}, 3, 3, IGB_NOT_FREE, 0);
    refuses("no model", (given){both, 4, 1, 100, 2, 1}, 1, 1, IGB_NOT_FREE, 0);
    refuses("open after the stop", (given){three, 4, 3, 2, 2, 3}, 3, 3, IGB_NOT_FREE, 0);
    refuses("stopped at once", (given){NULL, 0, 1, 0, 2, 1}, 1, 1, IGB_NOT_FREE, 0);
}

static void prints(const char *text, uint32_t variable, size_t out_len, const char *expected)
{
    size_t expected_len = strlen(expected), len = strlen(text);
    for (size_t k = 0; k < LEN(paints); k++) {
        painted p = paint(out_len, paints[k]);
        uint8_t *lent = copied(text, len);
        CHECK(igb_witness_text(lent, len, variable, p.start, out_len) == expected_len, text);
        CHECK(memcmp(p.start, expected, expected_len) == 0, text);
        CHECK(kept(&p, expected_len), text);
        free(lent);
        drop(&p);
    }
}

static void texts(void)
{
    static const struct {
        const char *text;
        uint32_t variable;
        const char *lines;
    } cases[] = {
        {"p cnf 2 2\n1 2 0 1 -2 0\n", 2, "1 -2\n1 2\n"},
        {"p cnf 2 2\n1 2 0 1 -2 0\n", 1, "refused 14 place 0\n"},
        {"p cnf 3 1\n1 2 3 0\n", 3, "-1 -2 3\n-1 2 -3\n"},
        {"p cnf 1 0\n", 1, "-1\n1\n"},
        {"p cnf 1 0\n", 0, "refused 14 place 0\n"},
        {"p cnf 1 1\n2 0", 1, "refused 7 place 10\n"},
    };
    for (size_t i = 0; i < LEN(cases); i++) {
        prints(cases[i].text, cases[i].variable, IGB_WITNESS_TEXT_LEN, cases[i].lines);
        prints(cases[i].text, cases[i].variable, IGB_WITNESS_TEXT_LEN + 7, cases[i].lines);
        prints(cases[i].text, cases[i].variable, IGB_WITNESS_TEXT_LEN - 1, "");
        prints(cases[i].text, cases[i].variable, 0, "");
    }
}

int main(void)
{
    pairs();
    refusals();
    texts();
    return ended("witness");
}

/*
 * igb_shorter from C: every answer with its numbers and length, and every byte of the lent text. What is expected is written by hand from the
 * rules. Each case runs twice, on two paints: what the text held before must not show in what is written.
 */
#include "check.h"

#define LEN(array) (sizeof(array) / sizeof *(array))

static const uint32_t paints[] = {1, 2};

typedef struct {
    const int32_t *list;
    size_t len;
    uint32_t vars, budget, chunk_limit;
} given;

static void shortens(const char *what, given g, size_t text_len, igb_shorter_report expected, const char *text)
{
    for (size_t k = 0; k < LEN(paints); k++) {
        painted p = paint(text_len, paints[k]);
        int32_t *lent = copied(g.list, g.len * sizeof(int32_t));
        igb_shorter_report got = igb_shorter(lent, g.len, g.vars, g.budget, g.chunk_limit, p.start, text_len);
        CHECK(memcmp(&got, &expected, sizeof got) == 0, what);
        CHECK(g.len == 0 || memcmp(lent, g.list, g.len * sizeof(int32_t)) == 0, what);
        CHECK(kept(&p, expected.length), what);
        CHECK(memcmp(p.start, text, expected.length) == 0, what);
        free(lent);
        drop(&p);
    }
}

/* Small formulas: with exact room, with more, and with a byte too few. */
typedef struct {
    const char *what;
    size_t len;
    int32_t list[8];
    uint32_t vars, budget;
    uint32_t answer, calls, tries, forced, free;
    const char *text;
} small;

static const small smalls[] = {
    {"forced literals have clauses of their own", 8, {1, 0, -1, 2, 0, 2, 3, 0}, 3, 9, 0, 3, 1, 2, 1, "p cnf 3 2\n1 0\n2 0\n"},
    {"a negation goes", 6, {1, 0, -1, 2, 3, 0}, 3, 9, 0, 3, 1, 1, 2, "p cnf 3 2\n1 0\n2 3 0\n"},
    {"forced off", 2, {-2, 0}, 2, 9, 0, 2, 1, 1, 1, "p cnf 2 1\n-2 0\n"},
    {"a repeat goes", 4, {1, 2, 1, 0}, 2, 9, 0, 2, 1, 0, 2, "p cnf 2 1\n1 2 0\n"},
    {"a repeated clause stays", 6, {1, 2, 0, 1, 2, 0}, 2, 9, 0, 2, 1, 0, 2, "p cnf 2 2\n1 2 0\n1 2 0\n"},
    {"both signs stay", 3, {1, -1, 0}, 1, 9, 0, 1, 1, 0, 1, "p cnf 1 1\n1 -1 0\n"},
    {"no clauses", 0, {0}, 2, 9, 0, 1, 2, 0, 2, "p cnf 2 0\n"},
    {"no variables", 0, {0}, 0, 9, 0, 1, 0, 0, 0, "p cnf 0 0\n"},
    {"no model", 4, {1, 0, -1, 0}, 2, 9, 20, 1, 0, 0, 0, "p cnf 2 1\n0\n"},
    {"stopped", 6, {1, 0, -1, 2, 3, 0}, 3, 0, 21, 1, 0, 0, 0, "p cnf 3 2\n1 0\n-1 2 3 0\n"},
};

static void small_formulas(void)
{
    for (size_t i = 0; i < LEN(smalls); i++) {
        const small *s = &smalls[i];
        given g = {s->list, s->len, s->vars, s->budget, 16};
        igb_shorter_report expected = {s->answer, 0, s->calls, s->tries, s->forced, s->free, (uint32_t)strlen(s->text)};
        shortens(s->what, g, IGB_SHORTER_LEN, expected, s->text);
        shortens(s->what, g, IGB_SHORTER_LEN + 3, expected, s->text);
        shortens(s->what, g, IGB_SHORTER_LEN - 1, (igb_shorter_report){IGB_SHORT_BUFFER, 0, 0, 0, 0, 0, 0}, "");
    }
}

static void refused(const char *what, given g, size_t text_len, uint32_t answer, uint32_t place)
{
    shortens(what, g, text_len, (igb_shorter_report){answer, place, 0, 0, 0, 0, 0}, "");
}

static void refusals(void)
{
    static const int32_t bad[] = {2, 0, 2}, above[] = {1, 0, 2, 0};
    refused("257 variables", (given){bad, 3, 257, 9, 16}, 0, IGB_BAD_LIMITS, 0);
    refused("chunk limit 0", (given){bad, 3, 1, 9, 0}, 0, IGB_BAD_LIMITS, 0);
    refused("chunk limit 257", (given){bad, 3, 1, 9, 257}, 0, IGB_BAD_LIMITS, 0);
    refused("1 comes before 11", (given){bad, 3, 1, 9, 16}, 0, IGB_SHORT_BUFFER, 0);
    refused("11 comes before 12", (given){bad, 3, 1, 9, 16}, IGB_SHORTER_LEN, IGB_BAD_LIST, 3);
    refused("an entry above vars", (given){above, 4, 1, 9, 16}, IGB_SHORTER_LEN, IGB_ENTRY_OVER_VARS, 2);
}

/* As many clauses and entries as there may be, and stopped: the formula itself. */
static void longest(void)
{
    enum { CLAUSE = 17 };
    static int32_t list[IGB_ENTRIES_MAX];
    static char text[IGB_SHORTER_LEN];
    size_t n = (size_t)sprintf(text, "p cnf 256 %d\n", IGB_CLAUSES_MAX);
    for (size_t c = 0; c < IGB_CLAUSES_MAX; c++) {
        for (int32_t i = 0; i < 3; i++)
            list[4 * c + (size_t)i] = -254 - i;
        list[4 * c + 3] = 0;
        n += (size_t)sprintf(text + n, "-254 -255 -256 0\n");
    }
    igb_shorter_report expected = {IGB_STOPPED, 0, 1, 0, 0, 0, (uint32_t)n};
    CHECK(n == 16 - 1 + CLAUSE * (size_t)IGB_CLAUSES_MAX, "a clause has 17 bytes");
    shortens("the longest", (given){list, IGB_ENTRIES_MAX, 256, 0, 16}, IGB_SHORTER_LEN, expected, text);
}

int main(void)
{
    small_formulas();
    refusals();
    longest();
    return ended("shorter");
}

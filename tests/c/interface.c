/*
 * The interface from C: layout, every answer with its place, and every byte of every lent buffer. What is expected is written by hand
 * from the rules. Each case runs twice, on two paints: what a buffer held before must not show in what is written.
 */
#include "check.h"

#define LEN(array) (sizeof(array) / sizeof *(array))
enum { ENTRIES_BYTES = IGB_ENTRIES_LEN * sizeof(int32_t) };

static const uint32_t paints[] = {1, 2};

/* ---- layout */

static void layout(void)
{
    const char *what = "layout";
    CHECK(sizeof(igb_reading) == 20 && offsetof(igb_reading, answer) == 0 && offsetof(igb_reading, place) == 4, what);
    CHECK(offsetof(igb_reading, vars) == 8 && offsetof(igb_reading, clauses) == 12 && offsetof(igb_reading, count) == 16, what);
    CHECK(sizeof(igb_report) == 24 && offsetof(igb_report, answer) == 0 && offsetof(igb_report, place) == 4, what);
    CHECK(offsetof(igb_report, calls) == 8 && offsetof(igb_report, tries) == 12, what);
    CHECK(offsetof(igb_report, forced) == 16 && offsetof(igb_report, free) == 20, what);
    CHECK(IGB_LOG_LEN == IGB_LOG_ROW * (IGB_VARS_MAX + 1) && IGB_STATUS_LEN == IGB_VARS_MAX, what);
    CHECK(igb_version() == IGB_VERSION, "version");
}

/* ---- the reader */

/* A reading of `text` with room for `entries_len` entries. `list` is what must stand in the buffer if the text is accepted. */
static void reads(const char *what, const void *text, size_t len, size_t entries_len, igb_reading expected, const int32_t *list)
{
    for (size_t k = 0; k < LEN(paints); k++) {
        painted p = paint(entries_len * sizeof(int32_t), paints[k]);
        uint8_t *lent = copied(text, len);
        igb_reading got = igb_read(lent, len, (int32_t *)(void *)p.start, entries_len);
        CHECK(memcmp(&got, &expected, sizeof got) == 0, what);
        CHECK(len == 0 || memcmp(lent, text, len) == 0, what);
        if (expected.answer == IGB_SHORT_BUFFER || expected.answer == IGB_LONG_TEXT) {
            CHECK(kept(&p, 0), what);
        } else {
            int32_t *full = calloc(IGB_ENTRIES_LEN, sizeof *full);
            if (full && expected.count)
                memcpy(full, list, expected.count * sizeof *full);
            CHECK(full && memcmp(p.start, full, ENTRIES_BYTES) == 0, what);
            CHECK(kept(&p, ENTRIES_BYTES), what);
            free(full);
        }
        free(lent);
        drop(&p);
    }
}

/* The same with an exact and with a longer buffer. */
static void reads_text(const char *what, const void *text, size_t len, igb_reading expected, const int32_t *list)
{
    reads(what, text, len, IGB_ENTRIES_LEN, expected, list);
    reads(what, text, len, IGB_ENTRIES_LEN + 37, expected, list);
}

static void refuses_text(const char *text, uint32_t answer, uint32_t place)
{
    reads_text(text, text, strlen(text), (igb_reading){answer, place, 0, 0, 0}, NULL);
}

/* `head`, then `word` so many times, then `tail`; to be freed. */
static char *repeated(const char *head, const char *word, size_t times, const char *tail)
{
    char *text = room(strlen(head) + times * strlen(word) + strlen(tail) + 1);
    char *end = text + sprintf(text, "%s", head);
    while (times--)
        end += sprintf(end, "%s", word);
    strcpy(end, tail);
    return text;
}

static void readings(void)
{
    static const int32_t clauses[] = {1, 2, 0, 1, -2, 0}, ones[] = {1, 0}, odd[] = {1, 1, 0, 2, -2, 0, 0};
    static int32_t full[IGB_ENTRIES_LEN];
    const char *small = "p cnf 2 2\n1 2 0 1 -2 0\n";
    reads_text("accepted", small, strlen(small), (igb_reading){IGB_OK, 0, 2, 2, 6}, clauses);
    const char *strange = "c a card\n \t\r\np\tcnf  002 3 \r\n1 01 0 2\n-2 0\t00";
    reads_text("blanks and leading zeros", strange, strlen(strange), (igb_reading){IGB_OK, 0, 2, 3, 7}, odd);
    reads_text("no variable", "p cnf 0 0", 9, (igb_reading){IGB_OK, 0, 0, 0, 0}, NULL);

    for (size_t short_by = 1; short_by <= IGB_ENTRIES_LEN; short_by += short_by < 3 ? 1 : 1023)
        reads("short buffer", small, strlen(small), IGB_ENTRIES_LEN - short_by, (igb_reading){IGB_SHORT_BUFFER, 0, 0, 0, 0}, NULL);
    refuses_text("", IGB_BAD_HEADER, 0);
    refuses_text("c only\n\n", IGB_BAD_HEADER, 8);
    refuses_text("c a\n p cnf 1 1\n", IGB_BAD_HEADER, 4);
    refuses_text("p cnf -1 1\n", IGB_BAD_HEADER, 0);
    refuses_text("p cnf 1234567890 1\n", IGB_BAD_HEADER, 0);
    refuses_text("c a\np cnf 257 0\n", IGB_LARGE_HEADER, 4);
    refuses_text("p cnf 1 1025\n", IGB_LARGE_HEADER, 0);
    refuses_text("p cnf 257 x\n", IGB_BAD_HEADER, 0);
    refuses_text("p cnf 1 1\n-0 0", IGB_BAD_TOKEN, 10);
    refuses_text("p cnf 1 1\n1 0 x", IGB_BAD_TOKEN, 14);
    refuses_text("p cnf 1 1\n1 0 1 0", IGB_TOKEN_BEHIND, 14);
    refuses_text("p cnf 1 1\n1 0 2 0", IGB_TOKEN_BEHIND, 14);
    refuses_text("p cnf 1 1\n2 0", IGB_TOKEN_OVER_VARS, 10);
    refuses_text("p cnf 1 1\n1\n", IGB_SHORT_TEXT, 12);
    refuses_text("p cnf 1 2\n1 0", IGB_SHORT_TEXT, 13);

    for (size_t i = 0; i + 1 < IGB_ENTRIES_LEN; i++)
        full[i] = 1;
    char *text = repeated("p cnf 1 1\n", "1 ", IGB_ENTRIES_LEN - 1, "0");
    reads_text("4,096 entries", text, strlen(text), (igb_reading){IGB_OK, 0, 1, 1, IGB_ENTRIES_LEN}, full);
    free(text);
    text = repeated("p cnf 1 1\n", "1 ", IGB_ENTRIES_LEN, "0");
    refuses_text(text, IGB_MANY_TOKENS, 10 + 2 * IGB_ENTRIES_LEN);
    free(text);
    text = repeated("p cnf 1 1\n", "1 ", IGB_ENTRIES_LEN, "2");
    refuses_text(text, IGB_TOKEN_OVER_VARS, 10 + 2 * IGB_ENTRIES_LEN);
    free(text);
    text = repeated("p cnf 1 1\n1 0", " ", IGB_TEXT_MAX - 13, "");
    reads_text("32,768 bytes", text, IGB_TEXT_MAX, (igb_reading){IGB_OK, 0, 1, 1, 2}, ones);
    free(text);
    text = repeated("p cnf 1 1\n1 0", " ", IGB_TEXT_MAX - 12, "");
    igb_reading longer = {IGB_LONG_TEXT, IGB_TEXT_MAX, 0, 0, 0};
    reads_text("32,769 bytes", text, IGB_TEXT_MAX + 1, longer, NULL);
    reads("1 comes before 2", text, IGB_TEXT_MAX + 1, IGB_ENTRIES_LEN - 1, (igb_reading){IGB_SHORT_BUFFER, 0, 0, 0, 0}, NULL);
    free(text);
    text = repeated("p cnf 256 1024\n", "0 ", IGB_CLAUSES_MAX, "");
    memset(full, 0, sizeof full);
    reads_text("256 variables, 1,024 clauses", text, strlen(text), (igb_reading){IGB_OK, 0, 256, 1024, 1024}, full);
    free(text);
}

/* ---- the run */

typedef struct {
    const int32_t *list;
    size_t len;
    uint32_t vars, budget, chunk_limit;
    const int32_t *held;
    size_t held_len;
} given;

/* With nothing held. */
static given plain(const int32_t *list, size_t len, uint32_t vars, uint32_t budget, uint32_t chunk_limit)
{
    return (given){list, len, vars, budget, chunk_limit, NULL, 0};
}

/* The same with literals held. */
static given holding(given g, const int32_t *held, size_t held_len)
{
    g.held = held;
    g.held_len = held_len;
    return g;
}

/* How much room a run is lent. */
typedef struct {
    size_t status, calls, ways, hints, log;
} lengths;

/* What must stand in the buffers of a run that is not refused: `rows` has six numbers for each call. */
typedef struct {
    const uint8_t *status;
    const uint32_t *calls;
    const uint8_t *ways;
    const uint32_t *hints, *rows;
} filled;

static void runs(const char *what, given g, lengths lens, igb_report expected, filled want)
{
    int refused = expected.answer != IGB_OK && expected.answer != IGB_NO_MODEL && expected.answer != IGB_STOPPED;
    size_t log_bytes = refused ? 0 : IGB_LOG_ROW * (g.vars + 1) * sizeof(uint32_t);
    for (size_t k = 0; k < LEN(paints); k++) {
        painted s = paint(lens.status, paints[k]), l = paint(lens.log * sizeof(uint32_t), paints[k] + 7);
        painted c = paint(lens.calls * sizeof(uint32_t), paints[k] + 1), w = paint(lens.ways, paints[k] + 2);
        painted h = paint(lens.hints * sizeof(uint32_t), paints[k] + 3);
        int32_t *lent = copied(g.list, g.len * sizeof(int32_t)), *held = copied(g.held, g.held_len * sizeof(int32_t));
        igb_report got = igb_run(lent, g.len, g.vars, held, g.held_len, g.budget, g.chunk_limit, s.start, lens.status,
                                 (uint32_t *)(void *)c.start, lens.calls, w.start, lens.ways, (uint32_t *)(void *)h.start, lens.hints,
                                 (uint32_t *)(void *)l.start, lens.log);
        CHECK(memcmp(&got, &expected, sizeof got) == 0, what);
        CHECK(g.len == 0 || memcmp(lent, g.list, g.len * sizeof(int32_t)) == 0, what);
        CHECK(g.held_len == 0 || memcmp(held, g.held, g.held_len * sizeof(int32_t)) == 0, what);
        CHECK(kept(&s, refused ? 0 : g.vars), what);
        CHECK(kept(&c, refused ? 0 : g.vars * sizeof(uint32_t)), what);
        CHECK(kept(&w, refused ? 0 : g.vars), what);
        CHECK(kept(&h, refused ? 0 : g.vars * sizeof(uint32_t)), what);
        CHECK(kept(&l, log_bytes), what);
        if (!refused) {
            uint8_t *full = calloc(1, log_bytes);
            if (full)
                memcpy(full, want.rows, expected.calls * IGB_LOG_ROW * sizeof(uint32_t));
            CHECK(g.vars == 0 || memcmp(s.start, want.status, g.vars) == 0, what);
            CHECK(g.vars == 0 || memcmp(c.start, want.calls, g.vars * sizeof(uint32_t)) == 0, what);
            CHECK(g.vars == 0 || memcmp(w.start, want.ways, g.vars) == 0, what);
            CHECK(g.vars == 0 || memcmp(h.start, want.hints, g.vars * sizeof(uint32_t)) == 0, what);
            CHECK(full && memcmp(l.start, full, log_bytes) == 0, what);
            free(full);
        }
        free(lent);
        free(held);
        drop(&s);
        drop(&c);
        drop(&w);
        drop(&h);
        drop(&l);
    }
}

/* With `vars` statuses, calls, ways and hints, and so many log numbers. */
static void refuses_run(const char *what, given g, size_t vars, size_t log_len, uint32_t answer, uint32_t place)
{
    runs(what, g, (lengths){vars, vars, vars, vars, log_len}, (igb_report){answer, place, 0, 0, 0, 0},
         (filled){NULL, NULL, NULL, NULL, NULL});
}

/* A run with exact room, with more, and with an element too few in each buffer. */
static void runs_list(const char *what, given g, igb_report expected, filled want)
{
    size_t n = g.vars, log_len = IGB_LOG_ROW * (n + 1);
    const igb_report refused = {IGB_SHORT_BUFFER, 0, 0, 0, 0, 0};
    runs(what, g, (lengths){n, n, n, n, log_len}, expected, want);
    runs(what, g, (lengths){n + 5, n + 1, n + 2, n + 3, log_len + 11}, expected, want);
    if (n) {
        runs(what, g, (lengths){n - 1, n, n, n, log_len}, refused, want);
        runs(what, g, (lengths){n, n - 1, n, n, log_len}, refused, want);
        runs(what, g, (lengths){n, n, n - 1, n, log_len}, refused, want);
        runs(what, g, (lengths){n, n, n, n - 1, log_len}, refused, want);
    }
    runs(what, g, (lengths){n, n, n, n, log_len - 1}, refused, want);
}

/* The small formulas of the rules, whole. */
typedef struct {
    const char *what;
    size_t len;
    int32_t list[6];
    uint32_t vars, budget, chunk_limit;
    igb_report expected;
    uint8_t status[3];
    uint32_t calls[3];
    uint8_t ways[3];
    uint32_t hints[3];
    uint32_t rows[4 * IGB_LOG_ROW];
} small;

static const small smalls[] = {
    {"0, none", 0, {0}, 0, 100, 2, {0, 0, 1, 0, 0, 0}, {0}, {0}, {0}, {0}, {1, 1, 0, 0, 0, 0}},
    {"0, `0`", 1, {0}, 0, 100, 2, {20, 0, 1, 0, 0, 0}, {0}, {0}, {0}, {0}, {1, 2, 0, 0, 0, 0}},
    {"1, none", 0, {0}, 1, 100, 2, {0, 0, 1, 1, 0, 1}, {1}, {1}, {2}, {0}, {1, 1, 0, 0, 1, 1}},
    {"1, none, budget 0", 0, {0}, 1, 0, 2, {21, 0, 1, 0, 0, 0}, {0}, {0}, {0}, {0}, {1, 3, 0, 0, 0, 0}},
    {"`1 0`", 2, {1, 0}, 1, 100, 2, {0, 0, 2, 0, 1, 0}, {2}, {2}, {3}, {1}, {1, 1, 0, 0, 0, 0, 2, 2, 1, 0, 0, 0}},
    {"`1 1 0`", 3, {1, 1, 0}, 1, 100, 2, {0, 0, 2, 0, 1, 0}, {2}, {2}, {3}, {1}, {1, 1, 0, 0, 0, 0, 2, 2, 1, 0, 0, 0}},
    {"`1 -1 0`", 3, {1, -1, 0}, 1, 100, 2, {0, 0, 1, 1, 0, 1}, {1}, {1}, {2}, {0}, {1, 1, 0, 0, 1, 1}},
    {"`1 0 -1 0`", 4, {1, 0, -1, 0}, 1, 100, 2, {20, 0, 1, 0, 0, 0}, {0}, {0}, {0}, {0}, {1, 2, 0, 0, 0, 0}},
    {"`1 2 0 -1 -2 0`", 6, {1, 2, 0, -1, -2, 0}, 2, 100, 2, {0, 0, 2, 1, 0, 2}, {1, 1}, {2, 2}, {1, 1}, {2, 1}, {1, 1, 0, 0, 0, 1, 2, 1, 1, 2, 0, 0}},
    {"`1 2 0 1 -2 0`", 6, {1, 2, 0, 1, -2, 0}, 2, 100, 2, {0, 0, 2, 3, 1, 1}, {2, 1}, {2, 1}, {3, 2}, {1, 0}, {1, 1, 0, 0, 1, 3, 2, 2, 1, 0, 0, 0}},
    {"`1 0 2 0 3 0`", 6, {1, 0, 2, 0, 3, 0}, 3, 100, 2, {0, 0, 3, 0, 3, 0}, {2, 2, 2}, {2, 3, 3}, {3, 3, 3}, {1, 2, 3},
     {1, 1, 0, 0, 0, 0, 2, 2, 1, 0, 0, 0, 3, 2, 2, 0, 0, 0}},
    {"`1 0 2 0 3 0`, chunk limit 1", 6, {1, 0, 2, 0, 3, 0}, 3, 100, 1, {0, 0, 4, 0, 3, 0}, {2, 2, 2}, {2, 3, 4}, {3, 3, 3}, {1, 2, 3},
     {1, 1, 0, 0, 0, 0, 2, 2, 1, 0, 0, 0, 3, 2, 1, 0, 0, 0, 4, 2, 1, 0, 0, 0}},
    {"`1 2 3 0`", 4, {1, 2, 3, 0}, 3, 100, 2, {0, 0, 2, 3, 0, 3}, {1, 1, 1}, {1, 1, 2}, {2, 2, 1}, {0, 0, 1}, {1, 1, 0, 0, 2, 2, 2, 1, 1, 1, 0, 1}},
    {"`1 2 3 0`, budget 2", 4, {1, 2, 3, 0}, 3, 2, 2, {21, 0, 2, 2, 0, 2}, {1, 1, 0}, {1, 1, 0}, {2, 2, 0}, {0, 0, 1}, {1, 1, 0, 0, 2, 2, 2, 3, 1, 0, 0, 0}},
};

static void runnings(void)
{
    for (size_t i = 0; i < LEN(smalls); i++) {
        const small *s = &smalls[i];
        runs_list(s->what, plain(s->list, s->len, s->vars, s->budget, s->chunk_limit), s->expected,
                  (filled){s->status, s->calls, s->ways, s->hints, s->rows});
    }
    static const int32_t unit[] = {1, 0}, not_ended[] = {1, 0, -1}, above[] = {1, 0, 2, 0, 3, 0}, least[] = {1, INT32_MIN, 0, -2, 0};
    static const int32_t both[] = {2, 0, 2};
    refuses_run("257 variables", plain(unit, 2, 257, 100, 2), 300, 1600, IGB_BAD_LIMITS, 0);
    refuses_run("the most variables", plain(unit, 2, UINT32_MAX, 100, 2), 300, 1600, IGB_BAD_LIMITS, 0);
    refuses_run("chunk limit 0", plain(unit, 2, 1, 100, 0), 1, 12, IGB_BAD_LIMITS, 0);
    refuses_run("chunk limit 257", plain(unit, 2, 1, 100, 257), 1, 12, IGB_BAD_LIMITS, 0);
    refuses_run("the largest chunk limit", plain(unit, 2, 1, 100, UINT32_MAX), 1, 12, IGB_BAD_LIMITS, 0);
    refuses_run("not ended by 0", plain(not_ended, 3, 1, 100, 2), 1, 12, IGB_BAD_LIST, 3);
    refuses_run("a variable above", plain(above, 6, 1, 100, 2), 1, 12, IGB_ENTRY_OVER_VARS, 2);
    refuses_run("a variable and no variables", plain(unit, 2, 0, 100, 2), 0, 6, IGB_ENTRY_OVER_VARS, 0);
    refuses_run("the least literal", plain(least, 5, 1, 100, 2), 1, 12, IGB_ENTRY_OVER_VARS, 1);
    refuses_run("the least literal, all variables", plain(least, 5, 256, 100, 2), 256, 1542, IGB_ENTRY_OVER_VARS, 1);
    refuses_run("10 comes before 1", plain(both, 3, 1, 100, 0), 0, 0, IGB_BAD_LIMITS, 0);
    refuses_run("1 comes before 11", plain(both, 3, 1, 100, 2), 0, 12, IGB_SHORT_BUFFER, 0);
    refuses_run("11 comes before 12", plain(both, 3, 1, 100, 2), 1, 12, IGB_BAD_LIST, 3);

    static int32_t many[IGB_ENTRIES_MAX + 1];
    static const uint32_t none[] = {1, 2, 0, 0, 0, 0}, forced[] = {1, 1, 0, 0, 0, 0, 2, 2, 1, 0, 0, 0};
    static const uint32_t zeros[IGB_HINTS_LEN], one[] = {1}, two[] = {2};
    const uint8_t on = IGB_FORCED_ON, open = IGB_OPEN, chunk = IGB_WAY_CHUNK;
    runs_list("1,024 zeros", plain(many, 1024, 1, 100, 2), (igb_report){IGB_NO_MODEL, 0, 1, 0, 0, 0},
              (filled){&open, zeros, &open, zeros, none});
    refuses_run("a 1,025th zero", plain(many, 1025, 1, 100, 2), 1, 12, IGB_BAD_LIST, 1024);
    many[1500] = 2;
    refuses_run("a 1,025th zero before a variable above", plain(many, 4096, 1, 100, 2), 1, 12, IGB_BAD_LIST, 1024);
    refuses_run("4,097 entries", plain(many, 4097, 1, 100, 2), 1, 12, IGB_BAD_LIST, 4096);
    for (size_t i = 0; i < IGB_ENTRIES_MAX; i++)
        many[i] = 1;
    refuses_run("4,096 entries and no 0", plain(many, 4096, 1, 100, 2), 1, 12, IGB_BAD_LIST, 4096);
    many[IGB_ENTRIES_MAX - 1] = 0;
    runs_list("4,096 entries", plain(many, 4096, 1, 100, 256), (igb_report){IGB_OK, 0, 2, 0, 1, 0},
              (filled){&on, two, &chunk, one, forced});

    uint8_t all[IGB_STATUS_LEN], flips[IGB_WAYS_LEN];
    uint32_t ones[IGB_CALLS_LEN];
    memset(all, IGB_FREE, sizeof all);
    memset(flips, IGB_WAY_FLIP, sizeof flips);
    for (size_t i = 0; i < IGB_CALLS_LEN; i++)
        ones[i] = 1;
    static const uint32_t once[] = {1, 1, 0, 0, 256, 256};
    runs_list("256 variables", plain(NULL, 0, 256, UINT32_MAX, 256), (igb_report){IGB_OK, 0, 1, 256, 0, 256},
              (filled){all, ones, flips, zeros, once});
}

/* ---- held literals */

static void holdings(void)
{
    static const int32_t three[] = {1, 2, 3, 0}, forced[] = {1, 2, 0, 1, -2, 0}, above[] = {2, 0};
    static const int32_t on[] = {1}, both[] = {1, -1}, off[] = {-1}, two_off[] = {-1, -2}, twice[] = {-1, -1};
    static const int32_t zero[] = {1, 0}, over[] = {-1, 1, -2, 0}, least[] = {INT32_MIN};
    const given nothing = plain(NULL, 0, 1, 100, 2);
    const uint8_t forced_on = IGB_FORCED_ON, forced_off = IGB_FORCED_OFF, chunk = IGB_WAY_CHUNK, open[2] = {IGB_OPEN, IGB_OPEN};
    static const uint32_t one[] = {1}, second[] = {2}, none[2] = {0, 0}, call[] = {1, 2, 0, 0, 0, 0};
    static const uint32_t calls[] = {1, 1, 0, 0, 0, 0, 2, 2, 1, 0, 0, 0};
    runs_list("1 held", holding(nothing, on, 1), (igb_report){IGB_OK, 0, 2, 0, 1, 0}, (filled){&forced_on, second, &chunk, one, calls});
    runs_list("-1 held twice", holding(nothing, twice, 2), (igb_report){IGB_OK, 0, 2, 0, 1, 0}, (filled){&forced_off, second, &chunk, one, calls});
    runs_list("both signs", holding(plain(NULL, 0, 1, 0, 2), both, 2), (igb_report){IGB_NO_MODEL, 0, 1, 0, 0, 0},
              (filled){open, none, open, none, call});
    const given card = plain(three, 4, 3, 100, 2);
    static const uint8_t rest[] = {3, 1, 1}, settled[] = {3, 3, 2}, rest_ways[] = {3, 2, 1}, chunks[] = {3, 3, 3};
    static const uint32_t rest_calls[] = {2, 1, 3}, later[] = {2, 3, 3};
    static const uint32_t rest_hints[] = {2, 0, 1}, hints[] = {2, 3, 1};
    static const uint32_t rest_rows[] = {1, 1, 0, 0, 1, 1, 2, 2, 1, 0, 0, 0, 3, 1, 1, 1, 0, 0};
    static const uint32_t rows[] = {1, 1, 0, 0, 0, 0, 2, 2, 1, 0, 0, 0, 3, 2, 2, 0, 0, 0};
    runs_list("`1 2 3 0` with -1", holding(card, off, 1), (igb_report){IGB_OK, 0, 3, 1, 1, 2},
              (filled){rest, rest_calls, rest_ways, rest_hints, rest_rows});
    runs_list("`1 2 3 0` with -1 and -2", holding(card, two_off, 2), (igb_report){IGB_OK, 0, 3, 0, 3, 0},
              (filled){settled, later, chunks, hints, rows});
    runs_list("what the formula excludes", holding(plain(forced, 6, 2, 100, 2), off, 1), (igb_report){IGB_NO_MODEL, 0, 1, 0, 0, 0},
              (filled){open, none, open, none, call});

    static int32_t ones[IGB_HELD_MAX + 1], zeros[IGB_HELD_MAX + 1], many[IGB_ENTRIES_MAX];
    for (size_t i = 0; i < LEN(ones); i++)
        ones[i] = 1;
    runs_list("256 held", holding(nothing, ones, 256), (igb_report){IGB_OK, 0, 2, 0, 1, 0}, (filled){&forced_on, second, &chunk, one, calls});
    refuses_run("257 held", holding(nothing, ones, 257), 1, 12, IGB_MANY_HELD, 256);
    refuses_run("0 held", holding(nothing, zero, 2), 1, 12, IGB_BAD_LITERAL, 1);
    refuses_run("V + 1 held", holding(nothing, over, 4), 1, 12, IGB_BAD_LITERAL, 2);
    refuses_run("the least literal held", holding(nothing, least, 1), 1, 12, IGB_BAD_LITERAL, 0);
    refuses_run("held with no variable", holding(plain(NULL, 0, 0, 100, 2), on, 1), 0, 6, IGB_BAD_LITERAL, 0);
    refuses_run("12 comes before 15", holding(plain(above, 2, 1, 100, 2), ones, 257), 1, 12, IGB_ENTRY_OVER_VARS, 0);
    refuses_run("12 comes before 13", holding(plain(above, 2, 1, 100, 2), zero, 2), 1, 12, IGB_ENTRY_OVER_VARS, 0);
    refuses_run("15 comes before 13", holding(nothing, zeros, 257), 1, 12, IGB_MANY_HELD, 256);
    runs_list("1,024 clauses and 256 held", holding(plain(many, 1024, 1, 100, 2), ones, 256),
              (igb_report){IGB_NO_MODEL, 0, 1, 0, 0, 0}, (filled){open, none, open, none, call});
    for (size_t i = 0; i + 1 < IGB_ENTRIES_MAX; i++)
        many[i] = 1;
    runs_list("4,096 entries and 256 held", holding(plain(many, 4096, 1, 100, 2), ones, 256), (igb_report){IGB_OK, 0, 2, 0, 1, 0},
              (filled){&forced_on, second, &chunk, one, calls});
}

/* ---- one valid setup */

static void sets_up(const char *what, given g, size_t values_len, igb_report expected, const uint8_t *values)
{
    int refused = expected.answer != IGB_OK && expected.answer != IGB_NO_MODEL && expected.answer != IGB_STOPPED;
    for (size_t k = 0; k < LEN(paints); k++) {
        painted p = paint(values_len, paints[k]);
        int32_t *lent = copied(g.list, g.len * sizeof(int32_t)), *held = copied(g.held, g.held_len * sizeof(int32_t));
        igb_report got = igb_setup(lent, g.len, g.vars, held, g.held_len, g.budget, p.start, values_len);
        CHECK(memcmp(&got, &expected, sizeof got) == 0, what);
        CHECK(g.len == 0 || memcmp(lent, g.list, g.len * sizeof(int32_t)) == 0, what);
        CHECK(g.held_len == 0 || memcmp(held, g.held, g.held_len * sizeof(int32_t)) == 0, what);
        CHECK(kept(&p, refused ? 0 : g.vars), what);
        CHECK(refused || g.vars == 0 || memcmp(p.start, values, g.vars) == 0, what);
        free(lent);
        free(held);
        drop(&p);
    }
}

/* With exact room, with more, and with a byte too few. */
static void sets_up_list(const char *what, given g, igb_report expected, const uint8_t *values)
{
    sets_up(what, g, g.vars, expected, values);
    sets_up(what, g, g.vars + 9, expected, values);
    if (g.vars)
        sets_up(what, g, g.vars - 1, (igb_report){IGB_SHORT_BUFFER, 0, 0, 0, 0, 0}, NULL);
}

static void setups(void)
{
    static const int32_t list[] = {1, 2, 0, 1, -2, 0}, above[] = {2, 0}, not_ended[] = {1};
    static const int32_t two[] = {2}, off[] = {-1}, both[] = {3, -3}, over[] = {1, -2}, ones[IGB_HELD_MAX + 1] = {1};
    static const uint8_t first[] = {1, 0}, second[] = {1, 1}, zeros[] = {0, 0, 0}, stop[] = {1, 0, 0};
    sets_up_list("the first setup", plain(list, 6, 2, 100, 0), (igb_report){IGB_OK, 0, 1, 3, 0, 0}, first);
    sets_up_list("with 2 held", holding(plain(list, 6, 2, 100, 0), two, 1), (igb_report){IGB_OK, 0, 1, 0, 0, 0}, second);
    sets_up_list("with -1 held", holding(plain(list, 6, 2, 100, 0), off, 1), (igb_report){IGB_NO_MODEL, 0, 1, 0, 0, 0}, zeros);
    sets_up_list("with both signs", holding(plain(NULL, 0, 3, 0, 0), both, 2), (igb_report){IGB_NO_MODEL, 0, 1, 0, 0, 0}, zeros);
    sets_up_list("budget 2", holding(plain(NULL, 0, 3, 2, 0), over, 1), (igb_report){IGB_OK, 0, 1, 2, 0, 0}, stop);
    sets_up_list("budget 1", holding(plain(NULL, 0, 3, 1, 0), over, 1), (igb_report){IGB_STOPPED, 0, 1, 1, 0, 0}, zeros);
    sets_up_list("no variable", plain(NULL, 0, 0, 0, 0), (igb_report){IGB_OK, 0, 1, 0, 0, 0}, NULL);
    sets_up("257 variables", plain(NULL, 0, 257, 100, 0), 300, (igb_report){IGB_BAD_LIMITS, 0, 0, 0, 0, 0}, NULL);
    sets_up("10 comes before 1", plain(NULL, 0, 257, 100, 0), 0, (igb_report){IGB_BAD_LIMITS, 0, 0, 0, 0, 0}, NULL);
    sets_up("1 comes before 11", plain(not_ended, 1, 1, 100, 0), 0, (igb_report){IGB_SHORT_BUFFER, 0, 0, 0, 0, 0}, NULL);
    sets_up("not ended by 0", plain(not_ended, 1, 1, 100, 0), 1, (igb_report){IGB_BAD_LIST, 1, 0, 0, 0, 0}, NULL);
    sets_up("12 comes before 13", holding(plain(above, 2, 1, 100, 0), over, 2), 1, (igb_report){IGB_ENTRY_OVER_VARS, 0, 0, 0, 0, 0}, NULL);
    sets_up("257 held", holding(plain(NULL, 0, 1, 100, 0), ones, 257), 1, (igb_report){IGB_MANY_HELD, 256, 0, 0, 0, 0}, NULL);
    sets_up("V + 1 held", holding(plain(NULL, 0, 1, 100, 0), over, 2), 1, (igb_report){IGB_BAD_LITERAL, 1, 0, 0, 0, 0}, NULL);
}

/* ---- the table */

/* The table of a text with a literal held, 0 for none. */
static void prints_held(const char *what, const void *text, size_t len, int32_t literal, size_t out_len, const char *expected)
{
    size_t expected_len = strlen(expected);
    for (size_t k = 0; k < LEN(paints); k++) {
        painted p = paint(out_len, paints[k]);
        uint8_t *lent = copied(text, len);
        CHECK(igb_table(lent, len, &literal, literal != 0, p.start, out_len) == expected_len, what);
        CHECK(len == 0 || memcmp(lent, text, len) == 0, what);
        CHECK(expected_len <= out_len && memcmp(p.start, expected, expected_len) == 0, what);
        CHECK(kept(&p, expected_len), what);
        free(lent);
        drop(&p);
    }
}

static void prints(const char *what, const void *text, size_t len, size_t out_len, const char *expected)
{
    prints_held(what, text, len, 0, out_len, expected);
}

static void tables(void)
{
    static const char small[] = "p cnf 2 2\n1 2 0 1 -2 0\n";
    prints_held("2 held", small, strlen(small), 2, IGB_TABLE_LEN,
                "answer 0 calls 3 tries 0 forced 2 free 0 open 0\n1 forced on held by clause 2\n2 forced on held by clause 3\n");
    prints_held("-1 held", small, strlen(small), -1, IGB_TABLE_LEN, "answer 20 calls 1 tries 0 forced 0 free 0 open 2\n");
    prints_held("3 held", small, strlen(small), 3, IGB_TABLE_LEN, "refused 13 place 0\n");
    prints_held("-3 held, short room", small, strlen(small), -3, IGB_TABLE_LEN - 1, "");
    static const struct {
        const char *text, *table;
    } cases[] = {
        {"p cnf 2 2\n1 2 0 1 -2 0\n", "answer 0 calls 2 tries 3 forced 1 free 1 open 0\n1 forced on held by clause 1\n2 free\n"},
        {"p cnf 1 1\n-1 0\n", "answer 0 calls 2 tries 0 forced 1 free 0 open 0\n1 forced off held by clause 1\n"},
        {"p cnf 1 2\n1 0 -1 0\n", "answer 20 calls 1 tries 0 forced 0 free 0 open 1\n"},
        {"p cnf 1 1\n2 0", "refused 7 place 10\n"},
        {"", "refused 3 place 0\n"},
    };
    for (size_t i = 0; i < LEN(cases); i++) {
        size_t len = strlen(cases[i].text);
        prints("exact room", cases[i].text, len, IGB_TABLE_LEN, cases[i].table);
        prints("more room", cases[i].text, len, IGB_TABLE_LEN + 100, cases[i].table);
        static const size_t shorter[] = {0, 1, 19, 50, 100, 4096, 9214, 9215};
        for (size_t k = 0; k < LEN(shorter); k++)
            prints("short room", cases[i].text, len, shorter[k], "");
    }
    uint8_t *longer = calloc(IGB_TEXT_MAX + 1, 1);
    if (longer)
        prints("32,769 bytes", longer, IGB_TEXT_MAX + 1, IGB_TABLE_LEN, "refused 2 place 32768\n");
    free(longer);
}

/* ---- NULL where a length is 0 */

static int is_report(igb_report got, igb_report expected)
{
    return memcmp(&got, &expected, sizeof got) == 0;
}

static void nulls(void)
{
    const char *what = "NULL";
    int32_t entries[IGB_ENTRIES_LEN] = {1};
    uint8_t out[IGB_TABLE_LEN];
    uint32_t log[12], call, hint;
    uint8_t way;
    int32_t first, other;
    igb_reading none = igb_read(NULL, 0, NULL, 0), empty = igb_read(NULL, 0, entries, IGB_ENTRIES_LEN);
    CHECK(none.answer == IGB_SHORT_BUFFER && none.place == 0 && none.vars == 0 && none.clauses == 0 && none.count == 0, what);
    CHECK(empty.answer == IGB_BAD_HEADER && empty.place == 0 && empty.count == 0 && entries[0] == 0, what);
    CHECK(is_report(igb_run(NULL, 0, 0, NULL, 0, 100, 2, NULL, 0, NULL, 0, NULL, 0, NULL, 0, NULL, 0), (igb_report){IGB_SHORT_BUFFER, 0, 0, 0, 0, 0}), what);
    CHECK(is_report(igb_run(NULL, 0, 0, NULL, 0, 100, 0, NULL, 0, NULL, 0, NULL, 0, NULL, 0, NULL, 0), (igb_report){IGB_BAD_LIMITS, 0, 0, 0, 0, 0}), what);
    CHECK(is_report(igb_run(NULL, 0, 0, NULL, 0, 100, 2, NULL, 0, NULL, 0, NULL, 0, NULL, 0, log, 6), (igb_report){IGB_OK, 0, 1, 0, 0, 0}), what);
    CHECK(is_report(igb_run(NULL, 0, 1, NULL, 0, 100, 2, out, 1, &call, 1, &way, 1, &hint, 1, log, 12), (igb_report){IGB_OK, 0, 1, 1, 0, 1}), what);
    CHECK(is_report(igb_setup(NULL, 0, 0, NULL, 0, 100, NULL, 0), (igb_report){IGB_OK, 0, 1, 0, 0, 0}), what);
    CHECK(is_report(igb_setup(NULL, 0, 1, NULL, 0, 100, NULL, 0), (igb_report){IGB_SHORT_BUFFER, 0, 0, 0, 0, 0}), what);
    CHECK(is_report(igb_witness(NULL, 0, 0, NULL, 0, 100, 2, 0, NULL, 0, NULL, 0), (igb_report){IGB_NOT_FREE, 0, 0, 0, 0, 0}), what);
    CHECK(is_report(igb_witness(NULL, 0, 1, NULL, 0, 100, 2, 1, NULL, 0, &other, 1), (igb_report){IGB_SHORT_BUFFER, 0, 0, 0, 0, 0}), what);
    CHECK(is_report(igb_witness(NULL, 0, 1, NULL, 0, 100, 2, 1, &first, 1, &other, 1), (igb_report){IGB_OK, 0, 1, 1, 0, 1}), what);
    CHECK(igb_witness_text(NULL, 0, 1, NULL, 0) == 0, what);
    CHECK(igb_witness_text(NULL, 0, 1, out, IGB_TABLE_LEN) == 18 && memcmp(out, "refused 3 place 0\n", 18) == 0, what);
    CHECK(igb_table(NULL, 0, NULL, 0, NULL, 0) == 0, what);
    CHECK(igb_table(NULL, 0, NULL, 0, out, IGB_TABLE_LEN) == 18 && memcmp(out, "refused 3 place 0\n", 18) == 0, what);
}

int main(void)
{
    layout();
    readings();
    runnings();
    holdings();
    setups();
    tables();
    nulls();
    return ended("interface");
}

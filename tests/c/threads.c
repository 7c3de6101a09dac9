/*
 * Two threads at once, each on buffers of its own, get what one thread alone gets: readings, runs, setups, witnesses and tables of different
 * cards. Words:
 * how many rounds (200 if none is given).
 */
#include "check.h"
#include <pthread.h>

static const char *const cards[] = {
    "p cnf 2 2\n1 2 0 1 -2 0\n",
    "p cnf 12 6\n1 2 3 4 0 -1 -2 0 -3 -4 0 5 6 7 8 9 10 11 12 0 -12 0 11 -10 0\n",
    "p cnf 256 3\n-1 2 0 -3 256 0 17 0\n",
    "p cnf 3 4\n1 2 0 -1 3 0 -2 3 0 -3 0\n",
    "p cnf 1 1\n2 0",
};
enum { CARDS = sizeof cards / sizeof *cards };

/* All that the library says of a card. */
typedef struct {
    igb_reading reading;
    igb_report report, set, shown;
    int32_t entries[IGB_ENTRIES_LEN], first[IGB_WITNESS_LEN], witness[IGB_WITNESS_LEN];
    uint8_t status[IGB_STATUS_LEN], ways[IGB_WAYS_LEN], table[IGB_TABLE_LEN], values[IGB_VALUES_LEN];
    uint32_t calls[IGB_CALLS_LEN], hints[IGB_HINTS_LEN], log[IGB_LOG_LEN];
    size_t table_len;
} said;

static said alone[CARDS];
static int rounds = 200;

static void ask(const char *card, said *s)
{
    memset(s, 0, sizeof *s);
    const uint8_t *text = (const uint8_t *)card;
    static const int32_t held[] = {1};
    s->reading = igb_read(text, strlen(card), s->entries, IGB_ENTRIES_LEN);
    s->report = igb_run(s->entries, s->reading.count, s->reading.vars, NULL, 0, IGB_TABLE_BUDGET, IGB_TABLE_CHUNK, s->status, IGB_STATUS_LEN,
                        s->calls, IGB_CALLS_LEN, s->ways, IGB_WAYS_LEN, s->hints, IGB_HINTS_LEN, s->log, IGB_LOG_LEN);
    s->set = igb_setup(s->entries, s->reading.count, s->reading.vars, held, 1, IGB_TABLE_BUDGET, s->values, IGB_VALUES_LEN);
    s->shown = igb_witness(s->entries, s->reading.count, s->reading.vars, NULL, 0, IGB_TABLE_BUDGET, IGB_TABLE_CHUNK, 2, s->first,
                           IGB_WITNESS_LEN, s->witness, IGB_WITNESS_LEN);
    s->table_len = igb_table(text, strlen(card), NULL, 0, s->table, IGB_TABLE_LEN);
}

/* How often this thread got something else; the cards are asked from `from` on. */
static void *differing(void *from)
{
    said *mine = room(sizeof *mine);
    size_t *count = room(sizeof *count);
    *count = 0;
    for (int i = 0; i < rounds * CARDS; i++) {
        size_t k = (*(size_t *)from + (size_t)i) % CARDS;
        ask(cards[k], mine);
        *count += memcmp(mine, &alone[k], sizeof *mine) != 0;
    }
    free(mine);
    return count;
}

int main(int argc, char **argv)
{
    if (argc == 2)
        rounds = atoi(argv[1]);
    for (size_t k = 0; k < CARDS; k++)
        ask(cards[k], &alone[k]);
    size_t from[2] = {0, 1};
    pthread_t threads[2];
    for (int t = 0; t < 2; t++)
        CHECK(pthread_create(&threads[t], NULL, differing, &from[t]) == 0, "a thread begins");
    for (int t = 0; t < 2; t++) {
        void *count = NULL;
        CHECK(pthread_join(threads[t], &count) == 0, "a thread ends");
        CHECK(count && *(size_t *)count == 0, "the same as alone");
        free(count);
    }
    return ended("threads");
}

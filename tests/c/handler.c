/*
 * A signal handler that calls the library, on buffers of its own and an alternate stack of IGB_STACK_BYTES, while the call that it interrupts
 * is at work: both get what they get alone, and errno is left alone. Words: how many signals (100 if none is given).
 */
#define _GNU_SOURCE
#include "check.h"
#include <errno.h>
#include <signal.h>
#include <sys/time.h>

/* No pigeon has a hole of its own: the run goes on until its budget ends it. */
enum { PIGEONS = 9, HOLES = 8, TRIES = 20000 };

static const char small[] = "p cnf 12 6\n1 2 3 4 0 -1 -2 0 -3 -4 0 5 6 7 8 9 10 11 12 0 -12 0 11 -10 0\n";
static uint8_t expected[IGB_TABLE_LEN], table[IGB_TABLE_LEN];
static size_t expected_len;
static volatile sig_atomic_t signals, wrong;

static void handler(int number)
{
    (void)number;
    errno = ERANGE;
    size_t len = igb_table((const uint8_t *)small, sizeof small - 1, NULL, 0, table, IGB_TABLE_LEN);
    wrong += len != expected_len || memcmp(table, expected, len) != 0 || errno != ERANGE;
    signals++;
}

int main(int argc, char **argv)
{
    int wanted = argc > 1 ? atoi(argv[1]) : 100;
    static int32_t entries[IGB_ENTRIES_LEN];
    static uint8_t status[IGB_STATUS_LEN], ways[IGB_WAYS_LEN];
    static uint32_t calls[IGB_CALLS_LEN], hints[IGB_HINTS_LEN], rows[IGB_LOG_LEN];
    size_t n = 0;
    for (int32_t p = 0; p < PIGEONS; p++) {
        for (int32_t h = 1; h <= HOLES; h++)
            entries[n++] = p * HOLES + h;
        entries[n++] = 0;
    }
    for (int32_t h = 1; h <= HOLES; h++)
        for (int32_t p = 0; p < PIGEONS; p++)
            for (int32_t q = p + 1; q < PIGEONS; q++) {
                entries[n++] = -(p * HOLES + h);
                entries[n++] = -(q * HOLES + h);
                entries[n++] = 0;
            }
    expected_len = igb_table((const uint8_t *)small, sizeof small - 1, NULL, 0, expected, IGB_TABLE_LEN);
    CHECK(expected_len > 0, "the handler's table");

    stack_t own = {.ss_sp = room(IGB_STACK_BYTES), .ss_size = IGB_STACK_BYTES};
    struct sigaction act = {.sa_handler = handler, .sa_flags = SA_ONSTACK | SA_RESTART};
    struct itimerval each = {{0, 1000}, {0, 1000}}, never = {{0, 0}, {0, 0}};
    CHECK(sigaltstack(&own, NULL) == 0 && sigaction(SIGPROF, &act, NULL) == 0, "the handler");
    setitimer(ITIMER_PROF, &each, NULL);
    while (signals < wanted) {
        igb_report got = igb_run(entries, n, PIGEONS * HOLES, NULL, 0, TRIES, 16, status, IGB_STATUS_LEN, calls, IGB_CALLS_LEN, ways,
                                 IGB_WAYS_LEN, hints, IGB_HINTS_LEN, rows, IGB_LOG_LEN);
        CHECK(got.answer == IGB_STOPPED && got.calls == 1 && got.tries == TRIES && rows[IGB_LOG_TRIES] == TRIES, "the run that is interrupted");
    }
    setitimer(ITIMER_PROF, &never, NULL);
    CHECK(wrong == 0, "the call of the handler");
    free(own.ss_sp);
    return ended("handler");
}

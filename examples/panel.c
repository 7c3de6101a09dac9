/*
 * panel CARD TICK...: a settings panel. A tick is 3 for switch 3 on and -3 for off. After each it says which other switches grey out, and by
 * which rule; a tick that no setup allows is taken back. At the end stands one setup with all ticks.
 */
#include <igbezolum.h>
#include <stdio.h>
#include <stdlib.h>
#include <string.h>

static uint8_t text[IGB_TEXT_MAX + 1], status[IGB_STATUS_LEN], ways[IGB_WAYS_LEN], greyed[IGB_STATUS_LEN], values[IGB_VALUES_LEN];
static int32_t entries[IGB_ENTRIES_LEN], held[IGB_HELD_MAX];
static uint32_t calls[IGB_CALLS_LEN], hints[IGB_HINTS_LEN], rows[IGB_LOG_LEN];
static igb_reading card;
static size_t ticks;

static int is_forced(uint8_t s)
{
    return s == IGB_FORCED_ON || s == IGB_FORCED_OFF;
}

static int is_ticked(uint32_t v)
{
    for (size_t i = 0; i < ticks; i++)
        if (held[i] == (int32_t)v || held[i] == -(int32_t)v)
            return 1;
    return 0;
}

/* The switches that are forced now and were not before, but for those that are ticked. */
static void say_greyed(void)
{
    const char *between = " ";
    for (uint32_t v = 1; v <= card.vars; v++) {
        if (is_forced(status[v - 1]) && !is_forced(greyed[v - 1]) && !is_ticked(v)) {
            printf("%s%u %s by rule %u", between, (unsigned)v, status[v - 1] == IGB_FORCED_ON ? "on" : "off", (unsigned)hints[v - 1]);
            between = ", ";
        }
    }
    puts(*between == ',' ? "" : " nothing more greys out");
    memcpy(greyed, status, sizeof greyed);
}

/* The run with the ticks so far; 0 if no setup has them. */
static int show(void)
{
    igb_report run = igb_run(entries, card.count, card.vars, held, ticks, IGB_TABLE_BUDGET, IGB_TABLE_CHUNK, status, IGB_STATUS_LEN,
                             calls, IGB_CALLS_LEN, ways, IGB_WAYS_LEN, hints, IGB_HINTS_LEN, rows, IGB_LOG_LEN);
    if (run.answer == IGB_NO_MODEL)
        return 0;
    if (run.answer == IGB_OK)
        say_greyed();
    else
        printf(" answer %u place %u\n", (unsigned)run.answer, (unsigned)run.place);
    return 1;
}

static void tick(const char *word)
{
    printf("tick %s:", word);
    if (ticks == IGB_HELD_MAX) {
        puts(" there are too many");
        return;
    }
    held[ticks++] = (int32_t)strtol(word, NULL, 10);
    if (!show()) {
        ticks--;
        puts(" no setup is valid; it is taken back");
    }
}

int main(int argc, char **argv)
{
    FILE *file = argc >= 2 ? fopen(argv[1], "rb") : NULL;
    size_t length = file ? fread(text, 1, sizeof text, file) : 0;
    if (!file || ferror(file) || fclose(file)) {
        fprintf(stderr, "use: panel CARD TICK..., with a file that can be read\n");
        return 2;
    }
    card = igb_read(text, length, entries, IGB_ENTRIES_LEN);
    if (card.answer != IGB_OK) {
        fprintf(stderr, "panel: refused %u at byte %u\n", (unsigned)card.answer, (unsigned)card.place);
        return 1;
    }
    printf("at first:");
    if (!show()) {
        puts(" no setup is valid");
        return 1;
    }
    for (int i = 2; i < argc; i++)
        tick(argv[i]);
    igb_report set = igb_setup(entries, card.count, card.vars, held, ticks, IGB_TABLE_BUDGET, values, IGB_VALUES_LEN);
    printf("one setup has on:");
    for (uint32_t v = 1; set.answer == IGB_OK && v <= card.vars; v++)
        if (values[v - 1])
            printf(" %u", (unsigned)v);
    puts("");
    return set.answer != IGB_OK;
}

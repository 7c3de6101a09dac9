/* forced CARD: which switches of a card's rules are always on or always off, and which rule holds each, one line a switch. */
#include <igbezolum.h>
#include <stdio.h>

static uint8_t text[IGB_TEXT_MAX + 1], status[IGB_STATUS_LEN], ways[IGB_WAYS_LEN]; /* with a byte more than is taken, a longer text is refused */
static int32_t entries[IGB_ENTRIES_LEN];
static uint32_t calls[IGB_CALLS_LEN], hints[IGB_HINTS_LEN], rows[IGB_LOG_LEN];

int main(int argc, char **argv)
{
    FILE *file = argc == 2 ? fopen(argv[1], "rb") : NULL;
    size_t length = file ? fread(text, 1, sizeof text, file) : 0;
    if (!file || ferror(file) || fclose(file)) {
        fprintf(stderr, "use: forced CARD, a file that can be read\n");
        return 2;
    }
    igb_reading card = igb_read(text, length, entries, IGB_ENTRIES_LEN);
    if (card.answer != IGB_OK) {
        fprintf(stderr, "forced: refused %u at byte %u\n", (unsigned)card.answer, (unsigned)card.place);
        return 1;
    }
    igb_report run = igb_run(entries, card.count, card.vars, NULL, 0, IGB_TABLE_BUDGET, IGB_TABLE_CHUNK, status, IGB_STATUS_LEN, calls,
                             IGB_CALLS_LEN, ways, IGB_WAYS_LEN, hints, IGB_HINTS_LEN, rows, IGB_LOG_LEN);
    for (uint32_t v = 1; v <= card.vars; v++)
        if (status[v - 1] == IGB_FORCED_ON || status[v - 1] == IGB_FORCED_OFF)
            printf("switch %u is always %s, held by rule %u\n", (unsigned)v, status[v - 1] == IGB_FORCED_ON ? "on" : "off",
                   (unsigned)hints[v - 1]);
    if (run.answer != IGB_OK)
        puts(run.answer == IGB_NO_MODEL ? "no setup is valid" : "stopped by the budget: other switches may be forced too");
    return run.answer != IGB_OK;
}

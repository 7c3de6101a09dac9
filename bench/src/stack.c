/* How many bytes of stack a run touches: it is made on a thread whose stack was painted, and what is no longer painted is counted.
   Less the bytes of a thread that does nothing. Returns 0 if no such thread could be made. */
#include <igbezolum.h>
#include <pthread.h>
#include <stdlib.h>
#include <string.h>

size_t bench_stack(const int32_t *entries, size_t entries_len, uint32_t vars, uint32_t budget, uint32_t chunk_limit);

enum { STACK = 8 << 20, PAINT = 0xA5 };

typedef struct {
    const int32_t *entries;
    size_t entries_len;
    uint32_t vars, budget, chunk_limit;
    uint8_t status[IGB_STATUS_LEN], ways[IGB_WAYS_LEN];
    uint32_t calls[IGB_CALLS_LEN], hints[IGB_HINTS_LEN], log[IGB_LOG_LEN];
} task;

static void *nothing(void *given) { return given; }

static void *one_run(void *given) {
    task *t = given;
    igb_run(t->entries, t->entries_len, t->vars, NULL, 0, t->budget, t->chunk_limit, t->status, IGB_STATUS_LEN, t->calls, IGB_CALLS_LEN,
            t->ways, IGB_WAYS_LEN, t->hints, IGB_HINTS_LEN, t->log, IGB_LOG_LEN);
    return given;
}

static size_t touched(void *(*body)(void *), task *t) {
    pthread_attr_t attr;
    pthread_t thread;
    void *stack;
    size_t untouched = 0;
    if (posix_memalign(&stack, 4096, STACK) != 0) return 0;
    memset(stack, PAINT, STACK);
    pthread_attr_init(&attr);
    if (pthread_attr_setstack(&attr, stack, STACK) == 0 && pthread_create(&thread, &attr, body, t) == 0) {
        pthread_join(thread, NULL);
        while (untouched < STACK && ((uint8_t *)stack)[untouched] == PAINT) untouched++;
    } else {
        untouched = STACK;
    }
    pthread_attr_destroy(&attr);
    free(stack);
    return STACK - untouched;
}

size_t bench_stack(const int32_t *entries, size_t entries_len, uint32_t vars, uint32_t budget, uint32_t chunk_limit) {
    static task t;
    t = (task){.entries = entries, .entries_len = entries_len, .vars = vars, .budget = budget, .chunk_limit = chunk_limit};
    size_t idle = touched(nothing, &t);
    size_t run = touched(one_run, &t);
    return run > idle ? run - idle : 0;
}

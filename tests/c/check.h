/* What the tests from C share: counted checks, and buffers that are painted between two guards. */
#ifndef CHECK_H
#define CHECK_H

#include <igbezolum.h>
#include <stdio.h>
#include <stdlib.h>
#include <string.h>

static int checks, failures;

/* One check: a line on the error output if it does not hold. */
#define CHECK(holds, what) check((holds), (what), #holds, __LINE__)

static inline void check(int holds, const char *what, const char *condition, int line)
{
    checks++;
    if (!holds) {
        failures++;
        fprintf(stderr, "line %d: %s: %s\n", line, what, condition);
    }
}

static inline int ended(const char *name)
{
    printf("%s: %d checks, %d failed\n", name, checks, failures);
    return failures != 0;
}

static inline void *room(size_t bytes)
{
    void *start = malloc(bytes ? bytes : 1);
    if (!start) {
        fprintf(stderr, "no memory\n");
        exit(2);
    }
    return start;
}

/* A copy in a block of its own, so that valgrind sees a byte read behind it. */
static inline void *copied(const void *from, size_t bytes)
{
    void *start = room(bytes);
    if (bytes)
        memcpy(start, from, bytes);
    return start;
}

enum { GUARD = 256 };

/* `bytes` bytes between two guards. All of it is painted, and `paint` has a copy. */
typedef struct {
    uint8_t *whole, *paint, *start;
    size_t bytes;
} painted;

static inline painted paint(size_t bytes, uint32_t seed)
{
    painted p = {room(bytes + 2 * GUARD), NULL, NULL, bytes};
    for (size_t i = 0; i < bytes + 2 * GUARD; i++) {
        seed = seed * 1664525u + 1013904223u;
        p.whole[i] = (uint8_t)(seed >> 24);
    }
    p.paint = copied(p.whole, bytes + 2 * GUARD);
    p.start = p.whole + GUARD;
    return p;
}

/* The bytes before the buffer, and those from index `from` on with the guard behind it, are as they were painted. */
static inline int kept(const painted *p, size_t from)
{
    return memcmp(p->whole, p->paint, GUARD) == 0 &&
           memcmp(p->start + from, p->paint + GUARD + from, p->bytes - from + GUARD) == 0;
}

static inline void drop(painted *p)
{
    free(p->whole);
    free(p->paint);
}

#endif

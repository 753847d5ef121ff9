/* Lists that are lent to calls, with marked entries on both sides, and the count of what went wrong. */
#ifndef LENT_H
#define LENT_H

#include <stdint.h>
#include <stdio.h>
#include <stdlib.h>
#include <string.h>

enum { MARK = 0xA5 };

/* Marked entries on each side. With none a list ends where its memory ends, and valgrind sees what is read or written
 * beside it. */
static size_t marks;

static unsigned checks, wrong;

/* The case that is tried, for messages. */
static char now[80];

static void check(int good, const char *what)
{
    checks++;
    if (!good) {
        wrong++;
        fprintf(stderr, "%s: %s\n", now, what);
    }
}

typedef struct {
    unsigned char *memory;
    void *list;
    size_t side, bytes;
} lent;

/* A list that holds so many entries of the content. An empty one stands at an address that nobody may touch. */
static lent lend(const void *content, size_t length, size_t entry)
{
    lent l = {NULL, (void *)(uintptr_t)64, marks * entry, length * entry};
    if (length == 0)
        return l;
    l.memory = malloc(2 * l.side + l.bytes);
    if (l.memory == NULL)
        exit(2);
    memset(l.memory, MARK, 2 * l.side + l.bytes);
    l.list = memcpy(l.memory + l.side, content, l.bytes);
    return l;
}

/* The list must hold what is wanted, and the marks must stand. */
static void back(lent l, const void *want, const char *what)
{
    size_t i;
    if (l.memory == NULL)
        return;
    check(memcmp(l.list, want, l.bytes) == 0, what);
    for (i = 0; i < l.side; i++)
        check(l.memory[i] == MARK && l.memory[l.side + l.bytes + i] == MARK, "an entry beside a list is altered");
    free(l.memory);
}

#endif

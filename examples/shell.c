/* Plays a scenario file: prints its width, height and ticks per turn, then the turn in which the front reaches each
 * cell, storey by storey and row by row, `-` for never, as `rings` does; if wished, from which sides it came to each of
 * them, in rows again; then how many rounds the tile run took. `usage` has its words. Boards may have any size that the
 * library takes. The starts go from the reader to the run as one list of records.
 *
 * Rounds are counted up to the horizon: with the stride 100 and the horizon 6,000,000 the bounds are 100, 200, 300 and
 * so on, which makes 60,000 rounds, however early the last cell is reached. Those that end before the front's next step
 * are counted without being worked out. */
#include "refusals.h"

#include <errno.h>
#include <stdio.h>
#include <stdlib.h>
#include <string.h>

static const char usage[] =
    "usage: shell [--sides] FILE [STRIDE [ACROSS DOWN [HORIZON]]]\n"
    "Prints the turns in which a front reaches the cells of the scenario FILE, and how many rounds its tile run takes\n"
    "in tiles of ACROSS by DOWN cells. Left out, STRIDE is 65536, the tiles are 8 by 8, and HORIZON is 6000000.\n"
    "With --sides it also prints from which sides the front came to each cell: l or r for left or right, a or b for\n"
    "above or below, o or u for over or under; . for a start that no front came before, - for never.\n";

enum { MOST_CELLS = 256 * 256 };

typedef struct { uint32_t stride, across, down, horizon; int with_sides; } options;

/* Lists that are long enough for every board. */
typedef struct { uint32_t *slow, *order, *times, *work; uint8_t *sides; murgolab_start *starts; } lists;

static int refused(const char *name, uint32_t number, size_t place)
{
    fprintf(stderr, "shell: %s: refused by %u: %s", name, (unsigned)number, refusals[number]);
    if (number == MURGOLAB_START_CELL || number == MURGOLAB_START_ORDER)
        fprintf(stderr, ": start %zu, counted from 0", place);
    fputc('\n', stderr);
    return 1;
}

/* The status for what was printed: 1, with a message, where it could not all be written. */
static int written(void)
{
    int failed = ferror(stdout);
    if (fclose(stdout) == 0 && !failed)
        return 0;
    fprintf(stderr, "shell: cannot write what it prints: %s\n", strerror(errno));
    return 1;
}

static uint32_t tiles_along(uint32_t side, uint32_t tile)
{
    return tile == 0 ? 0 : side / tile + (side % tile > 0);
}

static void print_turn(uint32_t time, uint32_t ticks)
{
    uint32_t turn = murgolab_turn(time, ticks).turn;
    if (turn == MURGOLAB_NEVER)
        putchar('-');
    else
        printf("%u", (unsigned)turn);
}

static void print_sides(uint32_t time, uint8_t sides)
{
    static const char letters[] = "lrabou"; /* one for each bit of a byte of sides, from the lowest on */
    uint32_t bit;
    if (time == MURGOLAB_NEVER)
        putchar('-');
    else if (sides == 0)
        putchar('.');
    for (bit = 0; letters[bit] != '\0'; bit++)
        if (sides >> bit & 1)
            putchar(letters[bit]);
}

/* What stands behind a cell: it may end a row. */
static void print_gap(uint32_t cell, uint32_t width)
{
    putchar((cell + 1) % width == 0 ? '\n' : ' ');
}

static int play(const char *name, const uint8_t *file, size_t length, options o, lists l)
{
    uint32_t cells, tiles, i;
    murgolab_reply run;
    murgolab_scenario s = murgolab_read_scenario(file, length, l.slow, MOST_CELLS, l.starts, MOST_CELLS);
    if (s.number != MURGOLAB_ACCEPTED)
        return refused(name, s.number, s.place);
    cells = s.width * s.height * s.storeys;
    tiles = tiles_along(s.width, o.across) * tiles_along(s.height, o.down);
    for (i = 0; i < tiles; i++)
        l.order[i] = i;
    run = murgolab_tile_run(s.width, s.height, s.storeys, l.slow, cells, l.starts, s.starts, o.across, o.down, o.stride,
        o.horizon, l.order, tiles, l.times, cells, l.sides, cells, l.work, 4 * (size_t)cells);
    if (run.number != MURGOLAB_ACCEPTED)
        return refused(name, run.number, run.place);
    printf("%u %u %u\n", (unsigned)s.width, (unsigned)s.height, (unsigned)s.ticks);
    for (i = 0; i < cells; i++) { /* so storeys stand one below the other */
        print_turn(l.times[i], s.ticks);
        print_gap(i, s.width);
    }
    for (i = 0; i < cells && o.with_sides; i++) {
        print_sides(l.times[i], l.sides[i]);
        print_gap(i, s.width);
    }
    printf("%u rounds\n", (unsigned)run.count);
    return written();
}

/* The whole file; null, with a message, where it cannot be read. */
static uint8_t *load(const char *name, size_t *length)
{
    size_t room = 0, got = 1;
    uint8_t *file = NULL, *more = NULL;
    FILE *from = fopen(name, "rb");
    *length = 0;
    while (from != NULL && got > 0) {
        if (*length == room) {
            room += 1 << 20;
            more = realloc(file, room);
            if (more == NULL)
                break;
            file = more;
        }
        got = fread(file + *length, 1, room - *length, from);
        *length += got;
    }
    if (from == NULL || more == NULL || ferror(from)) {
        fprintf(stderr, "shell: %s: %s\n", name, strerror(errno));
        free(file);
        file = NULL;
    }
    if (from != NULL)
        fclose(from);
    return file;
}

/* A number of at most 32 bits. */
static int number(const char *word, uint32_t *value)
{
    char *end;
    unsigned long long got;
    errno = 0;
    got = strtoull(word, &end, 10);
    *value = (uint32_t)got;
    return word[0] >= '0' && word[0] <= '9' && *end == '\0' && errno == 0 && got <= UINT32_MAX;
}

static int read_options(int count, char **words, options *o)
{
    uint32_t *values[4];
    int i;
    values[0] = &o->stride;
    values[1] = &o->across;
    values[2] = &o->down;
    values[3] = &o->horizon;
    if (count < 2 || count > 6 || count == 4)
        return 0;
    for (i = 2; i < count; i++)
        if (!number(words[i], values[i - 2]))
            return 0;
    return 1;
}

int main(int count, char **words)
{
    options o = {65536, 8, 8, 6000000, 0};
    lists l;
    size_t length;
    uint8_t *file;
    int status = 1;
    if (count == 2 && strcmp(words[1], "--help") == 0) {
        fputs(usage, stdout);
        return written();
    }
    if (count > 1 && strcmp(words[1], "--sides") == 0) {
        o.with_sides = 1;
        count--;
        words++;
    }
    if (!read_options(count, words, &o)) {
        fputs(usage, stderr);
        return 2;
    }
    l.slow = malloc(MOST_CELLS * sizeof *l.slow);
    l.order = malloc(MOST_CELLS * sizeof *l.order);
    l.times = malloc(MOST_CELLS * sizeof *l.times);
    l.work = malloc(4 * MOST_CELLS * sizeof *l.work);
    l.sides = malloc(MOST_CELLS * sizeof *l.sides);
    l.starts = malloc(MOST_CELLS * sizeof *l.starts);
    file = load(words[1], &length);
    if (file != NULL && l.slow != NULL && l.order != NULL && l.times != NULL && l.work != NULL && l.sides != NULL
        && l.starts != NULL)
        status = play(words[1], file, length, o, l);
    else if (file != NULL)
        fprintf(stderr, "shell: no memory\n");
    free(file);
    free(l.slow);
    free(l.order);
    free(l.times);
    free(l.work);
    free(l.sides);
    free(l.starts);
    return status;
}

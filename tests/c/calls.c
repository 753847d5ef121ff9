/* Every call of the header from C: accepted and refused, with empty lists, with marked entries around each list.
 * `calls MARKS`: so many marked entries on each side. */
#include "murgolab.h"
#include "lent.h"

enum kind { MARCH, ROUND, RUN, KINDS };
enum form { PLAIN, RECORDS, FORMS };

static const char *const names[KINDS] = {"march", "one_round", "tile_run"};
static const char *const endings[FORMS] = {"_plain", ""};

/* The arguments of a march, a round or a run, and the lengths that are stated for its lists. */
typedef struct {
    uint32_t width, height, storeys, across, down, stride, bound;
    size_t slow_len, cells_len, begins_len, order_len, times_len, sides_len, work_len;
    uint32_t slow[10], cells[3], begins[3], order[5];
} game;

/* What an accepted call leaves. */
typedef struct {
    uint32_t times[9];
    uint8_t sides[9];
} front;
enum {
    LEFT = MURGOLAB_LEFT, RIGHT = MURGOLAB_RIGHT, ABOVE = MURGOLAB_ABOVE, BELOW = MURGOLAB_BELOW,
    OVER = MURGOLAB_OVER, UNDER = MURGOLAB_UNDER
};

/* Three by three, slowness 10 along the rows and 20 down the columns, a wall at the end of the first row, one start at
 * the top left; its times and sides by hand. */
#define FURROW MURGOLAB_PAIR(10, 20)
static const game good = {
    3, 3, 1, 2, 2, 20, 52, 9, 1, 1, 4, 9, 9, 38,
    {FURROW, FURROW, 0, FURROW, FURROW, FURROW, FURROW, FURROW, FURROW, FURROW}, {0, 4, 5}, {0, 1000000, 0},
    {3, 1, 0, 2, 3},
};
static const front solved = {
    {0, 10, MURGOLAB_NEVER, 20, 26, 36, 40, 45, 52},
    {0, LEFT, 0, ABOVE, LEFT + ABOVE, LEFT, ABOVE, LEFT + ABOVE, LEFT + ABOVE},
};

/* The same with the slowness 10 both ways. */
static const front solved_even = {
    {0, 10, MURGOLAB_NEVER, 10, 18, 28, 20, 26, 34},
    {0, LEFT, 0, ABOVE, LEFT + ABOVE, LEFT, ABOVE, LEFT + ABOVE, LEFT + ABOVE},
};
static game even_game(void)
{
    game g = good;
    size_t i;
    for (i = 0; i < 10; i++)
        g.slow[i] = i == 2 ? 0 : MURGOLAB_PAIR(10, 10);
    g.bound = 34;
    return g;
}

/* Two by two in two storeys, slowness 10, walls in the last cell of the lower one and over the start. The last cell is
 * reached from the left and from above: under it is a wall. */
static const front solved_house = {
    {0, 10, 10, MURGOLAB_NEVER, MURGOLAB_NEVER, 20, 20, 28, 0}, {0, LEFT, ABOVE, 0, 0, UNDER, UNDER, LEFT + ABOVE, 0},
};
static game house_game(void)
{
    game g = even_game();
    g.width = g.height = g.storeys = 2;
    g.slow_len = g.times_len = g.sides_len = 8;
    g.work_len = 33;
    g.slow[2] = MURGOLAB_PAIR(10, 10);
    g.slow[3] = g.slow[4] = 0;
    g.order_len = 1;
    g.order[0] = 0;
    return g;
}

/* The same without walls: the last cell is reached on three axes at once. */
static const front solved_open = {
    {0, 10, 10, 18, 10, 18, 18, 24, 0},
    {0, LEFT, ABOVE, LEFT + ABOVE, UNDER, LEFT + UNDER, ABOVE + UNDER, LEFT + ABOVE + UNDER, 0},
};
static game open_game(void)
{
    game g = house_game();
    g.slow[3] = g.slow[4] = MURGOLAB_PAIR(10, 10);
    g.bound = 24;
    return g;
}

/* The game's lists as they are lent; starts are its cells and begins as records. */
typedef struct {
    lent slow, cells, begins, starts, order, times, sides, work;
} lists;

static murgolab_reply plain_call(enum kind kind, const game *g, const lists *l)
{
    switch (kind) {
    case MARCH:
        return murgolab_march_plain(g->width, g->height, g->storeys, l->slow.list, g->slow_len,
            l->cells.list, g->cells_len, l->begins.list, g->begins_len, g->bound,
            l->times.list, g->times_len, l->sides.list, g->sides_len, l->work.list, g->work_len);
    case ROUND:
        return murgolab_one_round_plain(g->width, g->height, g->storeys, l->slow.list, g->slow_len,
            l->cells.list, g->cells_len, l->begins.list, g->begins_len, g->across, g->down, g->bound,
            l->order.list, g->order_len,
            l->times.list, g->times_len, l->sides.list, g->sides_len, l->work.list, g->work_len);
    default:
        return murgolab_tile_run_plain(g->width, g->height, g->storeys, l->slow.list, g->slow_len,
            l->cells.list, g->cells_len, l->begins.list, g->begins_len, g->across, g->down, g->stride, g->bound,
            l->order.list, g->order_len,
            l->times.list, g->times_len, l->sides.list, g->sides_len, l->work.list, g->work_len);
    }
}

static murgolab_reply record_call(enum kind kind, const game *g, const lists *l)
{
    switch (kind) {
    case MARCH:
        return murgolab_march(g->width, g->height, g->storeys, l->slow.list, g->slow_len,
            l->starts.list, g->cells_len, g->bound,
            l->times.list, g->times_len, l->sides.list, g->sides_len, l->work.list, g->work_len);
    case ROUND:
        return murgolab_one_round(g->width, g->height, g->storeys, l->slow.list, g->slow_len,
            l->starts.list, g->cells_len, g->across, g->down, g->bound,
            l->order.list, g->order_len,
            l->times.list, g->times_len, l->sides.list, g->sides_len, l->work.list, g->work_len);
    default:
        return murgolab_tile_run(g->width, g->height, g->storeys, l->slow.list, g->slow_len,
            l->starts.list, g->cells_len, g->across, g->down, g->stride, g->bound,
            l->order.list, g->order_len,
            l->times.list, g->times_len, l->sides.list, g->sides_len, l->work.list, g->work_len);
    }
}

static void starts(game *g, size_t count)
{
    g->cells_len = g->begins_len = count;
}

static murgolab_reply reply(uint32_t number, uint32_t count, size_t place)
{
    murgolab_reply r = {number, count, place};
    return r;
}

static void check_reply(murgolab_reply got, murgolab_reply want)
{
    check(got.number == want.number, "another number");
    check(got.count == want.count, "another count");
    check(got.place == want.place, "another place");
}

static void records_of(const uint32_t *cells, const uint32_t *begins, murgolab_start *records)
{
    size_t i;
    for (i = 0; i < 3; i++) {
        records[i].cell = cells[i];
        records[i].time = begins[i];
    }
}

/* Plays the game with times that hold 7, sides that hold 238 and work that holds 9; it must give this answer and leave
 * these times and sides. */
static void play_form(enum form form, enum kind kind, game g, murgolab_reply want, const front *after)
{
    uint32_t times[10], work[40], cleared[40];
    uint8_t sides[10];
    murgolab_start records[3];
    murgolab_reply r;
    lists l;
    size_t i;
    for (i = 0; i < 10; i++)
        times[i] = 7;
    memset(sides, 238, sizeof sides);
    for (i = 0; i < 40; i++) {
        work[i] = 9;
        cleared[i] = i < 4 * g.width * g.height * g.storeys ? 0 : 9;
    }
    records_of(g.cells, g.begins, records);
    l.slow = lend(g.slow, g.slow_len, 4);
    l.cells = lend(g.cells, g.cells_len, 4);
    l.begins = lend(g.begins, g.begins_len, 4);
    l.starts = lend(records, g.cells_len, sizeof *records);
    l.order = lend(g.order, g.order_len, 4);
    l.times = lend(times, g.times_len, 4);
    l.sides = lend(sides, g.sides_len, 1);
    l.work = lend(work, g.work_len, 4);
    sprintf(now, "%s%s, wanted number %u", names[kind], endings[form], (unsigned)want.number);
    r = form == PLAIN ? plain_call(kind, &g, &l) : record_call(kind, &g, &l);
    check_reply(r, want);
    back(l.slow, g.slow, "slow is altered");
    back(l.cells, g.cells, "cells is altered");
    back(l.begins, g.begins, "begins is altered");
    back(l.starts, records, "starts is altered");
    back(l.order, g.order, "order is altered");
    back(l.times, want.number == 0 ? after->times : times, "times");
    back(l.sides, want.number == 0 ? after->sides : sides, "sides");
    back(l.work, want.number == 0 ? cleared : work, "work");
}

/* In every form that the game has: start records have no lists of unequal length. */
static void play(enum kind kind, game g, murgolab_reply want, const front *after)
{
    play_form(PLAIN, kind, g, want, after);
    if (g.cells_len == g.begins_len)
        play_form(RECORDS, kind, g, want, after);
}

static void accepted(enum kind kind, game g, uint32_t count, const front *after)
{
    play(kind, g, reply(0, count, 0), after);
}

/* One case with a change to the good game, or to the house. */
#define REFUSED_FROM(game_, number, place, change) \
    do { game g = game_; change; play(kind, g, reply(number, 0, place), NULL); } while (0)
#define REFUSED_AT(number, place, change) REFUSED_FROM(good, number, place, change)
#define REFUSED(number, change) REFUSED_AT(number, 0, change)
#define NO_HOUSE(number, change) REFUSED_FROM(house_game(), number, 0, change)

static void accepted_games(void)
{
    /* two tiles, the last row being one; all stored times are 7, and each tile sees those of the other */
    static const front rows = {
        {0, 10, MURGOLAB_NEVER, 10, 16, 17, 17, 17, 17},
        {0, LEFT, 0, ABOVE, LEFT + BELOW, LEFT + BELOW, ABOVE, ABOVE, ABOVE},
    };
    /* four tiles, each a cell and the one over it; the start's own is the one that has a start */
    static const front columns = {
        {0, 15, 15, 15, 10, 15, 15, 15, 0},
        {0, LEFT + BELOW, RIGHT + ABOVE, LEFT + ABOVE, RIGHT + BELOW + UNDER, LEFT + BELOW, RIGHT + ABOVE,
            LEFT + ABOVE, 0},
    };
    front never = {{0}, {0}};
    game two_tiles = even_game(), no_starts = good, small_tiles = open_game();
    size_t i;
    for (i = 0; i < 9; i++)
        never.times[i] = MURGOLAB_NEVER;
    accepted(MARCH, good, 8, &solved);
    accepted(RUN, good, 5, &solved);
    accepted(MARCH, even_game(), 8, &solved_even);
    accepted(RUN, even_game(), 4, &solved_even);
    two_tiles.across = 3;
    two_tiles.order_len = 2;
    two_tiles.order[0] = 1;
    two_tiles.order[1] = 0;
    two_tiles.bound = 17;
    accepted(ROUND, two_tiles, 9, &rows);
    accepted(MARCH, house_game(), 6, &solved_house);
    accepted(RUN, house_game(), 3, &solved_house);
    accepted(MARCH, open_game(), 8, &solved_open);
    accepted(RUN, open_game(), 3, &solved_open);
    small_tiles.across = small_tiles.down = 1;
    small_tiles.order_len = 4;
    for (i = 0; i < 4; i++)
        small_tiles.order[i] = (uint32_t)(3 - i);
    accepted(RUN, small_tiles, 4, &solved_open);
    accepted(ROUND, small_tiles, 8, &columns);
    starts(&no_starts, 0);
    accepted(MARCH, no_starts, 0, &never);
    accepted(RUN, no_starts, 3, &never);
}

static void refused_games(enum kind kind)
{
    REFUSED(2, g.width = 0);
    REFUSED(2, g.height = 257);
    REFUSED(4, g.slow_len = 0);
    REFUSED(4, g.slow_len = 10);
    REFUSED(4, g.cells_len = 0);
    REFUSED(4, g.begins_len = 0);
    REFUSED(5, g.slow[8] = MURGOLAB_PAIR(4096, 1));
    REFUSED(5, g.slow[8] = MURGOLAB_PAIR(1, 4096));
    REFUSED(5, g.slow[0] = 10; g.slow[8] = MURGOLAB_PAIR(4096, 0));
    REFUSED(5, g.slow[0] = MURGOLAB_PAIR(0, 65535); g.slow[8] = 10);
    REFUSED(21, g.slow[8] = MURGOLAB_PAIR(10, 0));
    REFUSED(21, g.slow[8] = MURGOLAB_PAIR(0, 10));
    REFUSED(21, g.slow[0] = 4095; g.cells[0] = 9); /* a bare number */
    REFUSED_AT(7, 0, g.cells[0] = 9);
    REFUSED_AT(7, 2, starts(&g, 3); g.cells[2] = 9);
    REFUSED_AT(7, 2, starts(&g, 3); g.cells[1] = 0; g.cells[2] = MURGOLAB_NEVER);
    REFUSED_AT(18, 1, starts(&g, 3); g.cells[1] = 0);
    REFUSED_AT(18, 2, starts(&g, 3); g.cells[2] = 4; g.begins[0] = 1000001);
    REFUSED(5, starts(&g, 3); g.cells[2] = 4; g.slow[8] = MURGOLAB_PAIR(4096, 4096));
    REFUSED(8, g.begins[0] = 1000001);
    REFUSED(9, g.cells[0] = 2);
    REFUSED(10, g.bound = 300000001);
    REFUSED(13, g.times_len = 0);
    REFUSED(13, g.times_len = 10);
    REFUSED(14, g.work_len = 0);
    REFUSED(14, g.work_len = 35);
    REFUSED(14, g.sides_len = 0);
    REFUSED(14, g.sides_len = 8);
    REFUSED(14, g.sides_len = 10);
    REFUSED(14, g.sides_len = 10; g.work_len = 0);
    REFUSED(13, g.times_len = 10; g.sides_len = 10);
    REFUSED(13, g.times_len = 8; g.sides_len = 8; g.work_len = 32);
    REFUSED(2, memset(&g, 0, sizeof g));
    REFUSED(23, g.storeys = 0; g.slow_len = 0);
    REFUSED(4, g.storeys = 0);
    REFUSED(4, g.storeys = 2);
    REFUSED(4, g.storeys = UINT32_MAX);
    REFUSED(4, g.width = g.height = 256; g.storeys = 65536; g.slow_len = 0); /* 0 in 32 bits */
    REFUSED(4, g.width = 3; g.height = 1; g.storeys = 1431655766; g.slow_len = 2); /* 2 in 32 bits */
    NO_HOUSE(23, g.width = g.height = 1; g.storeys = 9; g.slow_len = 9);
    NO_HOUSE(23, g.width = g.height = 1; g.storeys = 10; g.slow_len = 10);
    NO_HOUSE(23, g.slow[7] = FURROW);
    NO_HOUSE(23, g.slow[0] = FURROW; g.cells[0] = 8);
    NO_HOUSE(21, g.slow[0] = FURROW; g.slow[7] = 10);
    NO_HOUSE(5, g.slow[0] = FURROW; g.slow[7] = 10; g.slow[6] = MURGOLAB_PAIR(4096, 0));
    NO_HOUSE(7, g.cells[0] = 8);
    NO_HOUSE(9, g.cells[0] = 4);
    NO_HOUSE(13, g.times_len = 4);
    NO_HOUSE(14, g.work_len = 31);
    NO_HOUSE(14, g.sides_len = 4);
    NO_HOUSE(14, g.sides_len = 9);
    if (kind == MARCH)
        return;
    NO_HOUSE(12, g.order_len = 2; g.order[1] = 1); /* one tile has both storeys */
    REFUSED(11, g.across = 0);
    REFUSED(11, g.down = 257);
    REFUSED(12, g.order_len = 0);
    REFUSED(12, g.order_len = 3);
    REFUSED(12, g.order_len = 5);
    if (kind == RUN)
        REFUSED(10, g.stride = 0);
}

/* The good game's file with furrows for ground and 10 ticks, a late start added: one run, two starts. */
enum { FILE_LENGTH = 20 + 12 + 16 };
static const uint8_t good_file[FILE_LENGTH + 1] = {
    3, 0, 3, 0, 1, 0, 10, 0, 10, 0, 20, 0, 1, 0, 0, 0, 2, 0, 0, 0,
    2, 0, 0, 0, 1, 0, 0, 0, 0, 0, 0, 0,
    0, 0, 0, 0, 0, 0, 0, 0, 4, 0, 0, 0, 0x40, 0x42, 0x0F, 0,
    77,
};

/* The house's with 10 ticks: one run, which goes from one storey to the next, and two starts. */
static const uint8_t house_file[FILE_LENGTH] = {
    2, 0, 2, 0, 2, 0, 10, 0, 10, 0, 10, 0, 1, 0, 0, 0, 2, 0, 0, 0,
    3, 0, 0, 0, 2, 0, 0, 0, 0, 0, 0, 0,
    0, 0, 0, 0, 0, 0, 0, 0, 7, 0, 0, 0, 0x40, 0x42, 0x0F, 0,
};

/* What a reader answers, and what it leaves in lists that held 5. */
typedef struct {
    murgolab_scenario answer;
    uint32_t slow[10], cells[3], begins[3];
} content;
static const content good_content = {
    {0, 3, 3, 1, 10, FURROW, 2, 0},
    {FURROW, FURROW, 0, FURROW, FURROW, FURROW, FURROW, FURROW, FURROW, 5}, {0, 4, 5}, {0, 1000000, 5},
};
static const content house_content = {
    {0, 2, 2, 2, 10, MURGOLAB_PAIR(10, 10), 2, 0},
    {MURGOLAB_PAIR(10, 10), MURGOLAB_PAIR(10, 10), MURGOLAB_PAIR(10, 10), 0, 0, MURGOLAB_PAIR(10, 10),
        MURGOLAB_PAIR(10, 10), MURGOLAB_PAIR(10, 10), 5, 5}, {0, 7, 5}, {0, 1000000, 5},
};

/* Between the last two fields are bytes of no meaning. */
static void check_scenario(murgolab_scenario got, murgolab_scenario want)
{
    check(got.number == want.number, "another number");
    check(got.width == want.width && got.height == want.height && got.storeys == want.storeys, "another size");
    check(got.ticks == want.ticks && got.ground == want.ground && got.starts == want.starts, "another answer");
    check(got.place == want.place, "another place");
}

static void read_file(const content *held, const uint8_t *bytes, size_t length, size_t slow_len, size_t cells_len,
    size_t begins_len, uint32_t number, size_t place)
{
    static const uint32_t garbage[10] = {5, 5, 5, 5, 5, 5, 5, 5, 5, 5};
    murgolab_scenario s, none = {0, 0, 0, 0, 0, 0, 0, 0};
    murgolab_start records[3];
    int form;
    records_of(held->cells, held->begins, records);
    none.number = number;
    none.place = place;
    for (form = PLAIN; form < (cells_len == begins_len ? FORMS : RECORDS); form++) {
        lent file = lend(bytes, length, 1), lent_slow = lend(garbage, slow_len, 4),
             lent_cells = lend(garbage, cells_len, 4), lent_begins = lend(garbage, begins_len, 4),
             lent_starts = lend(garbage, cells_len, sizeof *records);
        sprintf(now, "read_scenario%s, wanted number %u", endings[form], (unsigned)number);
        if (form == PLAIN)
            s = murgolab_read_scenario_plain(file.list, length, lent_slow.list, slow_len, lent_cells.list, cells_len,
                lent_begins.list, begins_len);
        else
            s = murgolab_read_scenario(file.list, length, lent_slow.list, slow_len, lent_starts.list, cells_len);
        check_scenario(s, number == 0 ? held->answer : none);
        back(file, bytes, "file is altered");
        back(lent_slow, number == 0 ? held->slow : garbage, "slow");
        back(lent_cells, number == 0 && form == PLAIN ? held->cells : garbage, "cells");
        back(lent_begins, number == 0 && form == PLAIN ? held->begins : garbage, "begins");
        back(lent_starts, number == 0 && form == RECORDS ? (const void *)records : garbage, "starts");
    }
}

static void read_good(size_t length, size_t slow_len, size_t cells_len, size_t begins_len, uint32_t number)
{
    read_file(&good_content, good_file, length, slow_len, cells_len, begins_len, number, 0);
}

/* A file of the good one's length with one byte put in. */
static void with_byte(const uint8_t *from, size_t at, uint8_t byte, uint8_t *file)
{
    memcpy(file, from, FILE_LENGTH);
    file[at] = byte;
}

static void read_with(size_t at, uint8_t byte, uint32_t number, size_t place)
{
    uint8_t file[FILE_LENGTH];
    with_byte(good_file, at, byte, file);
    read_file(&good_content, file, FILE_LENGTH, 9, 2, 2, number, place);
}

static void read_house_with(size_t at, uint8_t byte, uint32_t number, size_t place)
{
    uint8_t file[FILE_LENGTH];
    with_byte(house_file, at, byte, file);
    read_file(&house_content, file, FILE_LENGTH, 8, 2, 2, number, place);
}

static void reading(void)
{
    read_good(FILE_LENGTH, 9, 2, 2, 0);
    read_good(FILE_LENGTH, 10, 3, 3, 0);
    read_good(0, 0, 0, 0, 1);
    read_good(0, 9, 2, 2, 1);
    read_good(19, 9, 2, 2, 1);
    read_good(FILE_LENGTH - 1, 9, 2, 2, 1);
    read_good(FILE_LENGTH + 1, 9, 2, 2, 1);
    read_with(0, 0, 2, 0);
    read_with(6, 0, 3, 0);
    read_with(9, 16, 5, 0);
    read_with(11, 16, 5, 0);
    read_with(29, 16, 5, 0);
    read_with(31, 16, 5, 0);
    read_with(8, 0, 21, 0);
    read_with(10, 0, 21, 0);
    read_with(28, 10, 21, 0);
    read_with(30, 20, 21, 0);
    read_with(4, 0, 23, 0);
    read_with(4, 2, 23, 0);
    read_with(4, 9, 23, 0);
    read_with(5, 255, 23, 0);
    read_with(24, 0, 6, 0);
    read_with(32, 9, 7, 0);
    read_with(40, 9, 7, 1);
    read_with(32, 4, 18, 1);
    read_with(46, 0x10, 8, 0);
    read_with(40, 2, 9, 0);
    read_good(FILE_LENGTH, 8, 2, 2, 14);
    read_good(FILE_LENGTH, 9, 1, 2, 14);
    read_good(FILE_LENGTH, 9, 2, 1, 14);
    read_good(FILE_LENGTH, 0, 0, 0, 14);
    read_house_with(4, 2, 0, 0);
    read_house_with(4, 9, 23, 0);
    read_house_with(8, 11, 23, 0);
    read_house_with(8, 0, 21, 0);
    read_house_with(4, 1, 6, 0); /* the run goes past four cells */
    read_house_with(40, 8, 7, 1);
    read_house_with(40, 4, 9, 0);
    read_house_with(4, 3, 14, 0);
    read_file(&house_content, house_file, FILE_LENGTH, 10, 3, 3, 0, 0);
    read_file(&house_content, house_file, FILE_LENGTH, 7, 2, 2, 14, 0);
}

static void write_file(game g, uint32_t ticks, uint32_t ground, size_t out_len, uint32_t number, size_t place)
{
    const uint8_t *file = g.storeys == 1 ? good_file : house_file;
    uint8_t garbage[FILE_LENGTH + 1];
    murgolab_start records[3];
    murgolab_reply r;
    int form;
    memset(garbage, 77, sizeof garbage);
    records_of(g.cells, g.begins, records);
    for (form = PLAIN; form < (g.cells_len == g.begins_len ? FORMS : RECORDS); form++) {
        lent slow = lend(g.slow, g.slow_len, 4), cells = lend(g.cells, g.cells_len, 4),
             begins = lend(g.begins, g.begins_len, 4), starts = lend(records, g.cells_len, sizeof *records),
             out = lend(garbage, out_len, 1);
        sprintf(now, "write_scenario%s, wanted number %u", endings[form], (unsigned)number);
        if (form == PLAIN)
            r = murgolab_write_scenario_plain(g.width, g.height, g.storeys, ticks, ground, slow.list, g.slow_len,
                cells.list, g.cells_len, begins.list, g.begins_len, out.list, out_len);
        else
            r = murgolab_write_scenario(g.width, g.height, g.storeys, ticks, ground, slow.list, g.slow_len,
                starts.list, g.cells_len, out.list, out_len);
        check_reply(r, reply(number, number == 0 ? FILE_LENGTH : 0, place));
        back(slow, g.slow, "slow is altered");
        back(cells, g.cells, "cells is altered");
        back(begins, g.begins, "begins is altered");
        back(starts, records, "starts is altered");
        back(out, number == 0 ? file : garbage, "out");
    }
}

#define UNWRITTEN_AT(number, place, change) \
    do { game g = two; change; write_file(g, 10, FURROW, FILE_LENGTH, number, place); } while (0)
#define UNWRITTEN(number, change) UNWRITTEN_AT(number, 0, change)

static void writing(void)
{
    const uint32_t ten = MURGOLAB_PAIR(10, 10);
    game two = good, house = house_game(), bad = house;
    starts(&two, 2);
    starts(&house, 2);
    house.cells[1] = 7;
    write_file(house, 10, ten, FILE_LENGTH, 0, 0);
    write_file(house, 10, ten, FILE_LENGTH - 1, 14, 0);
    write_file(house, 10, FURROW, FILE_LENGTH, 23, 0);
    write_file(house, 10, 10, FILE_LENGTH, 21, 0);
    bad.slow[7] = FURROW;
    write_file(bad, 10, ten, FILE_LENGTH, 23, 0);
    bad.storeys = 1;
    write_file(bad, 10, ten, FILE_LENGTH, 4, 0);
    write_file(two, 10, FURROW, FILE_LENGTH, 0, 0);
    write_file(two, 10, FURROW, FILE_LENGTH + 1, 0, 0);
    write_file(two, 10, FURROW, FILE_LENGTH - 1, 14, 0);
    write_file(two, 10, FURROW, 0, 14, 0);
    write_file(two, 0, FURROW, FILE_LENGTH, 3, 0);
    write_file(two, 65536, FURROW, FILE_LENGTH, 3, 0);
    write_file(two, 10, MURGOLAB_PAIR(4096, 1), FILE_LENGTH, 5, 0);
    write_file(two, 10, MURGOLAB_PAIR(1, 4096), FILE_LENGTH, 5, 0);
    write_file(two, 10, MURGOLAB_PAIR(10, 0), FILE_LENGTH, 21, 0);
    write_file(two, 10, MURGOLAB_PAIR(0, 20), FILE_LENGTH, 21, 0);
    UNWRITTEN(2, g.width = 257);
    UNWRITTEN(2, memset(&g, 0, sizeof g));
    UNWRITTEN(4, g.slow_len = 0);
    UNWRITTEN(4, g.slow_len = 8);
    UNWRITTEN(4, g.cells_len = 0);
    UNWRITTEN(4, g.begins_len = 0);
    UNWRITTEN(5, g.slow[0] = MURGOLAB_PAIR(4096, 1));
    UNWRITTEN(5, g.slow[0] = 10; g.slow[8] = MURGOLAB_PAIR(1, 4096));
    UNWRITTEN(21, g.slow[0] = 10);
    UNWRITTEN(21, g.slow[8] = MURGOLAB_PAIR(0, 10); g.cells[1] = 9);
    UNWRITTEN_AT(7, 1, g.cells[1] = 9);
    UNWRITTEN_AT(18, 1, g.cells[1] = 0);
    UNWRITTEN(8, g.begins[1] = 1000001);
    UNWRITTEN(9, g.cells[1] = 2);
}

static void tablet_call(const uint8_t *bytes, size_t length, uint32_t stride, uint32_t across, uint32_t down,
    size_t out_len, uint64_t want)
{
    uint8_t garbage[4 * 9 + 1], times[4 * 9 + 1];
    uint64_t answer;
    lent file = lend(bytes, length, 1), out;
    const uint32_t *after = bytes == house_file ? solved_house.times : solved.times;
    size_t i, cells = bytes == house_file ? 8 : 9;
    memset(garbage, 77, sizeof garbage);
    memcpy(times, garbage, sizeof times);
    for (i = 0; i < 4 * cells; i++)
        times[i] = (uint8_t)(after[i / 4] >> 8 * (i % 4));
    out = lend(garbage, out_len, 1);
    sprintf(now, "tablet_run, wanted answer %u", (unsigned)want);
    answer = murgolab_tablet_run(file.list, length, stride, across, down, out.list, out_len);
    check(answer == want, "another answer");
    back(file, bytes, "file is altered");
    back(out, want >= 256 ? times : garbage, "out");
}

static void tablet_with(size_t at, uint8_t byte, uint64_t want)
{
    uint8_t file[FILE_LENGTH];
    with_byte(good_file, at, byte, file);
    tablet_call(file, FILE_LENGTH, 6000000, 3, 3, 36, want);
}

static void tablet(void)
{
    /* one tile: one round reaches all, the next alters nothing */
    tablet_call(good_file, FILE_LENGTH, 6000000, 3, 3, 36, 256 * 2);
    tablet_call(good_file, FILE_LENGTH, 300000000, 256, 256, 37, 256 * 2);
    tablet_call(house_file, FILE_LENGTH, 6000000, 2, 2, 32, 256 * 2);
    tablet_call(house_file, FILE_LENGTH, 300000000, 256, 256, 37, 256 * 2);
    tablet_call(house_file, FILE_LENGTH, 6000000, 2, 2, 31, 14);
    tablet_call(good_file, 0, 0, 0, 0, 0, 1);
    tablet_call(good_file, FILE_LENGTH - 1, 0, 0, 0, 36, 1);
    tablet_with(0, 0, 2);
    tablet_with(0, 33, 15);
    tablet_with(2, 255, 15);
    tablet_with(4, 114, 15); /* 1,026 cells */
    tablet_with(5, 255, 15);
    tablet_with(6, 0, 3);
    tablet_with(11, 16, 5);
    tablet_with(10, 0, 21);
    tablet_with(28, 10, 21);
    tablet_with(4, 0, 23);
    tablet_with(4, 2, 23);
    tablet_with(4, 113, 23);
    tablet_with(24, 0, 6);
    tablet_with(40, 9, 7);
    tablet_with(32, 4, 18);
    tablet_with(46, 0x10, 8);
    tablet_with(40, 2, 9);
    tablet_call(good_file, FILE_LENGTH, 0, 0, 0, 0, 10);
    tablet_call(good_file, FILE_LENGTH, 300000001, 3, 3, 36, 10);
    tablet_call(good_file, FILE_LENGTH, 1, 0, 3, 0, 11);
    tablet_call(good_file, FILE_LENGTH, 1, 3, 257, 36, 11);
    tablet_call(good_file, FILE_LENGTH, 1, 3, 3, 35, 14);
    tablet_call(good_file, FILE_LENGTH, 1, 3, 3, 0, 14);
}

static void answers(const char *what, murgolab_reply r, uint32_t number, uint32_t count)
{
    sprintf(now, "%s", what);
    check_reply(r, reply(number, count, 0));
}

static void rule(const char *what, murgolab_local_reply r, uint32_t number, uint32_t time, uint32_t sides)
{
    sprintf(now, "local rule %s", what);
    check(r.number == number && r.time == time, "another answer");
    check(r.sides == sides, "other sides");
}

static void turns(const char *what, murgolab_turn_reply r, uint32_t number, uint32_t turn, uint32_t to_go)
{
    sprintf(now, "%s", what);
    check(r.number == number && r.turn == turn && r.to_go == to_go, "another answer");
}

static void numbers(void)
{
    const uint32_t n = MURGOLAB_NEVER;
    rule("of 0 and 4", murgolab_local_rule(10, 10, 0, n, n, 4, n, n), 0, 9, LEFT + BELOW);
    rule("of three axes", murgolab_local_rule(10, 10, n, 0, 0, n, n, 0), 0, 6, RIGHT + ABOVE + UNDER);
    rule("of a late third", murgolab_local_rule(10, 10, 0, n, 0, n, 7, n), 0, 8, LEFT + ABOVE + OVER);
    rule("of a third too late", murgolab_local_rule(10, 10, 0, n, 0, n, 8, n), 0, 8, LEFT + ABOVE);
    rule("of six equal times", murgolab_local_rule(10, 10, 3, 3, 3, 3, 3, 3), 0, 9, LEFT + ABOVE + OVER);
    rule("of over alone", murgolab_local_rule(10, 10, n, n, n, n, 5, 9), 0, 15, OVER);
    rule("of under alone", murgolab_local_rule(10, 10, n, n, n, n, 9, 5), 0, 15, UNDER);
    rule("along a furrow", murgolab_local_rule(10, 20, n, 0, n, n, n, n), 0, 10, RIGHT);
    rule("across a furrow", murgolab_local_rule(10, 20, n, n, n, 0, n, n), 0, 20, BELOW);
    rule("both ways", murgolab_local_rule(10, 20, 0, n, 0, n, 300000001, n), 0, 9, LEFT + ABOVE);
    rule("of never", murgolab_local_rule(10, 20, n, n, 300000001, n, n, 300000001), 0, n, 0);
    rule("of a wall", murgolab_local_rule(0, 0, 0, 0, 0, 0, 0, 0), 0, n, 0);
    rule("of 4,096 and 0", murgolab_local_rule(4096, 0, 0, 0, 0, 0, 0, 0), 5, 0, 0);
    rule("of 1 and 4,096", murgolab_local_rule(1, 4096, 0, 0, 0, 0, 0, 0), 5, 0, 0);
    rule("of 10 and 0", murgolab_local_rule(10, 0, 0, 0, 0, 0, 0, 0), 21, 0, 0);
    rule("of 0 and 10", murgolab_local_rule(0, 10, 0, 0, 0, 0, n, n), 21, 0, 0);
    rule("of a furrow and over", murgolab_local_rule(10, 20, 0, 0, 0, 0, 300000000, n), 23, 0, 0);
    rule("of a furrow and under", murgolab_local_rule(20, 10, n, n, n, n, n, 0), 23, 0, 0);
    answers("D of 255", murgolab_diagonal(255), 0, 181);
    answers("D of 256", murgolab_diagonal(256), 0, 182);
    answers("D of 4,095", murgolab_diagonal(4095), 0, 2896);
    answers("D of 4,096", murgolab_diagonal(4096), 5, 0);
    turns("turn of 28", murgolab_turn(28, 10), 0, 3, 2);
    turns("turn of a turn's end", murgolab_turn(30, 10), 0, 3, 0);
    turns("turn of never", murgolab_turn(n, 65535), 0, n, 0);
    turns("turn of 0 ticks", murgolab_turn(29, 0), 3, 0, 0);
    turns("turn of 65,536 ticks", murgolab_turn(29, 65536), 3, 0, 0);
}

int main(int count, char **arguments)
{
    int kind;
    marks = count > 1 ? strtoul(arguments[1], NULL, 10) : 8;
    numbers();
    accepted_games();
    for (kind = MARCH; kind < KINDS; kind++)
        refused_games((enum kind)kind);
    reading();
    writing();
    tablet();
    printf("%u checks, %u wrong\n", checks, wrong);
    return wrong != 0;
}

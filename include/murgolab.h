/* Fronts on a tiled board: when does a fire front reach each cell? The calls of libmurgolab.a, for x86-64 Linux.
 *
 * Each call is proved to meet the contract that its comment gives in plain words; in the repository docs/CLAIMS.md goes
 * from each promise to its theorem.
 *
 * Words
 *
 *   board     1 to 8 storeys, one over the other, each of width by height square cells, each side 1 to 256. N is
 *             width * height * storeys, at most 65,536. Cells are numbered from 0, storey by storey, in each of them
 *             row by row from the top left: (storey * height + row) * width + column. The neighbours of a cell are left
 *             and right of it in its row, above and below it in its column, and over and under it, on the next storey
 *             and the one before: cell + width * height is over it, cell - width * height under it. A board of one
 *             storey is flat, one of several a house.
 *   slowness  of a cell, a pair of numbers of 0 to 4,095: g, the ticks in which a front crosses it straight along the
 *             row, and h, those straight down or up the column. Both are 0 for a wall, and neither is for an open cell.
 *             In a house they are equal, and a front takes as long up or down a storey: unequal ones are refused, by
 *             23. One 32-bit entry holds the pair, g + 65,536 * h: MURGOLAB_PAIR(g, h) makes it. A bare s of 1 to
 *             4,095 is no longer a slowness: it is the pair of s and 0, which is refused, by 21.
 *   time      in ticks, 32 bits. Never is MURGOLAB_NEVER. A time handed in, other than a start's, counts as never
 *             where it is above 300,000,000 and where it stands at a wall. A board's own times are below 269,369,920.
 *   start     a cell and the time, 0 to 1,000,000, at which a front begins there. A list of starts is strictly rising
 *             by cell, has none on a wall, and may be empty.
 *   sides     of a cell, from which the front came: one neighbour at most on each axis, its row, its column and its
 *             storeys. Left is a side if its time is before the cell's and not after right's; else right, if its time
 *             is before the cell's; else there is none on this axis. Above and below, over and under are likewise. One
 *             byte holds them, the sum of their numbers in enum murgolab_side: 0, for none, to 42. A cell that is never
 *             has none, as a wall; nor has one whose start is no later than what the local rule gives, as early ones
 *             and those at that very time.
 *   march     works out the times of the whole board at once, and the sides of its cells.
 *   tile      a part of the board, across by down cells of every storey, each side 1 to 256. Tiles are laid from the
 *             top left, cut at the board's edge and numbered from 0, row by row. They span all storeys: the cells over
 *             and under a cell are in its own tile, and there are as many tiles as on one storey. An order is a list of
 *             every tile's number once.
 *   round     works out times and sides of each tile once, apart from the other tiles.
 *   bound     of a round, 0 to 300,000,000: times past it are left out, as never.
 *   tile run  makes rounds with rising bounds until times and sides are those of the march.
 *   stride    of a tile run, 1 to 300,000,000: by how much the bound rises from one round to the next.
 *   horizon   of a march or a tile run, 0 to 300,000,000: times past it are left out, as never. A cell is reached if
 *             its time is at most the horizon.
 *   turn      so many ticks of play, 1 to 65,535 ("ticks per turn"). Turn n closes at the time n * ticks; then players
 *             put tokens down on the cells that were reached in it. The turn of a time is the first that closes then or
 *             later: turn 0 for time 0, turn 1 for 1 to ticks.
 *   scenario  a file that stores a board, its ticks per turn and its starts. A run of the file is a first cell, a
 *             length and the pair of so many cells from there on; the ground is the pair of all other cells.
 *   tablet    what players hold. It plays scenarios by one call, for boards with sides to 32 and N to 1,024.
 *   rings     a program beside the library that prints the turns of a scenario, for the same boards.
 *
 * Assumed of the caller: a pointer and a length describe a list that is there and aligned for its type; a list that is
 * lent for writing overlaps no other list of the call. The pointer of an empty list may be anything that is not null.
 * Any numbers and any contents of lists may be handed in.
 *
 * The library has no variables of its own and allocates nothing: a call writes the lists lent to it and at most 64 KiB
 * of stack. So calls may run in several threads at once where none writes a list that another one is lent. These three
 * are tested on the archive, and not proved.
 *
 * A call that is refused answers a number of the table below. Of several causes the one that stands first in this line
 * is given: `1 2 15 3 4 5 21 23 6 7 18 8 9 10 11 12 13 14`. What the call answers beside the number and the place is 0,
 * and every list stays as it was. "Refused by" names the numbers that a call can answer, in the order of this line.
 * Each looks at all that it concerns before the next is looked for: 5 at both numbers of every pair, the ground's too,
 * before 21 at any, and 21 at every pair before 23 at any. 4 and 15 come before 23, and take N by whatever storeys is,
 * in 64 bits: storeys of 0 are 23 where the list of slownesses is empty, else 4.
 *
 * The place in an answer says which start is at fault. Where the number is 7 or 18 it is the position in the list of
 * starts, from 0, of the first one at fault by this cause; for every other number, and for 0, it is 0. Each cause looks
 * at the whole list, so that 7 comes, with its own place, also where a start before that one does not rise.
 */
#ifndef MURGOLAB_H
#define MURGOLAB_H

#include <stddef.h>
#include <stdint.h>

#ifdef __cplusplus
extern "C" {
#endif

#define MURGOLAB_VERSION "0.1.0"

#define MURGOLAB_NEVER UINT32_C(4294967295)

/* a slowness: g along the row, h down the column; numbers of at most 16 bits */
#define MURGOLAB_PAIR(g, h) ((uint32_t)(g) | (uint32_t)(h) << 16)

/* what the field `number` of an answer says */
enum murgolab_refusal {
    MURGOLAB_ACCEPTED = 0,       /* accepted */
    MURGOLAB_FILE_LENGTH = 1,    /* file under 20 bytes, or not as long as its counts of runs and starts say */
    MURGOLAB_SIDES_OF_BOARD = 2, /* width or height not 1 to 256 */
    MURGOLAB_TICKS = 3,          /* ticks per turn not 1 to 65,535 */
    MURGOLAB_LIST_LENGTH = 4,    /* slowness list not N long, or plain start lists of unequal length */
    MURGOLAB_SLOWNESS = 5,       /* a number of a slowness, the ground's too, above 4,095 */
    MURGOLAB_RUN = 6,            /* a run not sorted, overlapping, empty, past the board, or of the pair of the
                                  * ground or a run it touches */
    MURGOLAB_START_CELL = 7,     /* start cell off the board */
    MURGOLAB_START_TIME = 8,     /* start time above 1,000,000 */
    MURGOLAB_START_ON_WALL = 9,  /* start on a wall */
    MURGOLAB_RANGE = 10,         /* horizon or bound above 300,000,000, or stride not 1 to 300,000,000 */
    MURGOLAB_SIDES_OF_TILE = 11, /* tile width or height not 1 to 256 */
    MURGOLAB_ORDER = 12,         /* order does not name every tile once */
    MURGOLAB_TIMES_LENGTH = 13,  /* times list not N long */
    MURGOLAB_ROOM = 14,          /* work list under 4N long, sides list not N long, or a list to be filled too short */
    MURGOLAB_SMALL_BOARD = 15,   /* tablet or rings: a side above 32, N above 1,024, or for rings a file above
                                  * 20,500 bytes */
    MURGOLAB_START_ORDER = 18,   /* start not above the one before */
    MURGOLAB_HALF_WALL = 21,     /* one number of a slowness, the ground's too, 0 and the other not */
    MURGOLAB_STOREYS = 23        /* storeys not 1 to 8, N above 65,536, or an unequal pair from 2 storeys on (local
                                  * rule: over or under not never) */
};

/* from which sides a front came: a byte of sides is a sum of at most one of the first two, one of the next two and one
 * of the last two */
enum murgolab_side {
    MURGOLAB_LEFT = 1,
    MURGOLAB_RIGHT = 2,
    MURGOLAB_ABOVE = 4,
    MURGOLAB_BELOW = 8,
    MURGOLAB_OVER = 16,
    MURGOLAB_UNDER = 32
};

/* a start: a cell and a time of 0 to 1,000,000 */
typedef struct { uint32_t cell, time; } murgolab_start;

/* number 0: accepted, and count is the answer; else number is the refusal, and count 0; place is 0 but for 7 and 18 */
typedef struct { uint32_t number, count; size_t place; } murgolab_reply;

/* number 0: accepted, and time and sides are the answer; else number is the refusal, and both are 0 */
typedef struct { uint32_t number, time, sides; } murgolab_local_reply;

/* number 0: accepted, and turn and to_go are the answer; else number is the refusal, and both are 0 */
typedef struct { uint32_t number, turn, to_go; } murgolab_turn_reply;

/* number 0: accepted, and width to starts are what the file says; else number is the refusal, and they are 0; place is
 * 0 but for 7 and 18 */
typedef struct { uint32_t number, width, height, storeys, ticks, ground, starts; size_t place; } murgolab_scenario;

/* The local rule: the least whole t, not below the earliest of a, b and z, with p*p*h*h + q*q*g*g + r*r*g*g >= g*g*h*h,
 * where a is the earlier of left and right, b the earlier of above and below, z the earlier of over and under,
 * p = t - a if a is earlier than t, else 0, q likewise from b and r from z. Never where all three are never or both g
 * and h are 0. Where g and h are equal, as they must be where over or under is not never, the condition is
 * p*p + q*q + r*r >= g*g. On a flat board over and under are never. The answer is that time and its sides, which are
 * those of a cell without a start; 0 where the time is never.
 * Refused by 5 21 23: by 23 where g and h differ and over or under is at most 300,000,000. */
murgolab_local_reply murgolab_local_rule(uint32_t g, uint32_t h, uint32_t left, uint32_t right, uint32_t above,
    uint32_t below, uint32_t over, uint32_t under);

/* D: the least d with 2*d*d >= slowness*slowness, which the local rule adds to a where a and b are equal, g and h are
 * both the slowness, and z is not before a + d. It takes that one number, and no pair. The count is d.
 * Refused by 5 only. */
murgolab_reply murgolab_diagonal(uint32_t slowness);

/* The turn of a time: time / ticks, rounded up, where ticks is the ticks per turn; and the ticks still to go until that
 * turn closes: turn * ticks - time, always below ticks. For never, and for a time above 300,000,000, turn is never and
 * to_go is 0.
 * Refused by 3 only. */
murgolab_turn_reply murgolab_turn(uint32_t time, uint32_t ticks);

/* The next calls take a board and its starts: slow has N slownesses, a pair each, storey by storey. times is N long.
 * sides is N bytes long, no more and no fewer, else 14; it may hold anything at first, and an accepted call writes each
 * byte. work is at least 4N long, and may hold anything; after an accepted call its first 4N entries are 0 and later
 * ones as they were. */

/* The march: the time at which the front reaches each cell, up to the horizon; never where that is later, or no front
 * comes; and from which sides. times may hold anything at first. The count is the number of cells reached.
 * Refused by 2 4 5 21 23 7 18 8 9 10 13 14. */
murgolab_reply murgolab_march(uint32_t width, uint32_t height, uint32_t storeys,
    const uint32_t *slow, size_t slow_len, const murgolab_start *starts, size_t starts_len, uint32_t horizon,
    uint32_t *times, size_t times_len, uint8_t *sides, size_t sides_len, uint32_t *work, size_t work_len);

/* One round: every tile is solved with the times that times holds beyond its edges before the round; what it holds
 * within them is not used. Then times holds each cell's time up to the bound, and never elsewhere. The order of tiles
 * never shows. A cell's sides come from the times that its tile saw: those of its own cells as the round leaves them,
 * those of others as they were before. The count is the number of entries of times that differ from what they were, as
 * bare numbers. Sides do not count: a round may alter some of them and no time.
 * Refused by 2 4 5 21 23 7 18 8 9 10 11 12 13 14. */
murgolab_reply murgolab_one_round(uint32_t width, uint32_t height, uint32_t storeys,
    const uint32_t *slow, size_t slow_len, const murgolab_start *starts, size_t starts_len,
    uint32_t across, uint32_t down, uint32_t bound, const uint32_t *order, size_t order_len,
    uint32_t *times, size_t times_len, uint8_t *sides, size_t sides_len, uint32_t *work, size_t work_len);

/* The tile run: rounds from all never, the j-th, from 1, with the bound j * stride or the horizon, the lesser, until
 * one at the horizon alters no time. times, which may hold anything at first, and sides are then what the march gives;
 * sides is written once, at the end. The count is the number of rounds, the last among them. Rounds that end before the
 * front's next step are counted without being worked out.
 * How many rounds: let K be horizon / stride, rounded up, at least 1. There are at least K, however early the last cell
 * is reached, and at most K and as many more as cells are reached. Where one tile covers the board (across is at least
 * width, and down at least height) they are exactly K + 1 if some entry of times is then above (K - 1) * stride and at
 * most the horizon, else exactly K; for K = 1 that span starts at 0 and includes it. After its round j such a run holds
 * what the march to that round's bound gives.
 * Refused by 2 4 5 21 23 7 18 8 9 10 11 12 13 14. */
murgolab_reply murgolab_tile_run(uint32_t width, uint32_t height, uint32_t storeys,
    const uint32_t *slow, size_t slow_len, const murgolab_start *starts, size_t starts_len,
    uint32_t across, uint32_t down, uint32_t stride, uint32_t horizon, const uint32_t *order, size_t order_len,
    uint32_t *times, size_t times_len, uint8_t *sides, size_t sides_len, uint32_t *work, size_t work_len);

/* Reads a scenario file: fills the first N entries of slow and as many records of starts as the answer's `starts` says;
 * later ones stay. 65,536 of each are enough for every file. A file has, lowest byte first: width, height, storeys and
 * ticks per turn, 2 bytes each; the ground's g and h, 2 each; the counts r of runs and q of starts, 4 each; r runs of
 * first cell (4), length (4), g (2) and h (2); q starts of cell (4) and time (4): 20 + 12r + 8q bytes.
 * Older files are refused: those from before there were storeys, 18 + 12r + 8q bytes, by 1; those from before there
 * were pairs, 16 + 10r + 8q bytes with one slowness of 2 bytes for each pair, by 1, or by 3, 5 or 21 where their length
 * chances to fit.
 * Refused by 1 2 3 5 21 23 6 7 18 8 9 14. */
murgolab_scenario murgolab_read_scenario(const uint8_t *file, size_t file_len, uint32_t *slow, size_t slow_len,
    murgolab_start *starts, size_t starts_len);

/* Writes the one scenario file of a board, its ticks per turn, its ground, a pair, and its starts into out; later bytes
 * stay. A file that was read and is written again with its own ground has the same bytes. The count is the file's
 * length, at most 20 + 20N.
 * Refused by 2 3 4 5 21 23 7 18 8 9 14. */
murgolab_reply murgolab_write_scenario(uint32_t width, uint32_t height, uint32_t storeys, uint32_t ticks,
    uint32_t ground, const uint32_t *slow, size_t slow_len, const murgolab_start *starts, size_t starts_len,
    uint8_t *out, size_t out_len);

/* The tablet's call: makes the tile run of a scenario file whose board has sides to 32 and N to 1,024, with the horizon
 * 6,000,000, and fills the first 4N bytes of out with its N times, 4 bytes each, the lowest first; later bytes stay.
 * The tiles are across by down cells. The answer is the number of rounds times 256; where the call is refused, the bare
 * number, 1 to 23, without a place.
 * How many rounds: as many as murgolab_tile_run makes. Let K be 6,000,000 / stride, rounded up. Where one tile covers
 * the board, as a tile of 32 by 32 always does, they are exactly K + 1 if some time in out is above (K - 1) * stride
 * and at most 6,000,000, else exactly K; for K = 1 that span starts at 0 and includes it. With such a tile and a stride
 * of at most 810,815 they are exactly K, whatever the file holds, so that a progress bar knows them before the call.
 * Refused by 1 2 15 3 5 21 23 6 7 18 8 9 10 11 14: by 10 for the stride, by 14 where out is under 4N long. 15 takes the
 * storeys as the file has them: 9 of 3 by 3 cells are 23, 9 of 32 by 32 are 15. */
uint64_t murgolab_tablet_run(const uint8_t *file, size_t file_len, uint32_t stride, uint32_t across, uint32_t down,
    uint8_t *out, size_t out_len);

/* The calls with the starts in two plain lists of equal length, for callers that have them so: cells holds the starts'
 * cells, begins their times. They give the same answers. */

/* The march with plain start lists.
 * Refused by 2 4 5 21 23 7 18 8 9 10 13 14. */
murgolab_reply murgolab_march_plain(uint32_t width, uint32_t height, uint32_t storeys,
    const uint32_t *slow, size_t slow_len, const uint32_t *cells, size_t cells_len,
    const uint32_t *begins, size_t begins_len, uint32_t horizon,
    uint32_t *times, size_t times_len, uint8_t *sides, size_t sides_len, uint32_t *work, size_t work_len);

/* One round with plain start lists.
 * Refused by 2 4 5 21 23 7 18 8 9 10 11 12 13 14. */
murgolab_reply murgolab_one_round_plain(uint32_t width, uint32_t height, uint32_t storeys,
    const uint32_t *slow, size_t slow_len, const uint32_t *cells, size_t cells_len,
    const uint32_t *begins, size_t begins_len,
    uint32_t across, uint32_t down, uint32_t bound, const uint32_t *order, size_t order_len,
    uint32_t *times, size_t times_len, uint8_t *sides, size_t sides_len, uint32_t *work, size_t work_len);

/* The tile run with plain start lists.
 * Refused by 2 4 5 21 23 7 18 8 9 10 11 12 13 14. */
murgolab_reply murgolab_tile_run_plain(uint32_t width, uint32_t height, uint32_t storeys,
    const uint32_t *slow, size_t slow_len, const uint32_t *cells, size_t cells_len,
    const uint32_t *begins, size_t begins_len,
    uint32_t across, uint32_t down, uint32_t stride, uint32_t horizon, const uint32_t *order, size_t order_len,
    uint32_t *times, size_t times_len, uint8_t *sides, size_t sides_len, uint32_t *work, size_t work_len);

/* Reads a scenario file into plain start lists. Here cells and begins need not be as long as each other: each must hold
 * the file's starts, else 14.
 * Refused by 1 2 3 5 21 23 6 7 18 8 9 14. */
murgolab_scenario murgolab_read_scenario_plain(const uint8_t *file, size_t file_len, uint32_t *slow, size_t slow_len,
    uint32_t *cells, size_t cells_len, uint32_t *begins, size_t begins_len);

/* Writes the scenario file from plain start lists.
 * Refused by 2 3 4 5 21 23 7 18 8 9 14. */
murgolab_reply murgolab_write_scenario_plain(uint32_t width, uint32_t height, uint32_t storeys, uint32_t ticks,
    uint32_t ground, const uint32_t *slow, size_t slow_len, const uint32_t *cells, size_t cells_len,
    const uint32_t *begins, size_t begins_len, uint8_t *out, size_t out_len);

#ifdef __cplusplus
}
#endif

#endif

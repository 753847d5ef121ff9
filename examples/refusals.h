/* The refusal table of murgolab.h in words that a program can print. By bare numbers, since refusal.py reads it too.
 * tests/tests/refusal_table.rs compares both. */
#ifndef REFUSALS_H
#define REFUSALS_H

#include "murgolab.h"

static const char *const refusals[] = {
    [0] = "accepted",
    [1] = "file under 20 bytes, or not as long as its counts of runs and starts say",
    [2] = "width or height not 1 to 256",
    [3] = "ticks per turn not 1 to 65,535",
    [4] = "slowness list not N long, or plain start lists of unequal length",
    [5] = "a number of a slowness, the ground's too, above 4,095",
    [6] = "a run not sorted, overlapping, empty, past the board, or of the pair of the ground or a run it touches",
    [7] = "start cell off the board",
    [8] = "start time above 1,000,000",
    [9] = "start on a wall",
    [10] = "horizon or bound above 300,000,000, or stride not 1 to 300,000,000",
    [11] = "tile width or height not 1 to 256",
    [12] = "order does not name every tile once",
    [13] = "times list not N long",
    [14] = "work list under 4N long, sides list not N long, or a list to be filled too short",
    [15] = "tablet or rings: a side above 32, N above 1,024, or for rings a file above 20,500 bytes",
    [18] = "start not above the one before",
    [21] = "one number of a slowness, the ground's too, 0 and the other not",
    [23] = "storeys not 1 to 8, N above 65,536, or an unequal pair from 2 storeys on "
        "(local rule: over or under not never)",
};

#endif

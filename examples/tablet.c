/* The tablet's call: `tablet FILE` runs a scenario with sides to 32 and at most 1,024 cells with the stride 100, as one
 * tile. From the times that come back it plays the run's progress in rounds: each round in which the front reaches
 * cells, and the last one. Then it says how many rounds there were and when the front reaches the last cell. */
#include "refusals.h"

#include <stdio.h>

enum { STRIDE = 100, SIDE = 32, MOST_CELLS = 1024, HORIZON = 6000000 };

/* The time of a cell, by its 4 bytes, lowest first. */
static uint32_t time_of(const uint8_t *out, uint32_t cell)
{
    const uint8_t *bytes = out + 4 * cell;
    return bytes[0] | bytes[1] << 8 | bytes[2] << 16 | (uint32_t)bytes[3] << 24;
}

int main(int count, char **words)
{
    static uint8_t file[20 + 20 * 65536 + 1], out[4 * MOST_CELLS]; /* any scenario, and a byte to show a longer file */
    FILE *from = count == 2 ? fopen(words[1], "rb") : NULL;
    size_t length = from == NULL ? 0 : fread(file, 1, sizeof file, from);
    if (from == NULL || ferror(from)) {
        fprintf(stderr, "no file to read; usage: tablet FILE\n");
        return 2;
    }
    /* exactly so many rounds, known before the call: the tile covers every board, and the stride is at most 810,815 */
    uint32_t rounds = (HORIZON + STRIDE - 1) / STRIDE;
    uint64_t answer = murgolab_tablet_run(file, length, STRIDE, SIDE, SIDE, out, sizeof out);
    if (answer < 256) { /* a bare refusal number, else rounds times 256 */
        fprintf(stderr, "refused by %u: %s\n", (unsigned)answer, refusals[answer]);
        return 1;
    }
    uint32_t cells = (uint32_t)file[0] * file[2] * file[4]; /* width, height and storeys, below 256, begin the file */
    for (uint32_t round = 1, before = 0; round <= rounds; round++) {
        uint32_t reached = 0; /* one tile holds after a round what the march to its bound gives */
        for (uint32_t cell = 0; cell < cells; cell++)
            reached += time_of(out, cell) <= round * STRIDE;
        if (reached > before || round == rounds)
            printf("round %u of %u: %u of %u cells\n", (unsigned)round, (unsigned)rounds, (unsigned)reached,
                (unsigned)cells);
        before = reached;
    }
    uint32_t last = time_of(out, cells - 1);
    printf("%u rounds; the last cell is ", (unsigned)(answer / 256));
    if (last == MURGOLAB_NEVER)
        printf("never reached\n");
    else
        printf("reached at %u\n", (unsigned)last);
    return fflush(stdout) == 0 ? 0 : 1;
}

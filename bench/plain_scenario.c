/* Everything is judged first, each number of the table in its turn; then the lists are written. */
#include "plain_scenario.h"
#include <stdbool.h>

enum {
    LONGEST_SIDE = 256, MOST_STOREYS = 8, MOST_CELLS = 65536, SLOWEST = 4095, LATEST_START = 1000000,
    HEAD = 20, RUN = 12, START = 8
};

static uint32_t two(const uint8_t *p) { return p[0] | (uint32_t)p[1] << 8; }
static uint32_t four(const uint8_t *p) { return two(p) | two(p + 2) << 16; }

static void put_two(uint8_t *p, uint32_t x) {
    p[0] = (uint8_t)x;
    p[1] = (uint8_t)(x >> 8);
}

static void put_four(uint8_t *p, uint32_t x) {
    put_two(p, x);
    put_two(p + 2, x >> 16);
}

static bool side_good(uint32_t side) { return side >= 1 && side <= LONGEST_SIDE; }

/* A file of at least HEAD bytes, taken apart. */
typedef struct {
    uint32_t width, height, storeys, ticks, ground, run_count, start_count;
    uint64_t size;
    const uint8_t *runs, *starts;
} parts;

static uint64_t cells_of(uint32_t width, uint32_t height, uint32_t storeys) {
    return (uint64_t)width * height * storeys;
}

static parts parts_of(const uint8_t *file) {
    parts f = {two(file), two(file + 2), two(file + 4), two(file + 6), four(file + 8), four(file + 12), four(file + 16),
        0, file + HEAD, NULL};
    f.size = cells_of(f.width, f.height, f.storeys);
    f.starts = f.runs + RUN * (size_t)f.run_count;
    return f;
}

static bool too_slow(uint32_t pair) { return (pair & 65535) > SLOWEST || pair >> 16 > SLOWEST; }
static bool half_wall(uint32_t pair) { return ((pair & 65535) == 0) != (pair >> 16 == 0); }
static bool unequal(uint32_t pair) { return (pair & 65535) != pair >> 16; }
static bool storeys_good(uint32_t storeys, uint64_t size) {
    return storeys >= 1 && storeys <= MOST_STOREYS && size <= MOST_CELLS;
}
static bool late(uint32_t time) { return time > LATEST_START; }

static bool any_run(const parts *f, bool (*bad)(uint32_t)) {
    for (const uint8_t *run = f->runs; run != f->starts; run += RUN)
        if (bad(four(run + 8))) return true;
    return false;
}

static bool runs_good(const parts *f) {
    uint64_t end = 0;
    uint32_t before = f->ground;
    for (const uint8_t *run = f->runs; run != f->starts; run += RUN) {
        const uint64_t offset = four(run), length = four(run + 4);
        const uint32_t slowness = four(run + 8);
        if (length == 0 || offset < end || offset + length > f->size || slowness == f->ground) return false;
        if (offset == end && slowness == before) return false;
        end = offset + length;
        before = slowness;
    }
    return true;
}

typedef struct { uint32_t number; size_t place; } refusal;

static refusal cause(uint32_t number) { return (refusal){number, 0}; }

/* One start more: the first that does not rise is kept; one off the board beats it, and ends the walk, by true. */
static bool judge_cell(refusal *found, uint64_t *least, uint32_t cell, size_t size, size_t place) {
    if (cell >= size) {
        *found = (refusal){7, place};
        return true;
    }
    if (cell < *least && found->number == 0) *found = (refusal){18, place};
    *least = (uint64_t)cell + 1;
    return false;
}

static refusal cells_in_file(const parts *f) {
    refusal found = cause(0);
    uint64_t least = 0;
    for (uint32_t i = 0; i < f->start_count; i++)
        if (judge_cell(&found, &least, four(f->starts + START * (size_t)i), f->size, i)) break;
    return found;
}

static bool any_start_late(const parts *f) {
    for (uint32_t i = 0; i < f->start_count; i++)
        if (late(four(f->starts + START * (size_t)i + 4))) return true;
    return false;
}

/* Runs and starts both rise, so one walk along both finds the slowness under each start. */
static bool any_start_on_wall(const parts *f) {
    const uint8_t *run = f->runs;
    for (uint32_t i = 0; i < f->start_count; i++) {
        const uint32_t cell = four(f->starts + START * (size_t)i);
        while (run != f->starts && four(run) + four(run + 4) <= cell) run += RUN;
        const bool in_run = run != f->starts && four(run) <= cell;
        if ((in_run ? four(run + 8) : f->ground) == 0) return true;
    }
    return false;
}

static refusal file_refusal(const uint8_t *file, size_t file_len) {
    if (file_len < HEAD) return cause(1);
    if (file_len != HEAD + RUN * (uint64_t)four(file + 12) + START * (uint64_t)four(file + 16)) return cause(1);
    const parts f = parts_of(file);
    if (!side_good(f.width) || !side_good(f.height)) return cause(2);
    if (f.ticks == 0) return cause(3);
    if (too_slow(f.ground) || any_run(&f, too_slow)) return cause(5);
    if (half_wall(f.ground) || any_run(&f, half_wall)) return cause(21);
    if (!storeys_good(f.storeys, f.size)) return cause(23);
    if (f.storeys > 1 && (unequal(f.ground) || any_run(&f, unequal))) return cause(23);
    if (!runs_good(&f)) return cause(6);
    const refusal cells = cells_in_file(&f);
    if (cells.number) return cells;
    if (any_start_late(&f)) return cause(8);
    if (any_start_on_wall(&f)) return cause(9);
    return cause(0);
}

static void read_slow(const parts *f, uint32_t *slow) {
    uint32_t cell = 0;
    for (const uint8_t *run = f->runs; run != f->starts; run += RUN) {
        const uint32_t offset = four(run), end = offset + four(run + 4), slowness = four(run + 8);
        while (cell < offset) slow[cell++] = f->ground;
        while (cell < end) slow[cell++] = slowness;
    }
    while (cell < f->size) slow[cell++] = f->ground;
}

murgolab_scenario plain_read_scenario(const uint8_t *file, size_t file_len, uint32_t *slow, size_t slow_len,
    uint32_t *cells, size_t cells_len, uint32_t *begins, size_t begins_len) {
    const refusal r = file_refusal(file, file_len);
    if (r.number) return (murgolab_scenario){r.number, 0, 0, 0, 0, 0, 0, r.place};
    const parts f = parts_of(file);
    if (slow_len < f.size || cells_len < f.start_count || begins_len < f.start_count)
        return (murgolab_scenario){14, 0, 0, 0, 0, 0, 0, 0};
    read_slow(&f, slow);
    for (uint32_t i = 0; i < f.start_count; i++) {
        cells[i] = four(f.starts + START * (size_t)i);
        begins[i] = four(f.starts + START * (size_t)i + 4);
    }
    return (murgolab_scenario){0, f.width, f.height, f.storeys, f.ticks, f.ground, f.start_count, 0};
}

static bool any(const uint32_t *list, size_t length, bool (*bad)(uint32_t)) {
    for (size_t i = 0; i < length; i++)
        if (bad(list[i])) return true;
    return false;
}

static refusal starts_refusal(const uint32_t *slow, size_t size, const uint32_t *cells, const uint32_t *begins,
    size_t count) {
    refusal found = cause(0);
    uint64_t least = 0;
    for (size_t i = 0; i < count; i++)
        if (judge_cell(&found, &least, cells[i], size, i)) break;
    if (found.number) return found;
    if (any(begins, count, late)) return cause(8);
    for (size_t i = 0; i < count; i++)
        if (slow[cells[i]] == 0) return cause(9);
    return cause(0);
}

murgolab_reply plain_write_scenario(uint32_t width, uint32_t height, uint32_t storeys, uint32_t ticks,
    uint32_t ground, const uint32_t *slow, size_t slow_len, const uint32_t *cells, size_t cells_len,
    const uint32_t *begins, size_t begins_len, uint8_t *out, size_t out_len) {
    if (!side_good(width) || !side_good(height)) return (murgolab_reply){2, 0, 0};
    if (ticks == 0 || ticks > 65535) return (murgolab_reply){3, 0, 0};
    const uint64_t size = cells_of(width, height, storeys);
    if (slow_len != size || cells_len != begins_len) return (murgolab_reply){4, 0, 0};
    if (too_slow(ground) || any(slow, size, too_slow)) return (murgolab_reply){5, 0, 0};
    if (half_wall(ground) || any(slow, size, half_wall)) return (murgolab_reply){21, 0, 0};
    if (!storeys_good(storeys, size)) return (murgolab_reply){23, 0, 0};
    if (storeys > 1 && (unequal(ground) || any(slow, size, unequal))) return (murgolab_reply){23, 0, 0};
    const refusal r = starts_refusal(slow, size, cells, begins, cells_len);
    if (r.number) return (murgolab_reply){r.number, 0, r.place};

    uint32_t runs = slow[0] != ground;
    for (size_t i = 1; i < size; i++) runs += slow[i] != slow[i - 1] && slow[i] != ground;
    const size_t length = HEAD + RUN * (size_t)runs + START * cells_len;
    if (out_len < length) return (murgolab_reply){14, 0, 0};

    put_two(out, width);
    put_two(out + 2, height);
    put_two(out + 4, storeys);
    put_two(out + 6, ticks);
    put_four(out + 8, ground);
    put_four(out + 12, runs);
    put_four(out + 16, (uint32_t)cells_len);
    out += HEAD;
    for (uint32_t from = 0, end; from < size; from = end) {
        const uint32_t slowness = slow[from];
        for (end = from + 1; end < size && slow[end] == slowness;) end++;
        if (slowness == ground) continue;
        put_four(out, from);
        put_four(out + 4, end - from);
        put_four(out + 8, slowness);
        out += RUN;
    }
    for (size_t i = 0; i < cells_len; i++, out += START) {
        put_four(out, cells[i]);
        put_four(out + 4, begins[i]);
    }
    return (murgolab_reply){0, (uint32_t)length, 0};
}

// What the bench asks of a commit's library. How its calls take the bench's board stands in that commit's calls.hpp.
#pragma once
#include "measure.hpp"
#include "yardstick.hpp"

constexpr uint32_t horizon = 300000000, ticks = 10, ground = 4095;

// What a call answers that a commit, or its calls.hpp, does not have; no count is as large.
constexpr uint32_t absent = UINT32_MAX;

// A board lent to a commit's calls, with lists of its own; tiles are squares of the given side. A call of a later
// commit is added with a body that answers `absent`, so that older adapters still fit.
struct Lent {
    virtual ~Lent() = default;
    virtual uint32_t march() = 0;                                // the cells reached
    virtual uint32_t round(uint32_t side) = 0;                   // to the horizon: the entries altered
    virtual uint32_t run(uint32_t side, uint32_t stride) = 0;    // the rounds
    virtual uint32_t rule() = 0;                                 // in all rows but the outer two: the answers' sum
    virtual void write() = 0;                                    // the board's scenario file
    virtual uint32_t read() = 0;                                 // the file that was written last: its starts
    virtual uint32_t tablet(uint32_t side, uint32_t stride) = 0; // over that file: the rounds
    virtual const std::vector<uint32_t> &times() const = 0;
    // so many times D of each slowness from `first` on and below `end`: the answers' sum
    virtual uint32_t diagonals(uint32_t, uint32_t, uint32_t) { return absent; }
    // by side and stride, round j of that run, from 1; it takes what round j - 1 left, round 1 all never: the entries
    // altered
    virtual uint32_t round_of_run(uint32_t, uint32_t, uint32_t) { return absent; }
    // whether boards with unequal pairs are taken
    virtual bool takes_pairs() const { return false; }
    // of the call made last on the board, a byte a cell; empty from before there were sides
    virtual std::vector<uint8_t> sides() const { return {}; }
    // whether houses are taken; in those the rule is asked on all storeys but the outer two
    virtual bool takes_storeys() const { return false; }
};

// adapter.cpp, compiled with a commit's calls.hpp and header. The board must outlive what is lent.
using Lend = Lent *(const yardstick::Board &);
extern "C" Lend this_tree, other_commit;

// The calls that are measured on each board; 65,536 is the stride of `rings`. All are measured on all boards, save 1x1
// on m: that takes 0.8 s, as long as all else on g to m.
struct Row {
    const char *name;
    uint32_t (*play)(Lent &);
    char not_on = 0; // the letter of a board

    bool measured(const yardstick::Board &b) const { return b.name[0] != not_on; }
};
constexpr Row rows[] = {
    {"march", [](Lent &l) { return l.march(); }},
    {"one tile", [](Lent &l) { return l.run(256, 65536); }},
    {"8x8", [](Lent &l) { return l.run(8, 65536); }},
    {"8x8 by 1", [](Lent &l) { return l.run(8, 1); }},
    {"1x1", [](Lent &l) { return l.run(1, 65536); }, 'm'},
    {"round", [](Lent &l) { return l.round(8); }},
};

// D of a slowness to 255, which is kept, and of one above, which is worked out; as many calls of both, on no board.
constexpr Row steps[] = {
    {"D to 255", [](Lent &l) { return l.diagonals(0, 256, 240); }},
    {"D above", [](Lent &l) { return l.diagonals(256, 4096, 16); }},
};
constexpr uint32_t steps_calls = 240 * 256;
static_assert(steps_calls == 16 * 3840);

// The board of the longest scenario file: a run and a start to each cell, as neighbours differ and none is ground.
inline yardstick::Board longest() {
    yardstick::Board b{"longest file", 256, 256, {}, {}, {}};
    for (uint32_t c = 0; c < 65536; c++) {
        b.slow.push_back(1 + c % 4094);
        b.cells.push_back(c);
        b.begins.push_back(c * 40503u % 1000001);
    }
    return b;
}

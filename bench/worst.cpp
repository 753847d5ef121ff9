// What a tile run can cost at worst, found by search: tiles of one cell, where a round carries a time one cell on and
// every round's times are held.
#include "adapter.hpp"
#include <memory>
#include <random>

namespace {

// Lanes of slowness 1, joined by turns at their ends. The more of the way to the turn a cell between two lanes saves,
// the slower it is: a way of two cells more is always a little earlier, and a cell is lowered in every second round.
// A second start, one cell on and half such a step late, fills the rounds between.
yardstick::Board graded(int side, bool two_starts) {
    yardstick::Board b{two_starts ? "graded, two starts" : "graded corridor", side, side, {}, {0}, {0}};
    for (int row = 0; row < side; row++)
        for (int col = 0; col < side; col++) {
            const int to_turn = row / 2 % 2 ? col : side - 1 - col;
            b.slow.push_back(row % 2 ? 1 + 16 * to_turn : 1);
        }
    if (two_starts) {
        b.cells.push_back(1);
        b.begins.push_back(9);
    }
    return b;
}

yardstick::Board random_ends(int side) {
    yardstick::Board b{"random 1 or 4095", side, side, {}, {0}, {0}};
    std::mt19937 next;
    for (int i = 0; i < side * side; i++) b.slow.push_back(next() % 2 ? 1 : 4095);
    return b;
}

} // namespace

int main() {
    std::printf("tiles of 1 x 1; 32 x 32: the tablet's call, medians of 21; 256 x 256: the tile run, once\n");
    std::printf("%-20s %9s %12s %10s %12s %10s\n", "board", "", "by 65536, ms", "rounds", "by 1, ms", "rounds");
    for (int side : {32, 256})
        for (const auto &b : {random_ends(side), graded(side, false), graded(side, true)}) {
            const std::unique_ptr<Lent> lent(this_tree(b));
            lent->write();
            std::printf("%-20s %3d x %3d", b.name, side, side);
            for (uint32_t stride : {65536, 1}) {
                Took took;
                uint32_t rounds = 0;
                const auto play = [&] { rounds = side == 32 ? lent->tablet(1, stride) : lent->run(1, stride); };
                for (int k = 0; k < (side == 32 ? 21 : 1); k++) took.push_back(micros(play));
                std::printf(" %12.1f %10u", median(took) / 1000, rounds);
            }
            std::printf("\n");
        }
}

// The yardstick's boards a to f, g to m: what is hard for a queue or for tiles, and the houses n and o.
#pragma once
#include "yardstick.hpp"

// a to m are flat, 256 x 256; numbers from a fixed generator, so that every machine has the same boards.
inline std::vector<yardstick::Board> all_boards() {
    const int w = 256, n = w * w;
    uint64_t state = 99;
    auto next = [&](uint32_t m) {
        state = state * 6364136223846793005ull + 1442695040888963407ull;
        return (uint32_t)((state >> 33) % m);
    };
    std::vector<yardstick::Board> all = yardstick::boards();
    // starts are cell 0 and each `apart` cells on
    auto add = [&](const char *name, auto slowness, int apart, auto begin) {
        yardstick::Board b{name, w, w, {}, {}, {}};
        for (int c = 0; c < n; c++) b.slow.push_back(slowness(c));
        for (int c = 0; c < n; c += apart) {
            b.cells.push_back(c);
            b.begins.push_back(begin(c));
        }
        all.push_back(b);
    };
    auto slowest = [](int) { return 4095u; };
    auto at_0 = [](int) { return 0u; };
    auto at_random = [&](int) { return next(1000001); };
    add("g 30% walls, 1-4095", [&](int c) { return c && next(10) < 3 ? 0u : 1 + next(4095); }, n, at_0);
    add("h chequers 1, 4095", [](int c) { return (c / w + c % w) % 2 ? 4095u : 1u; }, n, at_0);
    add("i 9363 late starts", [&](int) { return 1 + next(4095); }, 7, at_random);
    add("j all start, random", slowest, 1, at_random);
    add("k all start, falling", slowest, 1, [](int c) { return 1000000u - 15 * c; });
    // d's corridor, with the slowest cells for walls
    add("l corridor 1 in 4095", [corridor = all[3].slow](int c) { return corridor[c] ? 1u : 4095u; }, n, at_0);
    // each row slower than the one above, and begun before it
    add("m rows 1-4081", [](int c) { return 1u + 16 * (c / w); }, w, [](int c) { return 1000000u - 3900 * (c / w); });
    // 8 storeys, 64,800 and 8,192 cells
    auto add_house = [&](const char *name, int side) {
        yardstick::Board b{name, side, side, {}, {0}, {0}};
        b.storeys = 8;
        for (int c = 0; c < 8 * side * side; c++) b.slow.push_back(1 + next(4095));
        all.push_back(b);
    };
    add_house("n house 8 x 90 x 90", 90);
    add_house("o house 8 x 32 x 32", 32);
    return all;
}

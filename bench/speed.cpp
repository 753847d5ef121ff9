// Medians of interleaved runs: within a run every call is timed once on each board, so that what slows the machine
// slows all of them. Neither times, sides nor work are cleared before a timed call: times and sides hold what the call
// before left, work its zeros.
#include "adapter.hpp"
#include "boards.hpp"
#include <memory>

namespace {

// How much later than in real numbers the front reaches the far corner of a board of one slowness, in percent.
double late(uint32_t slowness, yardstick::FastMarching &fast) {
    const yardstick::Board b{"", 256, 256, std::vector<uint32_t>(65536, slowness), {0}, {0}};
    const std::unique_ptr<Lent> lent(this_tree(b));
    lent->march();
    return 100 * (lent->times().back() / fast.march(b).back() - 1);
}

} // namespace

int main(int, char **argv) {
    const int runs = std::atoi(argv[1]);
    const auto boards = all_boards();
    constexpr size_t calls = std::size(rows);
    std::vector<std::vector<Took>> took(boards.size(), std::vector<Took>(calls));
    std::vector<Took> yard(boards.size());
    constexpr size_t on_b = 1, on_f = 5; // the same but for unequal pairs
    const size_t on_n = boards.size() - 2; // the larger house
    Took rule[3], step[std::size(steps)];
    std::vector<std::unique_ptr<Lent>> lent;
    for (const auto &b : boards) lent.emplace_back(this_tree(b));
    yardstick::FastMarching fast;
    volatile double sink = 0;
    for (int k = 0; k < runs; k++) {
        for (size_t i = 0; i < boards.size(); i++) {
            yard[i].push_back(micros([&] { sink = fast.march(boards[i])[0]; }));
            for (size_t m = 0; m < calls; m++)
                if (rows[m].measured(boards[i])) took[i][m].push_back(micros([&] { rows[m].play(*lent[i]); }));
        }
        rule[0].push_back(micros([&] { sink = lent[on_b]->rule(); }));
        rule[1].push_back(micros([&] { sink = lent[on_f]->rule(); }));
        rule[2].push_back(micros([&] { sink = lent[on_n]->rule(); }));
        for (size_t m = 0; m < std::size(steps); m++)
            step[m].push_back(micros([&] { sink = steps[m].play(*lent[0]); }));
    }
    std::printf("%d interleaved runs, medians; 256 x 256 cells but in houses, horizon %u; times, sides and work not "
        "cleared between calls\n", runs, horizon);
    std::printf("%-20s %12s %15s", "board", "march (us)", "over yardstick");
    for (size_t m = 1; m < calls; m++) std::printf(" %9s", rows[m].name);
    std::printf("   (over march)\n");
    for (size_t i = 0; i < boards.size(); i++) {
        const Took &march = took[i][0];
        std::printf("%-20s %12.0f %15.2f", boards[i].name, median(march), ratio(march, yard[i]));
        for (size_t m = 1; m < calls; m++)
            if (took[i][m].empty())
                std::printf(" %9s", "-");
            else
                std::printf(" %9.2f", ratio(took[i][m], march));
        std::printf("\n");
    }
    std::printf("march of f over that of b: %.2f\n", ratio(took[on_f][0], took[on_b][0]));
    std::printf("local rule on b, f and n: %.1f, %.1f and %.1f ns a call\n", 1000 * median(rule[0]) / (254 * 256),
        1000 * median(rule[1]) / (254 * 256), 1000 * median(rule[2]) / (6 * 90 * 90));
    for (size_t m = 0; m < std::size(steps); m++)
        std::printf("%s: %.1f ns a call\n", steps[m].name, 1000 * median(step[m]) / steps_calls);
    std::printf("\n");

    std::printf("far corner later than in real numbers; 256 x 256 cells of one slowness, start cell 0 at 0\n");
    std::printf("%-20s %12s\n", "slowness", "by (%)");
    for (uint32_t slowness : {1, 2, 10, 100, 1000}) std::printf("%-20u %12.3f\n", slowness, late(slowness, fast));
    std::printf("\n");
}

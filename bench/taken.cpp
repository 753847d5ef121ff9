// The cells that tile runs take over those that the march reaches. A run takes as many as the entries that its rounds
// alter, summed; the library says so of single rounds. Each of them works the whole board out, 1 to 5 ms, so this is
// not done with the stride 1, where hundreds of thousands are to be made. Most of the time goes to d's 32,897 of 1x1.
#include "adapter.hpp"
#include "boards.hpp"
#include <memory>

namespace {

constexpr uint32_t stride = 65536, first_at_horizon = (horizon + stride - 1) / stride;

// The rounds are made until one at the horizon alters no time. Once the times are the march's no later round alters
// them, and those below the horizon are passed over.
uint64_t taken(Lent &lent, uint32_t side) {
    lent.march();
    const std::vector<uint32_t> march = lent.times();
    const std::vector<uint8_t> sides = lent.sides();
    const uint32_t rounds = lent.run(side, stride);
    uint64_t sum = 0;
    for (uint32_t j = 1;; j++) {
        const uint32_t altered = lent.round_of_run(side, stride, j);
        sum += altered;
        const bool solved = lent.times() == march;
        if (j >= first_at_horizon && altered == 0) {
            demand(j == rounds, "a tile run makes another number of rounds than single rounds do");
            demand(solved && lent.sides() == sides, "single rounds end with other times or sides than the march");
            return sum;
        }
        if (solved) j = std::max(j, first_at_horizon - 1);
    }
}

} // namespace

int main() {
    std::printf("\ncells that tile runs by %u take, over those that the march reaches; l would take minutes\n", stride);
    std::printf("%-20s %12s %15s\n", "board", "8x8", "1x1");
    for (const auto &b : all_boards()) {
        if (b.name[0] == 'l') continue; // 4,000 rounds of 8x8 alter entries, and 32,899 of 1x1
        const std::unique_ptr<Lent> lent(this_tree(b));
        const double reached = lent->march();
        std::printf("%-20s %12.2f", b.name, taken(*lent, 8) / reached);
        std::printf(" %15.2f\n", taken(*lent, 1) / reached);
    }
}

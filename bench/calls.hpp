// The bench's board as the calls of this commit take it. Both includes are found by -I: murgolab.h is this commit's,
// adapter.hpp is of the tree that measures.
#include <adapter.hpp>
#include <murgolab.h>
#include <numeric>

namespace {

class Calls final : public Lent {
    const yardstick::Board &b;
    const uint32_t w = b.width, h = b.height, storeys = b.storeys;
    const size_t n = b.slow.size(), starts = b.cells.size();
    std::vector<uint32_t> slow, order, times_, work, filled;
    std::vector<uint8_t> sides_, file, out;
    size_t written = 0;

    static uint32_t accepted(murgolab_reply r) {
        demand(r.number == 0, "a call was refused");
        return r.count;
    }
    // How many tiles there are; the first so many entries of `order` name them, rising.
    size_t tiles(uint32_t side) const { return size_t((w + side - 1) / side) * ((h + side - 1) / side); }
    uint32_t round_to(uint32_t side, uint32_t bound) {
        return accepted(murgolab_one_round_plain(w, h, storeys, slow.data(), n, b.cells.data(), starts, b.begins.data(),
            starts, side, side, bound, order.data(), tiles(side), times_.data(), n, sides_.data(), n, work.data(),
            4 * n));
    }

public:
    explicit Calls(const yardstick::Board &board)
        : b(board), order(n), times_(n), work(4 * n), filled(3 * n), sides_(n), file(20 + 20 * n), out(4 * n) {
        std::iota(order.begin(), order.end(), 0u);
        const auto &down = b.down.empty() ? b.slow : b.down;
        for (size_t c = 0; c < n; c++) slow.push_back(MURGOLAB_PAIR(b.slow[c], down[c]));
    }

    uint32_t march() override {
        return accepted(murgolab_march_plain(w, h, storeys, slow.data(), n, b.cells.data(), starts, b.begins.data(),
            starts, horizon, times_.data(), n, sides_.data(), n, work.data(), 4 * n));
    }
    uint32_t round(uint32_t side) override { return round_to(side, horizon); }
    uint32_t run(uint32_t side, uint32_t stride) override {
        return accepted(murgolab_tile_run_plain(w, h, storeys, slow.data(), n, b.cells.data(), starts, b.begins.data(),
            starts, side, side, stride, horizon, order.data(), tiles(side), times_.data(), n, sides_.data(), n,
            work.data(), 4 * n));
    }
    uint32_t rule() override {
        const uint32_t *t = times_.data();
        const auto asked = [&](size_t edge, auto over, auto under) {
            uint32_t sum = 0;
            for (size_t c = edge; c + edge < n; c++)
                sum += murgolab_local_rule(slow[c] & 65535, slow[c] >> 16, t[c - 1], t[c + 1], t[c - w], t[c + w],
                    over(c), under(c)).time;
            return sum;
        };
        const auto never = [](size_t) { return MURGOLAB_NEVER; };
        if (storeys == 1) return asked(w, never, never);
        const size_t up = size_t(w) * h;
        return asked(up, [&](size_t c) { return t[c + up]; }, [&](size_t c) { return t[c - up]; });
    }
    void write() override {
        written = accepted(murgolab_write_scenario_plain(w, h, storeys, ticks, MURGOLAB_PAIR(ground, ground),
            slow.data(), n, b.cells.data(), starts, b.begins.data(), starts, file.data(), file.size()));
    }
    uint32_t read() override {
        const auto r = murgolab_read_scenario_plain(file.data(), written, filled.data(), n, filled.data() + n, n,
            filled.data() + 2 * n, n);
        demand(r.number == 0, "a file was refused");
        return r.starts;
    }
    uint32_t tablet(uint32_t side, uint32_t stride) override {
        const uint64_t r = murgolab_tablet_run(file.data(), written, stride, side, side, out.data(), out.size());
        demand(r >= 256, "a tablet's call was refused");
        return r / 256;
    }
    const std::vector<uint32_t> &times() const override { return times_; }
    std::vector<uint8_t> sides() const override { return sides_; }
    uint32_t diagonals(uint32_t first, uint32_t end, uint32_t passes) override {
        uint32_t sum = 0;
        for (uint32_t k = 0; k < passes; k++)
            for (uint32_t s = first; s < end; s++) sum += accepted(murgolab_diagonal(s));
        return sum;
    }
    uint32_t round_of_run(uint32_t side, uint32_t stride, uint32_t j) override {
        if (j == 1) std::fill(times_.begin(), times_.end(), MURGOLAB_NEVER);
        return round_to(side, std::min<uint64_t>(uint64_t(j) * stride, horizon));
    }
    bool takes_pairs() const override { return true; }
    bool takes_storeys() const override { return true; }
};

} // namespace

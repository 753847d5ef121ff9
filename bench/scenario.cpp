// Reading and writing the longest scenario file beside the plain reader and writer: medians of interleaved runs. First
// both must give the same on that file and on damaged ones, so that the same work is timed.
#include "adapter.hpp"
#include "plain_scenario.h"
#include <functional>
#include <set>
#include <tuple>

namespace {

using List = std::vector<uint32_t>;

struct Scenario {
    uint32_t width, height, storeys, ticks, ground;
    List slow, cells, begins;
};

using Bytes = std::vector<uint8_t>;
const auto both_readers = {murgolab_read_scenario_plain, plain_read_scenario};
const auto both_writers = {murgolab_write_scenario_plain, plain_write_scenario};

murgolab_scenario read(decltype(&plain_read_scenario) reader, const Bytes &file, Scenario &into) {
    return reader(file.data(), file.size(), into.slow.data(), into.slow.size(), into.cells.data(), into.cells.size(),
        into.begins.data(), into.begins.size());
}

murgolab_reply write(decltype(&plain_write_scenario) writer, const Scenario &s, Bytes &out) {
    return writer(s.width, s.height, s.storeys, s.ticks, s.ground, s.slow.data(), s.slow.size(), s.cells.data(),
        s.cells.size(), s.begins.data(), s.begins.size(), out.data(), out.size());
}

// The number that both readers give; answers and lists must be the same.
uint32_t read_alike(const Bytes &file, size_t slow, size_t starts) {
    std::vector<std::tuple<List, size_t, List, List, List>> seen;
    for (auto reader : both_readers) {
        Scenario into{0, 0, 0, 0, 0, List(slow, 7), List(starts, 8), List(starts, 9)};
        auto a = read(reader, file, into);
        List answers{a.number, a.width, a.height, a.storeys, a.ticks, a.ground, a.starts};
        seen.push_back({answers, a.place, into.slow, into.cells, into.begins});
    }
    demand(seen[0] == seen[1], "the readers differ");
    return std::get<0>(seen[0])[0];
}

// The number that both writers give; answers and bytes must be the same.
uint32_t write_alike(const Scenario &s, size_t length) {
    std::vector<std::tuple<uint32_t, uint32_t, size_t, Bytes>> seen;
    for (auto writer : both_writers) {
        Bytes out(length, 7);
        auto a = write(writer, s, out);
        seen.push_back({a.number, a.count, a.place, out});
    }
    demand(seen[0] == seen[1], "the writers differ");
    return std::get<0>(seen[0]);
}

// Every refusal of the reader, at the end of the file where it can be, flat and as a house of two storeys.
void check_readers(const Bytes &file) {
    const size_t n = 65536, runs_end = 20 + 12 * n, end = file.size();
    std::set<uint32_t> given = {read_alike(file, n, n), read_alike(file, n + 1, n + 1), read_alike(file, n - 1, n),
        read_alike(file, n, n - 1), read_alike(Bytes(file.begin(), file.end() - 1), n, n)};
    const std::pair<size_t, Bytes> changes[] = {
        {2, {1}},                 // height 257
        {3, {0}},                 // height 0
        {4, {0}},                 // no storeys
        {4, {3}},                 // too many cells
        {2, {4, 0, 64}},          // too many storeys
        {6, {0}},                 // no ticks
        {8, {0, 0}},              // the ground's g 0
        {10, {0, 0}},             // the ground's h 0
        {10, {1}},                // the ground's g and h unequal
        {runs_end - 3, {16}},     // the last run's g above 4,095
        {runs_end - 1, {16}},     // its h above 4,095
        {runs_end - 4, {0, 0}},   // its g 0
        {runs_end - 2, {0, 0}},   // its h 0
        {runs_end - 2, {1}},      // its g and h unequal
        {runs_end - 8, {2}},      // its end beyond the board
        {runs_end - 8, {0}},      // its length 0
        {end - 6, {1}},           // the last start's cell off the board
        {end - 8, {0xFE}},        // that of the start before
        {end - 2, {16}},          // its time above 1,000,000
        {runs_end - 4, Bytes(4)}, // a wall under it
    };
    const auto changed = [](Bytes bytes, size_t at, const Bytes &with) {
        std::copy(with.begin(), with.end(), bytes.begin() + at);
        return bytes;
    };
    const Bytes house = changed(file, 2, {128, 0, 2});
    given.insert(read_alike(house, n, n));
    for (const auto &[at, bytes] : changes)
        for (const Bytes *good : {&file, &house}) given.insert(read_alike(changed(*good, at, bytes), n, n));
    const std::set<uint32_t> all{0, 1, 2, 3, 5, 6, 7, 8, 9, 14, 18, 21, 23};
    demand(given == all, "a refusal of the reader was not tried");
}

void check_writers(const Scenario &s, size_t length) {
    std::set<uint32_t> given = {write_alike(s, length), write_alike(s, length + 1), write_alike(s, length - 1)};
    const std::vector<std::function<void(Scenario &)>> damages = {
        [](Scenario &d) { d.width = 257; },
        [](Scenario &d) { d.ticks = 65536; },
        [](Scenario &d) { d.begins.pop_back(); },
        [](Scenario &d) { d.slow.back() = MURGOLAB_PAIR(4096, 1); },
        [](Scenario &d) { d.slow.back() = MURGOLAB_PAIR(1, 4096); },
        [](Scenario &d) { d.ground = MURGOLAB_PAIR(1, 4096); },
        [](Scenario &d) { d.slow.back() = MURGOLAB_PAIR(1, 0); },
        [](Scenario &d) { d.slow.back() = MURGOLAB_PAIR(0, 1); },
        [](Scenario &d) { d.ground = MURGOLAB_PAIR(0, 1); },
        [](Scenario &d) { d.cells.back() = 65536; },
        [](Scenario &d) { d.cells.back() = d.cells.front(); },
        [](Scenario &d) { d.begins.back() = 1000001; },
        [](Scenario &d) { d.slow.back() = 0; },
        [](Scenario &d) { d.slow.back() = MURGOLAB_PAIR(1, 2); },
        [](Scenario &d) { d.ground = MURGOLAB_PAIR(1, 2); },
        [](Scenario &d) { d.storeys = 0; },
        [](Scenario &d) { d.storeys = 0, d.slow.clear(); },
        [](Scenario &d) { d.storeys *= 2, d.slow.resize(131072, d.ground); },
        [](Scenario &d) { d.height = 4, d.storeys = 64; },
    };
    Scenario house = s;
    house.height = 128, house.storeys = 2;
    given.insert(write_alike(house, length));
    for (auto &damage : damages)
        for (Scenario damaged : {s, house}) {
            damage(damaged);
            given.insert(write_alike(damaged, length));
        }
    const std::set<uint32_t> all{0, 2, 3, 4, 5, 7, 8, 9, 14, 18, 21, 23};
    demand(given == all, "a refusal of the writer was not tried");
}

} // namespace

int main(int, char **argv) {
    const int runs = std::atoi(argv[1]);
    const yardstick::Board b = longest();
    Scenario s{256, 256, 1, ticks, MURGOLAB_PAIR(ground, ground), {}, b.cells, b.begins};
    for (uint32_t slowness : b.slow) s.slow.push_back(MURGOLAB_PAIR(slowness, slowness));
    Bytes file(20 + 20 * 65536);
    demand(write(plain_write_scenario, s, file).count == file.size(), "that is not the longest file");
    check_readers(file);
    check_writers(s, file.size());

    Scenario into = s;
    Took reads[2], writes[2];
    const auto accepted = [](auto reply) { demand(reply.number == 0, "a file was refused"); };
    for (int k = 0; k < runs; k++) {
        auto took = reads;
        for (auto reader : both_readers) (took++)->push_back(micros([&] { accepted(read(reader, file, into)); }));
        took = writes;
        for (auto writer : both_writers) (took++)->push_back(micros([&] { accepted(write(writer, s, file)); }));
    }
    std::printf("%d interleaved runs, medians; the longest scenario file, %zu bytes\n", runs, file.size());
    std::printf("%-20s %12s %15s %15s\n", "call", "library (us)", "plain C (us)", "over plain C");
    for (auto &[name, took] : {std::pair{"read", reads}, {"write", writes}})
        std::printf("%-20s %12.0f %15.0f %15.2f\n", name, median(took[0]), median(took[1]), ratio(took[0], took[1]));
}

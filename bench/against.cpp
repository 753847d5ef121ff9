// This tree and another commit in one interleaved run: each row is timed on both, one directly after the other and each
// of them first by turns. Both must give the same answers, the same times and, if both have them, the same sides.
#include "adapter.hpp"
#include "boards.hpp"
#include <deque>
#include <memory>

namespace {

// A board lent to both.
struct Both {
    const yardstick::Board board;
    const std::unique_ptr<Lent> lent[2];

    explicit Both(const yardstick::Board &b)
        : board(b), lent{std::unique_ptr<Lent>(this_tree(board)), std::unique_ptr<Lent>(other_commit(board))} {}
};

struct Line {
    const Both &on;
    const Row row;
    Took took[2];

    double ratio() const { return ::ratio(took[0], took[1]); }
};

bool lower(const Line *a, const Line *b) { return a->ratio() < b->ratio(); }

// For each call the greatest ratio of all boards, and of those the greatest: what a bar is read off.
void summary(const std::deque<Line> &lines) {
    std::printf("\ngreatest ratio of all boards\n");
    std::vector<const Line *> worst;
    for (const Row &row : rows) {
        std::vector<const Line *> of_call;
        for (const Line &line : lines)
            if (line.row.play == row.play) of_call.push_back(&line);
        worst.push_back(*std::max_element(of_call.begin(), of_call.end(), lower));
        std::printf("%-10s %8.2f  %s\n", row.name, worst.back()->ratio(), worst.back()->on.board.name);
    }
    const Line &all = **std::max_element(worst.begin(), worst.end(), lower);
    std::printf("%-10s %8.2f  %s, %s\n", "all", all.ratio(), all.row.name, all.on.board.name);
}

} // namespace

int main(int, char **argv) {
    const int runs = std::atoi(argv[1]);
    std::deque<Both> boards;
    std::deque<Line> lines;
    // each is played once on both, untimed; what the other commit does not have is left out
    const auto add = [&](const Both &on, const Row &row) {
        row.play(*on.lent[0]);
        if (row.play(*on.lent[1]) != absent)
            lines.push_back({on, row, {}});
        else
            std::printf("%s: bench/calls.hpp of %s does not have it\n", row.name, argv[2]);
    };
    for (const auto &b : all_boards()) {
        boards.emplace_back(b);
        const Lent &other = *boards.back().lent[1];
        const bool pairs_missing = !b.down.empty() && !other.takes_pairs();
        if (pairs_missing || (b.storeys > 1 && !other.takes_storeys())) {
            std::printf("%s: %s has no %s\n", b.name, argv[2], pairs_missing ? "pairs" : "storeys");
            boards.pop_back();
            continue;
        }
        for (const Row &row : rows)
            if (row.measured(b)) add(boards.back(), row);
    }
    add(boards[1], {"local rule", [](Lent &l) { return l.rule(); }});
    boards.emplace_back(yardstick::Board{"no board", 1, 1, {1}, {}, {}});
    for (const Row &row : steps) add(boards.back(), row);
    boards.emplace_back(longest());
    add(boards.back(), {"write", [](Lent &l) { return l.write(), 0u; }});
    add(boards.back(), {"read", [](Lent &l) { return l.read(); }});

    for (int k = 0; k < runs; k++)
        for (Line &line : lines) {
            uint32_t answers[2];
            for (int i : {k % 2, 1 - k % 2})
                line.took[i].push_back(micros([&] { answers[i] = line.row.play(*line.on.lent[i]); }));
            demand(answers[0] == answers[1], "the two commits answer differently");
        }
    for (const Both &b : boards) {
        demand(b.lent[0]->times() == b.lent[1]->times(), "the two commits name different times");
        const auto sides = b.lent[1]->sides();
        demand(sides.empty() || sides == b.lent[0]->sides(), "the two commits name different sides");
    }

    std::printf("%d interleaved runs, medians; 256 x 256 cells but in houses, horizon %u\n", runs, horizon);
    std::printf("%-20s %-10s %14s %14s %8s\n", "board", "call", "this tree (us)", argv[2], "ratio");
    for (const Line &line : lines)
        std::printf("%-20s %-10s %14.0f %14.0f %8.2f\n", line.on.board.name, line.row.name, median(line.took[0]),
            median(line.took[1]), line.ratio());
    summary(lines);
}

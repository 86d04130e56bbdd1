// Times the map writer's call against the same call by hand in C++ (plain_writer.hpp): maps of 4,096 places and of ever more arcs, in orders that are
// easy or hard for a sort. The lines under the table say what its columns are. bench/run builds and runs it.
#include <tuple>

#include "maps.hpp"
#include "pair.hpp"

namespace {

using Arcs = std::vector<Arc>;
using maps::Chance;

// as they are written
bool before(const Arc &a, const Arc &b)
{
    auto order = [](const Arc &x) {
        bool measured = x.lane_class != plain::none;
        return std::tuple(x.from, x.to, x.cost, measured, measured ? x.cost / plain::fixed_factors[x.lane_class] : 0);
    };
    return order(a) < order(b);
}

void shuffle(Arcs &arcs, Chance &chance)
{
    for (uint32_t i = static_cast<uint32_t>(arcs.size()); i > 1; i--)
        std::swap(arcs[i - 1], arcs[chance.below(i)]);
}

void sort(Arcs &arcs, Chance &)
{
    std::sort(arcs.begin(), arcs.end(), before);
}

void reverse(Arcs &arcs, Chance &chance)
{
    sort(arcs, chance);
    std::reverse(arcs.begin(), arcs.end());
}

// rising, then falling: every second arc goes to the falling end
void pipe(Arcs &arcs, Chance &chance)
{
    sort(arcs, chance);
    Arcs rising, falling;
    for (size_t i = 0; i < arcs.size(); i++)
        (i % 2 == 0 ? rising : falling).push_back(arcs[i]);
    std::copy(falling.rbegin(), falling.rend(), std::copy(rising.begin(), rising.end(), arcs.begin()));
}

// one arc in a hundred changes places with another
void swap_some(Arcs &arcs, Chance &chance)
{
    sort(arcs, chance);
    uint32_t count = static_cast<uint32_t>(arcs.size());
    for (uint32_t i = 0; i < count / 100; i++)
        std::swap(arcs[chance.below(count)], arcs[chance.below(count)]);
}

void from_one_place(Arcs &arcs, Chance &chance)
{
    for (Arc &a : arcs)
        a.from = 0;
    shuffle(arcs, chance);
}

void make_equal(Arcs &arcs, Chance &)
{
    std::fill(arcs.begin(), arcs.end(), Arc(arcs[0]));
}

struct Row {
    const char *map, *order;
    void (*put_in_order)(Arcs &, Chance &);
};

constexpr Row rows[] = {
    {"random", "random", shuffle},
    {"random", "written", sort},
    {"random", "reversed", reverse},
    {"random", "rising, falling", pipe},
    {"random", "1 % swapped", swap_some},
    {"random", "from one place", from_one_place},
    {"random", "all equal", make_equal},
    {"grid", "random", shuffle},
    {"grid", "written", sort},
    {"grid", "reversed", reverse},
    {"grid", "rising, falling", pipe},
    {"grid", "1 % swapped", swap_some},
};

constexpr size_t sizes[] = {1024, 4096, 16384};

Pair<Writing> pair_of(Map m, const Row &row, size_t arcs)
{
    Chance chance;
    m.arcs.resize(std::min(arcs, m.arcs.size()));
    row.put_in_order(m.arcs, chance);
    std::vector<uint8_t> input = input_of(m);
    size_t bytes = input.size();
    return {std::move(input), R3_WORDS_OF(m.places, m.arcs.size()), bytes};
}

// Both calls on one map, again and again, the more often the shorter they are. Whether their answers agreed.
bool time_all(const Row &row, size_t arcs, Pair<Writing> &pair)
{
    for (size_t turn = 0; turn < std::min<size_t>(100 * 16384 / arcs, 1000); turn++) {
        pair.turn(turn % 2 == 0);
        if (!pair.agree(0)) {
            std::printf("%s, %s, %zu arcs: the two answers differ, or are not 0\n", row.map, row.order, arcs);
            return false;
        }
    }
    return true;
}

void print_head()
{
    std::printf("%22s", "");
    for (size_t arcs : sizes)
        std::printf(" | %10zu arcs, us", arcs);
    std::printf(" | ns each, by arcs\n%-6s %-15s", "map", "order");
    for (size_t i = 0; i < std::size(sizes); i++)
        std::printf(" | %6s %6s ratio", "writer", "C++");
    std::printf(" |");
    for (size_t arcs : sizes)
        std::printf(" %5zu", arcs);
    std::printf("\n");
}

void print_row(const Row &row, const Pair<Writing> *pairs)
{
    std::printf("%-6s %-15s", row.map, row.order);
    for (size_t i = 0; i < std::size(sizes); i++)
        std::printf(" | %6.1f %6.1f %5.2f", pairs[i].exported() * 1e6, pairs[i].by_hand() * 1e6, pairs[i].ratio());
    std::printf(" |");
    for (size_t i = 0; i < std::size(sizes); i++)
        std::printf(" %5.2f", pairs[i].exported() * 1e9 / (static_cast<double>(sizes[i]) * std::log2(sizes[i])));
    std::printf("\n");
}

} // namespace

int main()
{
    const Map random = maps::classed(maps::random(4096, 60)), grid = maps::classed(maps::grid(64, false, 60));
    std::vector<Pair<Writing>> pairs;
    for (const Row &row : rows)
        for (size_t arcs : sizes) {
            pairs.push_back(pair_of(row.map == rows[0].map ? random : grid, row, arcs));
            if (!time_all(row, arcs, pairs.back()))
                return 1;
        }
    print_head();
    for (size_t i = 0; i < std::size(rows); i++)
        print_row(rows[i], &pairs[i * std::size(sizes)]);
    std::puts("4,096 places, lanes of both kinds, and an estimate for 60 % of the places; the whole grid has 16,128 arcs, which stand under 16,384\n"
              "ns each: the writer's time divided by M log2 M; where arcs are few, most of it goes into 4,096 places and their estimates");
    print_ratios("writing", pairs);
}

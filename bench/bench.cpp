// Times the router's call against the same call by hand in C++ (plain.hpp) on the maps of maps.hpp, and counts the expansions of the budgeted search,
// of A* with re-openings and of Dijkstra's search. The lines under the table say what its columns are. bench/run builds and runs it.
#include "maps.hpp"
#include "pair.hpp"

namespace {

// calls of each kind, of which the fastest counts: the shorter a call, the more it takes to meet one that nothing disturbs
int turns(const Map &m)
{
    return static_cast<int>(std::min(100 * 4096 / m.places, 2000u));
}

Pair<Routing> pair_of(const Map &m)
{
    return {input_of(m), R3_WORDS_OF(m.places, m.arcs.size()), R3_BYTES_OF(m.places)};
}

// Both calls on one map, again and again. Whether their answers agreed, the reading's with 16.
bool time_all(const Map &m, Pair<Routing> &whole, Pair<Routing> &reading)
{
    for (int turn = 0; turn < turns(m); turn++) {
        whole.turn(turn % 2 == 0);
        reading.turn(turn % 2 == 0);
        if (!whole.agree(0) || !reading.agree(16)) {
            std::printf("%s of %u places: the two answers differ, or are not 0 and 16\n", m.name, m.places);
            return false;
        }
    }
    return true;
}

unsigned long long a_star_expansions(const Map &m)
{
    std::vector<uint8_t> input = input_of(m);
    plain::Router router;
    router.read(input.data(), input.size(), R3_WORDS_OF(m.places, m.arcs.size()), R3_BYTES_OF(m.places));
    return router.a_star();
}

void print_head()
{
    std::printf("%29s | %21s | %19s | %25s |   ns\n", "", "whole call, us", "reading, us", "expansions");
    std::printf("%-8s %6s %6s %6s | %7s %7s ratio | %6s %6s ratio | %8s %7s %8s | each\n", "map", "places", "arcs", "estim.", "router", "C++",
                "router", "C++", "budgeted", "A*", "Dijkstra");
}

void print_row(const Map &m, const Pair<Routing> &whole, const Pair<Routing> &reading)
{
    Map no_estimates = m;
    no_estimates.estimate.assign(m.places, plain::none); // A* on it is Dijkstra's search
    no_estimates.default_at = plain::none;
    size_t estimates = m.places - std::count(m.estimate.begin(), m.estimate.end(), plain::none);
    std::printf("%-8s %6u %6zu %6zu", m.name, m.places, m.arcs.size(), estimates);
    std::printf(" | %7.1f %7.1f %5.2f", whole.exported() * 1e6, whole.by_hand() * 1e6, whole.ratio());
    std::printf(" | %6.1f %6.1f %5.2f", reading.exported() * 1e6, reading.by_hand() * 1e6, reading.ratio());
    std::printf(" | %8u %7llu %8llu", whole.answer().expansions, a_star_expansions(m), a_star_expansions(no_estimates));
    std::printf(" | %4.0f\n", (whole.exported() - reading.exported()) * 1e9 / whole.answer().expansions);
}

} // namespace

int main()
{
    std::vector<Map> list = maps::all();
    std::vector<Pair<Routing>> whole, reading;
    for (Map m : list) {
        whole.push_back(pair_of(m));
        m.allowance = 0;
        reading.push_back(pair_of(m));
    }
    for (size_t i = 0; i < list.size(); i++)
        if (!time_all(list[i], whole[i], reading[i]))
            return 1;
    print_head();
    for (size_t i = 0; i < list.size(); i++)
        print_row(list[i], whole[i], reading[i]);
    print_ratios("whole call", whole);
    print_ratios("reading", reading);
    std::puts("reading: the same map with an allowance of 0, so that the call judges, loads, begins one query and ends\n"
              "ns each: the router's time beyond reading, for each expansion of its budgeted search\n"
              "A* is with re-openings, Dijkstra without estimates; both end when they take the goal");
}

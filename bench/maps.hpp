// The maps that bench.cpp times. Each is drawn from a generator of its own, so that it is the same in every run and whatever stands before it in
// the list, and grids that differ only in their estimates have the same arcs.
#pragma once
#include <algorithm>
#include <random>

#include "map.hpp"

namespace maps {

using plain::none;

// with an allowance that is never spent
inline Map empty(const char *name, uint32_t places, uint32_t start, uint32_t goal)
{
    Map m;
    m.name = name;
    m.places = places;
    m.start = start;
    m.allowance = 236 * places;
    m.goals = {goal};
    m.estimate.assign(places, none);
    m.wait.assign(places, none);
    return m;
}

class Chance {
  public:
    uint32_t below(uint32_t n) { return static_cast<uint32_t>(generator_() % n); }

  private:
    std::mt19937 generator_{7};
};

// by sweeps over all arcs until nothing changes; none where the goal cannot be reached
inline std::vector<uint32_t> costs_to_goal(const Map &m)
{
    std::vector<uint32_t> least(m.places, none);
    least[m.goals[0]] = 0;
    for (bool changed = true; changed;) {
        changed = false;
        for (const Arc &a : m.arcs)
            if (least[a.to] != none && least[a.to] + m.cost(a) < least[a.from]) {
                least[a.from] = least[a.to] + m.cost(a);
                changed = true;
            }
    }
    return least;
}

// where there is an estimate it becomes 95 % of the least cost to the goal, so that none overstates
inline void set_estimates(Map &m)
{
    std::vector<uint32_t> least = costs_to_goal(m);
    for (uint32_t v = 0; v < m.places; v++)
        if (m.estimate[v] != none)
            m.estimate[v] = least[v] == none ? 0 : static_cast<uint32_t>(uint64_t{least[v]} * 95 / 100);
}

// about `share` per cent of the places get an estimate
inline void add_estimates(Map &m, Chance &chance, uint32_t share)
{
    for (uint32_t &estimate : m.estimate)
        if (chance.below(100) < share)
            estimate = 0;
    set_estimates(m);
}

inline void both_ways(Map &m, uint32_t u, uint32_t v, uint32_t cost)
{
    m.arcs.push_back({u, v, cost});
    m.arcs.push_back({v, u, cost});
}

// from corner to corner; with shelves the rows are joined at every eighth place only
inline Map grid(uint32_t side, bool shelves, uint32_t share)
{
    Map m = empty(shelves ? "shelves" : "grid", side * side, 0, side * side - 1);
    Chance chance;
    for (uint32_t v = 0; v < m.places; v++) {
        uint32_t x = v % side;
        if (x + 1 < side)
            both_ways(m, v, v + 1, 1 + chance.below(9));
        if (v + side < m.places && (!shelves || x % 8 == 0))
            both_ways(m, v, v + side, 1 + chance.below(9));
    }
    add_estimates(m, chance, share);
    return m;
}

// the same with lanes of both kinds and of all classes
inline Map classed(Map m)
{
    Chance chance;
    m.name = "classes";
    for (Arc &a : m.arcs)
        if (std::vector<uint32_t> all = classes(a.cost, m.factors); chance.below(2) == 0)
            a.lane_class = all[chance.below(static_cast<uint32_t>(all.size()))];
    return m;
}

// the same lanes under factors of the map's own, which stand behind half of them, and estimates that go by these
inline Map factored(Map m)
{
    const plain::Factors before = m.factors;
    m.name = "factors";
    m.factors = {1, 1, 2, 2, 3, 5, 9, 16};
    m.factors_at = m.arcs.size() / 2;
    for (Arc &a : m.arcs)
        if (a.lane_class != none)
            a.cost = a.cost / before[a.lane_class] * m.factors[a.lane_class];
    set_estimates(m);
    return m;
}

// the same with estimates for places that are less than half as far from the goal as the start is, and a default for all others
inline Map ringed(Map m)
{
    m.name = "ring";
    std::vector<uint32_t> least = costs_to_goal(m);
    uint32_t ring = least[m.start] / 2;
    for (uint32_t v = 0; v < m.places; v++)
        m.estimate[v] = least[v] < ring ? 0 : none;
    set_estimates(m);
    m.default_estimate = ring * 95 / 100;
    m.default_at = m.arcs.size() / 2;
    return m;
}

// the same with a wait at about one place in eight, and estimates that go by it
inline Map doored(Map m)
{
    Chance chance;
    m.name = "doors";
    for (uint32_t &wait : m.wait)
        if (chance.below(8) == 0)
            wait = 1 + chance.below(30);
    set_estimates(m);
    return m;
}

inline Map random(uint32_t places, uint32_t share)
{
    Map m = empty("random", places, 0, places - 1);
    Chance chance;
    for (uint32_t i = 0; i < 4 * places; i++) {
        uint32_t from = chance.below(places), to = chance.below(places);
        m.arcs.push_back({from, to, 1 + chance.below(1000)});
    }
    add_estimates(m, chance, share);
    return m;
}

// one place with an arc to all others: the open list at its longest
inline Map star(uint32_t places)
{
    Map m = empty("star", places, 0, places - 1);
    Chance chance;
    for (uint32_t v = 1; v + 1 < places; v++) {
        m.arcs.push_back({0, v, 1 + chance.below(60000)});
        m.arcs.push_back({v, places - 1, 60000});
    }
    return m;
}

// 4,000 places that are joined by way of 90 others only
inline Map hubs()
{
    Map m = empty("hubs", 4096, 1, 4095);
    Chance chance;
    for (uint32_t v = 0; v < 4000; v++) {
        m.arcs.push_back({4000 + v % 90, v, 1 + chance.below(50)});
        m.arcs.push_back({v, 4000 + chance.below(90), 1 + chance.below(50)});
    }
    m.arcs.push_back({3999, 4095, 9});
    add_estimates(m, chance, 60);
    return m;
}

inline Map chain()
{
    Map m = empty("chain", 4096, 0, 4095);
    Chance chance;
    for (uint32_t v = 0; v + 1 < m.places; v++)
        m.arcs.push_back({v, v + 1, 1 + chance.below(100)});
    add_estimates(m, chance, 60);
    return m;
}

// Martelli's family: every set of places between the start k and place 1 gives another cost of 1, and with these estimates, which do not
// overstate, A* comes to the dearest first and expands 2 to the power k - 1 times
inline Map martelli(uint32_t k)
{
    Map m = empty("Martelli", k + 1, k, 0);
    for (uint32_t j = 1; j <= k; j++)
        for (uint32_t i = 1; i < j; i++)
            m.arcs.push_back({j, i, (1u << (j - 2)) - (1u << (i - 1)) + j - i});
    m.arcs.push_back({1, 0, 1u << (k - 1)});
    for (uint32_t j = 1; j < k; j++)
        m.estimate[j] = (1u << (j - 1)) + j - 1;
    return m;
}

// Mero's kind: the start sees k places, whose estimates fall in steps, and each of them that A* takes makes the chain behind them cheaper
inline Map mero(uint32_t k)
{
    uint32_t start = 2 * k, goal = 2 * k + 1;
    Map m = empty("Mero", 2 * k + 2, start, goal);
    for (uint32_t i = 0; i < k; i++) {
        m.arcs.push_back({start, i, 1});
        m.arcs.push_back({i, k, 1 + i});
        m.arcs.push_back({k + i, std::min(k + i + 1, 2 * k - 1), 1});
        m.estimate[i] = 3 * k - i;
    }
    m.arcs.push_back({2 * k - 1, goal, 3 * k});
    return m;
}

// A chain of 4,000 places behind Martelli's graph, at the place whose first arc leads to the goal. The start is surveyed, so that the goal is within
// every limit: it is open, and far, while the chain is walked.
inline Map far_goal(uint32_t k)
{
    Map m = martelli(k);
    m.name = "far goal";
    uint32_t first = m.places;
    for (uint32_t v = first; v < first + 4000; v++)
        m.arcs.push_back({v == first ? 1 : v - 1, v, 8});
    m.places += 4000;
    m.allowance = 236 * m.places;
    m.estimate.resize(m.places, none);
    m.wait.resize(m.places, none);
    m.estimate[m.start] = costs_to_goal(m)[m.start] * 95 / 100;
    return m;
}

inline std::vector<Map> all()
{
    return {
        grid(16, false, 60), grid(23, false, 60), grid(32, false, 60), grid(45, false, 60), grid(64, false, 60),
        grid(64, false, 0), grid(64, false, 95), grid(64, true, 0), grid(64, true, 60), grid(64, true, 95),
        classed(grid(64, false, 60)), factored(classed(grid(64, false, 60))), doored(grid(64, false, 60)), ringed(grid(64, false, 0)),
        random(4096, 0), random(4096, 60), random(4096, 100), random(2000, 95), // the third has all arcs and estimates that a map can have
        star(4096), star(300), hubs(), chain(), martelli(16), mero(1000), far_goal(16),
    };
}

} // namespace maps

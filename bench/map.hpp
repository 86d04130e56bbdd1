// A map with its job, and the input that it is written as.
#pragma once
#include <algorithm>
#include <cstdint>
#include <vector>

#include "plain.hpp"

// a lane; one with a class is written with it and its length, which goes by the map's factors
struct Arc {
    uint32_t from, to, cost, lane_class = plain::none;
};

// the classes in which a lane of some length has this cost
inline std::vector<uint32_t> classes(uint32_t cost, const plain::Factors &factors)
{
    std::vector<uint32_t> all;
    for (uint32_t c = 0; c < factors.size(); c++)
        if (cost % factors[c] == 0 && cost / factors[c] <= 4095)
            all.push_back(c);
    return all;
}

struct Map {
    const char *name = "";
    uint32_t places = 0, start = 0, allowance = 0;
    std::vector<uint32_t> goals, estimate, wait; // an estimate or a wait of none: the place has no record
    std::vector<Arc> arcs;
    plain::Factors factors = plain::fixed_factors;
    uint32_t default_estimate = 0;
    size_t factors_at = plain::none, default_at = plain::none; // their records stand behind so many arcs; none: there is no record

    bool is_goal(uint32_t v) const { return std::binary_search(goals.begin(), goals.end(), v); }
    // which holds where a place has no record
    uint32_t estimate_without(uint32_t v) const { return is_goal(v) ? 0 : default_estimate; }
    uint32_t estimate_at(uint32_t v) const { return estimate[v] == plain::none ? estimate_without(v) : estimate[v]; }
    uint32_t wait_at(uint32_t v) const { return wait[v] == plain::none ? 0 : wait[v]; }
    // of the lane, with the wait of the place that it leaves
    uint32_t cost(const Arc &a) const { return a.cost + wait_at(a.from); }
};

inline void put(std::vector<uint8_t> &out, uint32_t x, int bytes)
{
    for (int i = 0; i < bytes; i++)
        out.push_back(static_cast<uint8_t>(x >> 8 * i));
}

// what a record's body is put behind
inline void put_front(std::vector<uint8_t> &out, uint32_t length, uint32_t kind)
{
    put(out, length, 2);
    put(out, kind, 2);
}

inline void put_arc(std::vector<uint8_t> &out, const Arc &a, const plain::Factors &factors)
{
    bool flat = a.lane_class == plain::none;
    put_front(out, flat ? 6 : 8, flat ? 2 : 5);
    for (uint32_t x : {a.from, a.to, flat ? a.cost : a.cost / factors[a.lane_class]})
        put(out, x, 2);
    if (!flat)
        put(out, a.lane_class, 2);
}

inline void put_estimate(std::vector<uint8_t> &out, uint32_t place, uint32_t estimate)
{
    put_front(out, 6, 3);
    put(out, place, 2);
    put(out, estimate, 4);
}

inline void put_wait(std::vector<uint8_t> &out, uint32_t place, uint32_t wait)
{
    put_front(out, 4, 6);
    put(out, place, 2);
    put(out, wait, 2);
}

inline void put_factors(std::vector<uint8_t> &out, const plain::Factors &factors)
{
    put_front(out, 16, 7);
    for (uint32_t factor : factors)
        put(out, factor, 2);
}

inline void put_default(std::vector<uint8_t> &out, uint32_t estimate)
{
    put_front(out, 4, 8);
    put(out, estimate, 4);
}

// what a map has once at most and stands behind so many arcs
inline void put_once(std::vector<uint8_t> &out, const Map &m, size_t arcs)
{
    if (m.factors_at == arcs)
        put_factors(out, m.factors);
    if (m.default_at == arcs)
        put_default(out, m.default_estimate);
}

// the waits by place, evenly among the arcs, and the factors and the default at their place
inline void put_arcs_and_waits(std::vector<uint8_t> &out, const Map &m)
{
    size_t next = 0;
    for (uint32_t v = 0; v < m.places; v++) {
        if (m.wait[v] != plain::none)
            put_wait(out, v, m.wait[v]);
        for (; next < m.arcs.size() * (v + 1) / m.places; next++) {
            put_once(out, m, next);
            put_arc(out, m.arcs[next], m.factors);
        }
    }
    put_once(out, m, m.arcs.size());
}

inline std::vector<uint8_t> input_of(const Map &m)
{
    std::vector<uint8_t> out;
    uint32_t goals = static_cast<uint32_t>(m.goals.size());
    put_front(out, 4, 1);
    put(out, m.places, 2);
    put(out, static_cast<uint32_t>(m.arcs.size()), 2);
    put_arcs_and_waits(out, m);
    for (uint32_t v = 0; v < m.places; v++)
        if (m.estimate[v] != plain::none)
            put_estimate(out, v, m.estimate[v]);
    put_front(out, 8 + 2 * goals, 4);
    put(out, m.start, 2);
    put(out, m.allowance, 4);
    put(out, goals, 2);
    for (uint32_t g : m.goals)
        put(out, g, 2);
    return out;
}

// Random maps, with estimates made from the least costs to a goal that the Boost Graph Library gives.
#pragma once
#include <numeric>
#include <random>

#include "least.hpp"

class Maps {
  public:
    enum Kind { none, exact, part, gaps, overstating, kinds };
    static constexpr const char *names[kinds] = {"no estimates", "true least costs", "a part of them", "gaps", "overstating"}; // of their own

    explicit Maps(uint32_t seed) : chance_(seed) {}
    uint32_t below(size_t n) { return static_cast<uint32_t>(chance_() % n); }

    Map map(Kind kind, uint32_t places)
    {
        const uint32_t dearest[] = {1, 2, 9, 300, 65535};
        Map m;
        m.name = names[kind];
        m.places = places;
        m.start = below(places);
        add_goals(m, below(2) == 0 ? 1 : 1 + below(std::min(64u, 1 + places / 4)));
        if (below(3) == 0)
            m.factors = some_factors();
        uint32_t most = std::min(4 * places + 4, 16384u), fewer = below(most + 1), dear = dearest[below(5)];
        add_arcs(m, most - fewer / (1 + below(4)), dear);
        if (m.factors != plain::fixed_factors || below(8) == 0)
            m.factors_at = below(4) == 0 ? 0 : below(m.arcs.size() + 1);
        add_waits(m, dear);
        std::vector<long> far = least_costs(m);
        add_estimates(m, kind, dear, far);
        if (below(5) < 2)
            add_default(m, kind, far);
        return m;
    }

    // adds arcs beside those that there are: the same once more, of another kind or class at the same cost, or at another cost
    void add_twins(Map &m)
    {
        size_t count = std::min<size_t>(m.arcs.empty() ? 0 : below(m.arcs.size() + 4), 16384 - m.arcs.size());
        for (size_t i = 0; i < count; i++) {
            Arc twin = m.arcs[below(m.arcs.size())];
            uint32_t way = below(3);
            if (way == 0)
                twin.cost = 1 + below(std::min(2 * twin.cost, 65535 - m.wait_at(twin.from)));
            if (way != 1)
                twin.lane_class = some_class(twin.cost, m.factors);
            m.arcs.push_back(twin);
        }
    }

    // none for half of the arcs
    uint32_t some_class(uint32_t cost, const plain::Factors &factors)
    {
        std::vector<uint32_t> all = classes(cost, factors);
        return all.empty() || below(2) == 0 ? plain::none : all[below(all.size())];
    }

    // any that a map may have, close together in some maps
    plain::Factors some_factors()
    {
        uint32_t least = 1 + below(plain::largest_factor), most = least + below(plain::largest_factor + 1 - least);
        plain::Factors factors;
        std::generate(factors.begin(), factors.end(), [&] { return least + below(most + 1 - least); });
        std::sort(factors.begin(), factors.end());
        return factors;
    }

    // with which the dearest arc of a place costs as much as an arc may, by place
    static std::vector<uint32_t> longest_waits(const Map &m)
    {
        std::vector<uint32_t> longest(m.places, 65535);
        for (const Arc &a : m.arcs)
            longest[a.from] = std::min(longest[a.from], 65535 - a.cost);
        return longest;
    }

    template <class At> void shuffle(At first, At last) { std::shuffle(first, last, chance_); }

  private:
    static constexpr uint32_t largest = plain::largest_estimate;

    void add_goals(Map &m, uint32_t count)
    {
        std::vector<uint32_t> all(m.places);
        std::iota(all.begin(), all.end(), 0);
        std::sample(all.begin(), all.end(), std::back_inserter(m.goals), count, chance_); // keeps their order
    }

    void add_arcs(Map &m, size_t count, uint32_t dear)
    {
        uint32_t reach = below(2) == 0 ? m.places : 4; // a small reach makes long routes
        bool level = below(4) == 0;                    // an arc costs its steps, so that routes of many arcs and of few cost the same
        std::vector<uint32_t> ring(m.places);
        std::iota(ring.begin(), ring.end(), 0);
        if (level)
            std::shuffle(ring.begin(), ring.end(), chance_);
        for (size_t i = 0; i < count; i++) {
            uint32_t at = below(m.places), way = below(16), steps = way == 1 ? 0 : 1 + below(reach);
            if (way == 0 && i != 0)
                m.arcs.push_back(m.arcs.back()); // a parallel arc
            else
                m.arcs.push_back({ring[at], ring[(at + steps) % m.places], std::max(steps, 1u), plain::none});
            if (!level)
                m.arcs.back().cost = some_cost(m, dear);
            m.arcs.back().lane_class = some_class(m.arcs.back().cost, m.factors);
        }
        auto to_goal = [&](const Arc &a) { return std::binary_search(m.goals.begin(), m.goals.end(), a.to); };
        if (below(8) == 0) // no goal can be reached, unless it is the start
            m.arcs.erase(std::remove_if(m.arcs.begin(), m.arcs.end(), to_goal), m.arcs.end());
    }

    // up to so much; half of them what a lane with a class may cost, where a factor is as small as that
    uint32_t some_cost(const Map &m, uint32_t dear)
    {
        uint32_t factor = m.factors[below(m.factors.size())];
        return below(2) == 0 || factor > dear ? 1 + below(dear) : factor * (1 + below(std::min(dear / factor, 4095u)));
    }

    // none in half of the maps; as long as they may be at some places
    void add_waits(Map &m, uint32_t dear)
    {
        m.wait.assign(m.places, plain::none);
        if (below(2) == 0)
            return;
        std::vector<uint32_t> longest = longest_waits(m);
        uint32_t share = 1 + below(100);
        for (uint32_t v = 0; v < m.places; v++)
            if (below(100) < share)
                m.wait[v] = below(8) == 0 ? longest[v] : std::min(longest[v], below(dear + 1));
    }

    void add_estimates(Map &m, Kind kind, uint32_t dear, const std::vector<long> &far)
    {
        uint32_t per_cent = below(101), lost = below(2) == 0 ? largest : below(1000); // where no goal can be reached, none overstates
        for (uint32_t v = 0; v < m.places; v++) {
            uint32_t least = far[v] == unreached ? lost : static_cast<uint32_t>(far[v]), estimate = 0;
            if (kind == exact)
                estimate = least;
            else if (kind == part)
                estimate = static_cast<uint32_t>(static_cast<uint64_t>(least) * per_cent / 100);
            else if (kind == gaps && below(2) == 0)
                estimate = below(least + 1);
            else if (kind == overstating && far[v] != 0)
                estimate = below(8) == 0 ? below(largest + 1) : std::min(largest, (v % 2) * least + below(3 * dear));
            m.estimate.push_back(estimate == 0 && below(2) == 0 ? plain::none : estimate); // 0 with a record and without
        }
    }

    // for the places without a record, and in some maps for others, which lose theirs; only where estimates do may it overstate
    void add_default(Map &m, Kind kind, const std::vector<long> &far)
    {
        uint32_t lost = below(2) == 0 ? 0 : below(101), most = largest;
        for (uint32_t v = 0; v < m.places; v++) {
            if (below(100) < lost)
                m.estimate[v] = plain::none;
            if (m.estimate[v] == plain::none && !m.is_goal(v) && far[v] != unreached)
                most = std::min(most, static_cast<uint32_t>(far[v]));
        }
        uint32_t some = m.estimate_at(below(m.places)); // what a place has
        const uint32_t values[] = {most, below(most + 1), std::min(some, most), 0}, any[] = {some, below(largest + 1)};
        m.default_estimate = kind == overstating && below(2) == 0 ? any[below(2)] : values[below(4)];
        m.default_at = below(m.arcs.size() + 1);
    }

    std::mt19937 chance_;
};

// A second search by other authors: the Boost Graph Library's Dijkstra.
#pragma once
#include <boost/graph/adjacency_list.hpp>
#include <boost/graph/dijkstra_shortest_paths.hpp>

#include <limits>

#include "map.hpp"

constexpr long unreached = std::numeric_limits<long>::max();

// from each place to a goal
inline std::vector<long> least_costs(const Map &m)
{
    using Graph = boost::adjacency_list<boost::vecS, boost::vecS, boost::directedS, boost::no_property, boost::property<boost::edge_weight_t, long>>;
    Graph graph(m.places + 1); // the arcs backwards, and one more vertex with arcs of cost 0 to every goal
    for (const Arc &a : m.arcs)
        boost::add_edge(a.to, a.from, m.cost(a), graph);
    for (uint32_t g : m.goals)
        boost::add_edge(m.places, g, 0L, graph);
    std::vector<long> far(m.places + 1, unreached);
    auto kept = boost::make_iterator_property_map(far.begin(), boost::get(boost::vertex_index, graph));
    boost::dijkstra_shortest_paths(graph, m.places, boost::distance_map(kept));
    return far;
}

// whether an estimate is above the least cost from its place to a goal
inline bool overstates(const Map &m, const std::vector<long> &far)
{
    for (uint32_t v = 0; v < m.places; v++)
        if (m.estimate_at(v) > far[v])
            return true;
    return false;
}

// The least costs by the Boost Graph Library, for tests/cases.py: least < MAPS prints a line for each map, with the least cost from every place to a
// goal, or '-' where no goal can be reached. A map is numbers with blanks between: places, arcs, goals; from, to and cost of each arc; each goal.
#include <iostream>

#include "least.hpp"

int main()
{
    size_t places, arcs, goals;
    while (std::cin >> places >> arcs >> goals) {
        Map m;
        m.places = static_cast<uint32_t>(places);
        m.arcs.resize(arcs);
        m.goals.resize(goals);
        m.wait.assign(places, plain::none); // they are in the costs
        for (Arc &a : m.arcs)
            std::cin >> a.from >> a.to >> a.cost;
        for (uint32_t &g : m.goals)
            std::cin >> g;
        if (!std::cin)
            return 1;
        std::vector<long> far = least_costs(m);
        for (uint32_t v = 0; v < m.places; v++)
            std::cout << (far[v] == unreached ? "-" : std::to_string(far[v])) << ' ';
        std::cout << '\n';
    }
    return !std::cin.eof();
}

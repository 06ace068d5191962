// The demo of four numbers in C++ with LEMON's network simplex: the yardstick of `bidprice demo`, with the same text.
#include <algorithm>
#include <cstdint>
#include <cstdio>
#include <cstdlib>
#include <vector>

#include <lemon/network_simplex.h>
#include <lemon/smart_graph.h>

using i64 = long long;

struct Stay { int from, to; i64 rate, forecast; };

struct Problem {
    std::vector<i64> rooms;
    std::vector<Stay> stays;
};

// The minimal standard generator of Park and Miller.
struct Draws {
    std::uint64_t state;
    std::uint64_t draw(std::uint64_t below) { return (state = 16807 * state % 2147483647) % below; }
};

Problem generate(i64 seed, int nights, i64 rooms, int stays) {
    Problem problem{std::vector<i64>(nights, rooms), {}};
    Draws draws{static_cast<std::uint64_t>(seed) + 1};
    for (int j = 0; j < stays; ++j) {
        int from = static_cast<int>(draws.draw(nights));
        int length = 1 + static_cast<int>(draws.draw(std::min(7, nights - from)));
        i64 rate = length * (5000 + static_cast<i64>(draws.draw(10000)));
        problem.stays.push_back({from, from + length, rate, static_cast<i64>(draws.draw(20))});
    }
    return problem;
}

struct Optimum {
    i64 value;
    // The least sums of prices from each night to the last.
    std::vector<i64> sums;
};

// Solves from nothing. The least sums are longest paths of what is left: one bound for each arc that can carry more, and
// one back for each that carries some.
Optimum solve(const Problem& problem, bool priced) {
    using Graph = lemon::SmartDigraph;
    int nights = static_cast<int>(problem.rooms.size());
    Graph graph;
    std::vector<Graph::Node> nodes;
    for (int v = 0; v <= nights; ++v) nodes.push_back(graph.addNode());
    Graph::ArcMap<i64> cost(graph), upper(graph);
    Graph::NodeMap<i64> supply(graph);
    i64 most = 0;
    for (i64 r : problem.rooms) most += r;
    std::vector<Graph::Arc> arcs;
    for (int n = 0; n < nights; ++n) {
        arcs.push_back(graph.addArc(nodes[n], nodes[n + 1]));
        cost[arcs.back()] = 0;
        upper[arcs.back()] = most;
        supply[nodes[n]] += problem.rooms[n];
        supply[nodes[n + 1]] -= problem.rooms[n];
    }
    for (const Stay& stay : problem.stays) {
        arcs.push_back(graph.addArc(nodes[stay.from], nodes[stay.to]));
        cost[arcs.back()] = -stay.rate;
        upper[arcs.back()] = stay.forecast;
    }
    lemon::NetworkSimplex<Graph, i64, i64> simplex(graph);
    simplex.costMap(cost).upperMap(upper).supplyMap(supply).run();
    Optimum found{-simplex.totalCost<i64>(), std::vector<i64>(nights + 1, 0)};
    for (bool moved = priced; moved;) {
        moved = false;
        auto raise = [&](int v, i64 least) {
            if (found.sums[v] < least) found.sums[v] = least, moved = true;
        };
        for (std::size_t a = arcs.size(); a-- > 0;) {
            int from = graph.id(graph.source(arcs[a])), to = graph.id(graph.target(arcs[a]));
            i64 flow = simplex.flow(arcs[a]);
            if (flow < upper[arcs[a]]) raise(from, found.sums[to] - cost[arcs[a]]);
            if (flow > 0) raise(to, found.sums[from] + cost[arcs[a]]);
        }
    }
    return found;
}

int main(int argc, char** argv) {
    if (argc != 5) return 2;
    i64 seed = std::atoll(argv[1]), rooms = std::atoll(argv[3]);
    int nights = std::atoi(argv[2]), stays = std::atoi(argv[4]);
    Problem problem = generate(seed, nights, rooms, stays);
    Optimum opening = solve(problem, true);
    i64 accepted = 0, too_low = 0, no_room = 0;
    for (Stay& stay : problem.stays) {
        bool free = true;
        for (int n = stay.from; n < stay.to; ++n) free = free && problem.rooms[n] > 0;
        stay.forecast = std::max<i64>(0, stay.forecast - 1);
        if (stay.rate < opening.sums[stay.from] - opening.sums[stay.to]) {
            ++too_low;
        } else if (!free) {
            ++no_room;
        } else {
            ++accepted;
            for (int n = stay.from; n < stay.to; ++n) --problem.rooms[n];
        }
    }
    Optimum closing = solve(problem, false);
    std::printf("demo %lld %d %lld %d\nvalue %lld\nprices %lld\n", seed, nights, rooms, stays, opening.value, opening.sums[0]);
    std::printf("accepted %lld\ntoolow %lld\nnoroom %lld\nclosing %lld\n", accepted, too_low, no_room, closing.value);
    return 0;
}

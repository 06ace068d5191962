// The value of a problem text by LEMON's network simplex, as a yardstick for `bidprice solve`.
#include <chrono>
#include <cstdio>
#include <fstream>
#include <string>
#include <vector>

#include <lemon/network_simplex.h>
#include <lemon/smart_graph.h>

int main(int argc, char** argv) {
    if (argc != 2) return 2;
    std::ifstream in(argv[1]);
    std::string word;
    int version = 0, nights = 0, stays = 0;
    in >> word >> version >> word >> nights >> word;
    std::vector<long long> rooms(nights);
    for (auto& room : rooms) in >> room;
    in >> word >> stays;

    lemon::SmartDigraph graph;
    std::vector<lemon::SmartDigraph::Node> nodes;
    for (int v = 0; v <= nights; ++v) nodes.push_back(graph.addNode());
    lemon::SmartDigraph::ArcMap<long long> cost(graph), upper(graph);
    lemon::SmartDigraph::NodeMap<long long> supply(graph);
    long long most = 0;
    for (int n = 0; n < nights; ++n) most += rooms[n];
    for (int n = 0; n < nights; ++n) {
        auto arc = graph.addArc(nodes[n], nodes[n + 1]);
        cost[arc] = 0;
        upper[arc] = most;
        supply[nodes[n]] += rooms[n];
        supply[nodes[n + 1]] -= rooms[n];
    }
    for (int j = 0; j < stays; ++j) {
        int from = 0, to = 0;
        long long rate = 0, forecast = 0;
        in >> word >> from >> to >> rate >> forecast;
        auto arc = graph.addArc(nodes[from], nodes[to]);
        cost[arc] = -rate;
        upper[arc] = forecast;
    }

    auto begin = std::chrono::steady_clock::now();
    lemon::NetworkSimplex<lemon::SmartDigraph, long long, long long> simplex(graph);
    simplex.costMap(cost).upperMap(upper).supplyMap(supply).run();
    auto end = std::chrono::steady_clock::now();
    std::printf("value %lld\n", -simplex.totalCost<long long>());
    std::printf("solve_ms %.3f\n", std::chrono::duration<double, std::milli>(end - begin).count());
    return 0;
}

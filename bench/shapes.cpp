// LEMON's network simplex as a program, beside `bidprice solve`, and both solvers in one process.
//
//     shapes solve FILE         reads a problem, and writes a certificate with LEMON's optimum and prices
//     shapes times FILE RUNS    a line for each of so many runs: the optimum, and the microseconds of LEMON's solve, and with
//                               CALLS, which wants libbidprice.a, those of bidprice_solve_numbers on the same numbers
//
// Times are of this thread's processor, so other work on the machine counts less. LEMON's is the solve alone, its graph
// stands; bidprice's is the whole call, which builds the network and writes what it found.
#include <cstdint>
#include <cstdio>
#include <cstdlib>
#include <cstring>
#include <string>
#include <time.h>
#include <vector>

#include <lemon/network_simplex.h>
#include <lemon/smart_graph.h>
#ifdef CALLS
#include "bidprice.h"
#endif

namespace {

struct Problem {
    std::vector<uint64_t> rooms, rate, forecast;
    std::vector<uint32_t> from, to;
};

std::string whole(const char* name) {
    std::string text;
    FILE* file = std::fopen(name, "rb");
    if (!file) std::exit(3);
    char part[65536];
    for (size_t got; (got = std::fread(part, 1, sizeof part, file)) > 0;) text.append(part, got);
    std::fclose(file);
    return text;
}

Problem read(const char* name) {
    std::string text = whole(name);
    const char* at = text.data();
    const char* end = at + text.size();
    auto number = [&] {
        while (at < end && (*at < '0' || *at > '9')) ++at;
        uint64_t value = 0;
        while (at < end && *at >= '0' && *at <= '9') value = 10 * value + (*at++ - '0');
        return value;
    };
    Problem problem;
    number();
    problem.rooms.resize(number());
    for (auto& rooms : problem.rooms) rooms = number();
    size_t stays = number();
    for (size_t j = 0; j < stays; ++j) {
        problem.from.push_back(number());
        problem.to.push_back(number());
        problem.rate.push_back(number());
        problem.forecast.push_back(number());
    }
    return problem;
}

double microseconds() {
    timespec now;
    clock_gettime(CLOCK_THREAD_CPUTIME_ID, &now);
    return now.tv_sec * 1e6 + now.tv_nsec / 1e3;
}

typedef lemon::SmartDigraph Graph;

struct Lemon {
    Graph graph;
    std::vector<Graph::Node> nodes;
    std::vector<Graph::Arc> arcs;
    Graph::ArcMap<long long> cost, upper;
    Graph::NodeMap<long long> supply;
    long long value = 0;
    std::vector<long long> sell, level;

    explicit Lemon(const Problem& problem) : cost(graph), upper(graph), supply(graph) {
        size_t nights = problem.rooms.size(), stays = problem.rate.size();
        graph.reserveNode(nights + 1);
        graph.reserveArc(nights + stays);
        for (size_t v = 0; v <= nights; ++v) nodes.push_back(graph.addNode());
        long long most = 0;
        for (uint64_t rooms : problem.rooms) most += rooms;
        for (size_t j = 0; j < stays; ++j) {
            arcs.push_back(graph.addArc(nodes[problem.from[j]], nodes[problem.to[j]]));
            cost[arcs[j]] = -(long long)problem.rate[j];
            upper[arcs[j]] = problem.forecast[j];
        }
        for (size_t n = 0; n < nights; ++n) {
            auto arc = graph.addArc(nodes[n], nodes[n + 1]);
            upper[arc] = most;
            supply[nodes[n]] += problem.rooms[n];
            supply[nodes[n + 1]] -= problem.rooms[n];
        }
    }

    // Solves, and gives the microseconds of that.
    double solve() {
        double begin = microseconds();
        lemon::NetworkSimplex<Graph, long long, long long> simplex(graph);
        simplex.costMap(cost).upperMap(upper).supplyMap(supply).run();
        double taken = microseconds() - begin;
        value = -simplex.totalCost<long long>();
        sell.clear();
        level.clear();
        for (auto arc : arcs) sell.push_back(simplex.flow(arc));
        for (auto node : nodes) level.push_back(simplex.potential(node));
        return taken;
    }
};

void append(std::string& text, long long number) {
    char digits[24];
    char* at = digits + sizeof digits;
    uint64_t left = number < 0 ? -(uint64_t)number : number;
    do *--at = '0' + left % 10; while (left /= 10);
    if (number < 0) *--at = '-';
    text.append(at, digits + sizeof digits - at);
}

int solve(const Problem& problem) {
    Lemon lemon(problem);
    lemon.solve();
    std::string text = "certificate 1\nvalue ";
    append(text, lemon.value);
    text += "\nsell";
    for (long long units : lemon.sell) append(text += ' ', units);
    text += "\nprices";
    for (size_t n = 0; n + 1 < lemon.level.size(); ++n) append(text += ' ', lemon.level[n] - lemon.level[n + 1]);
    text += "\nend\n";
    return std::fwrite(text.data(), 1, text.size(), stdout) == text.size() ? 0 : 5;
}

#ifdef CALLS
// The optimum by bidprice, and the microseconds of the call.
double call(const Problem& p, std::vector<uint64_t>& sell, std::vector<uint64_t>& prices, uint64_t& value) {
    bidprice_refusal refused;
    size_t stays = p.rate.size();
    double begin = microseconds();
    uint32_t status = bidprice_solve_numbers(p.rooms.data(), p.rooms.size(), p.from.data(), stays, p.to.data(), stays, p.rate.data(), stays,
                                             p.forecast.data(), stays, &value, sell.data(), stays, prices.data(), prices.size(), &refused);
    double taken = microseconds() - begin;
    if (status != BIDPRICE_DONE) std::exit(4);
    return taken;
}
#endif

int times(const Problem& problem, int runs) {
    Lemon lemon(problem);
    for (int run = 0; run < runs; ++run) {
        double peer = lemon.solve();
#ifdef CALLS
        std::vector<uint64_t> sell(problem.rate.size()), prices(problem.rooms.size());
        uint64_t value = 0;
        double ours = call(problem, sell, prices, value);
        if ((long long)value != lemon.value) return 1;
        std::printf("%lld %.2f %.2f\n", lemon.value, peer, ours);
#else
        std::printf("%lld %.2f\n", lemon.value, peer);
#endif
    }
    return 0;
}

}

int main(int count, char** words) {
    if (count == 3 && !std::strcmp(words[1], "solve")) return solve(read(words[2]));
    if (count == 4 && !std::strcmp(words[1], "times")) return times(read(words[2]), std::atoi(words[3]));
    return 2;
}

// The optimum of a problem text by successive shortest paths from nothing: no start, no kept ways, all distances up to the
// target's. The hard shapes of bench/shapes.py are hard for it; the program begins with the simplex instead.
//
//     paths FILE      the optimum, and the milliseconds of this thread's processor
//
// Rooms rise from none, by all nights in a row that lack some. A search is Dijkstra's under potentials, and nodes that a hop of
// reduced cost 0 reaches are taken first, the last one noted first.
#include <algorithm>
#include <cstdint>
#include <cstdio>
#include <fstream>
#include <string>
#include <time.h>
#include <vector>

namespace {

typedef long long Number;
const Number FAR = INT64_MAX;

struct Arc { int tail, head; Number cost, room, flow; };
struct Hop { int arc; bool forward; };

struct Solver {
    std::vector<Number> rooms, level, distance;
    std::vector<Arc> arcs;
    std::vector<std::vector<Hop>> hops;
    std::vector<Hop> via;
    std::vector<int> noted;
    std::vector<bool> closed;

    void add(int tail, int head, Number cost, Number room) {
        int arc = arcs.size();
        arcs.push_back({tail, head, cost, room, 0});
        hops[tail].push_back({arc, true});
        hops[head].push_back({arc, false});
    }

    void relax(int node) {
        for (Hop hop : hops[node]) {
            const Arc& arc = arcs[hop.arc];
            if ((hop.forward ? arc.room - arc.flow : arc.flow) == 0) continue;
            int head = hop.forward ? arc.head : arc.tail;
            Number cost = (hop.forward ? arc.cost : -arc.cost) + level[node] - level[head];
            if (distance[node] + cost >= distance[head]) continue;
            distance[head] = distance[node] + cost;
            via[head] = hop;
            if (cost == 0) noted.push_back(head);
        }
    }

    int nearest(Number at) {
        while (!noted.empty()) {
            int node = noted.back();
            noted.pop_back();
            if (!closed[node] && distance[node] == at) return node;
        }
        int best = -1;
        for (size_t v = 0; v < level.size(); ++v)
            if (!closed[v] && distance[v] < (best < 0 ? FAR : distance[best])) best = v;
        return best;
    }

    void search(int from, int to) {
        distance.assign(level.size(), FAR);
        closed.assign(level.size(), false);
        via.assign(level.size(), Hop());
        noted.clear();
        distance[from] = 0;
        for (int node = from; node >= 0 && distance[node] <= distance[to]; node = nearest(distance[node])) {
            closed[node] = true;
            relax(node);
        }
    }

    int before(int node) const { return via[node].forward ? arcs[via[node].arc].tail : arcs[via[node].arc].head; }

    // Sends units along a shortest path; gives how many.
    Number augment(int from, int to, Number most) {
        search(from, to);
        for (int v = to; v != from; v = before(v)) {
            const Arc& arc = arcs[via[v].arc];
            most = std::min(most, via[v].forward ? arc.room - arc.flow : arc.flow);
        }
        for (int v = to; v != from; v = before(v)) arcs[via[v].arc].flow += via[v].forward ? most : -most;
        for (size_t v = 0; v < level.size(); ++v) level[v] += std::min(distance[v], distance[to]);
        return most;
    }

    void fill() {
        std::vector<Number> lack = rooms;
        for (size_t night = 0; night < rooms.size(); ++night) {
            while (lack[night] > 0) {
                size_t to = night;
                Number units = lack[night];
                for (; to < rooms.size() && lack[to] > 0; ++to) units = std::min(units, lack[to]);
                for (size_t n = night; n < to; ++n) lack[n] -= units;
                for (Number left = units; left > 0;) left -= augment(night, to, left);
            }
        }
    }
};

Solver read(const char* name) {
    std::ifstream in(name);
    std::string word;
    int version = 0, nights = 0, stays = 0;
    in >> word >> version >> word >> nights >> word;
    Solver solver;
    solver.rooms.resize(nights);
    solver.hops.resize(nights + 1);
    Number most = 0, dearest = 0;
    for (auto& rooms : solver.rooms) {
        in >> rooms;
        most += rooms;
    }
    in >> word >> stays;
    for (int j = 0; j < stays; ++j) {
        Number from = 0, to = 0, rate = 0, forecast = 0;
        in >> word >> from >> to >> rate >> forecast;
        solver.add(from, to, -rate, forecast);
        dearest = std::max(dearest, rate);
    }
    for (int n = 0; n < nights; ++n) solver.add(n, n + 1, 0, most);
    for (int v = 0; v <= nights; ++v) solver.level.push_back((nights - v) * dearest);
    return solver;
}

double milliseconds() {
    timespec now;
    clock_gettime(CLOCK_THREAD_CPUTIME_ID, &now);
    return now.tv_sec * 1e3 + now.tv_nsec / 1e6;
}

}

int main(int count, char** words) {
    if (count != 2) return 2;
    Solver solver = read(words[1]);
    double begin = milliseconds();
    solver.fill();
    double taken = milliseconds() - begin;
    Number value = 0;
    for (const Arc& arc : solver.arcs) value -= arc.cost * arc.flow;
    std::printf("value %lld\nsolve_ms %.1f\n", value, taken);
    return 0;
}

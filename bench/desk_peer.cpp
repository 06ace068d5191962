// Sessions and optimisers over one book of plain arrays under std::mutex: desk_peer HOUSE WORKERS
// The file has a house and the commands of its sessions, as desk_runs.py writes them. An optimiser solves afresh by
// LEMON's network simplex where enough has changed. A session whose booking has to wait publishes by itself, and its
// groups are quoted by two such solves. It prints the seconds of the run, how many entries and vectors it has, and how
// many bookings had to wait. The journal is not written.
#include <algorithm>
#include <chrono>
#include <condition_variable>
#include <cstdio>
#include <fstream>
#include <mutex>
#include <thread>

#include <lemon/network_simplex.h>
#include <lemon/smart_graph.h>

#include "book.h"

// The house as it stands after so many entries, in units.
struct Snapshot {
    u64 position;
    std::vector<u64> rooms, forecasts, rates;
};

Snapshot snapshot_of(const Book &book) {
    Snapshot now = {book.entries.size(), book.rooms, book.forecasts, book.rates};
    for (u32 night = 0; night < book.nights; night++) now.rooms[night] = book.unit * (book.rooms[night] - book.sold[night]);
    return now;
}

// The linear program of a house as a circulation: a unit of each room goes from its night to the next one, or along a
// stay. The graph is made once, and its bounds are set for each solve.
class Optimiser {
    using Graph = lemon::SmartDigraph;
    Graph graph;
    std::vector<Graph::Node> nodes;
    std::vector<Graph::Arc> idle, sold;
    Graph::ArcMap<long long> cost, upper;
    Graph::NodeMap<long long> supply;
    lemon::NetworkSimplex<Graph, long long, long long> simplex;

    static Graph &filled(Graph &graph, std::vector<Graph::Node> &nodes, std::vector<Graph::Arc> &idle,
                         std::vector<Graph::Arc> &sold, u32 nights, const std::vector<Stay> &stays) {
        for (u32 node = 0; node <= nights; node++) nodes.push_back(graph.addNode());
        for (u32 night = 0; night < nights; night++) idle.push_back(graph.addArc(nodes[night], nodes[night + 1]));
        for (const Stay &stay : stays) sold.push_back(graph.addArc(nodes[stay.span.from], nodes[stay.span.to]));
        return graph;
    }

  public:
    explicit Optimiser(const House &house)
        : cost(filled(graph, nodes, idle, sold, static_cast<u32>(house.rooms.size()), house.stays)), upper(graph),
          supply(graph), simplex(graph) {}

    u64 value(const Snapshot &now) {
        const u32 nights = static_cast<u32>(idle.size());
        long long most = 0;
        for (u64 rooms : now.rooms) most += static_cast<long long>(rooms);
        for (u32 node = 0; node <= nights; node++) {
            const long long leaves = node < nights ? static_cast<long long>(now.rooms[node]) : 0;
            const long long comes = node > 0 ? static_cast<long long>(now.rooms[node - 1]) : 0;
            supply[nodes[node]] = leaves - comes;
        }
        for (auto arc : idle) upper[arc] = most;
        for (u32 stay = 0; stay < sold.size(); stay++) {
            cost[sold[stay]] = -static_cast<long long>(now.rates[stay]);
            upper[sold[stay]] = static_cast<long long>(now.forecasts[stay]);
        }
        if (simplex.costMap(cost).upperMap(upper).supplyMap(supply).run() != simplex.OPTIMAL) std::abort();
        return static_cast<u64>(-simplex.totalCost<long long>());
    }

    Board board(const Snapshot &now) {
        value(now);
        const u32 nights = static_cast<u32>(idle.size());
        Board made = {now.position, {}, std::vector<u64>(nights), std::vector<u64>(nights + 1)};
        for (auto arc : sold) made.sell.push_back(static_cast<u64>(simplex.flow(arc)));
        for (u32 night = nights; night-- > 0;) {
            const long long price = simplex.potential(nodes[night + 1]) - simplex.potential(nodes[night]);
            made.prices[night] = static_cast<u64>(std::max(-price, price));
            made.sums[night] = made.sums[night + 1] + made.prices[night];
        }
        return made;
    }

    // What the optimum loses by these rooms; where a night has too few, nothing is lost, and the group finds that out.
    Quote quote(Snapshot now, Span span, u64 units) {
        const u64 before = value(now);
        for (u32 night = span.from; night < span.to; night++) {
            if (now.rooms[night] < units) return {now.position, 0};
            now.rooms[night] -= units;
        }
        return {now.position, before - value(now)};
    }
};

struct Desk {
    std::mutex lock;
    std::condition_variable changed;
    Book book;
    u64 lead, sessions;
    u64 waits = 0;
};

Snapshot take_snapshot(Desk &desk) {
    std::lock_guard<std::mutex> guard(desk.lock);
    return snapshot_of(desk.book);
}

// Publishes where enough has changed, and says whether a vector was left.
bool round(Desk &desk, u32 caller, Optimiser &optimiser) {
    Snapshot now;
    {
        std::lock_guard<std::mutex> guard(desk.lock);
        if (desk.book.lag() < desk.lead) return true;
        now = snapshot_of(desk.book);
    }
    Board board = optimiser.board(now);
    std::lock_guard<std::mutex> guard(desk.lock);
    return desk.book.post(caller, std::move(board), desk.lead).word != Word::PublicationsFull;
}

Answer ask(Desk &desk, u32 caller, const Act &act, const Quote *quote) {
    std::lock_guard<std::mutex> guard(desk.lock);
    const Answer answer = desk.book.ask(caller, act, quote);
    desk.waits += answer.word == Word::Behind;
    if (desk.book.lag() >= desk.lead) desk.changed.notify_one();
    return answer;
}

// Makes a command, and says whether it was logged.
bool make(Desk &desk, u32 caller, const Act &act, Optimiser &optimiser) {
    for (bool left = true;;) {
        Quote quote = {0, 0};
        if (act.verb == Verb::Group) quote = optimiser.quote(take_snapshot(desk), act.span, desk.book.unit * act.first);
        switch (ask(desk, caller, act, act.verb == Verb::Group ? &quote : nullptr).word) {
        case Word::HistoryFull: return false;
        case Word::Stale: break;
        case Word::Behind:
            if (!left) return false;
            left = round(desk, caller, optimiser);
            break;
        default: return true;
        }
    }
}

void session(Desk &desk, u32 caller, const std::vector<Act> &commands, const House &house) {
    Optimiser optimiser(house);
    for (const Act &act : commands)
        if (!make(desk, caller, act, optimiser)) break;
    std::lock_guard<std::mutex> guard(desk.lock);
    desk.book.ask(caller, {Verb::Leave, 0, {}, 0, 0});
    desk.sessions--;
    desk.changed.notify_all();
}

void worker(Desk &desk, u32 caller, const House &house) {
    Optimiser optimiser(house);
    for (;;) {
        {
            std::unique_lock<std::mutex> guard(desk.lock);
            desk.changed.wait(guard, [&] { return desk.sessions == 0 || desk.book.lag() >= desk.lead; });
            if (desk.sessions == 0) break;
        }
        if (!round(desk, caller, optimiser)) break;
    }
    std::lock_guard<std::mutex> guard(desk.lock);
    desk.book.ask(caller, {Verb::Leave, 0, {}, 0, 0});
}

struct Input {
    House house;
    std::vector<std::vector<Act>> scripts;
};

Input read(const char *name) {
    std::ifstream in(name);
    u64 nights = 0, stays = 0, sessions = 0;
    Input input;
    House &house = input.house;
    in >> nights >> stays >> house.unit >> house.entries >> house.publications >> house.stale_after;
    house.rooms.resize(nights);
    house.sold.resize(nights);
    house.stays.resize(stays);
    for (u64 &rooms : house.rooms) in >> rooms;
    for (Stay &stay : house.stays) in >> stay.span.from >> stay.span.to >> stay.rate >> stay.forecast;
    in >> sessions;
    input.scripts.resize(sessions);
    for (auto &script : input.scripts) {
        u64 count = 0;
        in >> count;
        script.resize(count);
        for (Act &act : script) {
            int verb = 0;
            in >> verb >> act.item >> act.span.from >> act.span.to >> act.first >> act.second;
            act.verb = static_cast<Verb>(verb);
        }
    }
    if (!in) std::exit(2);
    return input;
}

int main(int count, char **words) {
    if (count != 3) return 2;
    const Input input = read(words[1]);
    const u32 sessions = static_cast<u32>(input.scripts.size()), workers = static_cast<u32>(std::atoi(words[2]));
    const auto start = std::chrono::steady_clock::now();
    Desk desk = {{}, {}, Book(input.house), (input.house.stale_after + 1) / 2, sessions};
    Optimiser opener(input.house);
    desk.book.post(0, opener.board(snapshot_of(desk.book)));
    for (u32 caller = 1; caller <= sessions + workers; caller++) desk.book.ask(caller, {Verb::Enrol, 0, {}, 0, 0});
    std::vector<std::thread> threads;
    for (u32 caller = 1; caller <= sessions; caller++)
        threads.emplace_back(session, std::ref(desk), caller, std::cref(input.scripts[caller - 1]), std::cref(input.house));
    for (u32 caller = sessions + 1; caller <= sessions + workers; caller++)
        threads.emplace_back(worker, std::ref(desk), caller, std::cref(input.house));
    for (std::thread &thread : threads) thread.join();
    if (desk.book.lag() > 0) desk.book.post(0, opener.board(snapshot_of(desk.book)));
    const std::chrono::duration<double> taken = std::chrono::steady_clock::now() - start;
    std::printf("%.6f %zu %zu %llu\n", taken.count(), desk.book.entries.size(), desk.book.boards.size(),
                static_cast<unsigned long long>(desk.waits));
}

// The same visits as the program of spans.sh, to a ledger of plain arrays: spans LEAST MOST VISITS
// It prints the nanoseconds that they took, and how many found a room on each night.
#include <chrono>
#include <cstdio>
#include <cstdlib>

#include "book.h"

constexpr u32 NIGHTS = 400;
constexpr u64 ROOMS = 10000000;

struct Draws {
    u64 state = 1;
    u32 below(u32 n) {
        state = state * 6364136223846793005u + 1442695040888963407u;
        return static_cast<u32>((state >> 33) % n);
    }
};

struct Ledger {
    std::vector<u64> rooms = std::vector<u64>(NIGHTS, ROOMS), sold = std::vector<u64>(NIGHTS);

    bool has_room(Span span) const {
        for (u32 night = span.from; night < span.to; night++)
            if (rooms[night] - sold[night] < 1) return false;
        return true;
    }

    void add(Span span, u64 units) {
        for (u32 night = span.from; night < span.to; night++) sold[night] += units;
    }
};

int main(int, char **words) {
    const u32 least = std::atoi(words[1]), most = std::atoi(words[2]), visits = std::atoi(words[3]);
    Ledger ledger;
    Draws draws;
    u64 found = 0;
    const auto start = std::chrono::steady_clock::now();
    for (u32 visit = 0; visit < visits; visit++) {
        const u32 length = least + draws.below(most - least + 1), from = draws.below(NIGHTS - length + 1);
        const Span span = {from, from + length};
        if (!ledger.has_room(span)) continue;
        found++;
        ledger.add(span, 1);
        if (visit % 2 == 1) ledger.add(span, u64{0} - 1);
    }
    const std::chrono::nanoseconds taken = std::chrono::steady_clock::now() - start;
    std::printf("spans %lld %llu\n", static_cast<long long>(taken.count()), static_cast<unsigned long long>(found));
}

// The same desk as the program of desk.sh, over plain arrays: desk BOOKS CALLS
// It makes the same calls, in the same order and by the same rules, and prints the nanoseconds that they took
// and a sum over the answers.
#include <chrono>
#include <cstdio>
#include <cstdlib>
#include <vector>

#include "book.h"

constexpr u32 NIGHTS = 400, STAYS = 4000, CALLERS = 16, BATCH = 200;
constexpr u64 ROOMS = 10000, SOLD = 100, ENTRIES = 200000, PUBLICATIONS = 1000, STALE_AFTER = 150, DEAREST = 1000000000;

// A night that is closed at the greatest price, or at none, and the stays that cover one.
bool is_dear(u32 night) { return night % 20 == 10; }
bool is_free(u32 night) { return night % 20 == 0; }
template <class Test> bool covers(Span span, Test test) {
    for (u32 night = span.from; night < span.to; night++)
        if (test(night)) return true;
    return false;
}

// Every guest awaited gets a room, but on the nights that are closed.
Board board_of(const Book &book) {
    Board board = {book.entries.size(), {}, std::vector<u64>(NIGHTS), std::vector<u64>(NIGHTS + 1)};
    for (u32 stay = 0; stay < STAYS; stay++)
        board.sell.push_back(covers(book.stays[stay].span, is_dear) ? 0 : book.forecasts[stay]);
    for (u32 night = 0; night < NIGHTS; night++) board.prices[night] = is_dear(night) ? DEAREST : 0;
    for (u32 night = NIGHTS; night-- > 0;) board.sums[night] = board.sums[night + 1] + board.prices[night];
    return board;
}

struct Draws {
    u64 state = 1;
    u64 below(u64 n) {
        state = state * 6364136223846793005u + 1442695040888963407u;
        return (state >> 33) % n;
    }
};

Act next_act(Draws &draws, const std::vector<Stay> &stays) {
    const u64 kind = draws.below(100), a = draws.below(1000000), b = draws.below(1000000);
    const u32 stay = a % STAYS, night = a % NIGHTS;
    if (kind < 70) return {Verb::Book, stay, {}, 0, 0};
    if (kind < 80) return {Verb::Cancel, 0, {}, 1 + a % 4000, 0};
    if (kind < 87) return {Verb::Reforecast, stay, {}, covers(stays[stay].span, is_free) ? 0 : b % 100, 0};
    if (kind < 92) return {Verb::Reprice, stay, {}, 1 + b % 1000, 0};
    const bool closed = is_dear(night) || is_free(night);
    if (kind < 96) return {Verb::Resize, night, {}, closed ? 0 : b % 10 == 0 ? SOLD - 1 : 9000 + b % 1001, 0};
    const Span span = {night, night + 1 < NIGHTS ? night + 2 : NIGHTS};
    return {Verb::Group, 0, span, kind < 98 ? u64{10000} : u64{1}, b};
}

void add(u64 &sum, const Answer &answer) {
    for (u64 part : {static_cast<u64>(answer.word), answer.a, answer.b, answer.c}) sum = sum * 31 + part;
}

int main(int, char **words) {
    const u64 books = std::atol(words[1]), calls = std::atol(words[2]);
    House house = {{}, {}, {}, 1, ENTRIES, PUBLICATIONS, STALE_AFTER};
    for (u32 night = 0; night < NIGHTS; night++) {
        const bool closed = is_dear(night) || is_free(night);
        house.rooms.push_back(closed ? 0 : ROOMS);
        house.sold.push_back(closed ? 0 : SOLD);
    }
    for (u32 stay = 0; stay < STAYS; stay++) {
        const u32 length = 1 + stay % 7, from = stay * 13 % (NIGHTS + 1 - length);
        const Span span = {from, from + length};
        house.stays.push_back({span, 100 + stay % 900, covers(span, is_free) ? u64{0} : u64{50}});
    }
    Draws draws;
    u64 sum = 0;
    std::chrono::nanoseconds time{0};
    for (u64 n = 0; n < books; n++) {
        Book book(house);
        book.post(0, board_of(book));
        for (u32 caller = 1; caller < CALLERS; caller++) book.ask(caller, {Verb::Enrol, 0, {}, 0, 0});
        for (u64 made = 0; made < calls;) {
            const auto start = std::chrono::steady_clock::now();
            for (u32 k = 0; k < BATCH && made < calls; k++, made++) {
                const u32 caller = draws.below(CALLERS);
                add(sum, book.ask(caller, next_act(draws, house.stays)));
            }
            time += std::chrono::steady_clock::now() - start;
            Board board = board_of(book);
            const auto posting = std::chrono::steady_clock::now();
            add(sum, book.post(0, std::move(board)));
            time += std::chrono::steady_clock::now() - posting;
        }
    }
    std::printf("book %lld %llu\n", static_cast<long long>(time.count()), static_cast<unsigned long long>(sum));
}

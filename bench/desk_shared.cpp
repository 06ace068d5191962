// The same bookings as the program of desk_shared.sh, at a book of plain arrays behind one std::mutex:
// desk_shared THREADS CALLS DESKS STALE_AFTER
// Each of the desks is called so often, in equal parts by the threads. It prints the nanoseconds that the calls took,
// and how many bookings were accepted.
#include <chrono>
#include <cstdio>
#include <cstdlib>
#include <functional>
#include <mutex>
#include <thread>
#include <vector>

#include "book.h"

constexpr u32 NIGHTS = 400, STAYS = 4000;
constexpr u64 ROOMS = 10000, FORECAST = 50, ENTRIES = 200000, PUBLICATIONS = 1000;

struct Draws {
    u64 state;
    u64 below(u64 n) {
        state = state * 6364136223846793005u + 1442695040888963407u;
        return (state >> 33) % n;
    }
};

struct Worker {
    u32 caller;
    Draws draws;
    u64 accepted;
};

void work(std::mutex &lock, Book &book, Worker &worker, u64 calls) {
    for (u64 made = 0; made < calls; made++) {
        const u32 stay = static_cast<u32>(worker.draws.below(STAYS));
        std::lock_guard<std::mutex> guard(lock);
        worker.accepted += book.ask(worker.caller, {Verb::Book, stay, {}, 0, 0}).word == Word::Accepted;
    }
}

House house_of(u64 stale_after) {
    House house = {std::vector<u64>(NIGHTS, ROOMS), std::vector<u64>(NIGHTS, 0), {}, 1, ENTRIES, PUBLICATIONS, stale_after};
    for (u32 stay = 0; stay < STAYS; stay++) {
        const u32 length = 1 + stay % 7, from = stay * 13 % (NIGHTS + 1 - length);
        house.stays.push_back({{from, from + length}, 100 + stay % 900, FORECAST});
    }
    return house;
}

int main(int count, char **words) {
    if (count != 5) return 2;
    const u32 threads = static_cast<u32>(std::atoi(words[1]));
    const u64 calls = std::strtoull(words[2], nullptr, 10) / threads, desks = std::strtoull(words[3], nullptr, 10);
    const House house = house_of(std::strtoull(words[4], nullptr, 10));
    std::chrono::nanoseconds time{0};
    u64 accepted = 0;
    for (u64 n = 0; n < desks; n++) {
        std::mutex lock;
        Book book(house);
        book.post(0, {0, std::vector<u64>(STAYS, FORECAST), std::vector<u64>(NIGHTS), std::vector<u64>(NIGHTS + 1)});
        std::vector<Worker> workers;
        for (u32 caller = 1; caller <= threads; caller++) {
            book.ask(caller, {Verb::Enrol, 0, {}, 0, 0});
            workers.push_back({caller, {caller}, 0});
        }
        const auto start = std::chrono::steady_clock::now();
        std::vector<std::thread> running;
        for (Worker &worker : workers) running.emplace_back(work, std::ref(lock), std::ref(book), std::ref(worker), calls);
        for (std::thread &thread : running) thread.join();
        time += std::chrono::steady_clock::now() - start;
        for (const Worker &worker : workers) accepted += worker.accepted;
    }
    std::printf("shared %lld %llu\n", static_cast<long long>(time.count()), static_cast<unsigned long long>(accepted));
}

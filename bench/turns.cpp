// The same work as the history lock's program in turns.sh, under std::mutex: turns THREADS ENTRIES
// Each thread adds pairs of its number and a count to one list until it has ENTRIES of them. It prints the
// nanoseconds that this took with how many entries there are, and how many the thread with the fewest added.
#include <algorithm>
#include <chrono>
#include <cstdint>
#include <cstdio>
#include <cstdlib>
#include <mutex>
#include <thread>
#include <utility>
#include <vector>

int main(int, char **words) {
    const unsigned threads = std::atoi(words[1]);
    const std::size_t enough = std::atol(words[2]);
    std::mutex lock;
    std::vector<std::pair<std::uint32_t, std::uint32_t>> pairs;
    std::vector<std::uint64_t> turns(threads);

    const auto work = [&](unsigned caller) {
        for (std::uint32_t number = 0;; number++) {
            std::lock_guard<std::mutex> guard(lock);
            if (pairs.size() >= enough) return;
            pairs.emplace_back(caller, number);
            turns[caller]++;
        }
    };

    const auto start = std::chrono::steady_clock::now();
    std::vector<std::thread> workers;
    for (unsigned caller = 0; caller < threads; caller++) workers.emplace_back(work, caller);
    for (auto &worker : workers) worker.join();
    const std::chrono::nanoseconds time = std::chrono::steady_clock::now() - start;
    const auto fewest = *std::min_element(turns.begin(), turns.end());
    std::printf("turns %lld %zu\n", static_cast<long long>(time.count()), pairs.size());
    std::printf("fewest %llu %u\n", static_cast<unsigned long long>(fewest), threads);
}

// The same displays as show.sh's program, under one std::shared_mutex: show THREADS MILLISECONDS VECTORS
// Each thread looks at the price of two nights in one vector of 400 nights, while another thread writes the next vector
// about each millisecond. It prints the looks of all threads in a second, and the number of the last vector.
#include <chrono>
#include <cstdint>
#include <cstdio>
#include <cstdlib>
#include <mutex>
#include <shared_mutex>
#include <thread>
#include <vector>

namespace {

constexpr unsigned nights = 400;

struct Vector {
    std::uint64_t number = 0, position = 0;
    std::uint64_t sums[nights + 1] = {};
};

struct Look {
    std::uint64_t number, position, sum;
};

struct Display {
    mutable std::shared_mutex lock;
    Vector shown;

    Look look(unsigned from, unsigned to) const {
        std::shared_lock<std::shared_mutex> guard(lock);
        return {shown.number, shown.position, shown.sums[from] - shown.sums[to]};
    }

    void follow(const Vector &next) {
        std::unique_lock<std::shared_mutex> guard(lock);
        shown = next;
    }
};

}  // namespace

int main(int, char **words) {
    const unsigned threads = std::atoi(words[1]);
    const std::chrono::milliseconds time(std::atol(words[2]));
    const std::uint64_t vectors = std::atol(words[3]);
    Display display;
    display.shown.sums[0] = 1;
    std::vector<double> rates(threads);
    std::vector<char> fell(threads);

    const auto looks = [&](unsigned thread) {
        const auto start = std::chrono::steady_clock::now();
        std::uint64_t made = 0, last = 0;
        std::chrono::duration<double> taken{};
        while (taken < time) {
            for (unsigned n = 0; n < 1000; n++) {
                const Look look = display.look(0, 2);
                if (look.number < last || look.sum != look.number + 1) fell[thread] = 1;
                last = look.number;
            }
            made += 1000;
            taken = std::chrono::steady_clock::now() - start;
        }
        rates[thread] = made / taken.count();
    };

    std::vector<std::thread> workers;
    for (unsigned thread = 0; thread < threads; thread++) workers.emplace_back(looks, thread);
    for (std::uint64_t number = 1; number <= vectors; number++) {
        Vector next;
        next.number = number;
        next.position = 2 * number + 1;
        next.sums[0] = number + 1;
        display.follow(next);
        std::this_thread::sleep_for(std::chrono::milliseconds(1));
    }
    for (auto &worker : workers) worker.join();

    double rate = 0;
    for (unsigned thread = 0; thread < threads; thread++) {
        if (fell[thread]) return 1;
        rate += rates[thread];
    }
    std::printf("looks %.0f %llu\n", rate, static_cast<unsigned long long>(display.look(0, 2).number));
}

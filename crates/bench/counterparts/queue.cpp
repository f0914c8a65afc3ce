// Items by priority and number in a std::multiset: the greatest priority first, then the smallest number.
#include "clock.hpp"
#include <cstdio>
#include <set>
#include <utility>

using Entry = std::pair<int64_t, uint64_t>; // the priority negated, and the number
using Queue = std::multiset<Entry>;

static int32_t priority_of(uint64_t number, bool scattered) {
    return scattered ? int32_t(number * 0x9e3779b97f4a7c15u >> 40) : int32_t(number % 3);
}

static Entry entry(int32_t priority, uint64_t number) { return {-int64_t(priority), number}; }

static bool take(Queue &queue) {
    if (queue.empty()) return false;
    queue.erase(queue.begin());
    return true;
}

static bool remove(Queue &queue, Entry entry) {
    auto found = queue.find(entry);
    if (found == queue.end()) return false;
    queue.erase(found);
    return true;
}

static void time_size(uint64_t count, bool scattered) {
    Queue queue;
    uint64_t removed = 0, taken = 0;
    auto puts = nanoseconds([&] {
        for (uint64_t n = 0; n < count; n++) queue.insert(entry(priority_of(n, scattered), n));
    });
    auto removes = nanoseconds([&] {
        for (uint64_t n = 0; n < count; n += 2) removed += remove(queue, entry(priority_of(n, scattered), n));
    });
    auto takes = nanoseconds([&] {
        for (uint64_t n = 0; n < count; n++) taken += take(queue);
    });
    std::printf("%lu puts in %ld microseconds, %lu removes in %ld, %lu takes in %ld; scattered: %d\n", count, puts / 1000,
                removed, removes / 1000, taken, takes / 1000, scattered);
}

static uint64_t drawn(uint64_t seed) {
    uint64_t x = seed * 6364136223846793005u + 1442695040888963407u;
    return x ^ (x >> 29);
}

static void time_turns(uint64_t len) {
    const uint64_t turns = 1000000;
    Queue queue;
    for (uint64_t n = 1; n < len; n++) queue.insert(entry(0, n));
    uint64_t taken = 0, seed = 7;
    auto time = nanoseconds([&] {
        for (uint64_t turn = 0; turn < turns; turn++) {
            queue.insert(entry(0, len + turn));
            taken += take(queue);
            seed = drawn(seed);
            uint64_t some = turn + 2 + ((seed & 0xffffffff) * (len & 0xffffffff) >> 32);
            if (remove(queue, entry(0, some))) queue.insert(entry(0, some));
        }
    });
    std::printf("%lu waiting: a put, a take, a remove and a put in %ld nanoseconds; %lu taken\n", len, time / int64_t(turns), taken);
}

int main() {
    for (int doublings = 0; doublings < 4; doublings++) {
        time_size(125000u << doublings, false);
        time_size(125000u << doublings, true);
    }
    for (uint64_t len : {64, 1000, 10000, 100000, 1000000}) time_turns(len);
}

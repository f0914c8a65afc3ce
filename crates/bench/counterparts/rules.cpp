// Items that wait for a scalar and for an element of one array, in lists by scalar and by element.
#include "clock.hpp"
#include <cstdio>
#include <unordered_map>
#include <utility>
#include <vector>

struct Waiter {
    uint64_t item;
    uint32_t missing;
};

struct Rules {
    std::vector<Waiter> waiters;
    std::vector<size_t> free;
    std::unordered_map<uint64_t, std::vector<size_t>> scalars;
    std::unordered_map<int64_t, std::vector<size_t>> elements; // of the one array

    void add(uint64_t scalar, int64_t key, uint64_t item) {
        size_t slot = waiters.size();
        if (free.empty()) {
            waiters.push_back({item, 2});
        } else {
            slot = free.back();
            free.pop_back();
            waiters[slot] = {item, 2};
        }
        scalars[scalar].push_back(slot);
        elements[key].push_back(slot);
    }

    template <class Map, class Key> void known(Map &map, Key key, std::vector<uint64_t> &out) {
        auto found = map.find(key);
        if (found == map.end()) return;
        for (size_t slot : found->second) {
            if (--waiters[slot].missing == 0) {
                out.push_back(waiters[slot].item);
                free.push_back(slot);
            }
        }
        map.erase(found);
    }
};

static void time_size(uint64_t parts, uint64_t count) {
    std::vector<Rules> all;
    std::vector<uint64_t> out;
    out.reserve(1000000);
    auto adds = nanoseconds([&] {
        for (uint64_t part = 0; part < parts; part++) {
            all.emplace_back();
            for (uint64_t n = 0; n < count; n++) all.back().add(n, int64_t(n), n);
        }
    });
    auto knowns = nanoseconds([&] {
        for (Rules &rules : all) {
            for (uint64_t n = 0; n < count; n++) rules.known(rules.scalars, n, out);
            for (uint64_t n = 0; n < count; n++) rules.known(rules.elements, int64_t(n), out);
        }
    });
    std::printf("%lu times %lu: adds in %ld microseconds, two knowns each in %ld; %zu listed\n", parts, count, adds / 1000,
                knowns / 1000, out.size());
}

int main() {
    for (uint64_t count = 1000; count <= 1000000; count *= 10) time_size(1000000 / count, count);
}

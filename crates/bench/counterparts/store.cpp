// Counted data in a vector with a list of free places; the elements of an array in a std::unordered_map.
#include "clock.hpp"
#include <algorithm>
#include <cstdio>
#include <memory>
#include <optional>
#include <unordered_map>
#include <utility>
#include <variant>
#include <vector>

using Text = std::vector<unsigned char>;
using Scalar = std::variant<int64_t, double, bool, Text>;
using Elements = std::unordered_map<int64_t, Scalar>;

struct Datum {
    std::variant<std::optional<Scalar>, Elements> content;
    uint64_t reads, writes;
};

struct Store {
    std::vector<std::optional<Datum>> data;
    std::vector<size_t> free;

    size_t put(Datum datum) {
        if (free.empty()) {
            data.emplace_back(std::move(datum));
            return data.size() - 1;
        }
        size_t place = free.back();
        free.pop_back();
        data[place].emplace(std::move(datum));
        return place;
    }

    void release(size_t place) {
        if (--data[place]->reads == 0 && data[place]->writes == 0) {
            data[place].reset();
            free.push_back(place);
        }
    }
};

struct Batch {
    Store store;
    std::vector<size_t> made;
};

static void time_cells(uint64_t parts, uint64_t count) {
    std::vector<Batch> batches;
    auto makes = nanoseconds([&] {
        for (uint64_t part = 0; part < parts; part++) {
            batches.emplace_back();
            auto &[store, made] = batches.back();
            for (uint64_t n = 0; n < count; n++) {
                size_t d = store.put({std::optional<Scalar>(), 1, 0});
                std::get<0>(store.data[d]->content) = Scalar(int64_t(5));
                made.push_back(d);
            }
        }
    });
    auto frees = nanoseconds([&] {
        for (auto &[store, made] : batches)
            for (size_t d : made) store.release(d);
    });
    std::printf("%lu times %lu cells made in %ld microseconds, freed in %ld\n", parts, count, makes / 1000, frees / 1000);
}

static int64_t key_of(uint64_t number, bool scattered) {
    return scattered ? int64_t(number * 0x9e3779b97f4a7c15u >> 1) : int64_t(number);
}

using Sorted = std::vector<std::pair<int64_t, Scalar>>;

static void time_inserts(uint64_t parts, uint64_t count, bool scattered) {
    Store store;
    std::vector<size_t> arrays;
    uint64_t inserted = 0, found = 0, listed = 0;
    auto inserts = nanoseconds([&] {
        for (uint64_t part = 0; part < parts; part++) {
            size_t d = store.put({Elements(), 1, 1});
            auto &elements = std::get<1>(store.data[d]->content);
            for (uint64_t n = 0; n < count; n++) inserted += elements.emplace(key_of(n, scattered), Scalar(int64_t(5))).second;
            arrays.push_back(d);
        }
    });
    auto finds = nanoseconds([&] {
        for (size_t d : arrays) {
            auto &elements = std::get<1>(store.data[d]->content);
            for (uint64_t n = 0; n < count; n++) found += elements.count(key_of(n, scattered));
        }
    });
    std::vector<Sorted> lists;
    auto sorts = nanoseconds([&] {
        for (size_t d : arrays) {
            auto &elements = std::get<1>(store.data[d]->content);
            lists.emplace_back(elements.begin(), elements.end());
            std::sort(lists.back().begin(), lists.back().end(), [](auto &a, auto &b) { return a.first < b.first; });
            listed += lists.back().size();
        }
    });
    std::printf("%lu times %lu: %lu inserts in %ld microseconds, %lu found in %ld, %lu sorted in %ld; scattered: %d\n", parts,
                count, inserted, inserts / 1000, found, finds / 1000, listed, sorts / 1000, scattered);
}

int main() {
    for (uint64_t count = 1000; count <= 1000000; count *= 10) {
        time_cells(1000000 / count, count);
        time_inserts(1000000 / count, count, false);
        time_inserts(1000000 / count, count, true);
    }
}

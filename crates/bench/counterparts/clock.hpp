// The nanoseconds that a piece of work takes.
#pragma once
#include <chrono>
#include <cstdint>

template <class Work> int64_t nanoseconds(Work work) {
    auto start = std::chrono::steady_clock::now();
    work();
    return std::chrono::duration_cast<std::chrono::nanoseconds>(std::chrono::steady_clock::now() - start).count();
}

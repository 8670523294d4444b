// The same search in C++.
#include "net.h"
#include <chrono>
#include <cstdio>
#include <cstdlib>

static uint32_t next(uint64_t& state, uint32_t bound) {
    state = state * 6364136223846793005ull + 1442695040888963407ull;
    return (uint32_t)(state >> 33) % bound;
}

int main(int argc, char** argv) {
    int rounds = argc > 1 ? atoi(argv[1]) : 1;
    uint64_t state = 1, sum = 0;
    std::vector<Net> nets;
    for (int n = 0; n < 500; n++) {
        Net net(26, 200);
        for (int a = 0; a < 200; a++) {
            uint16_t from = next(state, 26), to = next(state, 26);
            net.add_arc(from, to, next(state, 10));
        }
        nets.push_back(std::move(net));
    }
    auto start = std::chrono::steady_clock::now();
    std::vector<uint8_t> side;
    for (int r = 0; r < rounds; r++)
        for (auto& net : nets) {
            sum += net.max_flow(0, 25, side);
            sum += net.max_flow(1, 24, side);
        }
    auto taken = std::chrono::steady_clock::now() - start;
    auto ns = std::chrono::duration_cast<std::chrono::nanoseconds>(taken).count();
    printf("%llu\n", (unsigned long long)sum);
    fprintf(stderr, "%.0f ns per max_flow\n", (double)ns / (rounds * 1000.0));
}

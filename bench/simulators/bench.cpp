// Runs the checker as the cycle machine is run: the same numbers, and the answers as one number.
#include "Vmbac_u_1.h"
#include "verilated.h"
#include <chrono>
#include <cstdint>
#include <cstdio>

// Takes the inputs with the clock low, and gives the output.
static uint32_t settled(Vmbac_u_1 &checker) {
    checker.mbac_clk = 0;
    checker.eval();
    return checker.mbac_fail;
}

static void rise(Vmbac_u_1 &checker) {
    checker.mbac_clk = 1;
    checker.eval();
}

static uint32_t run(Vmbac_u_1 &checker, int cycles) {
    checker.mbac_rst = 1;
    checker.cnt = 0;
    settled(checker);
    rise(checker);
    checker.mbac_rst = 0;
    uint64_t seed = 88172645463325252u;
    uint32_t hash = 0;
    for (int n = 0; n < cycles; n++) {
        seed ^= seed << 13;
        seed ^= seed >> 7;
        seed ^= seed << 17;
        checker.cnt = seed & 1 ? seed : 0;
        hash = hash * 31 + settled(checker);
        rise(checker);
    }
    return hash;
}

int main() {
    VerilatedContext context;
    Vmbac_u_1 checker{&context};
    checker.mbac_clk = 0;
    checker.mbac_eot = 0;
    const int cycles = 500;
    for (int batch = 0; batch < 40; batch++) {
        auto start = std::chrono::steady_clock::now();
        uint32_t hash = run(checker, cycles);
        auto taken = std::chrono::steady_clock::now() - start;
        long long ns = std::chrono::duration_cast<std::chrono::nanoseconds>(taken).count();
        std::printf("%d cycles %lld ns %u\n", cycles, ns, hash);
    }
}

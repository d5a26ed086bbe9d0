// What was tried of a call.
#pragma once
#include <cstdint>
#include <cstdio>
#include "steps.hpp"

// An input of the program `column` that is no line of three numbers: a number that no ground has.
constexpr uint32_t NO_LINE = 99;

// Ranges of assets: 1 to 20, 21 to 64, 65 to 100.
constexpr uint32_t RANGES = 3;

inline uint32_t range_of(uint32_t n) { return n <= 20 ? 0 : n <= 64 ? 1 : 2; }

struct Tally {
    // How many larger pools are held to the exact model. Of those of up to 20 assets all are.
    static constexpr uint64_t LARGE_CHECKS = 200;
    const char *name;
    uint64_t calls = 0, mismatches = 0, cuts = 0;
    uint64_t refusals[NO_LINE + 1] = {}, kinds[3] = {}, verdicts[3] = {}, accepted[RANGES] = {}, exact[RANGES] = {};

    // Whether an accepted pool is to be held to the exact model.
    bool exact_due(uint32_t n) {
        uint64_t &checks = exact[range_of(n)];
        if (n > 20 && checks >= LARGE_CHECKS) return false;
        checks++;
        return true;
    }

    void count(Pool pool, uint32_t refusal, bool as_wanted) {
        calls++;
        refusals[refusal]++;
        if (refusal == 0) accepted[range_of(pool.assets)]++;
        if (as_wanted) return;
        mismatches++;
        std::printf("%s, call %lu, inputs %u %u %u: not what is wanted for refusal %u\n", name, calls, pool.assets,
                    pool.probability, pool.correlation, refusal);
    }

    // Three counts, if they are not all 0.
    static void print_three(const char *format, const uint64_t *counts) {
        if (counts[0] + counts[1] + counts[2]) std::printf(format, counts[0], counts[1], counts[2]);
    }

    void print() const {
        std::printf("%s: %lu calls, %lu accepted, %lu mismatches\n    refused:", name, calls, refusals[0], mismatches);
        for (uint32_t ground = 1; ground < NO_LINE; ground++)
            if (refusals[ground]) std::printf(" %lu by %u,", refusals[ground], ground);
        std::printf(" %lu as no line\n", refusals[NO_LINE]);
        print_three("    accepted: %lu of 1 to 20 assets, %lu of 21 to 64, %lu of 65 to 100\n", accepted);
        print_three("    held to the exact model: %lu of 1 to 20 assets, %lu of 21 to 64, %lu of 65 to 100\n", exact);
        print_three("    losses: %lu untouched, %lu faint, %lu shown\n", kinds);
        if (cuts) std::printf("    held to the sums of touching tranches: %lu\n", cuts);
        print_three("    verdicts: %lu refused, %lu passed, %lu failing\n", verdicts);
        std::fflush(stdout);
    }
};

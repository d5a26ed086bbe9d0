// Random inputs from a seed, with the edges of every range among them.
#pragma once
#include <algorithm>
#include <initializer_list>
#include <set>
#include <string>
#include "steps.hpp"

struct Random {
    uint64_t state;

    // SplitMix64.
    uint64_t word() {
        uint64_t z = state += 0x9e3779b97f4a7c15;
        z = (z ^ z >> 30) * 0xbf58476d1ce4e5b9;
        z = (z ^ z >> 27) * 0x94d049bb133111eb;
        return z ^ z >> 31;
    }
    uint32_t below(uint32_t end) { return uint32_t(word() % end); }
    uint32_t between(uint32_t first, uint32_t last) { return first + below(last - first + 1); }
    bool percent(uint32_t chance) { return below(100) < chance; }
    uint32_t among(std::initializer_list<uint32_t> numbers) { return numbers.begin()[below(uint32_t(numbers.size()))]; }
};

inline uint32_t too_large(Random &random, uint32_t least) {
    uint32_t near = random.between(least, least + 9), far = random.between(least, UINT32_MAX - 1);
    return random.among({least, least + 1, near, 1u << 31, UINT32_MAX, far});
}

inline uint32_t basis_points(Random &random) {
    uint32_t kind = random.below(100);
    if (kind < 3) return too_large(random, WHOLE + 1);
    if (kind < 25) return random.among({0, 1, 2, 5000, WHOLE - 2, WHOLE - 1, WHOLE});
    if (kind < 50) return random.below(WHOLE >> random.below(14));
    return random.below(WHOLE + 1);
}

inline uint32_t assets(Random &random) {
    uint32_t kind = random.below(1000);
    if (kind < 30) return random.percent(30) ? 0 : too_large(random, LARGEST_POOL + 1);
    if (kind < 60) return random.among({1, 19, 20, 21, 22, 63, 64, 65, 66, 99, 100});
    if (kind < 80) return random.between(65, 100);
    if (kind < 140) return random.between(21, 64);
    return random.between(1, kind < 700 ? 10 : 20);
}

// Some have chances around 2^-800 and far below.
inline Pool random_pool(Random &random) {
    if (random.percent(2)) return {random.between(58, 100), random.among({1, 1, 2, 3, 5, 10, 20}), random.percent(10)};
    return {assets(random), basis_points(random), basis_points(random)};
}

inline Tranche random_tranche(Random &random) {
    if (random.percent(4)) return {basis_points(random), basis_points(random), basis_points(random)};
    if (random.percent(2)) return {WHOLE + random.below(2), WHOLE, WHOLE + random.below(2)};
    if (random.percent(15)) return {random.below(2), WHOLE - 1 - random.below(200), WHOLE - random.below(2)};
    uint32_t recovery = basis_points(random) % (WHOLE + 1), upper = random.percent(30) ? WHOLE : random.between(1, WHOLE);
    // Up to the most that can be lost.
    if (random.percent(20) && recovery < WHOLE) upper = WHOLE - recovery;
    uint32_t lower = random.percent(20) ? upper - 1 : random.percent(20) ? 0 : random.below(upper);
    return {recovery, lower, upper};
}

// Puts so many tranches, at most eight, that touch from 0 to 10,000 and have one recovery. Some cut points are neighbours.
inline void put_cut(Random &random, Tranche *tranches, uint32_t count) {
    uint32_t recovery = random.percent(15) ? random.below(2) : basis_points(random) % (WHOLE + 1);
    uint32_t first = random.between(1, WHOLE - 1 - TRANCHES);
    bool neighbours = random.percent(20);
    std::set<uint32_t> ends{0, WHOLE};
    while (ends.size() <= count) ends.insert(neighbours ? random.between(first, first + TRANCHES) : basis_points(random) % WHOLE);
    auto end = ends.begin();
    for (uint32_t i = 0; i < count; i++) {
        uint32_t lower = *end++;
        tranches[i] = {recovery, lower, *end};
    }
}

inline uint32_t random_count(Random &random) {
    return random.percent(94) ? random.between(1, TRANCHES) : random.among({0, 9, 10, 16, 1u << 31, UINT32_MAX});
}

// Most often one of a pool of n assets, at most 110; else one of its numbers is out of range, or both.
inline Layer random_layer(Random &random, uint32_t n) {
    uint32_t last = n + (n == 0), i = random.percent(20) ? 1 : random.between(1, last);
    uint32_t j = random.percent(20) ? i : random.percent(20) ? last : random.between(i, last);
    if (random.percent(3)) i = random.percent(50) ? 0 : too_large(random, j + 1);
    if (random.percent(3)) j = random.percent(50) ? 0 : too_large(random, n + 1);
    return {i, j};
}

// Most often itself, else a neighbour or another.
inline uint32_t often_same(Random &random, uint32_t number) {
    if (random.percent(92)) return number;
    uint32_t other = basis_points(random), any = uint32_t(random.word());
    return random.among({number + 1, number - 1, other, any});
}

// Most often a row that a head of n assets, at most 110, has.
inline uint32_t random_row(Random &random, uint32_t n) {
    if (random.percent(20)) return random.percent(50) ? 0 : n;
    return random.percent(92) ? random.below(n + 1) : too_large(random, n + 1);
}

inline uint32_t random_ceiling(Random &random, uint32_t row) {
    uint32_t kind = random.below(100), above = row < UINT32_MAX, below = row > 0;
    if (kind < 30) return row;
    if (kind < 50) return random.among({row + above, LARGEST_POOL, UINT32_MAX, too_large(random, row / 2 + 1)});
    return kind < 90 ? std::max(row, random.below(110)) : random.among({0, row - below, random.below(row / 2 + 1)});
}

// How many places a slice has that needs so many.
inline size_t slice_length(Random &random, size_t needed) {
    uint32_t kind = random.below(1000);
    if (kind < 800) return needed;
    if (kind < 960) return needed + random.between(1, kind < 950 ? 40 : 5000);
    if (kind < 980) return needed - (needed > 0);
    return kind < 985 ? 0 : random.below(uint32_t(needed) + 1);
}

// What a slice for so many assets is measured by, at most 110.
inline uint32_t measured(uint32_t n) { return n < 110 ? n : 110; }

inline std::string random_field(Random &random) {
    std::string digits = std::to_string(random.percent(70) ? random.below(70) : random.below(100000));
    if (random.percent(70)) digits = std::to_string(basis_points(random) % 10002);
    if (random.percent(10)) digits.insert(0, random.between(1, 4), '0');
    return digits;
}

// The one line of the program `column`, most often right.
inline std::string random_line(Random &random) {
    std::string assets = std::to_string(random.percent(80) ? random.below(21) : random.below(67));
    if (random.percent(10)) assets = random_field(random);
    std::string probability = random_field(random), correlation = random_field(random);
    return assets + " " + probability + " " + correlation + "\n";
}

// A line with one byte changed, left out or put in.
inline void spoil(Random &random, std::string &line) {
    static const std::string bytes = "0123456789 \n\t\r+-.,x/:\xb2";
    char byte = random.percent(80) ? bytes[random.below(uint32_t(bytes.size()))] : char(random.below(256));
    size_t place = random.below(uint32_t(line.size()));
    uint32_t kind = random.below(3);
    if (kind == 0) line[place] = byte;
    if (kind == 1) line.erase(place, 1);
    if (kind == 2) line.insert(random.percent(30) ? line.size() : place, 1, byte);
}

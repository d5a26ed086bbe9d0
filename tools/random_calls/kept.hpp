// Kept numbers: zero, or significand * 2^exponent with a significand from 2^31 to 2^32 - 1. On the low side a result is the
// greatest kept number not above the exact one, on the high side the least not below it.
#pragma once
#include <cstdint>
#include <utility>

enum Side { LOW, HIGH };

struct Kept {
    uint32_t significand;
    int32_t exponent;
};

constexpr Kept ZERO{0, 0};
constexpr Kept ONE{1u << 31, -31};

inline Kept next_above(Kept x) {
    if (x.significand == UINT32_MAX) return {1u << 31, x.exponent + 1};
    return {x.significand + 1, x.exponent};
}

// word * 2^exponent, plus something below 2^exponent if `rest`. A word with a rest has 32 binary digits or more.
inline Kept rounded(uint64_t word, bool rest, int32_t exponent, Side side) {
    if (word == 0) return ZERO;
    int zeros = __builtin_clzll(word);
    word <<= zeros;
    Kept low{uint32_t(word >> 32), exponent + 32 - zeros};
    bool inexact = rest || uint32_t(word) != 0;
    return side == HIGH && inexact ? next_above(low) : low;
}

inline Kept product(Kept x, Kept y, Side side) {
    return rounded(uint64_t(x.significand) * y.significand, false, x.exponent + y.exponent, side);
}

inline Kept sum(Kept x, Kept y, Side side) {
    if (x.significand == 0) return y;
    if (y.significand == 0) return x;
    if (x.exponent < y.exponent) std::swap(x, y);
    int32_t gap = x.exponent - y.exponent;
    // From a gap of 32 on, y is less than the last digit of x.
    if (gap >= 32) return side == HIGH ? next_above(x) : x;
    return rounded((uint64_t(x.significand) << gap) + y.significand, false, y.exponent, side);
}

// numerator / denominator * 2^exponent. The quotient of the two shifted words has 63 or 64 binary digits.
inline Kept quotient(uint64_t numerator, uint64_t denominator, int32_t exponent, Side side) {
    if (numerator == 0) return ZERO;
    int up = __builtin_clzll(numerator), down = __builtin_clzll(denominator);
    unsigned __int128 dividend = static_cast<unsigned __int128>(numerator << up) << 63;
    uint64_t divisor = denominator << down;
    return rounded(uint64_t(dividend / divisor), dividend % divisor != 0, exponent - 63 - up + down, side);
}

inline Kept whole_number(uint64_t number, Side side) {
    return rounded(number, false, 0, side);
}

// The bits of the f64 that equals x.
inline uint64_t binary64(Kept x) {
    return uint64_t(x.exponent + 1054) << 52 | uint64_t(x.significand - (1u << 31)) << 21;
}

// The exact model in whole numbers, and what is promised of bounds, losses and their sums, columns, verdicts and shift lists.
#pragma once
#include <gmpxx.h>
#include <algorithm>
#include <cstdlib>
#include <cstring>
#include <vector>
#include "steps.hpp"

// The correlation stays the same, or falls with each default as that of the beta-binomial.
enum Model { MOODY, BETA };

// Numerators over one denominator: P(j,k) at place k(k+1)/2 + j, chances and tails of 0 to n defaults.
struct Exact {
    uint32_t n;
    mpz_class whole;
    std::vector<mpz_class> entries, chances, tails;
};

inline mpz_class binomial(uint32_t n, uint32_t j) {
    mpz_class count;
    mpz_bin_uiui(count.get_mpz_t(), n, j);
    return count;
}

// m_0 to m_n, as numerators over the first of them. p_k is conditionals[k - 1] over wholes[k - 1].
inline std::vector<mpz_class> joint_defaults(Pool pool, Model model) {
    std::vector<mpz_class> conditionals{pool.probability}, wholes{WHOLE};
    for (uint32_t i = 0; i + 1 < pool.assets; i++) {
        uint32_t one = WHOLE + (model == BETA ? i * pool.correlation : 0);
        conditionals.push_back(conditionals[i] * (one - pool.correlation) + wholes[i] * pool.correlation);
        wholes.push_back(wholes[i] * one);
    }
    std::vector<mpz_class> joint{1};
    for (const mpz_class &whole : wholes) joint[0] *= whole;
    for (uint32_t k = 0; k < pool.assets; k++) {
        mpz_class each;
        mpz_divexact(each.get_mpz_t(), joint[k].get_mpz_t(), wholes[k].get_mpz_t());
        joint.push_back(each * conditionals[k]);
    }
    return joint;
}

// P(j,n) by the alternating sum.
inline mpz_class alternating_sum(const std::vector<mpz_class> &joint, uint32_t j, uint32_t n) {
    mpz_class total = 0;
    for (uint32_t i = 0; i <= n - j; i++) {
        if (i % 2) total -= binomial(n - j, i) * joint[j + i];
        else total += binomial(n - j, i) * joint[j + i];
    }
    return total;
}

// Every P(j,k) by P(j,k) + P(j+1,k) = P(j,k-1), of which row n is held to the alternating sum.
inline Exact exact_model(Pool pool, Model model) {
    uint32_t n = pool.assets;
    std::vector<mpz_class> joint = joint_defaults(pool, model);
    std::vector<mpz_class> list(n + 1);
    Exact exact{n, joint[0], std::vector<mpz_class>(row_start(n + 1)), list, list};
    for (uint32_t k = 0; k <= n; k++) {
        exact.entries[row_start(k) + k] = joint[k];
        for (uint32_t j = k; j-- > 0;)
            exact.entries[row_start(k) + j] = exact.entries[row_start(k - 1) + j] - exact.entries[row_start(k) + j + 1];
    }
    mpz_class tail = 0;
    for (uint32_t j = n + 1; j-- > 0;) {
        if (exact.entries[row_start(n) + j] != alternating_sum(joint, j, n)) abort();
        exact.chances[j] = binomial(n, j) * exact.entries[row_start(n) + j];
        exact.tails[j] = tail += exact.chances[j];
    }
    return exact;
}

// Entry j of row n of the beta-binomial is the product of its quotients.
inline bool is_product(Pool pool, const Exact &exact, uint32_t j) {
    uint32_t n = pool.assets;
    mpz_class p = pool.probability, a = WHOLE - pool.probability, rho = pool.correlation, q = WHOLE - pool.correlation;
    mpz_class numerators = 1, denominators = 1;
    for (uint32_t t = 0; t < n; t++) {
        numerators *= t < j ? mpz_class(p * q + t * rho * WHOLE) : mpz_class(a * q + (t - j) * rho * WHOLE);
        denominators *= WHOLE * (q + t * rho);
    }
    return numerators * exact.whole == exact.entries[row_start(n) + j] * denominators;
}

inline uint32_t library_parts(uint32_t k) { return k <= 64 ? 100000 : 50000; }

inline int32_t least_exponent(uint32_t n) { return n <= 64 ? -80000 : -200000; }

// Two bounds enclose numerator / denominator and are at most one part in so many of it apart.
inline bool encloses(uint32_t parts, int32_t least, Bounds bounds, const mpz_class &numerator, const mpz_class &denominator) {
    auto [low, high] = bounds;
    if (std::min(low.exponent, high.exponent) < least || std::max(low.exponent, high.exponent) > 100) return false;
    int32_t exponent = std::min({low.exponent, high.exponent, 0});
    mpz_class lower = mpz_class(low.significand) << (low.exponent - exponent);
    mpz_class upper = mpz_class(high.significand) << (high.exponent - exponent);
    mpz_class value = numerator << -exponent;
    return lower * denominator <= value && value <= upper * denominator && (upper - lower) * parts * denominator <= value;
}

inline bool bounds_hold(uint32_t parts, const Exact &exact, const Kept *low, const Kept *high, const mpz_class *numerators) {
    for (uint32_t j = 0; j <= exact.n; j++)
        if (!encloses(parts, least_exponent(exact.n), {low[j], high[j]}, numerators[j], exact.whole)) return false;
    return true;
}

// Row n, the chances and the tails, made by the steps from row n of either side.
inline bool rows_hold(uint32_t parts, const Exact &exact, const Kept *low_row, const Kept *high_row) {
    Kept low[ROWS], high[ROWS], low_tails[ROWS], high_tails[ROWS];
    chances_of<LOW>(exact.n, low_row, low);
    chances_of<HIGH>(exact.n, high_row, high);
    tails_of<LOW>(exact.n, low, low_tails);
    tails_of<HIGH>(exact.n, high, high_tails);
    return bounds_hold(parts, exact, low_row, high_row, &exact.entries[row_start(exact.n)]) &&
           bounds_hold(parts, exact, low, high, exact.chances.data()) &&
           bounds_hold(parts, exact, low_tails, high_tails, exact.tails.data());
}

// Every entry of a store; its rows up to 64 have the finer distance in every pool.
inline bool store_holds(uint32_t finest, const Exact &exact, Store store) {
    for (uint32_t k = 0; k <= exact.n; k++)
        for (size_t place = row_start(k); place < row_start(k + 1); place++) {
            Bounds bounds = entry_at(store, place);
            uint32_t parts = std::max(finest, library_parts(k));
            if (!encloses(parts, least_exponent(exact.n), bounds, exact.entries[place], exact.whole)) return false;
        }
    return true;
}

// A whole number of units is less than tenths / 10 units from the exact value.
inline bool is_near(int64_t units, const mpz_class &numerator, const mpz_class &whole, uint32_t tenths) {
    mpz_class off = whole * units - numerator * UNITS;
    return 10 * abs(off) < whole * tenths;
}

inline bool column_holds(const Exact &exact, const uint32_t *units) {
    uint64_t total = 0;
    for (uint32_t k = 0; k <= exact.n; k++) {
        total += units[k];
        if (!is_near(units[k], exact.chances[k], exact.whole, exact.n <= 64 ? 15 : 20)) return false;
    }
    return total == UNITS;
}

// The exact chances in whole units, to nearest; what is exactly half way goes up, or down.
inline void nearest_rows(const Exact &exact, bool down, uint32_t *units) {
    for (uint32_t k = 0; k <= exact.n; k++) {
        mpz_class row = (2 * UNITS * exact.chances[k] + exact.whole - (down ? 1 : 0)) / (2 * exact.whole);
        units[k] = uint32_t(row.get_ui());
    }
}

// The rows before the one that fails are at most half a unit and one part in so many of their chance off, and it is more than
// half a unit off.
inline bool verdict_holds(uint32_t parts, const Exact &exact, const uint32_t *claims, Verdict verdict) {
    for (uint32_t k = 0; k <= exact.n; k++) {
        mpz_class off = exact.whole * claims[k] - exact.chances[k] * UNITS;
        mpz_class more = 2 * abs(off) - exact.whole;
        if (verdict.kind == FAILS && k == verdict.number) return more > 0;
        if (more * parts > 2 * UNITS * exact.chances[k]) return false;
    }
    return verdict.kind == PASSED;
}

inline bool shifts_hold(const Exact &exact, const Exact &base, const int32_t *shifts) {
    int64_t total = 0;
    for (uint32_t k = 0; k <= exact.n; k++) {
        if (k > 0) total += shifts[k];
        if (!is_near(shifts[k], exact.tails[k] - base.tails[k], exact.whole, 13)) return false;
    }
    return shifts[0] == 0 && exact.whole == base.whole && 10 * std::abs(total) < 13 * int64_t(exact.n);
}

// The expected loss is the sum of chance times units, over the width of the tranche in units.
inline bool loss_holds(uint32_t parts, const Exact &exact, Tranche tranche, Bounds bounds) {
    mpz_class total = 0, n = exact.n, width = n * (tranche.upper - tranche.lower);
    for (uint32_t x = 0; x <= exact.n; x++) {
        mpz_class units = mpz_class(WHOLE - tranche.recovery) * x - n * tranche.lower;
        if (units > width) units = width;
        if (units > 0) total += exact.chances[x] * units;
    }
    return encloses(parts, least_exponent(exact.n), bounds, total, exact.whole * width);
}

// Whether tranches touch from 0 to 10,000 and have one recovery.
inline bool touch(const Tranche *tranches, uint32_t count) {
    uint32_t end = 0;
    for (uint32_t i = 0; i < count; i++) {
        if (tranches[i].recovery != tranches[0].recovery || tranches[i].lower != end) return false;
        end = tranches[i].upper;
    }
    return end == WHOLE;
}

// The exact value of an f64.
inline mpq_class number_of(uint64_t bits) {
    double number;
    std::memcpy(&number, &bits, sizeof number);
    return mpq_class(number);
}

// The numbers that the losses of such tranches carry, times the widths, add to at most and to at least the expected loss of the
// pool.
inline bool sums_hold(Pool pool, const Tranche *tranches, const std::vector<Answer> &answers) {
    mpq_class low = 0, high = 0, loss = pool.probability * (WHOLE - tranches[0].recovery);
    for (size_t i = 0; i < answers.size(); i++) {
        auto [kind, first, second] = answers[i];
        uint32_t width = tranches[i].upper - tranches[i].lower;
        if (kind == 2) low += width * number_of(first);
        if (kind != 0) high += width * number_of(kind == 2 ? second : first);
    }
    return low * WHOLE <= loss && loss <= high * WHOLE;
}

// The expected number of defaults from the i-th to the j-th, over how many the layer has.
inline bool layer_holds(uint32_t parts, const Exact &exact, Layer layer, Bounds bounds) {
    mpz_class total = 0;
    for (uint32_t x = layer.i; x <= exact.n; x++) total += exact.chances[x] * (std::min(x, layer.j) - layer.i + 1);
    return encloses(parts, least_exponent(exact.n), bounds, total, exact.whole * (layer.j - layer.i + 1));
}

// What the calls write and answer for an accepted input, step by step: each product, sum and quotient is rounded once.
#pragma once
#include <cstddef>
#include "kept.hpp"

constexpr uint32_t WHOLE = 10000, UNITS = 100000;
constexpr uint32_t LARGEST_POOL = 100, REPORT_POOL = 64, SCREEN_POOL = 20, EXACT_COUNTS = 64;
constexpr size_t TRANCHES = 8, ROWS = LARGEST_POOL + 1;

struct Pool {
    uint32_t assets, probability, correlation;
};

struct Tranche {
    uint32_t recovery, lower, upper;
};

// From the i-th to the j-th default.
struct Layer {
    uint32_t i, j;
};

// What a desk expects of a head, and the row that it asks for.
struct Request {
    uint32_t probability, correlation, row;
};

// The four arrays of a store.
struct Store {
    uint32_t *low_significands, *high_significands;
    int32_t *low_exponents, *high_exponents;
};

// 0 untouched, 1 faint with its number first, 2 shown with the low and the high bound, as bits of an f64.
struct Answer {
    uint32_t kind;
    uint64_t first, second;
};

struct Bounds {
    Kept low, high;
};

// A kind, and the number of the refusal or of the row that fails.
enum VerdictKind : uint32_t { REFUSED, PASSED, FAILS };

struct Verdict {
    uint32_t kind, number;
};

inline size_t row_start(size_t k) { return k * (k + 1) / 2; }

inline Bounds entry_at(Store store, size_t place) {
    return {{store.low_significands[place], store.low_exponents[place]},
            {store.high_significands[place], store.high_exponents[place]}};
}

inline void put_entry(Bounds entry, size_t place, Store store) {
    store.low_significands[place] = entry.low.significand;
    store.high_significands[place] = entry.high.significand;
    store.low_exponents[place] = entry.low.exponent;
    store.high_exponents[place] = entry.high.exponent;
}

inline void write_row(const Kept *row, uint32_t k, uint32_t *significands, int32_t *exponents) {
    size_t start = row_start(k);
    for (uint32_t j = 0; j <= k; j++) {
        significands[start + j] = row[j].significand;
        exponents[start + j] = row[j].exponent;
    }
}

// Step 3: row k from row k - 1, in place. Entry j is read before it is overwritten.
template <Side side>
void next_row(uint32_t k, Kept rho, const Kept *weights, Kept joint, Kept *row) {
    for (uint32_t s = 1; s < k; s++)
        for (uint32_t j = 0; j < k - s; j++) row[j] = sum(row[j], product(rho, row[j + 1], side), side);
    for (uint32_t j = 0; j < k; j++) row[j] = product(row[j], weights[j], side);
    row[k] = joint;
}

// Steps 1 to 3: rows 0 to n, of which `row` holds the last. They are written where there are arrays for them.
template <Side side>
void moody_rows(Pool pool, uint32_t *significands, int32_t *exponents, Kept *row) {
    Kept p = quotient(pool.probability, WHOLE, 0, side), a = quotient(WHOLE - pool.probability, WHOLE, 0, side);
    Kept rho = quotient(pool.correlation, WHOLE, 0, side), q = quotient(WHOLE - pool.correlation, WHOLE, 0, side);
    Kept conditional = p, joint = p, power = ONE, weights[LARGEST_POOL];
    row[0] = ONE;
    if (significands) write_row(row, 0, significands, exponents);
    for (uint32_t k = 1; k <= pool.assets; k++) {
        if (k > 1) {
            conditional = sum(product(conditional, q, side), rho, side);
            joint = product(joint, conditional, side);
        }
        weights[k - 1] = product(a, power, side);
        power = product(power, q, side);
        next_row<side>(k, rho, weights, joint, row);
        if (significands) write_row(row, k, significands, exponents);
    }
}

// Row n of the beta-binomial: products of quotients, left to right. Numerators and denominators are in units of 1 / WHOLE^2.
template <Side side>
void beta_row(Pool pool, Kept *row) {
    uint64_t p = pool.probability, a = WHOLE - p, rho = pool.correlation, q = WHOLE - rho;
    for (uint32_t j = 0; j <= pool.assets; j++) {
        row[j] = ONE;
        for (uint32_t t = 0; t < pool.assets; t++) {
            uint64_t numerator = t < j ? p * q + t * rho * WHOLE : a * q + (t - j) * rho * WHOLE;
            row[j] = product(row[j], quotient(numerator, WHOLE * (q + t * rho), 0, side), side);
        }
    }
}

// The counts of orders C(n,0) to C(n,n): exact and then rounded, or above 64 assets by sums of kept numbers.
template <Side side>
void order_counts(uint32_t n, Kept *counts) {
    uint64_t exact[EXACT_COUNTS + 1] = {1};
    counts[0] = ONE;
    for (uint32_t k = 1; k <= n; k++) {
        if (n <= EXACT_COUNTS) {
            exact[k] = 1;
            for (uint32_t j = k - 1; j > 0; j--) exact[j] += exact[j - 1];
        } else {
            counts[k] = ONE;
            for (uint32_t j = k - 1; j > 0; j--) counts[j] = sum(counts[j - 1], counts[j], side);
        }
    }
    if (n <= EXACT_COUNTS)
        for (uint32_t j = 0; j <= n; j++) counts[j] = whole_number(exact[j], side);
}

// Step 4.
template <Side side>
void chances_of(uint32_t n, const Kept *row, Kept *chances) {
    order_counts<side>(n, chances);
    for (uint32_t j = 0; j <= n; j++) chances[j] = product(chances[j], row[j], side);
}

// Step 5.
template <Side side>
void tails_of(uint32_t n, const Kept *chances, Kept *tails) {
    Kept total = ZERO;
    for (uint32_t j = n + 1; j-- > 0;) tails[j] = total = sum(total, chances[j], side);
}

inline uint32_t loss_units(uint32_t n, Tranche tranche, uint32_t defaults) {
    int64_t units = int64_t(defaults) * (WHOLE - tranche.recovery) - int64_t(tranche.lower) * n;
    int64_t most = int64_t(tranche.upper - tranche.lower) * n;
    return uint32_t(units < 0 ? 0 : units > most ? most : units);
}

// Step 6.
template <Side side>
Kept expected_loss(uint32_t n, const Kept *chances, Tranche tranche) {
    Kept total = ZERO;
    for (uint32_t x = 0; x <= n; x++)
        total = sum(total, product(chances[x], whole_number(loss_units(n, tranche, x), side), side), side);
    return quotient(total.significand, uint64_t(tranche.upper - tranche.lower) * n, total.exponent, side);
}

// The tails from the i-th up to the j-th, and their mean.
template <Side side>
Kept expected_layer(uint32_t n, const Kept *row, Layer layer) {
    Kept chances[ROWS], tails[ROWS], total = ZERO;
    chances_of<side>(n, row, chances);
    tails_of<side>(n, chances, tails);
    for (uint32_t k = layer.i; k <= layer.j; k++) total = sum(total, tails[k], side);
    return quotient(total.significand, layer.j - layer.i + 1, total.exponent, side);
}

// 100,000 times a tail or a chance plus one half, rounded down. It is below two.
inline uint32_t printed(Kept x) {
    int32_t digits = -x.exponent;
    if (x.significand == 0 || digits > 60) return 0;
    return uint32_t((2 * uint64_t(UNITS) * x.significand + (uint64_t(1) << digits)) >> (digits + 1));
}

// The printed tails at 0 to n from row n of the low side, and 0 behind them.
inline void printed_tails(uint32_t n, const Kept *row, uint32_t *tails) {
    Kept chances[ROWS], low[ROWS];
    chances_of<LOW>(n, row, chances);
    tails_of<LOW>(n, chances, low);
    tails[0] = UNITS;
    for (uint32_t k = 1; k <= n; k++) tails[k] = printed(low[k]);
    tails[n + 1] = 0;
}

inline void print_rows(uint32_t n, const Kept *row, uint32_t *units) {
    uint32_t tails[ROWS + 1];
    printed_tails(n, row, tails);
    for (uint32_t k = 0; k <= n; k++) units[k] = tails[k] - tails[k + 1];
}

// The sign of 200,000 * x - number, for a chance x and a number below 2^34. No chance has an exponent above 0, and that of zero
// is 0.
inline int half_units_above(Kept x, uint64_t number) {
    uint64_t word = 2 * uint64_t(UNITS) * x.significand;
    // The word is below 2^50.
    if (x.exponent < -64) return number == 0 ? 1 : -1;
    unsigned __int128 other = static_cast<unsigned __int128>(number) << -x.exponent;
    return (word > other) - (word < other);
}

// Some number between the bounds, in units, is at most half a unit from the claim.
inline bool row_passes(Bounds chance, uint32_t claim) {
    uint64_t claimed = 2 * uint64_t(claim);
    return half_units_above(chance.low, claimed + 1) <= 0 && (claim == 0 || half_units_above(chance.high, claimed - 1) >= 0);
}

inline bool below_shown(Kept x) { return x.significand == 0 || x.exponent < -831; }

inline Answer answer_of(Kept low, Kept high) {
    constexpr Kept least_shown{1u << 31, -831};
    if (high.significand == 0) return {0, 0, 0};
    if (below_shown(low)) return {1, binary64(below_shown(high) ? least_shown : high), 0};
    return {2, binary64(low), binary64(high)};
}

// The losses of the tranches within the count, from row n of either side.
inline void loss_bounds(uint32_t n, const Kept *low_row, const Kept *high_row, const Tranche *tranches, uint32_t count,
                        Bounds *bounds) {
    Kept low[ROWS], high[ROWS];
    chances_of<LOW>(n, low_row, low);
    chances_of<HIGH>(n, high_row, high);
    for (uint32_t i = 0; i < count; i++)
        bounds[i] = {expected_loss<LOW>(n, low, tranches[i]), expected_loss<HIGH>(n, high, tranches[i])};
}

inline void fill(Pool pool, Store store, Kept *low_row, Kept *high_row) {
    moody_rows<LOW>(pool, store.low_significands, store.low_exponents, low_row);
    moody_rows<HIGH>(pool, store.high_significands, store.high_exponents, high_row);
}

inline void column(Pool pool, Store store, uint32_t *units) {
    Kept low[ROWS], high[ROWS];
    fill(pool, store, low, high);
    print_rows(pool.assets, low, units);
}

inline void losses(Pool pool, Store store, const Tranche *tranches, uint32_t count, Bounds *bounds) {
    Kept low[ROWS], high[ROWS];
    fill(pool, store, low, high);
    loss_bounds(pool.assets, low, high, tranches, count, bounds);
}

inline Bounds layer_loss(Pool pool, Store store, Layer layer) {
    Kept low[ROWS], high[ROWS];
    fill(pool, store, low, high);
    return {expected_layer<LOW>(pool.assets, low, layer), expected_layer<HIGH>(pool.assets, high, layer)};
}

// The chances of either side.
inline void chance_bounds(uint32_t n, const Kept *low_row, const Kept *high_row, Bounds *bounds) {
    Kept low[ROWS], high[ROWS];
    chances_of<LOW>(n, low_row, low);
    chances_of<HIGH>(n, high_row, high);
    for (uint32_t k = 0; k <= n; k++) bounds[k] = {low[k], high[k]};
}

// A bound of each chance in whole units, to nearest: claims that pass.
template <Side side>
void nearest_bounds(Pool pool, uint32_t *units) {
    Kept row[ROWS], chances[ROWS];
    moody_rows<side>(pool, nullptr, nullptr, row);
    chances_of<side>(pool.assets, row, chances);
    for (uint32_t k = 0; k <= pool.assets; k++) units[k] = printed(chances[k]);
}

inline Verdict check_column(Pool pool, Store store, const uint32_t *claims) {
    Kept low[ROWS], high[ROWS];
    Bounds chances[ROWS];
    fill(pool, store, low, high);
    chance_bounds(pool.assets, low, high, chances);
    for (uint32_t k = 0; k <= pool.assets; k++)
        if (!row_passes(chances[k], claims[k])) return {FAILS, k};
    return {PASSED, 0};
}

inline void shift_list(Pool pool, Store store, int32_t *shifts) {
    Kept low[ROWS], high[ROWS], base[ROWS];
    uint32_t tails[ROWS + 1], base_tails[ROWS + 1];
    fill(pool, store, low, high);
    moody_rows<LOW>({pool.assets, pool.probability, 0}, nullptr, nullptr, base);
    printed_tails(pool.assets, low, tails);
    printed_tails(pool.assets, base, base_tails);
    for (uint32_t k = 0; k <= pool.assets; k++) shifts[k] = int32_t(tails[k]) - int32_t(base_tails[k]);
}

inline void beta_column(Pool pool, uint32_t *units) {
    Kept low[ROWS];
    beta_row<LOW>(pool, low);
    print_rows(pool.assets, low, units);
}

inline void beta_losses(Pool pool, const Tranche *tranches, uint32_t count, Bounds *bounds) {
    Kept low[ROWS], high[ROWS];
    beta_row<LOW>(pool, low);
    beta_row<HIGH>(pool, high);
    loss_bounds(pool.assets, low, high, tranches, count, bounds);
}

// Claimed columns, right and wrong.
#pragma once
#include "exact.hpp"
#include "lent.hpp"

// Rows that have to pass: the exact chances rounded to nearest, or a bound of each. The exact ones are worked out for few of the
// larger pools.
inline void right_rows(Random &random, Pool pool, uint32_t *units) {
    if (random.percent(pool.assets <= 20 ? 60 : 5)) return nearest_rows(exact_model(pool, MOODY), random.percent(50), units);
    auto bound_rows = random.percent(50) ? nearest_bounds<LOW> : nearest_bounds<HIGH>;
    bound_rows(pool, units);
}

// The column that the library prints: not every row is to nearest.
inline void own_rows(Pool pool, uint32_t *units) {
    Kept row[ROWS];
    moody_rows<LOW>(pool, nullptr, nullptr, row);
    print_rows(pool.assets, row, units);
}

// Most often up to two units off, 2^32 less where that is below zero.
inline uint32_t wrong_claim(Random &random, uint32_t claim) {
    if (random.percent(80)) return claim + random.between(0, 4) - 2;
    uint32_t far = claim + (1u << 31), any = uint32_t(random.word());
    return random.among({0, 1, UNITS, UNITS + 1, (1u << 31) - 1, 1u << 31, UINT32_MAX, far, any});
}

// Puts claims for an accepted pool, as many as there are places, or leaves the random words there. Gives whether they have to
// pass.
inline bool put_claims(Random &random, Pool pool, Lent<uint32_t> &claims) {
    uint32_t kind = random.below(100), rows[ROWS], count = pool.assets + 1;
    if (kind < 5) return false;
    if (kind < 15) own_rows(pool, rows);
    else right_rows(random, pool, rows);
    uint32_t wrong = kind < 60 ? 0 : random.between(1, 3);
    for (uint32_t i = 0; i < wrong; i++) {
        uint32_t k = random.below(count);
        rows[k] = wrong_claim(random, rows[k]);
    }
    std::copy_n(rows, std::min<size_t>(count, claims.length), claims.data());
    claims.wanted = claims.held;
    return kind >= 15 && wrong == 0;
}

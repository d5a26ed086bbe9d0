// The grounds of a refusal, each of them 0 where it does not apply. A call answers with the first of its grounds that is not 0.
#pragma once
#include <algorithm>
#include <initializer_list>
#include "steps.hpp"

inline uint32_t first_of(std::initializer_list<uint32_t> grounds) {
    for (uint32_t ground : grounds)
        if (ground != 0) return ground;
    return 0;
}

inline uint32_t assets_ground(uint32_t n, uint32_t most) { return n == 0 || n > most ? 1 : 0; }

inline uint32_t screen_ground(uint32_t n) { return n > SCREEN_POOL ? 11 : 0; }

inline uint32_t pool_ground(Pool pool) { return pool.probability > WHOLE ? 2 : pool.correlation > WHOLE ? 3 : 0; }

inline uint32_t beta_ground(Pool pool) { return pool.correlation == WHOLE ? 12 : 0; }

inline uint32_t tranches_ground(const Tranche *tranches, uint32_t count) {
    if (count == 0 || count > TRANCHES) return 13;
    for (const Tranche *tranche = tranches; tranche < tranches + count; tranche++) {
        if (tranche->recovery > WHOLE) return 4;
        if (tranche->upper > WHOLE) return 5;
        if (tranche->lower >= tranche->upper) return 6;
    }
    return 0;
}

inline uint32_t layer_ground(uint32_t n, Layer layer) { return 1 <= layer.i && layer.i <= layer.j && layer.j <= n ? 0 : 14; }

// A slice has fewer places than rows 0 to n take.
inline uint32_t store_ground(uint32_t n, size_t shortest) {
    unsigned __int128 rows = n;
    return shortest < (rows + 1) * (rows + 2) / 2 ? 7 : 0;
}

// A slice of entries 0 to n is too short: 8 in a column, 10 in a shift list.
inline uint32_t list_ground(uint32_t number, uint32_t n, size_t length) { return length < uint64_t(n) + 1 ? number : 0; }

inline uint32_t row_ground(uint32_t n, uint32_t k) { return k > n ? 9 : 0; }

// The probability or the correlation of a head is not what a desk expects.
inline uint32_t expected_ground(Pool head, Request request) {
    return head.probability == request.probability && head.correlation == request.correlation ? 0 : 15;
}

inline uint32_t ceiling_ground(uint32_t ceiling, uint32_t k) { return k > ceiling ? 16 : 0; }

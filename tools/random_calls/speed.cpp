// The time of a call of the library beside that of the same steps in C++: the least of many runs, in microseconds. Both write to
// arrays of their own, which are compared; these are not cleared between runs.
#include <algorithm>
#include <chrono>
#include <cstdio>
#include <cstdlib>
#include <cstring>
#include "files.hpp"
#include "library.hpp"
#include "steps.hpp"

static constexpr size_t PLACES = LARGEST_POOL * (LARGEST_POOL + 3) / 2 + 1, FILE_BYTES = FILE_HEAD + 4 * NUMBER * PLACES;

// All that a call writes and answers.
struct Arrays {
    uint32_t head[3];
    uint32_t low_significands[PLACES], high_significands[PLACES];
    int32_t low_exponents[PLACES], high_exponents[PLACES];
    uint32_t units[ROWS];
    int32_t shifts[ROWS];
    uint32_t kinds[TRANCHES];
    double firsts[TRANCHES], seconds[TRANCHES];
    Verdict verdict;
    uint32_t low_row_significands[ROWS], high_row_significands[ROWS];
    int32_t low_row_exponents[ROWS], high_row_exponents[ROWS];
    uint8_t file[FILE_BYTES];

    Store store() { return {low_significands, high_significands, low_exponents, high_exponents}; }
};

static Arrays by_library, by_steps;

static const Tranche tranches[TRANCHES] = {
    {4000, 1000, 3000}, {2000, 3000, 7000}, {0, 0, 10000},      {4000, 0, 300},
    {4000, 300, 700},   {6000, 1000, 4000}, {3000, 6000, 7000}, {5000, 0, 5000},
};

// A column for the pool whose rows all pass.
static uint32_t claims[ROWS];

#define SLICES_OF(arrays) \
    arrays.low_significands, PLACES, arrays.high_significands, PLACES, arrays.low_exponents, PLACES, arrays.high_exponents, PLACES

static void library_fill(Pool pool) { trial_fill(POOL_OF(pool), by_library.head, SLICES_OF(by_library)); }

static void library_column(Pool pool) {
    trial_column(POOL_OF(pool), by_library.head, SLICES_OF(by_library), by_library.units, ROWS);
}

static void library_losses(Pool pool) {
    trial_losses(POOL_OF(pool), by_library.head, &tranches[0].recovery, TRANCHES, SLICES_OF(by_library), by_library.kinds,
                 by_library.firsts, by_library.seconds);
}

static void library_shifts(Pool pool) {
    trial_shift_list(POOL_OF(pool), by_library.head, SLICES_OF(by_library), by_library.shifts, ROWS);
}

// The layer of all defaults.
static void library_layer(Pool pool) {
    trial_layer_loss(POOL_OF(pool), by_library.head, 1, pool.assets, SLICES_OF(by_library), by_library.kinds, by_library.firsts,
                     by_library.seconds);
}

// The last row of the store.
static void library_read(Pool pool) {
    trial_read(POOL_OF(pool), pool.probability, pool.correlation, pool.assets, LARGEST_POOL, SLICES_OF(by_library),
               by_library.low_row_significands, by_library.high_row_significands, by_library.low_row_exponents,
               by_library.high_row_exponents);
}

static size_t file_bytes(Pool pool) { return FILE_HEAD + 4 * NUMBER * row_start(pool.assets + 1); }

static void library_write_file(Pool pool) {
    trial_write_file(POOL_OF(pool), SLICES_OF(by_library), by_library.file, file_bytes(pool));
}

// The file that was written last.
static void library_read_file(Pool pool) {
    trial_read_file(by_library.head, by_library.file, file_bytes(pool), SLICES_OF(by_library));
}

static void library_check(Pool pool) {
    Verdict &verdict = by_library.verdict;
    verdict.kind = trial_check_column(POOL_OF(pool), by_library.head, claims, ROWS, SLICES_OF(by_library), &verdict.number);
}

static void steps_fill(Pool pool) {
    Kept low[ROWS], high[ROWS];
    fill(pool, by_steps.store(), low, high);
}

static void steps_column(Pool pool) { column(pool, by_steps.store(), by_steps.units); }

static void put_answer(size_t i, Bounds bounds) {
    Answer answer = answer_of(bounds.low, bounds.high);
    by_steps.kinds[i] = answer.kind;
    std::memcpy(&by_steps.firsts[i], &answer.first, sizeof(double));
    std::memcpy(&by_steps.seconds[i], &answer.second, sizeof(double));
}

static void steps_losses(Pool pool) {
    Bounds bounds[TRANCHES];
    losses(pool, by_steps.store(), tranches, TRANCHES, bounds);
    for (size_t i = 0; i < TRANCHES; i++) put_answer(i, bounds[i]);
}

static void steps_layer(Pool pool) { put_answer(0, layer_loss(pool, by_steps.store(), {1, pool.assets})); }

static void steps_check(Pool pool) { by_steps.verdict = check_column(pool, by_steps.store(), claims); }

static void steps_shifts(Pool pool) { shift_list(pool, by_steps.store(), by_steps.shifts); }

static void steps_read(Pool pool) {
    for (size_t j = 0; j < ROWS; j++) {
        Bounds entry = j <= pool.assets ? entry_at(by_steps.store(), row_start(pool.assets) + j) : Bounds{ZERO, ZERO};
        by_steps.low_row_significands[j] = entry.low.significand;
        by_steps.high_row_significands[j] = entry.high.significand;
        by_steps.low_row_exponents[j] = entry.low.exponent;
        by_steps.high_row_exponents[j] = entry.high.exponent;
    }
}

static void steps_write_file(Pool pool) {
    size_t count = row_start(pool.assets + 1);
    if (entries_ground(count, by_steps.store())) return;
    put_head(pool, by_steps.file);
    put_entries(count, by_steps.store(), by_steps.file);
}

static void steps_read_file(Pool pool) {
    size_t count = row_start(pool.assets + 1);
    if (entries_ground(count, by_steps.file)) return;
    take_entries(count, by_steps.file, by_steps.store());
}

static double microseconds(void (*call)(Pool), Pool pool, int batch) {
    auto start = std::chrono::steady_clock::now();
    for (int i = 0; i < batch; i++) call(pool);
    return std::chrono::duration<double, std::micro>(std::chrono::steady_clock::now() - start).count() / batch;
}

// Short calls are timed several at a time.
static void compare(const char *name, void (*library)(Pool), void (*steps)(Pool), Pool pool, int runs) {
    int batch = pool.assets < 10 ? 100 : pool.assets < 50 ? 10 : 1;
    double least_library = 1e9, least_steps = 1e9;
    for (int run = 0; run < runs; run++) {
        least_library = std::min(least_library, microseconds(library, pool, batch));
        least_steps = std::min(least_steps, microseconds(steps, pool, batch));
    }
    std::memcpy(by_steps.head, &pool, sizeof pool);
    bool same = std::memcmp(&by_library, &by_steps, sizeof by_library) == 0;
    std::printf("| %s | %u | %u | %.2f | %.2f | %.2f |%s\n", name, pool.assets, pool.correlation, least_library, least_steps,
                least_library / least_steps, same ? "" : " not the same");
}

int main(int count, char **words) {
    int runs = count > 1 ? std::atoi(words[1]) : 300;
    std::puts("| call | assets | correlation | library | steps | ratio |\n|---|---|---|---|---|---|");
    for (uint32_t correlation : {3000, 0})
        for (uint32_t assets : {4, 20, 64, 100}) {
            Pool pool{assets, 1000, correlation};
            nearest_bounds<LOW>(pool, claims);
            compare("fill", library_fill, steps_fill, pool, runs);
            compare("column", library_column, steps_column, pool, runs);
            compare("tranche_losses, eight", library_losses, steps_losses, pool, runs);
            compare("layer_loss, all defaults", library_layer, steps_layer, pool, runs);
            compare("check_column", library_check, steps_check, pool, runs);
            compare("desk read, last row", library_read, steps_read, pool, runs);
            compare("store_file write", library_write_file, steps_write_file, pool, runs);
            compare("store_file read", library_read_file, steps_read_file, pool, runs);
            if (assets <= REPORT_POOL) compare("shift_list", library_shifts, steps_shifts, pool, runs);
        }
}

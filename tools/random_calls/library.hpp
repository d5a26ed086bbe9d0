// The functions of the static library of crates/trial_exports.
#pragma once
#include <cstddef>
#include <cstdint>

// A pool as arguments. As parameters a pool and the head of a store, and the slices of a store that is written or only read.
#define POOL_OF(pool) pool.assets, pool.probability, pool.correlation
#define POOL_AND_HEAD uint32_t, uint32_t, uint32_t, uint32_t *head
#define STORE_SLICES uint32_t *, size_t, uint32_t *, size_t, int32_t *, size_t, int32_t *, size_t
#define READ_SLICES const uint32_t *, size_t, const uint32_t *, size_t, const int32_t *, size_t, const int32_t *, size_t

extern "C" {
uint32_t trial_fill(POOL_AND_HEAD, STORE_SLICES);
size_t trial_row(uint32_t n, uint32_t k, const uint32_t *, size_t, uint32_t *copy);
uint32_t trial_row_refusal(uint32_t n, uint32_t k, const uint32_t *, size_t);
uint32_t trial_column(POOL_AND_HEAD, STORE_SLICES, uint32_t *, size_t);
uint32_t trial_screen_column(POOL_AND_HEAD, STORE_SLICES, uint32_t *, size_t);
uint32_t trial_shift_list(POOL_AND_HEAD, STORE_SLICES, int32_t *, size_t);
uint32_t trial_beta_column(uint32_t, uint32_t, uint32_t, uint32_t *, size_t);
uint32_t trial_losses(POOL_AND_HEAD, const uint32_t *records, uint32_t count, STORE_SLICES, uint32_t *kinds, double *firsts,
                      double *seconds);
uint32_t trial_screen_losses(POOL_AND_HEAD, const uint32_t *records, uint32_t count, STORE_SLICES, uint32_t *kinds,
                             double *firsts, double *seconds);
uint32_t trial_beta_losses(uint32_t, uint32_t, uint32_t, const uint32_t *records, uint32_t count, uint32_t *kinds,
                           double *firsts, double *seconds);
uint32_t trial_layer_loss(POOL_AND_HEAD, uint32_t i, uint32_t j, STORE_SLICES, uint32_t *kind, double *first, double *second);
uint32_t trial_check_column(POOL_AND_HEAD, const uint32_t *claims, size_t, STORE_SLICES, uint32_t *number);
uint32_t trial_read(uint32_t, uint32_t, uint32_t, uint32_t expected_probability, uint32_t expected_correlation, uint32_t row,
                    uint32_t ceiling, READ_SLICES, uint32_t *low_significands, uint32_t *high_significands,
                    int32_t *low_exponents, int32_t *high_exponents);
uint32_t trial_write_file(uint32_t, uint32_t, uint32_t, READ_SLICES, uint8_t *file, size_t);
uint32_t trial_read_file(uint32_t *head, const uint8_t *file, size_t, STORE_SLICES);
size_t trial_reply(const uint8_t *start, size_t count, uint8_t *text);
}

// Store files: the bytes of one by their layout, and random ones.
#pragma once
#include "grounds.hpp"
#include "inputs.hpp"

constexpr size_t FILE_HEAD = 12, NUMBER = 4;

// The bytes of a number, each so many places behind the one before, from the lowest.
inline void put_number(uint32_t number, uint8_t *bytes, size_t apart) {
    for (size_t k = 0; k < NUMBER; k++) bytes[k * apart] = uint8_t(number >> 8 * k);
}

inline uint32_t number_at(const uint8_t *bytes, size_t apart) {
    uint32_t number = 0;
    for (size_t k = NUMBER; k-- > 0;) number = number << 8 | bytes[k * apart];
    return number;
}

inline void put_head(Pool head, uint8_t *file) {
    uint32_t numbers[] = {head.assets, head.probability, head.correlation};
    for (size_t i = 0; i < 3; i++) put_number(numbers[i], file + NUMBER * i, 1);
}

inline Pool head_in(const uint8_t *file) {
    return {number_at(file, 1), number_at(file + NUMBER, 1), number_at(file + 2 * NUMBER, 1)};
}

// The first so many entries of a store: four arrays, one behind the other, each in planes.
inline void put_entries(size_t count, Store store, uint8_t *file) {
    for (size_t i = 0; i < count; i++) {
        Bounds entry = entry_at(store, i);
        uint32_t numbers[] = {entry.low.significand, uint32_t(entry.low.exponent), entry.high.significand,
                              uint32_t(entry.high.exponent)};
        for (size_t at = 0; at < 4; at++) put_number(numbers[at], file + FILE_HEAD + at * NUMBER * count + i, count);
    }
}

// The number i of one of the four arrays.
inline uint32_t array_number(size_t count, size_t at, size_t i, const uint8_t *file) {
    return number_at(file + FILE_HEAD + at * NUMBER * count + i, count);
}

inline Bounds entry_in(size_t count, size_t i, const uint8_t *file) {
    return {{array_number(count, 0, i, file), int32_t(array_number(count, 1, i, file))},
            {array_number(count, 2, i, file), int32_t(array_number(count, 3, i, file))}};
}

inline void take_entries(size_t count, const uint8_t *file, Store store) {
    for (size_t i = 0; i < count; i++) put_entry(entry_in(count, i, file), i, store);
}

inline bool is_kept(Kept x) { return x.significand >> 31 == 1 || (x.significand == 0 && x.exponent == 0); }

inline bool both_kept(Bounds entry) { return is_kept(entry.low) && is_kept(entry.high); }

inline uint32_t entries_ground(size_t count, Store store) {
    for (size_t i = 0; i < count; i++)
        if (!both_kept(entry_at(store, i))) return 18;
    return 0;
}

inline uint32_t entries_ground(size_t count, const uint8_t *file) {
    for (size_t i = 0; i < count; i++)
        if (!both_kept(entry_in(count, i, file))) return 18;
    return 0;
}

inline uint32_t no_head_ground(size_t length) { return length < FILE_HEAD ? 17 : 0; }

inline uint32_t length_ground(uint32_t n, size_t length) {
    unsigned __int128 assets = n;
    return length == FILE_HEAD + 8 * (assets + 1) * (assets + 2) ? 0 : 17;
}

// All grounds but the last, on a head and the lengths of the file and of the shortest slice.
inline uint32_t file_ground(Pool head, size_t length, size_t shortest) {
    return first_of({assets_ground(head.assets, LARGEST_POOL), pool_ground(head), length_ground(head.assets, length),
                     store_ground(head.assets, shortest)});
}

inline uint32_t write_refusal(Pool head, size_t length, size_t shortest, Store store) {
    uint32_t refusal = first_of({no_head_ground(length), file_ground(head, length, shortest)});
    return refusal ? refusal : entries_ground(row_start(head.assets + 1), store);
}

inline uint32_t read_refusal(const uint8_t *file, size_t length, size_t shortest) {
    if (no_head_ground(length)) return 17;
    Pool head = head_in(file);
    uint32_t refusal = file_ground(head, length, shortest);
    return refusal ? refusal : entries_ground(row_start(head.assets + 1), file);
}

// A kept number, or by a chance in percent one next to those.
inline Kept random_number(Random &random, uint32_t others) {
    uint32_t edge = random.among({0, 0, 1, INT32_MAX, 1u << 31, (1u << 31) + 1, UINT32_MAX});
    uint32_t significand = random.percent(20) ? edge : uint32_t(random.word()) | 1u << 31;
    int32_t exponent = int32_t(random.percent(20) ? random.among({0, 1, UINT32_MAX, INT32_MAX, 1u << 31}) : random.word());
    Kept x{significand, exponent};
    if (is_kept(x) || random.percent(others)) return x;
    return ZERO;
}

// Kept numbers in the first so many places.
inline void put_random_entries(Random &random, size_t count, Store store) {
    for (size_t i = 0; i < count; i++) put_entry({random_number(random, 0), random_number(random, 0)}, i, store);
}

// Puts another entry at the first place, the last or any, on one side.
inline void spoil_entry(Random &random, size_t count, Store store) {
    if (count == 0) return;
    size_t place = random.percent(30) ? 0 : random.percent(50) ? count - 1 : random.below(uint32_t(count));
    Bounds entry = entry_at(store, place);
    (random.percent(50) ? entry.low : entry.high) = random_number(random, 80);
    put_entry(entry, place, store);
}

// How many bytes a file has that needs so many.
inline size_t random_file_length(Random &random, size_t needed) {
    uint32_t kind = random.below(100), near = random.between(1, 20), any = random.below(2 * uint32_t(needed));
    if (kind < 88) return needed;
    uint32_t exact = uint32_t(needed);
    return random.among({0, 11, 12, 13, exact - 1, exact + 1, exact - near, exact + near, exact - 16, exact + 16, 2 * exact, any});
}

// Changes a byte by 1, by 128, to 0 or to any.
inline void spoil_byte(Random &random, uint8_t &byte) {
    uint8_t any = uint8_t(random.word());
    byte = uint8_t(random.among({uint32_t(byte) + 1, uint32_t(byte) + 128, 0, any}));
}

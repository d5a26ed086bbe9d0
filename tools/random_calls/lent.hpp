// Slices lent to a call. Each holds random words, stands between guard words, and has beside it what the whole array has to hold
// after the call.
#pragma once
#include <algorithm>
#include <cstring>
#include <vector>
#include "inputs.hpp"

template <class Word>
struct Lent {
    static constexpr size_t GUARD = 16;
    size_t length;
    std::vector<Word> held, wanted;

    Lent(Random &random, size_t length) : length(length), held(length + 2 * GUARD) {
        for (Word &word : held) word = Word(random.word());
        wanted = held;
    }
    Word *data() { return held.data() + GUARD; }
    Word *wanted_data() { return wanted.data() + GUARD; }
    bool as_wanted() const { return std::memcmp(held.data(), wanted.data(), held.size() * sizeof(Word)) == 0; }
};

// The slices of a store, and three numbers for its head.
struct LentStore {
    Lent<uint32_t> low_significands, high_significands;
    Lent<int32_t> low_exponents, high_exponents;
    Lent<uint32_t> head;

    LentStore(Random &random, size_t needed)
        : low_significands(random, slice_length(random, needed)), high_significands(random, slice_length(random, needed)),
          low_exponents(random, slice_length(random, needed)), high_exponents(random, slice_length(random, needed)),
          head(random, 3) {
        if (random.percent(20)) return;
        Pool other = random_pool(random);
        std::memcpy(head.data(), &other, sizeof other);
        head.wanted = head.held;
    }
    size_t shortest() const {
        return std::min({low_significands.length, high_significands.length, low_exponents.length, high_exponents.length});
    }
    Store held() { return {low_significands.data(), high_significands.data(), low_exponents.data(), high_exponents.data()}; }
    // What an accepted call leaves: its pool as the head, and what is written to the slices.
    Store wanted(Pool pool) {
        std::memcpy(head.wanted_data(), &pool, sizeof pool);
        return {low_significands.wanted_data(), high_significands.wanted_data(), low_exponents.wanted_data(),
                high_exponents.wanted_data()};
    }
    // What it holds is to stay.
    void settle() {
        low_significands.wanted = low_significands.held;
        high_significands.wanted = high_significands.held;
        low_exponents.wanted = low_exponents.held;
        high_exponents.wanted = high_exponents.held;
    }
    bool as_wanted() const {
        return low_significands.as_wanted() && high_significands.as_wanted() && low_exponents.as_wanted() &&
               high_exponents.as_wanted() && head.as_wanted();
    }
};

// A row that a read answers with, in four arrays.
struct LentRow {
    Lent<uint32_t> low_significands, high_significands;
    Lent<int32_t> low_exponents, high_exponents;

    explicit LentRow(Random &random)
        : low_significands(random, ROWS), high_significands(random, ROWS), low_exponents(random, ROWS),
          high_exponents(random, ROWS) {}
    void want(size_t place, Bounds entry) {
        low_significands.wanted_data()[place] = entry.low.significand;
        high_significands.wanted_data()[place] = entry.high.significand;
        low_exponents.wanted_data()[place] = entry.low.exponent;
        high_exponents.wanted_data()[place] = entry.high.exponent;
    }
    bool as_wanted() const {
        return low_significands.as_wanted() && high_significands.as_wanted() && low_exponents.as_wanted() &&
               high_exponents.as_wanted();
    }
};

// The losses of an answer, in three arrays.
struct LentAnswer {
    Lent<uint32_t> kinds;
    Lent<uint64_t> firsts, seconds;

    LentAnswer(Random &random, size_t places) : kinds(random, places), firsts(random, places), seconds(random, places) {}
    void want(size_t place, Answer answer) {
        kinds.wanted_data()[place] = answer.kind;
        firsts.wanted_data()[place] = answer.first;
        seconds.wanted_data()[place] = answer.second;
    }
    Answer given(size_t place) { return {kinds.data()[place], firsts.data()[place], seconds.data()[place]}; }
    bool as_wanted() const { return kinds.as_wanted() && firsts.as_wanted() && seconds.as_wanted(); }
};

// As arguments of a function of the library.
#define SLICE_OF(slice) slice.data(), slice.length
#define SLICES_OF(store)                                                                                   \
    SLICE_OF(store.low_significands), SLICE_OF(store.high_significands), SLICE_OF(store.low_exponents), \
        SLICE_OF(store.high_exponents)
#define HEAD_OF(store) store.head.data()
#define ROW_OF(row) \
    row.low_significands.data(), row.high_significands.data(), row.low_exponents.data(), row.high_exponents.data()
#define ARRAYS_OF(answer) \
    answer.kinds.data(), reinterpret_cast<double *>(answer.firsts.data()), reinterpret_cast<double *>(answer.seconds.data())

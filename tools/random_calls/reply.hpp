// The reply of the program `column` to the start of its input.
#pragma once
#include <string>
#include "grounds.hpp"
#include "lent.hpp"
#include "library.hpp"
#include "tally.hpp"

// Three fields of one to five digits, a space between, a newline at the end, nothing after.
inline bool read_line(const std::string &input, Pool &pool) {
    size_t place = 0;
    uint32_t fields[3] = {};
    for (uint32_t &field : fields) {
        size_t first = place;
        for (; place < input.size() && place < first + 5 && input[place] >= '0' && input[place] <= '9'; place++)
            field = field * 10 + uint32_t(input[place] - '0');
        char end = &field == &fields[2] ? '\n' : ' ';
        if (place == first || place == input.size() || input[place++] != end) return false;
    }
    pool = {fields[0], fields[1], fields[2]};
    return place == input.size();
}

inline std::string table_text(uint32_t n, const Kept *row) {
    uint32_t tails[ROWS + 1];
    printed_tails(n, row, tails);
    std::string text = "defaults units tail\n";
    for (uint32_t k = 0; k <= n; k++)
        text += std::to_string(k) + " " + std::to_string(tails[k] - tails[k + 1]) + " " + std::to_string(tails[k]) + "\n";
    return text;
}

// The text of the program `column` for an input, and the number of the refusal.
inline std::string reply_text(const std::string &input, Pool &pool, uint32_t &refusal) {
    refusal = NO_LINE;
    if (!read_line(input, pool)) return "refused line\n";
    refusal = first_of({assets_ground(pool.assets, REPORT_POOL), pool_ground(pool)});
    if (refusal != 0) return "refused " + std::to_string(refusal) + "\n";
    Kept row[ROWS];
    moody_rows<LOW>(pool, nullptr, nullptr, row);
    return table_text(pool.assets, row);
}

inline size_t reply_count(Random &random, size_t length) {
    uint32_t kind = random.below(100);
    if (kind < 85) return length;
    if (kind < 92) return random.below(70);
    if (kind < 96) return random.word() >> random.below(64);
    return kind == 96 ? SIZE_MAX : random.among({63, 64, 65, 1u << 31, UINT32_MAX});
}

// Puts a line at the start of the input, right or spoilt, or leaves the random bytes there. Gives the number of bytes.
inline size_t put_input(Random &random, Lent<uint8_t> &start) {
    std::string line = random_line(random);
    uint32_t kind = random.below(100);
    if (kind < 40) spoil(random, line);
    if (kind < 5) spoil(random, line);
    size_t length = std::min(line.size(), start.length);
    if (kind < 95) std::memcpy(start.data(), line.data(), length);
    start.wanted = start.held;
    return reply_count(random, length);
}

// The bytes behind the text are zeros as far as its array goes.
inline void reply_call(Random &random, Tally &tally) {
    Lent<uint8_t> start(random, 64), text(random, 1125);
    size_t count = put_input(random, start);
    Pool pool{0, 0, 0};
    uint32_t refusal;
    std::string wanted = reply_text(std::string(start.data(), start.data() + std::min(count, start.length)), pool, refusal);
    size_t length = trial_reply(start.data(), count, text.data());
    std::fill_n(text.wanted_data(), text.length, 0);
    std::memcpy(text.wanted_data(), wanted.data(), wanted.size());
    tally.count(pool, refusal, length == wanted.size() && start.as_wanted() && text.as_wanted());
}

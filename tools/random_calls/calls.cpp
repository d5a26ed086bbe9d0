// Makes random calls of the library, and compares all that each leaves and answers with the steps and with the exact model.
#include <cstdlib>
#include <string>
#include "claims.hpp"
#include "exact.hpp"
#include "files.hpp"
#include "grounds.hpp"
#include "lent.hpp"
#include "library.hpp"
#include "reply.hpp"
#include "tally.hpp"

enum Library { LIBRARY, SCREEN, BETA_BINOMIAL };

static constexpr uint32_t SCREEN_PARTS = 1000000;

static uint32_t parts_of(Library library, uint32_t n) { return library == SCREEN ? SCREEN_PARTS : library_parts(n); }

static Model model_of(Library library) { return library == BETA_BINOMIAL ? BETA : MOODY; }

static size_t places(uint32_t n) { return row_start(measured(n) + 1); }

static uint32_t pool_refusal(Library library, Pool pool) {
    return first_of({assets_ground(pool.assets, LARGEST_POOL), library == SCREEN ? screen_ground(pool.assets) : 0,
                     pool_ground(pool), library == BETA_BINOMIAL ? beta_ground(pool) : 0});
}

static uint32_t room_refusal(Library library, Pool pool, const LentStore &store) {
    return library == BETA_BINOMIAL ? 0 : store_ground(pool.assets, store.shortest());
}

// What is promised of all bounds that an accepted call makes of a pool. The beta-binomial has no store.
static bool pool_holds(Library library, Pool pool, const Exact &exact, LentStore &store) {
    Kept low[ROWS], high[ROWS];
    if (library == BETA_BINOMIAL) {
        beta_row<LOW>(pool, low);
        beta_row<HIGH>(pool, high);
        for (uint32_t j = 0; j <= pool.assets; j++)
            if (!is_product(pool, exact, j)) return false;
    } else {
        moody_rows<LOW>(pool, nullptr, nullptr, low);
        moody_rows<HIGH>(pool, nullptr, nullptr, high);
        if (!store_holds(library == SCREEN ? SCREEN_PARTS : 0, exact, store.held())) return false;
    }
    return rows_hold(parts_of(library, pool.assets), exact, low, high);
}

// Counts a call. An accepted one is held to the exact model where that is due: its bounds, and by `holds` what else is promised.
template <class Holds>
static void conclude(Tally &tally, Library library, Pool pool, LentStore &store, uint32_t refusal, bool same, Holds holds) {
    same &= store.as_wanted();
    if (refusal == 0 && tally.exact_due(pool.assets)) {
        Exact exact = exact_model(pool, model_of(library));
        same &= pool_holds(library, pool, exact, store) && holds(exact);
    }
    tally.count(pool, refusal, same);
}

static void fill_call(Random &random, Tally &tally) {
    Pool pool = random_pool(random);
    LentStore store(random, places(pool.assets));
    Kept low[ROWS], high[ROWS];
    uint32_t refusal = first_of({pool_refusal(LIBRARY, pool), room_refusal(LIBRARY, pool, store)});
    if (refusal == 0) fill(pool, store.wanted(pool), low, high);
    bool same = trial_fill(POOL_OF(pool), HEAD_OF(store), SLICES_OF(store)) == refusal;
    conclude(tally, LIBRARY, pool, store, refusal, same, [](const Exact &) { return true; });
}

struct RowInputs {
    uint32_t n, k;
    Lent<uint32_t> significands;
    uint32_t refusal;

    explicit RowInputs(Random &random)
        : n(random_pool(random).assets), k(random.percent(90) ? random.below(measured(n) + 2) : too_large(random, measured(n))),
          significands(random, slice_length(random, places(n))),
          refusal(first_of({assets_ground(n, LARGEST_POOL), store_ground(n, significands.length), row_ground(n, k)})) {}
};

// The slice holds random words, so that the copy of a part tells which part it is.
static void row_call(Random &random, Tally &tally) {
    RowInputs row(random);
    Lent<uint32_t> copy(random, ROWS);
    size_t wanted = row.refusal ? 0 : row.k + 1;
    std::copy_n(row.significands.data() + (row.refusal ? 0 : row_start(row.k)), wanted, copy.wanted_data());
    size_t length = trial_row(row.n, row.k, SLICE_OF(row.significands), copy.data());
    bool same = length == wanted && copy.as_wanted() && row.significands.as_wanted();
    tally.count({row.n, row.k, 0}, row.refusal, same);
}

static void row_refusal_call(Random &random, Tally &tally) {
    RowInputs row(random);
    uint32_t answer = trial_row_refusal(row.n, row.k, SLICE_OF(row.significands));
    tally.count({row.n, row.k, 0}, row.refusal, answer == row.refusal && row.significands.as_wanted());
}

static void want_column(Library library, Pool pool, LentStore &store, Lent<uint32_t> &units) {
    if (library == BETA_BINOMIAL) beta_column(pool, units.wanted_data());
    else column(pool, store.wanted(pool), units.wanted_data());
}

static uint32_t call_column(Library library, Pool pool, LentStore &store, Lent<uint32_t> &units) {
    if (library == BETA_BINOMIAL) return trial_beta_column(POOL_OF(pool), SLICE_OF(units));
    auto call = library == SCREEN ? trial_screen_column : trial_column;
    return call(POOL_OF(pool), HEAD_OF(store), SLICES_OF(store), SLICE_OF(units));
}

template <Library library>
static void column_call(Random &random, Tally &tally) {
    Pool pool = random_pool(random);
    LentStore store(random, places(pool.assets));
    Lent<uint32_t> units(random, slice_length(random, measured(pool.assets) + 1));
    uint32_t refusal = first_of({pool_refusal(library, pool), room_refusal(library, pool, store),
                                 list_ground(8, pool.assets, units.length)});
    if (refusal == 0) want_column(library, pool, store, units);
    bool same = call_column(library, pool, store, units) == refusal && units.as_wanted();
    conclude(tally, library, pool, store, refusal, same, [&](const Exact &exact) { return column_holds(exact, units.data()); });
}

static void shift_call(Random &random, Tally &tally) {
    Pool pool = random_pool(random);
    LentStore store(random, places(pool.assets));
    Lent<int32_t> shifts(random, slice_length(random, measured(pool.assets) + 1));
    uint32_t refusal = first_of({assets_ground(pool.assets, REPORT_POOL), pool_refusal(LIBRARY, pool),
                                 room_refusal(LIBRARY, pool, store), list_ground(10, pool.assets, shifts.length)});
    if (refusal == 0) shift_list(pool, store.wanted(pool), shifts.wanted_data());
    bool same = trial_shift_list(POOL_OF(pool), HEAD_OF(store), SLICES_OF(store), SLICE_OF(shifts)) == refusal;
    conclude(tally, LIBRARY, pool, store, refusal, same && shifts.as_wanted(), [&](const Exact &exact) {
        return shifts_hold(exact, exact_model({pool.assets, pool.probability, 0}, MOODY), shifts.data());
    });
}

struct TrancheInputs {
    uint32_t count;
    Tranche tranches[TRANCHES];
    Lent<uint32_t> records;

    explicit TrancheInputs(Random &random) : count(random_count(random)), records(random, 3 * TRANCHES) {
        for (Tranche &tranche : tranches) tranche = random_tranche(random);
        if (random.percent(35) && 1 <= count && count <= TRANCHES) put_cut(random, tranches, count);
        std::memcpy(records.data(), tranches, sizeof tranches);
        records.wanted = records.held;
    }
};

// Wants the answers of the first so many bounds, and the others untouched.
static void want_answers(Tally &tally, size_t count, const Bounds *bounds, LentAnswer &answer) {
    for (size_t i = 0; i < answer.kinds.length; i++) {
        bool within = i < count;
        Answer wanted = within ? answer_of(bounds[i].low, bounds[i].high) : Answer{0, 0, 0};
        answer.want(i, wanted);
        if (within) tally.kinds[wanted.kind]++;
    }
}

static void want_losses(Library library, Pool pool, LentStore &store, const TrancheInputs &given, Bounds *bounds) {
    if (library == BETA_BINOMIAL) beta_losses(pool, given.tranches, given.count, bounds);
    else losses(pool, store.wanted(pool), given.tranches, given.count, bounds);
}

static uint32_t call_losses(Library library, Pool pool, LentStore &store, TrancheInputs &given, LentAnswer &answer) {
    const uint32_t *records = given.records.data();
    if (library == BETA_BINOMIAL) return trial_beta_losses(POOL_OF(pool), records, given.count, ARRAYS_OF(answer));
    auto call = library == SCREEN ? trial_screen_losses : trial_losses;
    return call(POOL_OF(pool), HEAD_OF(store), records, given.count, SLICES_OF(store), ARRAYS_OF(answer));
}

static bool losses_hold(uint32_t parts, const Exact &exact, const TrancheInputs &given, const Bounds *bounds) {
    for (uint32_t i = 0; i < given.count; i++)
        if (!loss_holds(parts, exact, given.tranches[i], bounds[i])) return false;
    return true;
}

// What is promised of the sums of an accepted call, from the numbers that it answered.
static bool answers_hold(Tally &tally, Pool pool, const TrancheInputs &given, LentAnswer &answer) {
    if (!touch(given.tranches, given.count)) return true;
    std::vector<Answer> answers;
    for (uint32_t i = 0; i < given.count; i++) answers.push_back(answer.given(i));
    tally.cuts++;
    return sums_hold(pool, given.tranches, answers);
}

template <Library library>
static void losses_call(Random &random, Tally &tally) {
    Pool pool = random_pool(random);
    TrancheInputs given(random);
    LentStore store(random, places(pool.assets));
    LentAnswer answer(random, TRANCHES);
    Bounds bounds[TRANCHES];
    uint32_t refusal = first_of({pool_refusal(library, pool), tranches_ground(given.tranches, given.count),
                                 room_refusal(library, pool, store)});
    if (refusal == 0) want_losses(library, pool, store, given, bounds);
    want_answers(tally, refusal ? 0 : given.count, bounds, answer);
    bool same = call_losses(library, pool, store, given, answer) == refusal && answer.as_wanted() && given.records.as_wanted();
    if (same && refusal == 0) same = answers_hold(tally, pool, given, answer);
    conclude(tally, library, pool, store, refusal, same,
             [&](const Exact &exact) { return losses_hold(parts_of(library, pool.assets), exact, given, bounds); });
}

static void layer_call(Random &random, Tally &tally) {
    Pool pool = random_pool(random);
    Layer layer = random_layer(random, measured(pool.assets));
    LentStore store(random, places(pool.assets));
    LentAnswer answer(random, 1);
    Bounds bounds;
    uint32_t refusal = first_of({pool_refusal(LIBRARY, pool), layer_ground(pool.assets, layer),
                                 room_refusal(LIBRARY, pool, store)});
    if (refusal == 0) bounds = layer_loss(pool, store.wanted(pool), layer);
    want_answers(tally, refusal == 0, &bounds, answer);
    uint32_t given = trial_layer_loss(POOL_OF(pool), HEAD_OF(store), layer.i, layer.j, SLICES_OF(store), ARRAYS_OF(answer));
    conclude(tally, LIBRARY, pool, store, refusal, given == refusal && answer.as_wanted(), [&](const Exact &exact) {
        return layer_holds(library_parts(pool.assets), exact, layer, bounds);
    });
}

static void check_call(Random &random, Tally &tally) {
    Pool pool = random_pool(random);
    LentStore store(random, places(pool.assets));
    Lent<uint32_t> claims(random, slice_length(random, measured(pool.assets) + 1));
    bool right = pool_refusal(LIBRARY, pool) == 0 && put_claims(random, pool, claims);
    uint32_t refusal = first_of({pool_refusal(LIBRARY, pool), room_refusal(LIBRARY, pool, store),
                                 list_ground(8, pool.assets, claims.length)});
    Verdict wanted{REFUSED, refusal}, given;
    if (refusal == 0) wanted = check_column(pool, store.wanted(pool), claims.data());
    given.kind = trial_check_column(POOL_OF(pool), HEAD_OF(store), SLICE_OF(claims), SLICES_OF(store), &given.number);
    tally.verdicts[wanted.kind]++;
    bool same = given.kind == wanted.kind && given.number == wanted.number && claims.as_wanted();
    conclude(tally, LIBRARY, pool, store, refusal, same && (wanted.kind != FAILS || !right), [&](const Exact &exact) {
        return verdict_holds(library_parts(pool.assets), exact, claims.data(), wanted);
    });
}

// Fills the store for a pool as the steps do, where it has room.
static void put_store(Pool pool, LentStore &store) {
    Kept low[ROWS], high[ROWS];
    if (pool_refusal(LIBRARY, pool) || room_refusal(LIBRARY, pool, store)) return;
    fill(pool, store.held(), low, high);
    fill(pool, store.wanted(pool), low, high);
    store.head.held = store.head.wanted;
}

struct ReadInputs {
    Pool head;
    Request request;
    uint32_t ceiling;
    LentStore store;
    uint32_t refusal;

    explicit ReadInputs(Random &random)
        : head(random_pool(random)), request{often_same(random, head.probability), often_same(random, head.correlation),
                                             random_row(random, measured(head.assets))},
          ceiling(random_ceiling(random, request.row)), store(random, places(head.assets)),
          refusal(first_of({assets_ground(head.assets, LARGEST_POOL), pool_ground(head), room_refusal(LIBRARY, head, store),
                            expected_ground(head, request), row_ground(head.assets, request.row),
                            ceiling_ground(ceiling, request.row)})) {}
};

// About half of the stores hold random words, a few are of another pool than the head.
static void read_call(Random &random, Tally &tally) {
    ReadInputs given(random);
    LentStore &store = given.store;
    Request request = given.request;
    LentRow row(random);
    if (random.percent(50)) put_store(random.percent(70) ? given.head : random_pool(random), store);
    size_t count = given.refusal ? 0 : request.row + 1;
    for (size_t j = 0; j < ROWS; j++)
        row.want(j, j < count ? entry_at(store.held(), row_start(request.row) + j) : Bounds{ZERO, ZERO});
    uint32_t answer = trial_read(POOL_OF(given.head), request.probability, request.correlation, request.row, given.ceiling,
                                 SLICES_OF(store), ROW_OF(row));
    tally.count(given.head, given.refusal, answer == given.refusal && row.as_wanted() && store.as_wanted());
}

static size_t file_bytes(uint32_t n) { return FILE_HEAD + 4 * NUMBER * places(n); }

// Fills the store for a pool, or with random kept numbers, in as many places as all slices have; or leaves random words. Then one
// entry of some stores is changed.
static void put_contents(Random &random, Pool pool, LentStore &store) {
    uint32_t kind = random.below(100);
    size_t count = std::min(places(pool.assets), store.shortest());
    if (kind < 60) put_store(pool, store);
    if (kind >= 60 && kind < 95) put_random_entries(random, count, store.held());
    if (random.percent(30)) spoil_entry(random, store.shortest(), store.held());
    store.settle();
}

static void write_file_call(Random &random, Tally &tally) {
    Pool head = random_pool(random);
    LentStore store(random, places(head.assets));
    Lent<uint8_t> file(random, random_file_length(random, file_bytes(head.assets)));
    put_contents(random, head, store);
    uint32_t refusal = write_refusal(head, file.length, store.shortest(), store.held());
    if (refusal == 0) {
        put_head(head, file.wanted_data());
        put_entries(places(head.assets), store.held(), file.wanted_data());
    }
    uint32_t answer = trial_write_file(POOL_OF(head), SLICES_OF(store), SLICE_OF(file));
    tally.count(head, refusal, answer == refusal && file.as_wanted() && store.as_wanted());
}

// The file of a store, of which the end or a byte may not be as it was, or another head; or random bytes.
static void put_file(Random &random, Pool head, Lent<uint8_t> &file) {
    LentStore store(random, places(head.assets));
    std::vector<uint8_t> bytes(file_bytes(head.assets));
    put_contents(random, head, store);
    if (store.shortest() >= places(head.assets)) put_entries(places(head.assets), store.held(), bytes.data());
    put_head(head, bytes.data());
    if (random.percent(97)) std::copy_n(bytes.data(), std::min(bytes.size(), file.length), file.data());
    if (random.percent(3) && file.length >= FILE_HEAD) put_head(random_pool(random), file.data());
    if (random.percent(30) && file.length > 0) spoil_byte(random, file.data()[random.below(uint32_t(file.length))]);
    file.wanted = file.held;
}

static void read_file_call(Random &random, Tally &tally) {
    Pool head = random_pool(random);
    LentStore store(random, places(head.assets));
    Lent<uint8_t> file(random, random_file_length(random, file_bytes(head.assets)));
    put_file(random, head, file);
    uint32_t refusal = read_refusal(file.data(), file.length, store.shortest());
    if (file.length >= FILE_HEAD) head = head_in(file.data());
    if (refusal == 0) take_entries(places(head.assets), file.data(), store.wanted(head));
    uint32_t answer = trial_read_file(HEAD_OF(store), SLICE_OF(file), SLICES_OF(store));
    tally.count(head, refusal, answer == refusal && file.as_wanted() && store.as_wanted());
}

static const struct {
    const char *name;
    void (*call)(Random &, Tally &);
} CALLS[] = {
    {"fill", fill_call},
    {"row", row_call},
    {"row_refusal", row_refusal_call},
    {"column", column_call<LIBRARY>},
    {"tranche_losses", losses_call<LIBRARY>},
    {"shift_list", shift_call},
    {"screen column", column_call<SCREEN>},
    {"screen tranche_losses", losses_call<SCREEN>},
    {"beta_binomial column", column_call<BETA_BINOMIAL>},
    {"beta_binomial tranche_losses", losses_call<BETA_BINOMIAL>},
    {"reply_to_start", reply_call},
    {"layer_loss", layer_call},
    {"check_column", check_call},
    {"desk read", read_call},
    {"store_file write", write_file_call},
    {"store_file read", read_file_call},
};

// The number of calls of each kind, the seed, and the only kind to be tried, if there is one.
int main(int count, char **words) {
    uint64_t calls = count > 1 ? std::strtoull(words[1], nullptr, 10) : 100000;
    uint64_t seed = count > 2 ? std::strtoull(words[2], nullptr, 10) : 1;
    uint64_t mismatches = 0;
    for (const auto &each : CALLS) {
        Random random{seed++};
        Tally tally{each.name};
        if (count > 3 && std::string(words[3]) != each.name) continue;
        while (tally.calls < calls) each.call(random, tally);
        tally.print();
        mismatches += tally.mismatches;
    }
    std::printf("%lu mismatches\n", mismatches);
    return mismatches != 0;
}

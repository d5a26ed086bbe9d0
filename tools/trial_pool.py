"""The lines that crates/trial_pool prints of a call, and the inputs of crates/trial_inputs, by tools/pools.py. Every bound, every
column, every shift list, every loss and every verdict is held to the exact model.

A library is "" (the one of the pool), "screen" or "beta"; a tranche is a recovery and two attachments."""
from fractions import Fraction

from exact import BETA, MOODY, hold_bounds, hold_check, hold_column, hold_layer, hold_loss, hold_quotients, hold_same
from exact import hold_shifts, library_parts, screen_parts
from kept import value
from pools import LARGEST_POOL, REPORT_POOL, SCREEN_POOL, TRANCHES, UNITS, WHOLE, beta_column_refusal, beta_loss_refusal
from pools import chance_units, column_refusal, fill_refusal, first_to_fail, layer, layer_refusal, loss, loss_answer
from pools import loss_refusal, printed_rows, row_refusal, shift_refusal, shifts, tails
from trial_support import SEED, checksum, following, line

# The places of a store and of a list that are lent where enough are: for up to 64 assets, and for more.
PLACES, LARGE_PLACES = 2150, 5156
ROWS, LARGE_ROWS = 70, 106
MARK = 1000000007
INTEGER_MARK = 1000007
WHOLE_ARRAYS = [LARGE_PLACES] * 4
LIBRARIES = ["", "screen", "beta"]
STORES = [(1, 3), (3, 10), (64, 2145)]
OTHERS = [(10, 500, 250), (2, 500, 250), (64, 10000, 10000)]
HALF_WAY = [
    (2, 1250, 0), (2, 2500, 2500), (2, 5000, 625), (2, 5000, 9375), (2, 8750, 0), (3, 2500, 0), (3, 5000, 5000),
    (5, 2500, 0), (5, 7500, 0), (6, 5000, 0), (10, 5000, 0),
]
# A tranche that 4, 5 and 6 refuse.
REFUSED = (WHOLE + 1, WHOLE + 1, WHOLE + 1)
# Eight recoveries. Some tranches overlap, some touch, and two are untouched in every pool.
SPREAD = [
    (4000, 1000, 3000), (10000, 0, 10000), (2500, 3000, 7000), (7000, 2000, 5000), (0, 0, 10000), (6000, 4000, 10000),
    (9999, 0, 1), (5000, 4999, 5000),
]


def made(n, p, rho, model=MOODY):
    """What the steps make on both sides."""
    return [model.steps(side, n, p, rho) for side in (0, 1)]


def held(n, p, rho):
    """The same of an accepted pool, with every bound held to the exact model."""
    hold_bounds(n, p, rho)
    return made(n, p, rho)


def store_of(other):
    """The slices of another pool's store, if there is one."""
    return slices_of(made(*other)) if other else NO_SLICES


def beyond(call=""):
    """The fewest assets that a call refuses by 1."""
    return (REPORT_POOL if call == "shifts" else LARGEST_POOL) + 1


def ample(n, call="", other=()):
    """Enough places of a store: of a pool that is accepted, and of one that the arrays hold."""
    return WHOLE_ARRAYS if 64 < n < beyond(call) or other and other[0] > 64 else [PLACES] * 4


def array_word(numbers, mark, lent, few, whole):
    """The checksum of an array that starts with these numbers, before the marks: of the few places, or of all where more are
    lent."""
    length = few if lent <= few else whole
    numbers = (numbers + [mark] * (length - len(numbers)))[:length]
    return checksum([], numbers) if mark == INTEGER_MARK else checksum(numbers)


def slices_of(filled):
    """The four slices of a store, or of none: the significands of either side, then the exponents."""
    return [[x[part] for row in rows for x in row] for part in (0, 1) for rows, _ in filled or [([], [])] * 2]


NO_SLICES = slices_of([])


def after_fill(filled, before):
    """What the arrays start with, after what they started with before."""
    return [new + old[len(new):] for new, old in zip(slices_of(filled), before)]


def store_words(filled, lengths, before=NO_SLICES):
    """The checksums of the four arrays: what was filled stands before what they held before, and that before the marks."""
    arrays = zip(after_fill(filled, before), [MARK] * 2 + [INTEGER_MARK] * 2, lengths)
    return ["slices", *(array_word(*array, PLACES, LARGE_PLACES) for array in arrays)]


def fill_words(n, p, rho, lengths, before=NO_SLICES):
    refusal = fill_refusal(n, p, rho, lengths)
    return ["refusal", refusal, *store_words([] if refusal else held(n, p, rho), lengths, before)]


def fill(n, p, rho, lengths=None):
    lengths = lengths or ample(n)
    line("fill", n, p, rho, "lengths", *lengths, *fill_words(n, p, rho, lengths))


def row(n, k, length):
    """The slice holds the number of each place."""
    refusal = row_refusal(n, k, length)
    start = k * (k + 1) // 2
    part = [0] if refusal else [k + 1, start, start + k]
    line("row", n, k, "length", length, "refusal", refusal, "part", *part)


def filled_row(n, p, rho, k, reader=0):
    """Row k of the low significands of a filled store, read as one of another pool where there is one."""
    part = [] if row_refusal(reader or n, k, LARGE_PLACES) else [x[0] for x in made(n, p, rho)[0][0][k]]
    line("filled", n, p, rho, "row", k, *["of", reader] * (reader > 0), "part", len(part), *part)


def hold_screen(refusal, n, p, rho):
    """What the screen promises: bounds at most one part in 1,000,000 apart, and 11 where it has more than 20 assets and 1 does not
    apply."""
    assert (refusal == 11) == (SCREEN_POOL < n <= LARGEST_POOL)
    if not refusal:
        hold_bounds(n, p, rho, parts=screen_parts)


def beta_models(n, rho):
    """The beta-binomial; and Moody's model of up to two assets and at correlation 0, where both have the same exact values."""
    return [BETA] + [MOODY] * (n <= 2 or rho == 0)


def models_of(library, n, rho):
    """The models whose exact values the bounds of a library enclose."""
    return beta_models(n, rho) if library == "beta" else [MOODY]


def hold_beta(n, p, rho):
    """What is promised of the bounds of the beta-binomial."""
    hold_quotients(n, p, rho)
    models = beta_models(n, rho)
    if MOODY in models:
        hold_same(n, p, rho)
    for model in models:
        hold_bounds(n, p, rho, model)


def row_words(refusal, rows, units):
    return ["refusal", refusal, *rows, "rows", array_word(rows, MARK, units, ROWS, LARGE_ROWS)]


def column_words(n, p, rho, lengths, units, before=NO_SLICES, screen=False):
    refusal = column_refusal(n, p, rho, lengths, units, screen)
    if screen:
        hold_screen(refusal, n, p, rho)
        assert refusal in (11, column_refusal(n, p, rho, lengths, units))
    filled = [] if refusal else held(n, p, rho)
    rows = [] if refusal else printed_rows(filled[0][1])
    if not refusal:
        hold_column(n, p, rho)
    return row_words(refusal, rows, units) + store_words(filled, lengths, before)


def shift_words(n, p, rho, lengths, entries, before=NO_SLICES):
    refusal = shift_refusal(n, p, rho, lengths, entries)
    filled = [] if refusal else held(n, p, rho)
    listed = [] if refusal else shifts(filled[0][1], made(n, p, 0)[0][1])
    if not refusal:
        hold_shifts(n, p, rho)
    word = array_word(listed, INTEGER_MARK, entries, ROWS, LARGE_ROWS)
    return ["refusal", refusal, *listed, "list", word, *store_words(filled, lengths, before)]


def screen_words(*given):
    return column_words(*given, screen=True)


def beta_words(n, p, rho, lengths, units):
    refusal = beta_column_refusal(n, p, rho, units)
    if refusal:
        return row_words(refusal, [], units)
    hold_beta(n, p, rho)
    hold_column(n, p, rho, BETA)
    return row_words(refusal, printed_rows(made(n, p, rho, BETA)[0][1]), units)


LISTS = {"column": column_words, "shifts": shift_words, "screen column": screen_words, "beta column": beta_words}


def listed(call, n, p, rho, lengths=None, entries=ROWS):
    """A call that leaves entries 0 to n in a slice. That of the beta-binomial is lent no store."""
    lengths = lengths or ample(n, call)
    given = ["length", entries] if call == "beta column" else ["lengths", *lengths, entries]
    line(call, n, p, rho, *given, *LISTS[call](n, p, rho, lengths, entries))


def fill_over(other, n, p, rho):
    """A fill of slices that hold another pool's store."""
    line("over", *other, "fill", n, p, rho, *fill_words(n, p, rho, ample(n, other=other), store_of(other)))


def listed_over(call, other, n, p, rho, entries=ROWS):
    """The same of a call that leaves a list."""
    line("over", *other, call, n, p, rho, *LISTS[call](n, p, rho, ample(n, call, other), entries, store_of(other)))


def lengths_of(exact):
    """A store that fits, and each slice one place short in turn."""
    return [[exact] * 4] + [[exact - (at == short) for at in range(4)] for short in range(4)]


def longer(exact):
    return [exact + more for more in (1, 2, 3, 5)]


def list_lengths(call, n, exact):
    """Each slice of the store one place short in turn, then the list, then both; then all of them longer."""
    for lengths in lengths_of(exact):
        listed(call, n, 1000, 3000, lengths, n + 1)
    listed(call, n, 1000, 3000, [exact] * 4, n)
    listed(call, n, 1000, 3000, lengths_of(exact)[4], n)
    listed(call, n, 1000, 3000, longer(exact), n + 6)


def list_pools(call):
    for pool in [
        (3, 1000, 3000), (0, 1000, 3000), (64, 1000, 3000), (beyond(call), 1000, 3000), (3, 10001, 3000), (3, 1000, 10001),
        (beyond(call), 10001, 10001), (3, 10001, 10001),
    ]:
        listed(call, *pool)


def corners():
    """Probability and correlation at and next to their ends."""
    return [(p, rho) for p in (0, 1, 9999, 10000) for rho in (0, 1, 9999, 10000)]


def list_corners(call, n):
    for p, rho in corners():
        listed(call, n, p, rho)


def no_places(call):
    for pool in [(beyond(call), 1000, 3000), (3, 10001, 3000), (3, 1000, 10001)]:
        listed(call, *pool, [0] * 4, 0)


def half_way(n, p, rho, model=MOODY):
    """A tail is exactly half way between two units on the low side."""
    return any((UNITS * value(x)).denominator == 2 for x in tails(0, made(n, p, rho, model)[0][1]))


def list_half_way(call):
    for pool in HALF_WAY:
        assert half_way(*pool)
        listed(call, *pool)
    # The low side is below that: the tail at 2 is p^2.
    for n, p, rho in [(2, 50, 0), (2, 1150, 0)]:
        assert UNITS * Fraction(p, WHOLE)**2 % 1 == Fraction(1, 2) > UNITS * value(made(n, p, rho)[0][1][2]) % 1
        listed(call, n, p, rho)


def lists(call):
    """The cases of a call that is lent a store."""
    list_pools(call)
    for n in (1, 20):
        for p, rho in [(0, 0), (0, 10000), (5000, 0), (5000, 10000), (10000, 0), (10000, 10000)]:
            listed(call, n, p, rho)
    for n, exact in STORES:
        list_lengths(call, n, exact)
    no_places(call)
    for other in OTHERS:
        listed_over(call, other, 3, 1000, 3000)
    listed_over(call, OTHERS[0], beyond(call), 1000, 3000)
    list_half_way(call)


def held_loss(library, n, p, rho, *tranche):
    """The loss of a tranche, held to the exact one."""
    models = models_of(library, n, rho)
    for model in models:
        hold_loss(n, p, rho, *tranche, model, screen_parts if library == "screen" else library_parts)
    return loss_answer(*(loss(side, models[0].steps(side, n, p, rho)[1], *tranche) for side in (0, 1)))


def losses_of(library, n, p, rho, tranches, count, lengths):
    """The refusal of a loss call, and the losses of the tranches within the count where it is 0."""
    if library == "beta":
        refusal = beta_loss_refusal(n, p, rho, tranches, count)
        if not refusal:
            hold_beta(n, p, rho)
    else:
        refusal = loss_refusal(n, p, rho, tranches, count, lengths, library == "screen")
    if library == "screen":
        hold_screen(refusal, n, p, rho)
        assert refusal in (11, loss_refusal(n, p, rho, tranches, count, lengths))
    return refusal, [] if refusal else [held_loss(library, n, p, rho, *tranche) for tranche in tranches[:count]]


def loss_words(library, pool, refusal, losses, lengths, before=NO_SLICES):
    words = ["refusal", refusal] if refusal else [word for answer in losses for word in answer]
    return words if library == "beta" else words + store_words([] if refusal else held(*pool), lengths, before)


def loss_line(name, library, pool, given, refusal, losses, lengths, other):
    """A call for losses, on marked slices or on slices that hold another pool's store. That of the beta-binomial is lent no
    store."""
    words = ["over", *other] if other else []
    words += [library] * (library != "") + [name, *pool, *given]
    words += ["lengths", *lengths] if library != "beta" and not other else []
    line(*words, *loss_words(library, pool, refusal, losses, lengths, store_of(other)))


def losses_line(name, library, pool, given, tranches, count, lengths, other):
    """A call for the losses of tranches. Gives what it answers."""
    lengths = lengths or ample(pool[0], other=other)
    refusal, losses = losses_of(library, *pool, tranches, count, lengths)
    loss_line(name, library, pool, given, refusal, losses, lengths, other)
    return refusal, losses


def tranche_loss(n, p, rho, recovery, lower, upper, lengths=None, library="", other=()):
    """The loss of one tranche. The records behind it would be refused."""
    tranches = [(recovery, lower, upper)] + [REFUSED] * (TRANCHES - 1)
    losses_line("loss", library, (n, p, rho), [recovery, "tranche", lower, upper], tranches, 1, lengths, other)


def tranche_words(tranches, count):
    """What a loss call of several tranches was given."""
    assert len(tranches) == TRANCHES
    within, past = ([number for tranche in part for number in tranche] for part in (tranches[:count], tranches[count:]))
    return ["count", count, "tranches", *within, *["unread"] * (past != []), *past]


def tranche_losses(library, pool, tranches, count, lengths=None, other=()):
    """The losses of several tranches. Gives what the call answers."""
    return losses_line("losses", library, pool, tranche_words(tranches, count), tranches, count, lengths, other)


def held_layer(n, p, rho, i, j):
    """The loss of a layer, held to the exact one."""
    hold_layer(n, p, rho, i, j)
    return loss_answer(*(layer(side, chances, i, j) for side, (_, chances) in enumerate(made(n, p, rho))))


def layer_of(pool, i, j, lengths):
    """The refusal of a layer call, and the loss where it is 0."""
    refusal = layer_refusal(*pool, i, j, lengths)
    return refusal, [] if refusal else [held_layer(*pool, i, j)]


def layer_loss(pool, i, j, lengths=None, other=()):
    """The loss of a layer. Gives what the call answers."""
    lengths = lengths or ample(pool[0], other=other)
    refusal, losses = layer_of(pool, i, j, lengths)
    loss_line("layer", "", pool, [i, j], refusal, losses, lengths, other)
    return refusal, losses


def verdict(n, p, rho, claims):
    """What a check of an accepted pool answers, held to the exact model."""
    row = first_to_fail(*(chance_units(side, n, p, rho) for side in (0, 1)), claims)
    hold_check(n, p, rho, claims, row)
    return ("passed",) if row is None else ("fails", row)


def checked(pool, claims, lengths):
    """What a check answers."""
    refusal = column_refusal(*pool, lengths, len(claims))
    return ("refusal", refusal) if refusal else verdict(*pool, claims)


def check_words(pool, claims, answer, lengths, before=NO_SLICES):
    filled = [] if answer[0] == "refusal" else held(*pool)
    return [*answer, "claims", len(claims), checksum(claims), *store_words(filled, lengths, before)]


def check(pool, claims, lengths, other=()):
    """A check of a claimed column. Gives what it answers."""
    answer = checked(pool, claims, lengths)
    given = ["over", *other, "check", *pool] if other else ["check", *pool, "lengths", *lengths]
    line(*given, *check_words(pool, claims, answer, lengths, store_of(other)))
    return answer


def basis_points(word):
    kind, rest = word % 16, word >> 8
    if kind < 7:
        return (0, 0, 1, 1, WHOLE, WHOLE, WHOLE + 1)[kind]
    if kind == 7:
        return WHOLE + 1 + rest % 4000000000
    return rest % 400 if kind < 12 else rest % 10001


def assets(word, beyond):
    kind, rest = word % 16, word >> 8
    if kind < 2:
        return (0, beyond)[kind]
    if kind < 6:
        return 60 + rest % 5
    return 1 + rest % (64 if kind < 8 else 20)


def random_pool(word, beyond=LARGEST_POOL + 1):
    n, second = assets(word, beyond), following(word)
    p, rho = (1, 0) if n > 55 and second % 2 == 0 else (basis_points(second), basis_points(following(second)))
    return n, p, rho


def small_pool(word):
    """Of 1 to 20 assets."""
    second = following(word)
    return 1 + (word >> 8) % 20, basis_points(second), basis_points(following(second))


def report_pool(word):
    """Of a shift list."""
    return random_pool(word, REPORT_POOL + 1)


def large_pool(word):
    """Of 65 to 100 assets, with probability and correlation brought into range."""
    second = following(word)
    return 65 + (word >> 8) % 36, basis_points(second) % (WHOLE + 1), basis_points(following(second)) % (WHOLE + 1)


def random_tranche(word):
    recovery = basis_points(word)
    largest = WHOLE - recovery
    if following(word) % 2 == 0 and largest > 0:
        return recovery, largest - 1, largest
    return recovery, basis_points(following(word, 2)), basis_points(following(word, 3))


def likely_tranche(word):
    """Fifteen in sixteen brought into range."""
    recovery, lower, upper = random_tranche(word)
    if word >> 60 == 0:
        return recovery, lower, upper
    upper = upper % WHOLE or WHOLE
    return recovery % (WHOLE + 1), lower % upper, upper


def random_layer(word, n):
    """Two numbers from 0 to n + 1; seven pairs in eight are put in order."""
    i, j = ((each >> 8) % 2**32 % (n + 2) for each in (word, following(word)))
    return (j, i) if i > j and word % 8 else (i, j)


def random_cases(count, random_pool=random_pool):
    """Pools with a tranche each."""
    word = SEED
    for _ in range(count):
        yield *random_pool(word), *random_tranche(following(word, 3))
        word = following(word, 7)


def random_losses(count, pools=(random_pool, small_pool)):
    """Pools, eight tranches and a count from 0 to 10."""
    word = SEED
    for _ in range(count):
        fourth = following(word, 3)
        tranches = [likely_tranche(following(fourth, 1 + 4 * i)) for i in range(TRANCHES)]
        yield *(pool(word) for pool in pools), tranches, (fourth >> 8) % 11
        word = following(word, 36)


def random_layers(count):
    """Pools with a layer each: of any size, then of 65 to 100 assets."""
    word = SEED
    for _ in range(count):
        for pool in (random_pool(word), large_pool(word)):
            yield pool, *random_layer(following(word, 3), pool[0])
        word = following(word, 7)

"""What the programs that print expected output share: lines, random words, checksums."""
SEED = 0x9E3779B97F4A7C15


def line(*words):
    print(" ".join(str(word) for word in words))


def following(word, count=1):
    """The random word of 64 bits so many words later."""
    for _ in range(count):
        word ^= (word << 13) % 2**64
        word ^= word >> 7
        word ^= (word << 17) % 2**64
    return word


def checksum(naturals, integers=()):
    """A word that depends on every number and on its place."""
    word = SEED
    for n in naturals:
        word = following(word ^ n)
    for n in integers:
        word = following(following(word ^ (n < 0)) ^ abs(n))
    return f"{word:016x}"

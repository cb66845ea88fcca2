"""Numbers, strings and large data in Avro's binary encoding.

The datum of `records` is an array of 250,000 records {a long, b int, c string}, that of `strings` an array of
1,000,000 strings, that of `keys` a map of nulls with 900,000 keys, as many as a block may hold. Items stand in blocks of 1,000, and
each fourth block has its size. The same seed gives the same bytes.
"""

ITEMS = {"records": 250_000, "strings": 1_000_000, "keys": 900_000}
BLOCK = 1_000
LETTERS = "abcdefghijklmnopqrstuvwxyz0123456789 _-."
WIDE = "éüß€漢字😀"


def number(value):
    """The bytes of an int or a long: zig-zag, and then groups of seven bits, the least first."""
    rest = 2 * value if value >= 0 else -2 * value - 1
    groups = bytearray()
    while rest >= 128:
        groups.append(128 + rest % 128)
        rest //= 128
    groups.append(rest)
    return bytes(groups)


def string(choose):
    """A string of up to 24 characters, each eighth one with some that take several bytes."""
    letters = choose.choices(LETTERS, k=choose.randrange(25))
    if choose.randrange(8) == 0:
        letters += choose.choices(WIDE, k=2)
    text = "".join(letters).encode()
    return number(len(text)) + text


def record(choose):
    """A record: longs of up to 48 bits on either side of 0, and small ints."""
    long = choose.getrandbits(choose.randrange(1, 49)) * choose.choice((1, 1, 1, -1))
    return number(long) + number(choose.randrange(-1_000, 1_000)) + string(choose)


def key(choose):
    """A key of 16 digits, with null behind it."""
    return number(16) + b"%016x" % choose.getrandbits(64)


def array(choose, item, count):
    """An array, or a map, in blocks."""
    parts = []
    for block in range(count // BLOCK):
        items = b"".join(item(choose) for _ in range(BLOCK))
        if block % 4 == 3:
            parts += (number(-BLOCK), number(len(items)), items)
        else:
            parts += (number(BLOCK), items)
    parts.append(number(0))
    return b"".join(parts)


def datum_of(choose, kind):
    """The datum of a kind."""
    return array(choose, {"records": record, "strings": string, "keys": key}[kind], ITEMS[kind])

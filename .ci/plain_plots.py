"""Proofs of space and this project's plot files in plain Python, sharing nothing with the program: for small_plot.py and
turned_bits.py. Values, ids and challenges are read as the documents of this repository describe them."""
import hashlib
import struct
from typing import NamedTuple

B, C = 119, 127
MASK = 0xFFFFFFFF
IV = [0x6A09E667, 0xBB67AE85, 0x3C6EF372, 0xA54FF53A, 0x510E527F, 0x9B05688C, 0x1F83D9AB, 0x5BE0CD19]
ORDER = [2, 6, 3, 10, 7, 0, 4, 13, 1, 11, 12, 5, 9, 14, 15, 8]
COLUMNS = [(0, 4, 8, 12), (1, 5, 9, 13), (2, 6, 10, 14), (3, 7, 11, 15)]
DIAGONALS = [(0, 5, 10, 15), (1, 6, 11, 12), (2, 7, 8, 13), (3, 4, 9, 14)]
# How long the metadata of tables 2 to 7 is, in values.
UNITS = [2, 4, 4, 3, 2, 0]


def turned(word, by):
    return (word << by | word >> (32 - by)) & MASK


def chacha8(key, block):
    start = [0x61707865, 0x3320646E, 0x79622D32, 0x6B206574, *struct.unpack("<8I", key), block, 0, 0, 0]
    v = list(start)
    for _ in range(4):
        for a, b, c, d in COLUMNS + DIAGONALS:
            v[a] = (v[a] + v[b]) & MASK
            v[d] = turned(v[d] ^ v[a], 16)
            v[c] = (v[c] + v[d]) & MASK
            v[b] = turned(v[b] ^ v[c], 12)
            v[a] = (v[a] + v[b]) & MASK
            v[d] = turned(v[d] ^ v[a], 8)
            v[c] = (v[c] + v[d]) & MASK
            v[b] = turned(v[b] ^ v[c], 7)
    return struct.pack("<16I", *[(x + y) & MASK for x, y in zip(v, start)])


def blake3(data):
    m = list(struct.unpack("<16I", data.ljust(64, b"\0")))
    v = IV + IV[:4] + [0, 0, len(data), 11]
    for _ in range(7):
        for i, (a, b, c, d) in enumerate(COLUMNS + DIAGONALS):
            v[a] = (v[a] + v[b] + m[2 * i]) & MASK
            v[d] = turned(v[d] ^ v[a], 16)
            v[c] = (v[c] + v[d]) & MASK
            v[b] = turned(v[b] ^ v[c], 20)
            v[a] = (v[a] + v[b] + m[2 * i + 1]) & MASK
            v[d] = turned(v[d] ^ v[a], 24)
            v[c] = (v[c] + v[d]) & MASK
            v[b] = turned(v[b] ^ v[c], 25)
        m = [m[i] for i in ORDER]
    return struct.pack("<8I", *[v[i] ^ v[i + 8] for i in range(8)])


def bits(value, width):
    return format(value, f"0{width}b") if width else ""


def bits_of(data):
    return bits(int.from_bytes(data, "big"), 8 * len(data))


def to_bytes(text):
    text += "0" * (-len(text) % 8)
    return int(text, 2).to_bytes(len(text) // 8, "big") if text else b""


class Space:
    """The proofs of an id and a size."""

    def __init__(self, plot_id, k):
        self.key, self.k, self.blocks = bytes([1]) + plot_id[:31], k, {}

    def block(self, i):
        if i not in self.blocks:
            self.blocks[i] = bits_of(chacha8(self.key, i))
        return self.blocks[i]

    def first(self, x):
        """The y and the metadata of a value."""
        i, at = divmod(x * self.k, 512)
        stream = self.block(i) + (self.block(i + 1) if at + self.k > 512 else "")
        return int(stream[at : at + self.k] + bits(x >> (self.k - 6), 6), 2), bits(x, self.k)

    def join(self, table, one, two):
        """Those of two entries, one behind the other, in this table."""
        width = self.k + 6
        out = bits_of(blake3(to_bytes(bits(one[0], width) + one[1] + two[1])))
        units = UNITS[table - 2]
        return int(out[:width], 2), one[1] + two[1] if table <= 3 else out[width : width + units * self.k]

    def in_proof_order(self, values):
        """The y, the metadata and the values in the order in which all pairs match, or None."""
        if len(values) == 1:
            return (*self.first(values[0]), values)
        half = len(values) // 2
        one, two = self.in_proof_order(values[:half]), self.in_proof_order(values[half:])
        if one is None or two is None:
            return None
        if not match(one[0], two[0]):
            one, two = two, one
            if not match(one[0], two[0]):
                return None
        return (*self.join(len(values).bit_length(), one, two), one[2] + two[2])

    def proof_bytes(self, values):
        return to_bytes("".join(bits(x, self.k) for x in values))

    def pair_quality(self, challenge, lesser, greater):
        return hashlib.sha256(challenge + to_bytes(bits(lesser, self.k) + bits(greater, self.k))).hexdigest()


def targets(yl):
    bucket, place = divmod(yl, B * C)
    for m in range(64):
        high = (place // C + m) % B
        low = ((2 * m + bucket % 2) ** 2 + place) % C
        yield (bucket + 1) * B * C + high * C + low


def match(yl, yr):
    return yr in targets(yl)


def plot_order(values):
    if len(values) == 1:
        return values
    half = len(values) // 2
    one, two = plot_order(values[:half]), plot_order(values[half:])
    return one + two if one[::-1] < two[::-1] else two + one


def park_of(k, numbers):
    text = bits(numbers[0], 2 * k + 2)
    steps = [b - a - 1 for a, b in zip(numbers, numbers[1:])]
    r = ((numbers[-1] - numbers[0]) // len(steps)).bit_length() - 1 if steps else 0
    text += bits(r, 7)
    for step in steps:
        text += "1" * (step >> r) + "0" + bits(step & ((1 << r) - 1), r)
    return to_bytes(text)


def numbers_of(k, count, data):
    """The numbers of a park, or None."""
    text = bits_of(data)
    at = 2 * k + 9
    if len(text) < at:
        return None
    numbers, r = [int(text[: 2 * k + 2], 2)], int(text[2 * k + 2 : at], 2)
    for _ in range(count - 1):
        zero = text.find("0", at)
        if zero < 0 or zero + 1 + r > len(text):
            return None
        rest = int(text[zero + 1 : zero + 1 + r], 2) if r else 0
        numbers.append(numbers[-1] + ((zero - at) << r) + rest + 1)
        at = zero + 1 + r
    return numbers if numbers[-1] < 1 << (2 * k + 2) and park_of(k, numbers) == data else None


def pair_of(point):
    """The greater and the lesser number of a line point."""
    low, high = 0, 1 << 64
    while high - low > 1:
        middle = (low + high) // 2
        low, high = (middle, high) if middle * (middle - 1) // 2 <= point else (low, middle)
    return low, point - low * (low - 1) // 2


class Layout(NamedTuple):
    """What a layout fixes: the name, the numbers of a full park, the bytes of a digest, and the greatest memo."""

    name: bytes
    full: int
    digest: int
    memo: int

    @property
    def entry(self):
        return 24 + self.digest

    def longest(self, k):
        return (9 if k <= 32 else 14) * self.full


ONE = Layout(b"SPACEPLOT-OWN-1", 2048, 8, 0)
TWO = Layout(b"SPACEPLOT-OWN-2", 4096, 16, 256)


class Damage(Exception):
    """The words behind `damage`."""


class Reader:
    """A plot file of any bytes."""

    def __init__(self, data):
        self.data, self.read = data, {}
        self.open()

    def open(self):
        b = self.data
        if len(b) < 176 or b[0] != 1:
            raise Damage(f"not-open {len(b)} {b[0] if b else 0}")
        self.layout = TWO if b[1:16] == TWO.name else ONE
        k, memo = b[48], int.from_bytes(b[49:51], "big")
        columns = [struct.unpack(">QQ", b[56 + 16 * t : 72 + 16 * t]) for t in range(7)]
        said = int.from_bytes(b[168:176], "big")
        for field, holds in [
            ("name", b[1:16] == self.layout.name),
            ("size", 10 <= k <= 50),
            ("zeros", not any(b[49:56] if self.layout is ONE else b[51:56])),
            ("memo", memo <= self.layout.memo),
            ("counts", all(count <= 1 << (k + 1) for count, _ in columns)),
        ]:
            if not holds:
                raise Damage(f"header {field}")
        if said != len(b):
            raise Damage(f"length {said} {len(b)}")
        self.k, self.columns, self.ends = k, columns, [176 + memo]
        for t, (count, directory) in enumerate(columns, 1):
            end = directory + self.layout.entry * self.parks(t)
            if directory < self.ends[-1] or end > len(b) or (count == 0 and directory != self.ends[-1]):
                raise Damage(f"directory {t} 0")
            self.ends.append(end)
        if self.ends[7] != len(b):
            raise Damage("directory 7 0")
        self.space = Space(b[16:48], k)

    def parks(self, t):
        return -(-self.columns[t - 1][0] // self.layout.full)

    def entry(self, t, park):
        count, directory = self.columns[t - 1]
        at, full = directory + self.layout.entry * park, self.layout.full
        form = f">QII{self.layout.digest}sQ"
        offset, length, many, digest, head = struct.unpack(form, self.data[at : at + self.layout.entry])
        inside = self.ends[t - 1] <= offset and offset + length <= directory
        if not (1 <= length <= self.layout.longest(self.k) and inside and many == min(full, count - full * park)):
            raise Damage(f"directory {t} {park}")
        if t < 7 and head != 0:
            raise Damage(f"directory {t} {park}")
        return self.data[offset : offset + length], many, digest, head

    def park(self, t, park):
        data, many, digest, head = self.entry(t, park)
        if hashlib.sha256(data).digest()[: self.layout.digest] != digest:
            raise Damage(f"digest {t} {park}")
        numbers = numbers_of(self.k, many, data)
        if numbers is None:
            raise Damage(f"form {t} {park}")
        if t == 7 and head != numbers[0] >> (self.k + 1):
            raise Damage(f"directory 7 {park}")
        return numbers

    def number(self, t, i):
        at = t, i // self.layout.full
        if at not in self.read:
            self.read[at] = self.park(*at)
        number = self.read[at][i % self.layout.full]
        below = 1 << self.k if t == 1 else self.columns[t - 2][0]
        if t == 7:
            inside = number >> (self.k + 1) < 1 << self.k and number % (1 << (self.k + 1)) < below
        else:
            inside = pair_of(number)[0] < below
        if not inside:
            raise Damage(f"pointer {t} {i}")
        return number

    def bound(self, f, low):
        """Behind how many parks, and at which place, the numbers from this f7 on begin."""
        high = self.parks(7)
        while low < high:
            middle = (low + high) // 2
            low, high = (middle + 1, high) if self.entry(7, middle)[3] < f else (low, middle)
        if low == 0:
            return 0, 0
        return low, self.layout.full * (low - 1) + sum(n < f << (self.k + 1) for n in self.park(7, low - 1))

    def places(self, challenge):
        f = int(bits_of(challenge)[: self.k], 2)
        parks, first = self.bound(f, 0)
        return range(first, max(first, self.bound(f + 1, parks)[1]))

    def walk(self, t, i):
        if t == 0:
            return [i]
        greater, lesser = pair_of(self.number(t, i))
        return self.walk(t - 1, lesser) + self.walk(t - 1, greater)

    def proof(self, challenge, place):
        found = self.space.in_proof_order(self.walk(6, self.number(7, place) % (1 << (self.k + 1))))
        if found is None or found[0] >> 6 != int(bits_of(challenge)[: self.k], 2):
            raise Damage(f"not-a-proof {place}")
        return self.space.proof_bytes(found[2]).hex()

    def quality(self, challenge, place):
        i = self.number(7, place) % (1 << (self.k + 1))
        for t in range(6, 1, -1):
            i = pair_of(self.number(t, i))[0 if challenge[31] >> (t - 2) & 1 else 1]
        greater, lesser = pair_of(self.number(1, i))
        return self.space.pair_quality(challenge, lesser, greater)


def answer(data, command, challenge):
    """The status and the text of `prove` or `quality` over a file of these bytes."""
    try:
        reader = Reader(data)
        one, noun = (reader.proof, "proofs") if command == "prove" else (reader.quality, "qualities")
        lines = [one(challenge, place) for place in reader.places(challenge)]
        return 0, "".join(line + "\n" for line in lines) + f"{len(lines)} {noun}\n"
    except Damage as damage:
        return 4, f"damage {damage}\n"

#!/usr/bin/env python3
"""Writes the plot files of the id of zeros at size 12, by plain loops that share nothing with the program, and beside them
what `prove`, `quality` and `verify` have to write for some challenges, and `check` for its own.

    small_plot.py FOLDER

FOLDER/plot12 is the file of layout 2 without a memo, FOLDER/old12 that of layout 1, and FOLDER/memo12 that of layout 2 with the
memo of the bytes ab and cd. FOLDER/rows has a line for each challenge: the challenge, and the names of two files, of the text
of `prove` and of that of `quality`. FOLDER/proofs has a line for each proof of the rows: challenge, proof, quality.
FOLDER/check.N is the text of `check` with N challenges.
"""
import hashlib
import struct
import sys

from plain_plots import ONE, TWO, Space, park_of, plot_order, targets, to_bytes, bits

K = 12
ID = bytes(32)
SPACE = Space(ID, K)


def found_tuples():
    """The f7 and the values of each tuple with an entry in table 7: table by table, each pair whose y match."""
    table = [(*SPACE.first(x), [x]) for x in range(2**K)]
    for t in range(2, 8):
        by_y = {}
        for entry in table:
            by_y.setdefault(entry[0], []).append(entry)
        pairs = [(one, two) for one in table for y in targets(one[0]) for two in by_y.get(y, [])]
        table = [(*SPACE.join(t, one, two), one[2] + two[2]) for one, two in pairs]
    return [(y >> 6, values) for y, _, values in table]


def lists_of(found):
    """The seven lists of the plot of these tuples."""
    ordered = [(f7, plot_order(values)) for f7, values in found]
    tables, places = [], {(x,): x for x in range(2**K)}
    for n in range(1, 7):
        size = 2**n
        parts = {tuple(values[i : i + size]) for _, values in ordered for i in range(0, 64, size)}
        parts = sorted(parts, key=lambda values: values[::-1])
        pairs = [sorted((places[part[: size // 2]], places[part[size // 2 :]])) for part in parts]
        tables.append([a * (a - 1) // 2 + b for b, a in pairs])
        places = {part: i for i, part in enumerate(parts)}
    tables.append(sorted(f7 << (K + 1) | places[tuple(values)] for f7, values in ordered))
    assert all(numbers == sorted(numbers) for numbers in tables)
    return tables


def file_of(layout, memo, tables):
    columns, body, start = b"", b"", 176 + len(memo)
    for t, numbers in enumerate(tables, 1):
        entries = b""
        for first in range(0, len(numbers), layout.full):
            some = numbers[first : first + layout.full]
            park = park_of(K, some)
            digest = hashlib.sha256(park).digest()[: layout.digest]
            head = some[0] >> (K + 1) if t == 7 else 0
            entries += struct.pack(f">QII{layout.digest}sQ", start + len(body), len(park), len(some), digest, head)
            body += park
        columns += struct.pack(">QQ", len(numbers), start + len(body))
        body += entries
    head = b"\1" + layout.name + ID + bytes([K]) + struct.pack(">H", len(memo)) + bytes(5) + columns
    return head + struct.pack(">Q", start + len(body)) + memo + body


def quality(challenge, values):
    pair = 2 * (challenge[31] % 32)
    return SPACE.pair_quality(challenge, *plot_order(values)[pair : pair + 2])


def summary(by_f7, n):
    """The text of `check` with n challenges."""
    rated = []
    for i in range(n):
        challenge = hashlib.sha256(struct.pack(">I", i) + ID).digest()
        f7 = int.from_bytes(challenge[:4], "big") >> (32 - K)
        rated += [quality(challenge, values) for values in by_f7[f7]]
    digest = hashlib.sha256(bytes.fromhex("".join(rated))).hexdigest()
    return f"checked {n} proofs {len(rated)} digest {digest}\n"


def main(folder):
    found = found_tuples()
    tables = lists_of(found)
    for name, layout, memo in [("plot12", TWO, b""), ("old12", ONE, b""), ("memo12", TWO, b"\xab\xcd")]:
        with open(f"{folder}/{name}", "wb") as out:
            out.write(file_of(layout, memo, tables))
    # For each number of proofs that an f7 has, and for none, a challenge with each of some last bytes.
    by_f7 = {f7: [] for f7 in range(2**K)}
    for f7, values in sorted(found, key=lambda one: plot_order(one[1])[::-1]):
        by_f7[f7].append(values)
    chosen = {}
    for f7, tuples in by_f7.items():
        chosen.setdefault(len(tuples), f7)
    rows, proofs = [], []
    for count, f7 in sorted(chosen.items()):
        for last in [0x00, 0x1F, 0x20, 0xFF, 0x0A]:
            challenge = to_bytes(bits(f7, K)).ljust(31, b"\0") + bytes([last])
            name = f"{count}.{last:02x}"
            lines = [SPACE.proof_bytes(values).hex() for values in by_f7[f7]]
            qualities = [quality(challenge, values) for values in by_f7[f7]]
            for kind, texts, noun in [("prove", lines, "proofs"), ("quality", qualities, "qualities")]:
                with open(f"{folder}/{kind}.{name}", "w") as out:
                    out.write("".join(text + "\n" for text in texts) + f"{count} {noun}\n")
            first = sum(len(by_f7[lower]) for lower in range(f7))
            with open(f"{folder}/place.{name}", "w") as out:
                out.write("".join(f"{first + i}\n" for i in range(count)) + f"{count} places\n")
            rows.append(f"{challenge.hex()} prove.{name} quality.{name}\n")
            proofs += [f"{challenge.hex()} {proof} {rated}\n" for proof, rated in zip(lines, qualities)]
    for n in [0, 1, 100, 300]:
        with open(f"{folder}/check.{n}", "w") as out:
            out.write(summary(by_f7, n))
    with open(f"{folder}/rows", "w") as out:
        out.writelines(rows)
    with open(f"{folder}/proofs", "w") as out:
        out.writelines(proofs)


main(sys.argv[1])

#!/usr/bin/env python3
"""Runs `prove` and `quality` over changed copies of a plot file and compares each answer with that of plain loops.

    turned_bits.py PROGRAM PLOT CHALLENGE FOLDER

A bit is turned in every place of a row over the whole file; then in the parks, with the digest made right again; then the
file is cut off. FOLDER holds the copy. The last line says how many answers were compared; a wrong one ends with 1.
"""
import hashlib
import subprocess
import sys

from plain_plots import Reader, answer

STEP = 71


def changed(data):
    """The changed copies, each with what was changed."""
    for at in [*range(0, 176, 11), *range(176, len(data), STEP)]:
        copy = bytearray(data)
        copy[at] ^= 1 << at % 8
        yield f"bit {at % 8} of byte {at}", bytes(copy)
    reader = Reader(data)
    for t in range(1, 8):
        for park in range(reader.parks(t)):
            entry = reader.columns[t - 1][1] + reader.layout.entry * park
            offset = int.from_bytes(data[entry : entry + 8], "big")
            length = int.from_bytes(data[entry + 8 : entry + 12], "big")
            for part in [0, length // 2, length - 1]:
                copy = bytearray(data)
                copy[offset + part] ^= 4
                digest = hashlib.sha256(copy[offset : offset + length]).digest()[: reader.layout.digest]
                copy[entry + 16 : entry + 16 + reader.layout.digest] = digest
                yield f"byte {part} of park {park} of table {t}, with its digest", bytes(copy)
    for length in [0, 1, 175, 176, len(data) - 1]:
        yield f"cut after {length} bytes", data[:length]


def main(program, plot, challenge, folder):
    with open(plot, "rb") as file:
        data = file.read()
    compared = 0
    for change, copy in changed(data):
        with open(f"{folder}/changed", "wb") as file:
            file.write(copy)
        for command in ["prove", "quality"]:
            words = [program, command, f"{folder}/changed", challenge]
            run = subprocess.run(words, capture_output=True, text=True, timeout=20, check=False)
            wanted = answer(copy, command, bytes.fromhex(challenge))
            if (run.returncode, run.stdout) != wanted:
                print(f"{change}: {command} answers {run.returncode} {run.stdout!r} in place of {wanted}")
                sys.exit(1)
            compared += 1
    print(f"{compared} answers compared")


main(*sys.argv[1:])

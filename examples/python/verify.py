"""Judges proofs in one call: python3 verify.py LIBRARY, with a line for each on the standard input, ID SIZE CHALLENGE PROOF,
the size in decimal digits and all else in hexadecimal ones. On each line it says what the program's command `verify` says, and
"wrong arguments" where the words are none of that command."""
import ctypes
import sys

Hash = ctypes.c_uint8 * 32


class Request(ctypes.Structure):
    _fields_ = [("id", Hash), ("challenge", Hash), ("start", ctypes.c_uint64), ("length", ctypes.c_uint64), ("size", ctypes.c_uint32)]


class Answer(ctypes.Structure):
    _fields_ = [("want", ctypes.c_uint64), ("found", ctypes.c_uint64), ("verdict", ctypes.c_uint32), ("level", ctypes.c_uint32),
                ("pair", ctypes.c_uint32), ("quality", Hash)]

    def text(self):
        return [f"accepted {bytes(self.quality).hex()}", f"refused length {self.want} {self.found}",
                f"refused match {self.level} {self.pair}", f"refused challenge {self.want} {self.found}",
                "wrong arguments"][self.verdict]


def bytes_of(word):
    """The bytes that an even number of hexadecimal digits write, or None."""
    try:
        return bytes.fromhex(word)
    except ValueError:
        return None


def size_of(word):
    """A size in decimal digits without a leading zero, or 0, which no plot has."""
    return int(word) if word.isascii() and word.isdigit() and word[0] != "0" and int(word) < 2**32 else 0


library = ctypes.CDLL(sys.argv[1])
assert library.pos_version() == 1
requests, proofs = [], bytearray()
for line in sys.stdin:
    words = line.split() + [""]
    id, challenge, proof = (bytes_of(words[i]) for i in (0, 2, 3))
    # What does not stand in a request as it is would be judged as something else: a request of zeros has wrong arguments.
    if None in (id, challenge, proof) or not len(id) == len(challenge) == 32:
        requests.append(Request())
        continue
    requests.append(Request(Hash(*id), Hash(*challenge), len(proofs), len(proof), size_of(words[1])))
    proofs += proof
count = len(requests)
answers = (Answer * count)()
given = ((Request * count)(*requests), ctypes.c_size_t(count), bytes(proofs), ctypes.c_size_t(len(proofs)))
assert library.pos_verify_proofs(*given, answers, ctypes.c_size_t(count)) == 0
for answer in answers:
    print(answer.text())

"""A journal's bytes, written and read apart from the programs: records with chained sums, groups behind marks, heads and entries.

This is a second reading of docs/FILES.md's layout, by which the tests say what a changed journal may be read as.
"""

MASK = (1 << 64) - 1
HEAD, MOST_TEXT = 12, 2_097_152
WORD = b"\xffsynced:"
VERBS = {"GET": 1, "PUT": 2, "POST": 3, "DELETE": 4}


def rounded(v0, v1, v2, v3):
    """One round of SipHash."""
    v0 = (v0 + v1) & MASK
    v2 = (v2 + v3) & MASK
    v1 = ((v1 << 13 | v1 >> 51) & MASK) ^ v0
    v3 = ((v3 << 16 | v3 >> 48) & MASK) ^ v2
    v0 = (v0 << 32 | v0 >> 32) & MASK
    v2 = (v2 + v1) & MASK
    v0 = (v0 + v3) & MASK
    v1 = ((v1 << 17 | v1 >> 47) & MASK) ^ v2
    v3 = ((v3 << 21 | v3 >> 43) & MASK) ^ v0
    return v0, v1, (v2 << 32 | v2 >> 32) & MASK, v3


def siphash(data):
    """SipHash-1-3 with both keys 0."""
    v = (0x736F6D6570736575, 0x646F72616E646F6D, 0x6C7967656E657261, 0x7465646279746573)
    words = [int.from_bytes(data[it : it + 8], "little") for it in range(0, len(data) - 7, 8)]
    last = (len(data) & 255) << 56 | int.from_bytes(data[len(data) - len(data) % 8 :], "little")
    for word in [*words, last]:
        v0, v1, v2, v3 = rounded(v[0], v[1], v[2], v[3] ^ word)
        v = (v0 ^ word, v1, v2, v3)
    v = (v[0], v[1], v[2] ^ 255, v[3])
    for _ in range(3):
        v = rounded(*v)
    return v[0] ^ v[1] ^ v[2] ^ v[3]


def sum_over(before, text):
    return siphash(before.to_bytes(8, "big") + text)


def record(before, text):
    """A record, and the sum behind it."""
    sum_ = sum_over(before, text)
    return len(text).to_bytes(4, "big") + sum_.to_bytes(8, "big") + text, sum_


def mark(position, synced):
    """The text of a mark that stands at this position of the file."""
    front = WORD + position.to_bytes(8, "big") + synced.to_bytes(8, "big")
    return front + sum_over(0, front).to_bytes(8, "big")


def group(before, position, synced, texts):
    """The bytes of a group of texts that is written at this position, and the sum behind it."""
    found = b""
    for text in (mark(position + HEAD, synced), *texts):
        bytes_, before = record(before, text)
        found += bytes_
    return found, before


def written(texts):
    """A journal that has each text in a group of its own, each synced before the next."""
    found, sum_ = b"", 0
    for text in texts:
        bytes_, sum_ = group(sum_, len(found), len(found), [text])
        found += bytes_
    return found


class Found:
    """What is read of a journal: its texts without the marks, how many bytes its whole records take, the sum there, and how it ends."""

    def __init__(self, texts, whole, sum_, ending):
        self.texts, self.whole, self.sum, self.ending = texts, whole, sum_, ending


def read(data):
    texts, at, sum_ = [], 0, 0
    while len(data) - at >= HEAD:
        size, claimed = int.from_bytes(data[at : at + 4], "big"), int.from_bytes(data[at + 4 : at + HEAD], "big")
        text = data[at + HEAD : at + HEAD + size]
        if not 0 < size <= MOST_TEXT or len(text) < size or (now := sum_over(sum_, text)) != claimed:
            break
        texts, at, sum_ = [*texts, text], at + HEAD + size, now
    return Found([it for it in texts if it[0] != WORD[0]], at, sum_, ending(data, at))


# The endings with which a journal isn't opened.
REFUSED = ("foreign", "moved", "damaged")


def marks(data, start):
    """The marks from a place on, wherever they were written: where each stands, for which place it was written, and what it says."""
    at = start
    while (at := data.find(WORD, at)) >= 0:
        said = data[at : at + 32]
        own, synced = int.from_bytes(said[8:16], "big"), int.from_bytes(said[16:24], "big")
        if said == mark(own, synced):
            yield at, own, synced
        at += 1


def is_torn(behind):
    """Whether bytes are the beginning of one record, of which the end is missing."""
    size = int.from_bytes(behind[:4], "big")
    return behind[:1] == b"\0" if len(behind) < 4 else 0 < size <= MOST_TEXT and len(behind) < HEAD + size


def ending(data, whole):
    """How a file ends behind its whole records."""
    begun = group(0, 0, 0, [])[0]
    if whole == len(data):
        return "whole"
    if whole == 0:
        return "torn" if begun.startswith(data) else "foreign"
    found = list(marks(data, whole))
    if any(synced > whole for _, _, synced in found):
        return "damaged"
    if any(own != at for at, own, _ in found):
        return "moved"
    if not found and is_torn(data[whole:]):
        return "torn"
    return "unexplained" if whole > len(begun) else "foreign"


def head(shares, version=1):
    """The head of operators and their limits."""
    return b"ruffletuff" + bytes([version]) + b"".join(name.encode() + limit.to_bytes(4, "big") for name, limit in shares)


def entry(at, method, operator, target, body, version=1):
    """An entry; the author's has no operator."""
    who = b"\0" if operator is None else b"\1" + operator.encode()
    return bytes([version]) + at.to_bytes(8, "big") + bytes([VERBS[method]]) + who + len(target).to_bytes(4, "big") + target + body

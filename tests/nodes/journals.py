"""The journal of a node, read and written anew from docs/FORMATS.md (The journal of a node)."""

import hashlib

FACTOR = 11_400_714_819_323_198_485


def sum_of(number, text):
    """The sum of a batch of this number: of the number, the length, and each eight bytes as a number."""
    total = 0
    for word in number, len(text), *(int.from_bytes(text[at : at + 8], "little") for at in range(0, len(text) + 1, 8)):
        product = (total ^ word) * FACTOR % 2**64
        total = product ^ product >> 32
    return total


def sealed(number, text):
    """The batch of this number. One that has a content in bytes is sealed by its sum."""
    digest = b"%016x" % sum_of(number, text)
    if b"=" not in text:
        digest = hashlib.sha256(b"%d %d\n" % (number, len(text)) + text).hexdigest()[:16].encode()
    return text + b"sync %d %d %s\n" % (number, len(text), digest)


def batches(text):
    """The right batches from the front on, each without its seal, and the place where each ends."""
    found, ends, begun = [], [], b""
    for line in [line + b"\n" for line in text.split(b"\n")[:-1]]:
        if line[:5] != b"sync " or not line[5:6].isdigit():
            begun += line
            continue
        start = ends[-1] if ends else 0
        if text[start : start + len(begun) + len(line)] != sealed(len(found) + 1, begun):
            break
        found.append(begun)
        ends.append(start + len(begun) + len(line))
        begun = b""
    return found, ends

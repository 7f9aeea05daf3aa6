"""Contents in digits, and as nodes write them to each other and into journals: in bytes."""

import re

COPY = re.compile(rb"((?:store|copy|fetched \d+ \d+|(?:kept|had) [a-z]+ \d+ \d+) \d+ \d+) ((?:[0-9a-f]{2})+)$", re.MULTILINE)
# (the backslash first)
ESCAPES = [(b"\\", b"\\b"), (b"\n", b"\\n"), (b" ", b"\\s")]
LETTERS = {escape[1:]: byte for byte, escape in ESCAPES}


def word_of(content):
    """The word of a content, which is given in digits."""
    content = bytes.fromhex(content.decode())
    for byte, escape in ESCAPES:
        content = content.replace(byte, escape)
    return b"=" + content


def in_bytes(text):
    """Letters and facts, with each copy in bytes."""
    return COPY.sub(lambda found: found[1] + b" " + word_of(found[2]), text)


def in_digits(word):
    """The digits of a content, of which the word is written in either form."""
    if not word.startswith(b"="):
        return word
    parts = re.split(rb"\\(.)", word[1:], flags=re.DOTALL)
    return b"".join(part.hex().encode() if at % 2 == 0 else LETTERS[part].hex().encode() for at, part in enumerate(parts)) or b"-"

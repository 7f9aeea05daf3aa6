"""The text of a node's journal, batch by batch (docs/FORMATS.md, The journal of a node).

It is read as far as batches are whole: so one that is being written can be read, or a copy of it. Only the numbers
and lengths of batches are looked at, not their digests.
"""

import re
from collections.abc import Iterator
from typing import BinaryIO

from .errors import BadFile, Damaged

SEAL = re.compile(rb"sync ([1-9][0-9]*) ([0-9]+) [0-9a-f]{16}\n")
NODE = re.compile(rb"node ([0-9]+) of ([0-9]+) by ([0-9]+)\n")
FORM = re.compile(rb"journal ([0-9]+)[ \n]")  # how one of a later form begins
Lines = list[tuple[int, bytes]]


def batches(file: BinaryIO, path: str) -> Iterator[Lines]:
    """The lines of each whole batch, each with its offset. Damaged where a wrong one is followed by anything, BadFile
    for a journal of a later form.
    """
    for lines, _ in sealed(file, path):
        yield lines


def sealed(file: BinaryIO, path: str) -> Iterator[tuple[Lines, int]]:
    """The same, each with the byte behind its seal."""
    lines, start, offset, count = Lines(), 0, 0, 1
    for line in file:
        if not line.endswith(b"\n"):
            return  # (it is being written, or was when the node ended)
        if offset == 0 and (form := FORM.match(line)):
            raise BadFile(f"{path}: form {int(form[1])}, of a later program: this one reads form 1")
        seal = SEAL.fullmatch(line)
        if seal is None:
            lines.append((offset, line))
        elif (int(seal[1]), int(seal[2])) == (count, offset - start):
            yield lines, offset + len(line)
            lines, start, count = [], offset + len(line), count + 1
        elif file.read(1):
            raise Damaged(f"{path}: damaged at byte {start}")
        offset += len(line)

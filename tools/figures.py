#!/usr/bin/env python3
"""Looks whether the figures of pages stand in the runs that they name: tools/figures.py --check, or tools/figures.py RUN

A figure of docs/SPEED.md has the name of its run in brackets, as [keeps]: in its row, its item or paragraph, or in the
paragraph before its table. The run is the newest file of bench/results/ with that name, DATE-NAME.md, which `bench/recorded.py`
writes. Each number of the page has to stand in it, or be one of its numbers rounded. README's paragraph on speed has figures of
docs/SPEED.md alone. With the name of a run, its newest file is printed.

The status is 1 where a run or a number is not there.
"""

import glob
import os
import re
import sys
from decimal import Decimal

TOP = os.path.dirname(os.path.dirname(os.path.abspath(__file__)))
_RUN = re.compile(r"\[([a-z][a-z0-9-]*)\](?!\()")
_NUMBER = re.compile(r"(?<![\w.,-])\d+(?:,\d{3})*(?:\.\d+)?(?![\w-])")
_WHOLE = re.compile(r"\d{1,2}|100")  # (counts of clients, nodes and the like are words, and are not looked for)


def newest(run: str) -> str | None:
    """The path of the newest file of this run."""
    dated = [path for path in glob.glob(f"{TOP}/bench/results/*.md") if re.fullmatch(r"\d{4}-\d\d-\d\d-" + run + r"\.md", os.path.basename(path))]
    return max(dated, default=None)


def numbers(text: str) -> list[str]:
    return _NUMBER.findall(re.sub(r"`[^`]*`", "", text))


def _blocks(text: str) -> list[list[tuple[int, str]]]:
    """Rows, items and paragraphs of a page, a list of numbered lines each. Titles, and tables of commands, are left out."""
    found: list[list[tuple[int, str]]] = []
    goes_on = False
    for number, line in enumerate(text.split("\n"), 1):
        if line.startswith("## Measure"):
            break
        if not line.strip() or line.startswith(("#", "|--", "|---")):
            goes_on = False
        elif line.startswith(("|", "- ")):
            found.append([(number, line)])
            goes_on = line.startswith("- ")
        elif goes_on:
            found[-1].append((number, line))
        else:
            found.append([(number, line)])
            goes_on = True
    return found


def _faults_of_speed(page: str) -> list[str]:
    with open(f"{TOP}/{page}", encoding="utf-8") as file:
        text = file.read()
    faults, named = [], list[str]()
    for block in _blocks(text):
        line, words = block[0][0], " ".join(part for _, part in block)
        own = _RUN.findall(words)
        if own:
            named = own
        elif not words.startswith("|"):
            named = []
        runs = {run: newest(run) for run in (own or named)}
        faults += [f"{page}:{line}: no run {run} in bench/results" for run, path in runs.items() if path is None]
        told = set[str]()
        for path in filter(None, runs.values()):
            with open(path, encoding="utf-8") as file:
                told |= set(numbers(file.read()))
        for number in numbers(_RUN.sub("", words)):
            if not _WHOLE.fullmatch(number) and not any(_rounds_to(exact, number) for exact in told):
                faults.append(f"{page}:{line}: {number} stands in no run that is named here ({', '.join(runs) or 'none is'})")
    return faults


def _rounds_to(exact: str, short: str) -> bool:
    number, rounded = Decimal(exact.replace(",", "")), Decimal(short.replace(",", ""))
    if "." in short:
        return number.quantize(rounded) == rounded
    digits = len(short.replace(",", "").rstrip("0")) or 1
    return number == rounded or number != 0 and Decimal(f"{number:.{digits}g}") == rounded


def _faults_of_readme() -> list[str]:
    with open(f"{TOP}/README.md", encoding="utf-8") as file:
        lines = file.read().split("\n")
    begins = next(at for at, line in enumerate(lines) if line.startswith("*Speed*"))
    ends = next(at for at in range(begins, len(lines)) if not lines[at])
    with open(f"{TOP}/docs/SPEED.md", encoding="utf-8") as file:
        told = numbers(file.read())
    found = []
    for at in range(begins, ends):
        for number in numbers(lines[at]):
            if not _WHOLE.fullmatch(number) and not any(_rounds_to(exact, number) for exact in told):
                found.append(f"README.md:{at + 1}: {number} is no figure of docs/SPEED.md")
    return found


def main(words: list[str]) -> int:
    if words == ["--check"]:
        faults = _faults_of_speed("docs/SPEED.md") + _faults_of_readme()
        print("\n".join([*faults, f"figures: {len(faults)} wrong"]))
        return min(1, len(faults))
    if len(words) == 1 and not words[0].startswith("-"):
        path = newest(words[0])
        if path is None:
            sys.exit(f"no run {words[0]} in bench/results")
        with open(path, encoding="utf-8") as file:
            print(os.path.relpath(path, TOP) + "\n\n" + file.read(), end="")
        return 0
    sys.exit(__doc__)


if __name__ == "__main__":
    sys.exit(main(sys.argv[1:]))

"""One storm without a clock, judged, and done again by new nodes."""

import random
import sys

from alone import check_alone, check_same
from processes import WRONG, room
from storm import KILLS, stormed

COUNTED = ["lines", "operations", "gone", "deaths", "histories", "given up", "lines compared alone"]


def simulated(job):
    """One seed: what was counted, and what is wrong, if anything."""
    program, seed, lines = job
    counts = dict.fromkeys(COUNTED, 0)
    try:
        with room() as folder:
            storm = stormed(program, folder, seed, lines, KILLS)
            histories, given_up = storm.judge()
        found = [storm.given, storm.done, storm.gone, storm.deaths, histories, given_up]
        counts.update(zip(COUNTED, found))
        names = [name.encode() for name in storm.volumes]
        name = random.Random(f"alone {seed}").choice(names)
        for number, lives in enumerate(storm.lives):
            check_same(program, number, lives)
            counts["lines compared alone"] += check_alone(program, number, lives, names, name)
    except WRONG as fault:
        return counts, f"seed {seed}: {fault!r}"
    return counts, None


def simulate(pool, program, seeds, lines, shown=None):
    """Simulates each seed: the sums of what was counted, and what is wrong. It may be shown how far that is."""
    told, wrong = dict.fromkeys(COUNTED, 0), []
    for done, (counts, fault) in enumerate(pool.imap_unordered(simulated, [(program, seed, lines) for seed in seeds])):
        if shown:
            shown.at_hand(f"{done} of {len(seeds)} seeds", shown.seconds() * (len(seeds) - done) / done if done else None)
        for name, count in counts.items():
            told[name] += count
        if fault:
            wrong.append(fault)
            print(f"simulation: {fault}", file=sys.stderr, flush=True)
    return told, wrong

"""Programs of live runs, drawn from a seed."""

import random

NAMES = ["ann", "bob", "cid"]
# Lengths of contents at and beside the limits of a block, of two, and beyond.
LENGTHS = [0, 1, 2, 63, 64, 65, 127, 128, 129]
MOST_REQUESTS = 8
MOST_CHANGES = 4


def a_content(draw):
    return draw.randbytes(draw.choice(LENGTHS)).hex() or "-"


def a_request(draw, name, session, volumes):
    """A write, a read or a listing; now and then of a volume or a file that is not there."""
    volume = draw.randrange(len(volumes)) if draw.random() < 0.95 else len(volumes)
    files = volumes[volume][0] if volume < len(volumes) else 1
    file = draw.randrange(files) if draw.random() < 0.95 else files
    kind = draw.random()
    if kind < 0.45:
        return f"{name} write {session} {volume} {file} {a_content(draw)}"
    if kind < 0.85:
        return f"{name} read {session} {volume} {file}"
    return f"{name} list {session} {volume}"


def mixed(draw, lists):
    """All lines of the lists, those of each list in order."""
    turns = [place for place, lines in enumerate(lists) for _ in lines]
    draw.shuffle(turns)
    left = [iter(lines) for lines in lists]
    return [next(left[place]) for place in turns]


def a_program(seed, number):
    """The program of this number: one to three tenants of one to four sessions each, on one to nine servers."""
    draw = random.Random(f"{seed} {number}")
    rows, cols = draw.randint(1, 3), draw.randint(1, 3)
    tenants, lists, blocks = [], [], 0
    for name in NAMES[: draw.randint(1, len(NAMES))]:
        sessions = draw.randint(1, 4)
        volumes = [(draw.randint(1, 3), draw.randint(1, 2)) for _ in range(draw.randint(1, 2))]
        share = sum(files * most for files, most in volumes) + draw.randrange(2)
        blocks += share
        tenants.append(f"tenant {name} {share} {sessions} 1000000")
        lists.append([f"{name} open {files} {most}" for files, most in volumes])
        for session in range(1, sessions + 1):
            count = draw.randint(0, MOST_REQUESTS)
            lists.append([a_request(draw, name, session, volumes) for _ in range(count)])
    servers = range(rows * cols)
    lists.append([f"server {draw.choice(servers)} {draw.choice(['down', 'up'])}" for _ in range(draw.randint(0, MOST_CHANGES))])
    return "\n".join([f"grid {rows} {cols}", f"blocks {blocks}", *tenants, "go", *mixed(draw, lists), ""]).encode()


def an_outage(number):
    """Eight sessions on 2 by 2 servers, of which one of the first row stops and returns a hundred times meanwhile, and then stops for
    good: the other row is left, and a column."""
    sessions, server = range(1, 9), number % 2
    lines = ["grid 2 2", "blocks 4", "tenant ann 4 8 1000000", "go", "ann open 2 2"]
    for turn in range(20):
        for session in sessions:
            requests = [f"write {session} 0 {session % 2} {turn:02x}{session:02x}", f"read {session} 0 {turn % 2}", f"list {session} 0"]
            lines.append(f"ann {requests[(turn + session) % 3]}")
    lines += [f"server {server} down", f"server {server} up"] * 100 + [f"server {server} down", ""]
    return "\n".join(lines).encode()

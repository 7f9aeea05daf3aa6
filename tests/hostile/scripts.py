"""Scripts of those who mean harm, drawn from a seed: each kind is a function of a source of chance that gives the bytes."""

import os
import sys

sys.path.insert(0, os.path.join(os.path.dirname(os.path.abspath(__file__)), "..", "..", "bench"))
from forms import Plan, Row
from writes import Lines

LINES = 250
LONG = 16_000_000

# Numbers at each limit, next to it and far beyond, and what is no number.
EDGES = [b"%d" % (limit + step) for limit in (1, 8, 16, 64, 1024, 4096, 16384, 65_536, 67_108_864, 1_000_000, 2**31, 2**32, 2**63, 2**64) for step in (-1, 0, 1)]
EDGES += [b"9" * 10, b"9" * 30, b"1" + b"0" * 400]
NO_NUMBERS = [b"", b"-", b"-1", b"+1", b"00", b"01", b"0x1", b"1e3", b"1.0", b"1_0", b" 1", b"\xd9\xa1", b"1\r", b"1\0"]
# Words that some line has, and some that look like them.
WORDS = b"quorum open volumes write read list deliver lose retry abandon server down up lost repaired tenant grid blocks go".split()
WORDS += [b"Quorum", b"quorums", b"volume", b"dn", b"-", b"--", b"?", b"0a", b"0A", b"0g", b"\xc3\xa4", b"\t", b"\0", b"\r"]
CONTENTS = [b"-", b"", b"00", b"0", b"fF" * 64, b"ab" * 65, b"00" * 1024, b"00" * 1025, b"0g", b"=", b"=0g", b"==", b"=\\n\\s\\b\0\xff", b"=\\bn"]
CONTENTS += [b"=" + b"a" * 64, b"=" + b"\\s" * 64, b"=" + b"\\b" * 65, b"=" + b"\xff" * 1024, b"=a\\", b"=\\\\", b"=\\x", b"=\\N", b"-=a"]
ALMOST_NAMES = [b"server", b"servers", b"serve", b"Server", b"a" * 16, b"a" * 17, b"Ann", b"ann1", b"an n", b"ann\r", b"\xff", b""]
ALMOST_NAMES += [b"?", b"-", b"go", b"grid", b"tenant", b"{", b"`", b"@", b"z", b"[", b"an\0", b"\xc3\xa4"]


def any_bytes(draw, most):
    """Bytes of which many are such as scripts have."""
    if draw.random() < 0.3:
        return draw.randbytes(draw.randrange(most))
    return bytes(draw.choices(b"an 019-\n\r\t\0\x7f\x80\xff", k=draw.randrange(most)))


def changed(draw, text):
    """The text, one byte away: put in, taken out, made another or twice."""
    place = draw.randrange(len(text) + 1)
    byte = draw.choice([b" ", b"\n", b"\r", b"\0", b"\x80", b"\xff", b"0", b"-", b"a", draw.randbytes(1)])
    kind = draw.randrange(4)
    if kind == 0:
        return text[:place] + byte + text[place:]
    if kind == 1:
        return text[:place] + text[place + 1 :]
    if kind == 2:
        return text[:place] + byte + text[place + 1 :]
    return text[:place] + text[max(place - 1, 0) :]


def a_name(draw):
    return bytes(draw.choices(b"abcdefghijklmnopqrstuvwxyz", k=draw.choice([1, 1, 2, 3, 15, 16])))


def names(draw, count):
    """Names that are names, some of them almost others."""
    found = []
    while len(found) < count:
        name = a_name(draw)
        if found and draw.random() < 0.3:
            name = draw.choice([draw.choice(found) + b"a", draw.choice(found)[:-1], b"servers", b"serve", b"go", b"grid"])
        if 1 <= len(name) <= 16 and name != b"server" and name not in found:
            found.append(name)
    return found


def a_plan(draw, tenants):
    """A plan that is accepted, of so many tenants."""
    room = draw.random() < 0.3
    rows = [
        Row(
            name,
            draw.randint(1, 4096 // tenants),
            draw.choice([1, 2, 15, 16]),
            draw.choice([1, 50, LINES, 1_000_000, 1_000_000]),
            draw.choice([4, 16, 17, 16384]) if room else 16,
            draw.choice([64, 64, 1, 65, 65536]) if room else 64,
        )
        for name in names(draw, tenants)
    ]
    blocks = draw.choice([4096, sum(row.share for row in rows)] + [4097] * room)
    sides = [1, 1, 1, 2, 2, 2, 3, 4, 8]
    return Plan(draw.choice(sides), draw.choice(sides), blocks, rows)


def good_lines(draw, plan, tenants):
    """Lines, without end, that follow what they are answered: of these tenants, and of the servers."""
    sessions = min(row.sessions for row in tenants)
    share = min(row.share for row in tenants)
    files = draw.randint(1, min(4, share))
    blocks = draw.randint(1, min(4, share // files))
    lines = Lines(
        draw,
        [row.name.decode() for row in tenants],
        sessions,
        lost=0.02,
        changed=0.01,
        broken=0.01,
        listed=0.1,
        rows=plan.rows,
        cols=plan.cols,
        files=files,
        blocks=blocks,
    )
    return (line.encode() for line in lines)


def a_number(draw):
    return draw.choice(EDGES) if draw.random() < 0.8 else draw.choice(NO_NUMBERS)


def any_number(draw):
    return b"%d" % draw.randrange(3) if draw.random() < 0.75 else a_number(draw)


def a_line(draw, name):
    """A line with a form but for its numbers."""
    verb, count = draw.choice(
        [(b"open", 2), (b"write", 3), (b"read", 3), (b"list", 2), (b"deliver", 1), (b"lose", 1), (b"retry", 1), (b"abandon", 1)]
    )
    words = [name, verb] + [any_number(draw) for _ in range(count)]
    if verb == b"write":
        words.append(draw.choice(CONTENTS))
    return b" ".join(words) + b"\n"


def a_server_line(draw):
    return b"server " + any_number(draw) + draw.choice([b" down\n", b" up\n", b" lost\n", b" repaired\n", b" up \n", b"\n"])


def any_line(draw, name):
    """A line of the tenant that need not have a form."""
    kind = draw.random()
    if kind < 0.3:
        return a_line(draw, name)
    if kind < 0.5:
        return changed(draw, a_line(draw, name))
    if kind < 0.7:
        return name + b" " + b" ".join(draw.choices(WORDS, k=draw.randrange(5))) + b"\n"
    if kind < 0.8:
        return name + b" " + draw.choice([b"quorum", b"volumes"]) + b"\n"
    return name + b" " + any_bytes(draw, 40).replace(b"\n", b"") + b"\n"


def random_bytes(draw):
    """Bytes behind a plan, or in place of one."""
    head = a_plan(draw, draw.randint(1, 3)).text() if draw.random() < 0.8 else b""
    return head + any_bytes(draw, 3000)


def one_byte_away(draw):
    """Lines that follow what they are answered, some of them one byte away from what they were."""
    plan = a_plan(draw, draw.randint(1, 4))
    lines = good_lines(draw, plan, plan.tenants)
    often = draw.choice([0.02, 0.2, 0.9])
    drawn = [next(lines) for _ in range(LINES)]
    text = b"".join(changed(draw, line) if draw.random() < often else line for line in drawn)
    return plan.text() + text[: -1 if draw.random() < 0.2 else None]


def at_the_limits(draw):
    """Lines of every form with numbers at and above each limit."""
    plan = a_plan(draw, draw.randint(1, 3))
    opens = draw.choice([1, 3, 70])
    lines = [b"%s open %d %d\n" % (row.name, draw.randint(1, 2), draw.randint(1, 2)) for row in plan.tenants for _ in range(opens)]
    for _ in range(LINES):
        lines.append(a_server_line(draw) if draw.random() < 0.1 else a_line(draw, draw.choice(plan.tenants).name))
    return plan.text() + b"".join(lines)


def almost_names(draw):
    """Lines of those whose names are almost the tenants'."""
    plan = a_plan(draw, draw.choice([1, 2, 8, 64]))
    near = ALMOST_NAMES + [changed(draw, row.name) for row in plan.tenants[:8]]
    lines = good_lines(draw, plan, plan.tenants[:2])
    text = b""
    for _ in range(LINES):
        line = next(lines)
        if draw.random() < 0.5:
            line = draw.choice(near) + draw.choice([b" ", b" ", b"", b"\n"]) + line.partition(b" ")[2]
        text += line
    return plan.text() + text


def a_long_line(draw):
    """A tenant's line of many bytes between others."""
    plan = a_plan(draw, 2)
    name = plan.tenants[0].name
    filling = draw.choice([b"x", b" ", b"0", b"1", b"\0", b"\xff", name])
    start = draw.choice([b" ", b" write 1 0 0 ", b" deliver 1", b" open 1 ", b"", b" quorum "])
    line = (name + start + filling * (LONG // len(filling)))[:LONG]
    before, after = b"%s quorum\n" % plan.tenants[1].name, b"%s volumes\n" % name
    return plan.text() + before + line + b"\n" + after


def sixty_three_against_one(draw):
    """64 tenants of whom one goes about its work, and the others send what they like."""
    plan = a_plan(draw, 64)
    for row in plan.tenants:
        row.steps = draw.choice([5, 1_000_000])
    honest = draw.choice(plan.tenants)
    honest.steps = 1_000_000
    own = good_lines(draw, plan, [honest])
    working = good_lines(draw, plan, draw.sample(plan.tenants, 3))
    text = b""
    for _ in range(2 * LINES):
        kind = draw.random()
        if kind < 0.3:
            line = next(own)
        elif kind < 0.6:
            line = next(working)
            line = changed(draw, line) if draw.random() < 0.2 else line
        else:
            line = any_line(draw, draw.choice(plan.tenants).name)
        text += line
    return plan.text() + text


def faults_of_plans(draw):
    """Plans with one fault or more, or with none."""
    plan = a_plan(draw, draw.choice([1, 2, 3, 63, 64]))
    lines = plan.text().splitlines(keepends=True)
    for _ in range(draw.choice([1, 1, 1, 2, 3])):
        place = draw.randrange(len(lines))
        kind = draw.random()
        if kind < 0.3:
            lines[place] = changed(draw, lines[place])
        elif kind < 0.7:
            words = lines[place][:-1].split(b" ")
            words[draw.randrange(len(words))] = draw.choice([a_number(draw), draw.choice(ALMOST_NAMES), a_name(draw)])
            lines[place] = b" ".join(words) + b"\n"
        elif kind < 0.8:
            lines.insert(place, lines[draw.randrange(len(lines))])
        elif kind < 0.9:
            lines[place:] = [lines[place][: draw.randrange(len(lines[place]) + 1)]]
        else:
            lines[place:place] = [b"tenant " + a_name(draw) + b" 1 1 1\n" for _ in range(draw.choice([1, 2, 64]))]
    return b"".join(lines) + any_line(draw, plan.tenants[0].name)


# How often each kind is drawn.
KINDS = {
    random_bytes: 20,
    one_byte_away: 25,
    at_the_limits: 15,
    almost_names: 10,
    sixty_three_against_one: 12,
    faults_of_plans: 20,
}


def a_script(draw):
    """A script of some kind, and what kind."""
    (kind,) = draw.choices(list(KINDS), list(KINDS.values()))
    return kind.__name__, kind(draw)

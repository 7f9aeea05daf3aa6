"""What is wrong with a picture of a file's operations, by its own boxes and points, the order and the history of these operations."""

import re
import xml.etree.ElementTree as Xml

from histories import ROOM

SPACE = "{http://www.w3.org/2000/svg}"
TELLING = re.compile(
    r"(\d+)\. Session (\d+), operation (\d+): (write|read|row)(?: of)? (.*?)(?:, tag \d+ \d+)?"
    r"(?:, lines (\d+) to (\d+)|, from line (\d+) on, not completed)"
)
BOX = re.compile(r"M(\d+) (\d+)H(\d+)V(\d+)H(\d+)z")


def shown(content):
    """A content as a person reads it."""
    raw = b"" if content == "-" else bytes.fromhex(content)
    if not raw:
        return "empty"
    return f"“{raw.decode()}”" if all(32 <= byte <= 126 for byte in raw) else content


def shown_length(length):
    return f"{length} byte" if length == "1" else f"{length} bytes"


def box_of(group):
    left, top, right, bottom, again = map(int, BOX.fullmatch(group.find(f"{SPACE}path").get("d")).groups())
    assert left == again and left <= right and top < bottom
    return left, right, top


def length_of(content):
    return "0" if content == "-" else str(len(content) // 2)


def told_in(history):
    """The lines in which each operation of the history begins and ends, by session and content, as often as there are such."""
    begun, all_told = {}, []
    for line in history:
        time, stage, process = re.search(r":time (\d+), :type :(\w+), :process (\d+)", line).groups()
        if stage == "invoke":
            begun[process] = int(time)
        else:
            all_told.append(((int(process) - 1) % ROOM + 1, begun.pop(process), int(time) if stage == "ok" else None))
    return all_told


def picture_faults(text, order, history, down):
    """`order` has the lines of `gridfs order` without the last, `down` the servers that lines say to be down, one for each such
    line."""
    try:
        picture = Xml.fromstring(text)
    except Xml.ParseError as fault:
        return [f"is no XML: {fault}"]
    wrong = []
    told = [it for it in picture.iter(f"{SPACE}g") if it.find(f"{SPACE}title") is not None]
    values = [it for it in told if it.get("class") == "value"]
    outages = [it for it in told if it.get("class") == "outage"]
    drawn = [it for it in told if it.get("class").split()[0] in ("write", "read", "row")]
    # The open ones lie below those that ended, and the points on top of all.
    layers = [2 if it.find(f"{SPACE}circle") is not None else 0 if "open" in it.get("class") else 1 for it in drawn]
    if layers != sorted(layers):
        wrong.append("has operations one upon the other in another order")
    bars = sorted((it for it, layer in zip(drawn, layers) if layer < 2), key=lambda it: int(it.find(f"{SPACE}title").text.partition(".")[0]))
    circles = [it for it, layer in zip(drawn, layers) if layer == 2]
    if len(circles) != len(bars):
        return [f"has {len(circles)} points for {len(bars)} bars"]
    if len(bars) != len(order):
        return [f"has {len(bars)} bars for {len(order)} operations"]
    # The register: what it holds from where to where, without a gap.
    holds = [(*box_of(it)[:2], it.find(f"{SPACE}title").text.removeprefix("Register: ")) for it in values]
    if any(before[1] != behind[0] for before, behind in zip(holds, holds[1:])):
        wrong.append("leaves a gap in the register")
    lanes, sides, points, now, spans = {}, [], [], "-", set()
    for number, (bar, circle, line) in enumerate(zip(bars, circles, order), 1):
        kind, session, operation, content = line.split(" ")
        telling = TELLING.fullmatch(bar.find(f"{SPACE}title").text)
        wanted = (str(number), session, operation, kind, shown_length(content) if kind == "row" else shown(content))
        if telling is None or telling.groups()[:5] != wanted:
            wrong.append(f"tells of {line!r}: {bar.find(f'{SPACE}title').text!r}")
            continue
        begin, end = int(telling[6] or telling[8]), int(telling[7]) if telling[7] else None
        if (bar.get("class") == f"{kind} open") is not (end is None) or bar.get("class").split()[0] != kind:
            wrong.append(f"has a bar of class {bar.get('class')!r} for {line!r}")
        left, right, top = box_of(bar)
        point = int(circle.find(f"{SPACE}circle").get("cx"))
        if circle.find(f"{SPACE}title").text != f"Point of {number}. Session {session}, operation {operation}" or circle.get("class") != bar.get("class"):
            wrong.append(f"has another point for {line!r}")
        if not left < point < right:
            wrong.append(f"has the point of {line!r} outside its bar")
        if lanes.setdefault(session, top) != top or [it for it in lanes if lanes[it] == top] != [session]:
            wrong.append(f"has {line!r} in another lane")
        sides.append((begin, end, left, right))
        points.append(point)
        # What the register holds at the point, from the order alone.
        if kind == "write":
            now = content
        under = [held for first, last, held in holds if first < point < last]
        if kind == "write":
            if [held for first, last, held in holds if first == point] != [shown(content)]:
                wrong.append(f"does not change the register at the point of {line!r}")
        elif under != [shown(now)] or (content != now if kind == "read" else content != length_of(now)):
            wrong.append(f"has {under} over the point of {line!r}")
        spans.add((int(session), begin, end))
    if points != sorted(set(points)):
        wrong.append("has points in another order")
    if len(values) != 1 + sum(line.startswith("write") for line in order):
        wrong.append("changes the register where no write is")
    for a in sides:
        for b in sides:
            if (a[1] is not None and a[1] < b[0]) is not (a[3] < b[2]):
                wrong.append(f"does not show whether {a} ended before {b} began")
    operations = told_in(history)
    for session, begin, end in spans:
        if (session, begin, end) not in operations:
            wrong.append(f"has an operation of session {session} in lines {begin} to {end}, the history has none")
    if sorted(it.find(f"{SPACE}title").text for it in outages) != sorted(f"Server {server} is down" for server in down):
        wrong.append("shows other outages")
    return wrong

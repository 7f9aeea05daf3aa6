"""The history of a file, read off a script and its answers by what docs/REFERENCE.md says of them. This is another reading than that of
`gridfs history`, which has to write the same lines."""

import re

BEGAN = re.compile(r"op (\d+) sent .*")
DONE = re.compile(r"done (write|read|list) (\d+) (\d+) ?(.*)")
ROOM = 16  # A process's number is that of its session, and this times the number of the operation that the session gave up last.


def quoted(content):
    return '"' + ("" if content == "-" else content.lower()) + '"'


def history_of(name, volume, file, lines, answers, number):
    """The lines of the history: lines and answers are those of the script after `go`, and the first of them is the line of this
    number."""
    events, going, given_up = [], {}, {}
    # the sessions that may have given up since a server was lost
    left_alone = set()

    def gives_up(session):
        operation = going.pop(session)
        if operation:
            given_up[session] = operation[3]
            going["given up", operation[4]] = operation

    for time, (line, answer) in enumerate(zip(lines, answers), number):
        first, _, rest = line.partition(" ")
        if first == "server" and rest.endswith(" lost") and answer == "server ok":
            left_alone |= {session for session in going if isinstance(session, int)}
        if first != name:
            continue
        words, told = rest.split(" "), answer.partition(" ")[2]
        began, done = BEGAN.fullmatch(told), DONE.fullmatch(told)
        if began and words[0] in ("write", "read", "list"):
            session = int(words[1])
            if session in going:
                # (it has been given up; its end comes behind all lines)
                if session not in left_alone:
                    raise ValueError(f"session {session} has an operation")
                gives_up(session)
            left_alone.discard(session)
            is_here = int(words[2]) == volume and (words[0] == "list" or int(words[3]) == file)
            if is_here:
                function = {"write": "write", "read": "read", "list": "length"}[words[0]]
                process = session + ROOM * given_up.get(session, 0)
                value = quoted(words[4]) if function == "write" else "nil"
                going[session] = (function, process, value, int(began[1]), len(events))
                events.append((time, "invoke", process, function, value))
            else:
                going[session] = None
        elif done:
            operation = going.pop(int(done[2]))
            if operation:
                function, process, value, _, _ = operation
                if function == "read":
                    value = quoted(done[4].split(" ")[3])
                if function == "length":
                    value = done[4].split(" ")[file].partition(":")[0]
                events.append((time, "ok", process, function, value))
        elif told == "abandoned":
            gives_up(int(words[1]))
    left = sorted((operation for operation in going.values() if operation), key=lambda operation: operation[4])
    events += [(number + len(lines), "info", process, function, value) for function, process, value, _, _ in left]
    return [
        f"{{:index {index}, :time {time}, :type :{kind}, :process {process}, :f :{function}, :value {value}}}"
        for index, (time, kind, process, function, value) in enumerate(events)
    ]

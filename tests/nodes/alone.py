"""What the nodes of a storm were given is given to new ones: all of it, which are to write the same bytes; and without the lines of all
tenants but one, who is to be told the same, byte for byte."""

import os

from processes import Wrong, ended, put, room, words_of


def owner(line, names):
    """The tenant whom a line to a node, or of one, is of; None where it is of none."""
    words = line.split(b" ", 3)
    return next((word for word in words[:3] if word in names), None)


def is_given(line, names, name):
    """Whether a line to a node stays where those of all tenants but one are taken out."""
    words = line.split(b" ", 3)
    of = words[1] if words[1:2] and words[1] in names else words[2] if words[2:3] and words[2] in names else None
    return of in (None, name)


def lives_of(program, folder, number, lives, kept):
    """What a new node writes that is given, life by life, what is kept of its lines."""
    wrote = []
    for place, life in enumerate(lives):
        put(os.path.join(folder, "plan"), life.plan.encode())
        given = kept(b"".join(life.given))
        status, told, out = ended(words_of(program, number, "plan", f"journal{number}", place == 0), given, cwd=folder)
        if status != 0:
            raise Wrong(f"node {number}, in its life {place}, ends with status {status} and {told!r}")
        wrote.append(out)
    return wrote


def check_same(program, number, lives):
    """All lines of a node again. The ways in which they were cut into reads are others."""
    with room() as folder:
        wrote = lives_of(program, folder, number, lives, lambda given: given)
        for place, (life, out) in enumerate(zip(lives, wrote)):
            # (a node that was killed before its first step may have written nothing)
            if life.given and out != b"".join(life.wrote):
                raise Wrong(f"node {number} writes other bytes for the same lines in its life {place}")


def check_alone(program, number, lives, names, name):
    """The lines of one tenant, and of none. How many lines were compared."""
    compared = 0

    def kept(given):
        return b"".join(line + b"\n" for line in given.split(b"\n")[:-1] if is_given(line, names, name))

    def told(wrote):
        return [line for line in wrote.split(b"\n") if owner(line, names) == name]

    with room() as folder:
        wrote = lives_of(program, folder, number, lives, kept)
        for place, (life, out) in enumerate(zip(lives, wrote)):
            seen, wanted = told(out), told(b"".join(life.wrote))
            compared += len(wanted)
            if seen != wanted:
                at = next((at for at, (one, other) in enumerate(zip(seen, wanted)) if one != other), min(len(seen), len(wanted)))
                raise Wrong(f"node {number} writes of {name.decode()} alone, in its life {place}, at {at}: {seen[at : at + 1]}, and among others {wanted[at : at + 1]}")
    return compared

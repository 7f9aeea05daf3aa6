"""A search of all worlds that can come about from a first one, in the order of how many steps lead there; and random ways from it."""

import collections
import random


class Wrong(Exception):
    """What is wrong in a world; and, once a search has met it, the steps that lead there."""


def searched(first, steps_from, judge, most=None):
    """How many worlds there are, how many steps from them, and whether all were seen: not more than `most`. Wrong at the first step that `judge` says is."""
    known, left, count = {first: None}, collections.deque([first]), 0
    while left:
        world = left.popleft()
        for words, following in steps_from(world):
            count += 1
            try:
                judge(world, following)
            except Wrong as wrong:
                told = [words]
                while known[world]:
                    world, before = known[world]
                    told.append(before)
                raise Wrong(str(wrong), *told[::-1]) from None
            if following not in known:
                if most is not None and len(known) >= most:
                    return len(known), count, False
                known[following] = world, words
                left.append(following)
    return len(known), count, True


def wandered(first, steps_from, judge, ways, seed):
    """So many random ways, each until nothing can happen any more, and how many steps they took. New clients are the rarer ones. Wrong at the first step that `judge` says is."""
    chance, count = random.Random(seed), 0
    for _ in range(ways):
        world, told = first, []
        while following := steps_from(world):
            words, then = chance.choice(following)
            if " has a new client" in words and told and chance.random() < 0.7:
                if len(following) == 1:
                    break
                continue
            told.append(words)
            count += 1
            try:
                judge(world, then)
            except Wrong as wrong:
                raise Wrong(str(wrong), *told) from None
            world = then
    return ways, count

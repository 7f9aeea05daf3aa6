"""The command while nodes are down: what the first one after a death takes, what the status tells, and what other words end with."""

import json
import os
import re
import time
from concurrent.futures import ThreadPoolExecutor

from commands import SECONDS, Commands
from with_room import Grid

# bob's volumes have one shape, so they are for no names.
PLAN = """grid 2 2
blocks 4096
tenant ann 1024 4 1
tenant bob 64 2 1
go
ann open 8 16
ann open 8 16
ann open 32 15
bob open 8 2
ann chunks 1024
"""
SHORT = "6"  # seconds that a command waits for nodes that are down
KILLS = 4  # for each word
MANY = 24  # names of a folder, each of so many bytes
BYTES = 20_000
MOST_GIVEN_UP = 4  # times that a command finds that the dead node does not answer, whatever it does: by the first question to all, a look, a session, and a chunk


def kill(nodes, *numbers):
    for number in numbers:
        nodes.ask(f"kill {number}")
    nodes.ask("nodes")
    until = time.monotonic() + SECONDS
    while any(b"node %d is down" % number not in nodes.told() for number in numbers):
        if time.monotonic() > until:
            raise OSError(f"nodes {numbers} are not down")
        time.sleep(0.02)


def has(lines, text):
    """Which of these lines a text has."""
    return [line for line in lines if line in text.decode().splitlines()]


def first_after_a_death(commands, nodes):
    """Each time no command knows yet that a node is down. It finds that out a few times, however many requests it makes. (bench/first-command tells the seconds.)"""
    commands.told("put of a long content", ["put", "-", "long"], b"", given=os.urandom(100_000))
    for number in range(MANY):
        with open(f"many/{number}", "wb") as out:
            out.write(os.urandom(BYTES))
    commands.held("mirror of many", commands.run("mirror", "many", "grid:many")[0], 0)
    words_of_many = ["get", *(f"many/{number}" for number in range(MANY)), "got"]
    for words, given in ((["get", "long"], b""), (["put", "-", "short"], b"hello"), (["ls"], b""), (["status"], b""), (words_of_many, b"")):
        for turn in range(KILLS):
            kill(nodes, turn % 4)
            status, _, why = commands.run("-v", *words, given=given, GRIDFS_LOCKS=f"locks-{words[0]}-{len(words)}-{turn}")
            nodes.ask(f"start {turn % 4}")
            times = [int(count) for count in re.findall(rf"\b{turn % 4} \(given up (\d+) times?\)", why)]
            commands.held(f"{words[:3]}, the first after node {turn % 4} died: {why}", (status, len(times), sum(times) <= MOST_GIVEN_UP), (0, 1, True))
            commands.run_until("all 4 nodes answer", "status", "--nodes", GRIDFS_LOCKS="others")
    commands.held("rm", commands.run("rm", "long", "short", *(f"many/{number}" for number in range(MANY)))[0::2], (0, ""))


def one_is_down(commands):
    lines = ["  row 1   2  (3)", "node 3 is silent", "wholly up: row 0, column 0", "session 4: home 3, silent", "names: 1", "bytes: 5 used"]
    for words in (["get", "a"], ["put", "-", "b"], ["ls"], ["rm", "b"]):
        commands.held(f"{words[0]} with a node down", commands.run(*words)[0::2], (0, ""))
    commands.held("homes that are noted as silent", {name for name in os.listdir("locks") if name.endswith(".silent")} - {"ann-node3.silent"}, set())
    status, told, why = commands.run_until("\nnode 3 is silent\n", "status")
    commands.held("status with a node down", (status, has(lines, told), why), (0, lines, ""))
    status, told, _ = commands.run_until("\nnode 3 is silent\n", "status", "--nodes")
    commands.held("status --nodes", (status, has(lines, told)), (0, lines[:4]))


def a_row_is_down(commands):
    """Nodes 2 and 3 are a row, so no column is wholly up."""
    silence = "nodes 2 and 3 are silent: no column is wholly up"
    asked = (["status"], ["status", "--json"], ["--timeout", SHORT, "put", "told", "a"], ["--timeout", SHORT, "mirror", "tree", "grid:"])
    with ThreadPoolExecutor(len(asked)) as pool:
        status, value, put, mirror = pool.map(lambda words: commands.run_until(silence, *words), asked)
    lines = ["  row 1  (2) (3)", silence, "wholly up: row 0, no column", f"names, pages, bytes: left out: {silence}"]
    commands.held("status with a row down", (status[0], has(lines, status[1]), status[2]), (4, lines, f"gridfs-client: {silence}\n"))
    told = json.loads(value[1])
    seen = value[0], told["goes_on"], told["names"], told["left_out"], value[2]
    commands.held("status --json with a row down", seen, (4, False, None, silence, f"gridfs-client: {silence}\n"))
    commands.held("its nodes", [(node["node"], node["answers"]) for node in told["nodes"]], [(0, True), (1, True), (2, False), (3, False)])
    commands.held("put with a row down", (put[0], put[2]), (4, f"gridfs-client: no session was answered in 6 s, of 1, 2, 3 and 4; {silence}\n"))
    commands.held("mirror with a row down", (mirror[0], mirror[2]), (4, f"gridfs-client: no session was answered in 6 s, of 1, 2, 3 and 4; {silence}\n"))


def all_are_down(commands):
    commands.refused("status with all down", ["status"], 4, "no node answered in 5 s")


def try_outages(program):
    with open("plan", "w", encoding="ascii") as out:
        out.write(PLAN)
    commands, nodes = Commands({}), Grid(program, os.path.abspath("plan"))
    for folder in ("tree", "many", "got"):
        os.mkdir(folder)
    try:
        commands.told("put", ["put", "-", "a"], b"", given=b"hello")
        status, told, _ = commands.run("status", tenant="bob")
        commands.held("status of a tenant without names", (status, b"left out: the tenant keeps no names by this plan" in told), (0, True))
        first_after_a_death(commands, nodes)
        kill(nodes, 3)
        one_is_down(commands)
        kill(nodes, 2)
        a_row_is_down(commands)
        kill(nodes, 0, 1)
        all_are_down(commands)
    finally:
        nodes.end()
    return f"{commands.tried} compared: nodes that are down", commands.wrong

"""Storms over links (carried_storms.py)."""

import os
import socket
import ssl

import carried_storms
from carried_storms import IDLE, found_of
from gridfs_grid.links import Grid


class Storm(carried_storms.Storm):
    STILL = [0.3, 1, 3, 9]  # seconds; a connection that takes nothing is given up after 8

    def __init__(self, program, carry, seed, seconds, forgets=False):
        super().__init__(Grid(os.getcwd(), program, carry), seed, seconds, forgets)

    def talk_nonsense(self):
        """Some of the lines are cut off in their middle."""
        number = self.draw.choice(self.grid.nodes)
        try:
            with open(self.grid.hosts(), encoding="ascii") as file:
                port = next(int(line.split()[2].rpartition(":")[2]) for line in file if line.split()[0] == str(number))
            context = ssl.create_default_context(cafile=os.path.join(self.grid.links, "ca.crt"))
            context.load_cert_chain(*self.grid.secrets(IDLE))
            with context.wrap_socket(socket.create_connection(("127.0.0.1", port), 2), server_hostname=f"node{number}") as idle:
                for _ in range(50):
                    idle.sendall(self.nonsense().encode() + b"\n" * self.draw.randrange(3))
        except (OSError, StopIteration):
            pass


def stormed(program, carry, seed, seconds):
    return Storm(program, carry, seed, seconds).run()


def forgotten(program, carry):
    return found_of(Storm(program, carry, 1, 0, forgets=True))

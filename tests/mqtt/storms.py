"""Storms over a broker (carried_storms.py), which is killed, stands still, or is away for two seconds too."""

import os
import time

import carried_storms
from carried_storms import IDLE, NODES, found_of
from isolation import speaker
from gridfs_grid.mqtt import Grid

SECONDS, AWAY = 20, 2
TOPICS = ["gridfs/ann/eve", "gridfs/0/1", "gridfs/0", "other", "gridfs/0/ann"]


class Storm(carried_storms.Storm):
    DEEDS = [*carried_storms.Storm.DEEDS, "broker", "away"]
    FIRST = ["node", "carrier", "away", "client", "disk"]
    STILL = [0.3, 1, 3, 7]  # seconds; a connection is given up after 5

    def __init__(self, program, carry, seed, tls, forgets=False):
        super().__init__(Grid(os.getcwd(), program, carry, tls), seed, SECONDS, forgets)

    def processes(self, number):
        return [self.grid.processes["broker"].pid, *super().processes(number)]

    def strike_engine(self, deed):
        self.grid.kill("broker")
        time.sleep(AWAY if deed == "away" else self.draw.random() / 2)
        self.grid.start_broker()

    def talk_nonsense(self):
        """Under topics of no shape too."""
        try:
            idle = speaker(self.grid, IDLE)
            for _ in range(50):
                topic = self.draw.choice([f"gridfs/{self.draw.randrange(NODES)}/{IDLE}"] * 4 + TOPICS)
                idle.say(topic, "\n".join([self.nonsense()] * self.draw.randrange(3)).encode())
            idle.end()
        except OSError:
            pass


def stormed(program, carry, seed, tls):
    return Storm(program, carry, seed, tls).run()


def forgotten(program, carry):
    return found_of(Storm(program, carry, 1, "none", forgets=True))

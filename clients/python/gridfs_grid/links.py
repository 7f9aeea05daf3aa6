"""A grid on this machine over links: nodes with their carriers, and nothing else."""

import os
import signal
import subprocess

from gridfs_grid.carried import CarriedGrid, free_ports, words_of
from gridfs_grid.carried_command import CarriedCommand
from gridfs_grid.one_machine import NotStarted
from gridfs_grid.places import setup_of
from gridfs_grid.tenant import PLACES


class Grid(CarriedGrid):
    """A grid whose folder has the folder `links` too, which deploy/links/setup makes. The node at place P has the ports `port` + 2 P and the next one."""

    def __init__(self, folder, program, carry, port=None):
        super().__init__(folder, program, carry)
        self.port, self.links = port, os.path.join(folder, "links")

    def set_up(self, *words):
        """Makes certificates and the file of hosts from the plan, or completes them."""
        self.read_plan()
        self.port = self.port or free_ports(2 * self.count)
        done = subprocess.run([setup_of("links"), "--local", str(self.port), *words, self.links, self.plan], stderr=subprocess.PIPE, text=True, env={**os.environ, "GRIDFS": self.program})
        if done.returncode:
            raise NotStarted(done.stderr.strip())

    def ports(self):
        return [self.port + 2 * (number % PLACES) + which for number in self.nodes for which in (0, 1)]

    def note_loss(self, number):
        new = super().note_loss(number)
        self.set_up("--deny", str(number))
        return new

    def hosts(self):
        return os.path.join(self.links, "hosts")

    def secrets(self, name):
        return [os.path.join(self.links, "secret", f"{name}.{what}") for what in ("crt", "key")]

    def certificates(self):
        secrets = os.path.join(self.links, "secret")
        return [os.path.join(self.links, "ca.crt")] + [os.path.join(secrets, name) for name in os.listdir(secrets) if name.endswith(".crt")]

    def settings(self, name):
        certificate, key = self.secrets(name)
        return {"hosts": self.hosts(), "ca-file": os.path.join(self.links, "ca.crt"), "certificate": certificate, "key": key}

    def carrier_words(self, number):
        return words_of({**self.settings(number), "denied": os.path.join(self.links, "denied"), "bind": "127.0.0.1"})

    def is_connected(self, number, told):
        """Whether it is linked to each other node that runs."""
        others = [other for other, process in self.processes.items() if other != number and process.poll() is None]
        return all(f"is linked to node {other}\n" in told for other in others)

    def reload(self):
        for process in self.processes.values():
            if process.poll() is None:
                process.send_signal(signal.SIGHUP)


class Command(CarriedCommand):
    WAY, PORT, WANTS, CARRIER = "links", 8870, ("openssl",), "carry-links"
    PACKAGES = "libssl-dev, openssl, gcc, make"
    UP = "{} nodes with their carriers"

    def new_grid(self, asked, folder, carry, port):
        return Grid(folder, os.path.abspath(asked.program), carry, port)

    def tenants(self, grid):
        return sorted(name[:-4] for name in os.listdir(os.path.join(grid.links, "secret")) if name.endswith(".crt") and name[:-4].isalpha())

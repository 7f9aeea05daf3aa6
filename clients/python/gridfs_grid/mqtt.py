"""A grid on this machine over a broker, which is started too: a broker, and nodes with their carriers."""

import os
import shutil
import signal
import subprocess

from gridfs_grid.carried import CarriedGrid, children_of, free_ports, spent
from gridfs_grid.carried_command import CarriedCommand
from gridfs_grid.one_machine import NotStarted
from gridfs_grid.places import setup_of

os.environ["PATH"] += ":/usr/sbin"  # (where Debian has mosquitto and nginx, and no user but root looks)


class Grid(CarriedGrid):
    """A grid whose folder has the broker's folder `broker` too. `tls` is as for deploy/mqtt/setup; tenants come by the port behind that of nodes."""

    def __init__(self, folder, program, carry, tls, port=None):
        super().__init__(folder, program, carry)
        self.tls, self.port, self.inner = tls, port or free_ports(), free_ports()
        self.broker_folder = os.path.join(folder, "broker")
        self.SERVERS = ("broker", "front") if tls == "front" else ("broker",)
        self.grids = [self]  # at this broker, each with a name where there are several

    def use_broker_of(self, other):
        """Has that grid's broker be this one's too: `set_up` of that one is for both, and it has to be started first."""
        self.tls, self.port, self.inner, self.broker_folder, self.SERVERS = other.tls, other.port, other.inner, other.broker_folder, ()
        other.grids.append(self)

    def set_up(self, *words):
        """Makes the broker's folder from the plans, or makes it again."""
        for grid in self.grids:
            grid.read_plan()
        self.words = words
        words += ("--tls", self.tls, "--port", str(self.port), "--inner", str(self.inner))
        words += () if self.tls == "none" else ("--test-authority",)
        words += ("--user", "root") if os.getuid() == 0 else ()
        plans = [f"{grid.name}={grid.plan}" if grid.name else grid.plan for grid in self.grids]
        done = subprocess.run([setup_of("mqtt"), *words, self.broker_folder, *plans], stderr=subprocess.PIPE, text=True, env={**os.environ, "GRIDFS": self.program})
        if done.returncode:
            raise NotStarted(done.stderr.strip())

    def ports(self):
        return [self.port, self.port + 1]

    def certificates(self):
        """The test authority, and its certificate for the broker."""
        return [] if self.tls == "none" else [os.path.join(self.broker_folder, name) for name in ("ca.crt", "broker.crt")]

    def reload(self):
        for name in self.processes.keys() & set(self.SERVERS):
            self.processes[name].send_signal(signal.SIGHUP)

    def start_server(self, name):
        self.start_broker() if name == "broker" else self.start_front()

    def start_broker(self):
        self.run("broker", ["mosquitto", "-c", os.path.join(self.broker_folder, "mosquitto.conf")])

    def start_front(self):
        self.run("front", ["nginx", "-e", "stderr", "-p", self.broker_folder, "-c", os.path.join(self.broker_folder, "nginx.conf")])

    def settings(self, name):
        is_node = str(name).isdecimal()
        trusted = {} if self.tls == "none" else {"ca-file": os.path.join(self.broker_folder, "ca.crt")}
        named = {"grid-name": self.name} if self.name and not is_node else {}
        secret = os.path.join(self.broker_folder, "secret", self.in_words(name) if is_node else name)
        return {"broker": f"localhost:{self.port + (not is_node)}", **named, **trusted, "password-file": secret}

    def is_connected(self, number, told):
        return "connected to" in told

    def spent(self):
        """What broker, carriers and nodes took of the processors until now, in seconds."""
        front = [self.processes["front"].pid, *children_of(self.processes["front"].pid)] if "front" in self.processes else []
        return {"broker": spent(self.processes["broker"].pid), "front": sum(map(spent, front)), **super().spent()}


class Command(CarriedCommand):
    WAY, PORT, WANTS, CARRIER = "mqtt", 8883, ("mosquitto",), "carry-mqtt"
    PACKAGES = "mosquitto, libmosquitto-dev, python3-paho-mqtt, openssl, gcc, make, and for TLS that ends before the broker nginx-light and libnginx-mod-stream"
    CERTIFICATES = "the test authority and its certificate end"
    UP = "A broker and {} nodes with their carriers"

    def new_grid(self, asked, folder, carry, port):
        tls = asked.tls or ("front" if shutil.which("nginx") else "broker")
        return Grid(folder, os.path.abspath(asked.program), carry, tls, port)

    def setup_words(self, asked):
        return "--connections", "many", "--rate", asked.rate or "2m"

    def tenants(self, grid):
        return sorted(name for name in os.listdir(os.path.join(grid.broker_folder, "secret")) if name.isalpha())

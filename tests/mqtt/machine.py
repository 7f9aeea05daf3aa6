"""`./grid --over mqtt`, the command, and how long its test authority is trusted."""

import shutil
import subprocess

import grid_commands
from grid_commands import signed


class Machine(grid_commands.Machine):
    WAY, ENGINE, CARRIER = "mqtt", "broker", "carry-mqtt"
    CERTIFICATES = "the test authority and its certificate end"

    def __init__(self, program, tls):
        super().__init__(program)
        self.tls = tls

    def words(self):
        return *super().words(), "--tls", self.tls

    def renew(self):
        shutil.copy("grid/broker/ca.crt", "old.crt")
        words = ["req", "-new", "-key", "grid/broker/broker.key", "-subj", "/CN=localhost", "-out", "request"]
        subprocess.run(["openssl", *words], check=True, stderr=subprocess.DEVNULL)
        signed("grid/broker", "request", "localhost", "grid/broker/broker.crt")
        return "grid/broker/broker.crt"

    def old_words(self):
        return "--ca-file", "old.crt"


def told(program, tls):
    return grid_commands.told(Machine(program, tls))

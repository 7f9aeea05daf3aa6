"""Nodes of two grids on one machine by the words of the unit gridfs-carried@GRID-N, at one broker, where ann has one password."""

import os
import shutil
import subprocess

import machine_of_units
from gridfs_grid.mqtt import free_ports
from peers import DEPLOY


class Machine(machine_of_units.Machine):
    UNIT, CARRIER = os.path.join(DEPLOY, "gridfs-carried@.service"), "gridfs-carry"

    def set_up(self):
        self.broker, self.port = f"{self.folder}/etc/broker-folder", free_ports()
        words = ["--tls", "broker", "--test-authority", "--connections", "many", "--port", str(self.port), *(["--user", "root"] if os.getuid() == 0 else [])]
        plans = [f"{grid}={self.folder_of(grid)}/plan" for grid in machine_of_units.GRIDS]
        subprocess.run([os.path.join(DEPLOY, "setup"), *words, self.broker, *plans], check=True, capture_output=True)
        with open(f"{self.folder}/etc/broker", "w", encoding="ascii") as out:
            out.write(f"BROKER=localhost:{self.port}\n")
        for grid in machine_of_units.GRIDS:
            shutil.copy(f"{self.broker}/ca.crt", self.folder_of(grid))
            os.mkdir(f"{self.folder_of(grid)}/secret")
            for node in range(machine_of_units.NODES):
                shutil.copy(f"{self.broker}/secret/{grid}-{node}", f"{self.folder_of(grid)}/secret")
        self.run_unit("broker", ["mosquitto", "-c", f"{self.broker}/mosquitto.conf"])

    def settings(self, grid):
        return f"broker = localhost:{self.port + 1}\ngrid-name = {grid}\nca-file = {self.broker}/ca.crt\npassword-file = {self.broker}/secret/ann\n"


def told(program, carry):
    return machine_of_units.told(Machine(os.path.abspath("machine"), program, carry))

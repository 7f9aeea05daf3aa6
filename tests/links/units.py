"""Nodes of two grids on one machine by the words of the unit gridfs-linked@GRID-N: each grid has ports and an authority of its own."""

import os
import subprocess

import machine_of_units
from carrying import DEPLOY
from gridfs_grid.links import free_ports


class Machine(machine_of_units.Machine):
    UNIT, CARRIER = os.path.join(DEPLOY, "gridfs-linked@.service"), "gridfs-carry-links"

    def set_up(self):
        for grid in machine_of_units.GRIDS:
            place, port = self.folder_of(grid), free_ports(2 * machine_of_units.NODES)
            subprocess.run([os.path.join(DEPLOY, "setup"), "--local", str(port), place, f"{place}/plan"], check=True, capture_output=True)

    def settings(self, grid):
        place = self.folder_of(grid)
        return f"hosts = {place}/hosts\nca-file = {place}/ca.crt\ncertificate = {place}/secret/ann.crt\nkey = {place}/secret/ann.key\n"


def told(program, carry):
    return machine_of_units.told(Machine(os.path.abspath("machine"), program, carry))

"""The map of a fleet in memory, and each that there was before."""

import dataclasses

from gridfs_client.fleet_map import new_map


class Maps:
    def __init__(self, labels):
        self.map = dataclasses.replace(new_map("east", "-"), grids=dict.fromkeys(labels, "-"))
        self.maps = [self.map]

    def save(self, fleet_map):
        self.map = fleet_map
        self.maps.append(fleet_map)

    def change_map(self, change):
        self.save(change(self.map))
        return self.map

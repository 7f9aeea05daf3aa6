"""One client of a trial of fleets: random operations on a few names, by the map as it is or one from before, each written to a history when it begins and
when it has ended.

    fleet_client.py SETTINGS    a JSON value of the trial
"""

import contextlib
import json
import os
import random
import sys
import time

sys.dont_write_bytecode = True
HERE = os.path.dirname(os.path.abspath(__file__))
sys.path[:0] = [HERE, os.path.join(HERE, "..", "names")]
from fleets import planted
from noted import Noted

from gridfs_client.fleet_map import read_map
from gridfs_client.open_grids import OpenGrids
from gridfs_client.settings import Settings


def main():
    settings = json.loads(sys.argv[1])
    noted = Noted(f"{settings['folder']}/history{settings['number']}", f"{settings['number']}.{os.getpid()}")
    draw, maps = random.Random(), [read_map(settings["map"])]

    while time.monotonic() < settings["until"]:
        latest = read_map(settings["map"])
        if latest.text() != maps[-1].text():
            maps.append(latest)
        # (an older map whose grids are those of the last one: an operator brings new grids to all clients)
        chosen = maps[-1] if draw.random() < 0.5 else draw.choice(maps)
        if chosen.grids != latest.grids:
            chosen = latest
        grids = OpenGrids(chosen, Settings({"timeout": "60", "helpers": "1"}), draw.choice(settings["names"]))
        with contextlib.closing(grids):
            files = grids.files()
            for _ in range(draw.choice((1, 3, 8))):
                noted.serial += 1
                name, kind = draw.choice(settings["names"]), draw.choices(("put", "get", "remove", "names"), (4, 5, 2, 1))[0]
                status = noted.operate(files, kind, name, noted.content(draw, draw.choice(settings["sizes"])))
                if status is not None:
                    return status
    return 0


if __name__ == "__main__":
    bug = json.loads(sys.argv[1])["bug"]
    with planted(bug) if bug else contextlib.nullcontext():
        sys.exit(main())

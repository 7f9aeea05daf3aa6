"""How long to wait on a machine that does much else."""

import os


def longer(seconds):
    """So many seconds where cores are free, and more where the load is above one for each."""
    return seconds * max(1.0, os.getloadavg()[0] / (os.cpu_count() or 1))

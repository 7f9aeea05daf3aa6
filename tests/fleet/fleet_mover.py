"""The command gridfs-fleet, with chunks as short as those of the trial's clients: so what it copies has several.

    fleet_mover.py WORD..    as gridfs-fleet has them
"""

import os
import sys

sys.dont_write_bytecode = True
sys.path.insert(0, os.path.join(os.path.dirname(os.path.abspath(__file__)), "..", "chunks"))
from memory_with_chunks import SHORT

from gridfs_client.fleet_command import main
from gridfs_client.in_chunks import ChunkContents

if __name__ == "__main__":
    ChunkContents.most = SHORT
    sys.exit(main())

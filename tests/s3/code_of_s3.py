"""Where the code is that is tested: that of this repository, or a copy with a bug in it, by GRIDFS_S3_CODE."""

import os
import sys

sys.dont_write_bytecode = True
HERE = os.path.dirname(os.path.abspath(__file__))
TOP = os.path.join(HERE, "..", "..")
CODE = os.environ.get("GRIDFS_S3_CODE", os.path.join(TOP, "clients", "python"))
GATEWAY = os.path.join(CODE, "gridfs-s3")
CLIENT = os.path.join(TOP, "clients", "python")
sys.path[:0] = [CODE, CLIENT, *(os.path.join(HERE, "..", name) for name in ("names", "chunks"))]
import gridfs_s3  # noqa: E402, F401 (now, since other tests' modules put the folder of the repository's code first)

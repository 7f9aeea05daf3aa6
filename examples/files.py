#!/usr/bin/env python3
"""Names of a grid by a program: put, get, a part, a listing, and threads. `./grid store` has to run.

    PYTHONPATH=clients/python examples/files.py store/carol.ini
"""

import sys
import tempfile
from concurrent.futures import ThreadPoolExecutor
from pathlib import Path

import gridfs_client

with gridfs_client.open(sys.argv[1]) as files, tempfile.TemporaryDirectory() as folder:
    files.put("example/greeting", "hello")
    print(files.get("example/greeting").decode())

    long = Path(folder, "long")
    long.write_bytes(bytes(range(256)) * 10_000)
    print(files.put("example/long", long).size, "bytes")
    with files.open_reader("example/long", start=256, length=4) as part:
        print(list(part.read()))
    files.get_to("example/long", Path(folder, "copy"))
    print("the same" if Path(folder, "copy").read_bytes() == long.read_bytes() else "OTHERS")

    with ThreadPoolExecutor(4) as threads:  # (their calls wait for one another)
        list(threads.map(lambda number: files.put(f"example/{number}", str(number)), range(4)))
    print([(it.name, it.size) for it in files.names("example/")], all(it.time > 1.7e9 for it in files.names()))

    for it in files.names("example/"):
        files.remove(it.name)
    try:
        files.get("example/greeting")
    except gridfs_client.NoSuchName as fault:
        print(fault, fault.status)

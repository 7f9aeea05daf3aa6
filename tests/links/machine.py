"""`./grid --over links`, the command."""

import shutil
import subprocess

import grid_commands
from grid_commands import signed


class Machine(grid_commands.Machine):
    WAY, ENGINE, CARRIER = "links", "links", "carry-links"
    CERTIFICATES, PORTS = "its certificates end", 8

    def is_secret(self, name):
        return name.endswith(".key")

    def renew(self):
        """Of ann, who goes on with the one from before; and of node 0, which has to be told in its log."""
        for what in ("crt", "key"):
            shutil.copy(f"grid/links/secret/ann.{what}", f"old.{what}")
        for name, host in (("ann", "tenant-ann"), ("0", "node0")):
            words = ["req", "-new", "-key", f"grid/links/secret/{name}.key", "-subj", f"/CN={name}", "-out", "request"]
            subprocess.run(["openssl", *words], check=True, stderr=subprocess.DEVNULL)
            signed("grid/links", "request", host, f"grid/links/secret/{name}.crt")
        return "grid/links/secret/0.crt"

    def old_words(self):
        return "--certificate", "old.crt", "--key", "old.key"


def told(program):
    return grid_commands.told(Machine(program))

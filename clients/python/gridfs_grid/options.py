"""What a grid's folder remembers of its last start, so that a later one needs no words; and which folders are a grid's."""

import errno
import fnmatch
import os
import socket

from gridfs_grid.one_machine import NotStarted

FILE = "options"
OF_GRID = {"http": str, "tick": float, "port": int, "metrics": str, "grid": str, "tls": str, "rate": str}  # in the folder of the grid's own files
OF_S3 = {"listen": str, "gateways": int}  # in the folder `s3`
# What a start leaves, also one that failed; and what a file system has by itself.
OF_A_START = ("plan", "plan.new", "over", "begun", FILE, "socket", "node*.journal*", "log.*", "roll", "rolled", "*.ini", "links", "broker", "grid", "s3", "lost+found")


def kept_options(folder, kinds):
    """Those that are kept in a folder, of these kinds."""
    try:
        with open(os.path.join(folder, FILE), encoding="utf-8") as file:
            lines = [line.rstrip("\n").partition(" ")[::2] for line in file]
    except (FileNotFoundError, NotADirectoryError):
        return {}
    try:
        return {name: kinds[name](value) for name, value in lines if name in kinds}
    except ValueError:
        raise NotStarted(f"{os.path.join(folder, FILE)}: a line is no option and its value: remove the file, and say options again") from None


def keep_options(folder, asked, kinds):
    """Keeps those that were asked for."""
    values = {name: getattr(asked, name) for name in kinds}
    values = {name: os.path.abspath(value) if name == "metrics" else value for name, value in values.items() if value not in (None, "")}
    path = os.path.join(folder, FILE)
    with open(path + ".new", "w", encoding="utf-8") as out:
        out.write("".join(f"{name} {value}\n" for name, value in values.items()))
    os.replace(path + ".new", path)


def take_kept(asked, folder, kinds):
    """Takes those that were kept in place of others that are not named."""
    for name, value in kept_options(folder, kinds).items():
        if getattr(asked, name) is None:
            setattr(asked, name, value)


def expect_own_folder(folder, plan=None):
    """NotStarted where a folder has something in it and no grid: it is taken for another one's. (The plan of a first start may lie there.)"""
    if not os.path.isdir(folder) or any(os.path.exists(os.path.join(folder, *path)) for path in (("plan",), ("grid", "plan"))):
        return
    others = [name for name in sorted(os.listdir(folder)) if not any(fnmatch.fnmatch(name, known) for known in OF_A_START)]
    others = [name for name in others if not plan or not os.path.exists(plan) or not os.path.samefile(plan, os.path.join(folder, name))]
    if others:
        raise NotStarted(f"{folder} has no grid, and other things in it ({others[0]}{', ..' * (len(others) > 1)}): name a folder that is empty, or not there")


def expect_free(address, ports, option):
    """NotStarted where something listens at one of these ports."""
    for port in ports:
        try:
            family = socket.AF_INET6 if ":" in address else socket.AF_INET
            socket.create_server((address, port), family=family).close()
        except OSError as error:
            why = "is taken: another program listens there" if error.errno == errno.EADDRINUSE else f"can't be had: {error.strerror}"
            raise NotStarted(f"port {port} of {address} {why} (--{option} names another)") from None

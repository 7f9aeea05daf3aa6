"""Where the checkout has what a grid on one machine is made of."""

import os

TOP = os.path.realpath(os.path.join(os.path.dirname(os.path.abspath(__file__)), "..", "..", ".."))
CLIENT = os.path.join(TOP, "clients", "python", "gridfs-client")
PROGRAM = os.path.join(TOP, "gridfs")
PLAN = os.path.join(TOP, "examples", "nodes", "plan-in-chunks")  # of a first start, where none is named
S3_PLAN = os.path.join(TOP, "deploy", "s3", "plan")
WATCH = os.path.join(TOP, "clients", "python", "gridfs-watch")
GATEWAY = os.path.join(TOP, "clients", "python", "gridfs-s3")
CARRIERS = os.path.join(TOP, "deploy", "carrier")
COMMAND = os.path.join(TOP, "grid")


def folder_of_grid(folder, has_s3):
    """Where the grid's own files are: with S3 in front in FOLDER/grid, or in FOLDER itself, where a grid without S3 was there before."""
    return os.path.join(folder, "grid") if has_s3 and not os.path.exists(os.path.join(folder, "plan")) else folder


def folder_to_start(folder):
    """The folder by which `./grid` starts the grid whose files are in this one, as a person calls it: with S3 in front it may be the one above."""
    above, name = os.path.split(os.path.abspath(folder))
    return os.path.relpath(above if name == "grid" and os.path.isdir(os.path.join(above, "s3")) else folder)


def setup_of(way):
    """The program that makes the files of a way: certificates, or a broker's folder."""
    return os.path.join(TOP, "deploy", way, "setup")

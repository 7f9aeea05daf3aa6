"""The words of the command `gridfs-s3`, and what is wanted on the machine."""

import argparse
import importlib.util

EPILOG = """\
example:
  gridfs-s3 --config carol.ini --keys carol.keys --listen 127.0.0.1:9000

A line of the file of keys is: ACCESS SECRET [read] [bucket=NAME]... ACCESS is the tenant's name, or that and a word after a dot (carol.backup). A
key with `read` changes nothing, one with buckets sees these alone. A file with one word has the secret of the tenant's name. SIGHUP has it read
again. --config, and the environment, are as those of gridfs-client. The gateway takes each session that the settings name and no other client here
uses, for as long as it runs. SIGTERM ends it once what is under way has ended.

Gateways of the tenant on several machines tell one another what they changed, where their settings name them: `peers-listen = ADDRESS:PORT`, where
this one is asked, and `peers = ADDRESS:PORT ..`, where the others are. They show the tenant's certificate.

The status is 1 where it can't start, 2 where the words are no request.
"""
WANTED = {"aiohttp": "python3-aiohttp", "crcmod": "python3-crcmod", "botocore": "python3-botocore", "prometheus_client": "python3-prometheus-client"}


def parser(kind: type[argparse.ArgumentParser] = argparse.ArgumentParser) -> argparse.ArgumentParser:
    found = kind(
        prog="gridfs-s3", description="An endpoint of S3 in front of one tenant's files by name.", epilog=EPILOG,
        formatter_class=argparse.RawDescriptionHelpFormatter, allow_abbrev=False,
    )  # fmt: skip
    found.add_argument("--config", metavar="FILE", help="the file of settings, as for gridfs-client")
    found.add_argument("--map", metavar="FILE", help="a map of several grids (gridfs-fleet), in place of the settings of one")
    found.add_argument("--keys", metavar="FILE", help="the access keys with their secrets; others may not read it")
    found.add_argument("--listen", metavar="WHERE", default="127.0.0.1:9000", help="ADDRESS:PORT, or unix:PATH (127.0.0.1:9000)")
    found.add_argument("--index", metavar="FILE", help="keeps what pages say for the next start; else, and over several grids, that goes with the process")
    found.add_argument("--region", metavar="WORD", help="the only region of buckets (without it any is taken, and us-east-1 is told)")
    found.add_argument("--domain", metavar="NAME", help="BUCKET.NAME is a bucket's own host name")
    found.add_argument("--timeout", metavar="SECONDS", default=None, help="seconds to wait for a node's answer (20)")
    found.add_argument("--lifecycle", metavar="SECONDS", type=float, default=3600, help="seconds between looks for what has expired by the rules of its bucket (3600)")
    found.add_argument("--several", metavar="FILE", help="a gateway for each line of the file, which has its words, in processes that share the program's memory (docs/S3.md)")
    found.add_argument("--drain", metavar="SECONDS", type=float, default=30, help="seconds in which what is under way has to end after SIGTERM (30)")
    return found


def missing() -> list[str]:
    """The packages of Debian that are wanted and not there."""
    return [package for module, package in WANTED.items() if importlib.util.find_spec(module) is None]

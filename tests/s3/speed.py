"""How fast an endpoint is, beside the client's library at the same grid: puts and gets, by so many at once."""

import contextlib
import http.client
import multiprocessing
import os
import statistics
import sys
import time
from urllib.parse import urlsplit

sys.path.insert(0, os.path.dirname(os.path.abspath(__file__)))
import code_of_s3  # noqa: F401  (which says where the code is)

from botocore.auth import S3SigV4Auth
from botocore.awsrequest import AWSRequest
from botocore.credentials import Credentials
from gridfs_client import NamedFiles, Session, ask_plan, layout_of
from gridfs_client.settings import Settings

HELPERS = 7  # so that the library has the room of all sessions, as the endpoint has
LONG = 4 << 20  # bytes from which on several sessions move a content


class Endpoint:
    """One connection, which signs each request, and not what it sends."""

    def __init__(self, number, url, access, secret):
        self.number, self.url, self.credentials = number, url, Credentials(access, secret)
        address = urlsplit(url)
        self.connection = http.client.HTTPConnection(address.hostname, address.port, timeout=900)
        self.ask("PUT", "/speed")

    def ask(self, method, path, body=b""):
        request = AWSRequest(method, self.url + path, {"X-Amz-Content-SHA256": "UNSIGNED-PAYLOAD"})
        signer = S3SigV4Auth(self.credentials, "s3", "us-east-1")
        signer.payload = lambda _: "UNSIGNED-PAYLOAD"
        signer.add_auth(request)
        self.connection.request(method, path, body if method == "PUT" else None, dict(request.headers))
        told, length = self.connection.getresponse(), 0
        while data := told.read(1 << 20):
            length += len(data)
        return told.status, length

    def put(self, key, body):
        status, _ = self.ask("PUT", f"/speed/{key}", body)
        assert status == 200, status

    def get(self, key, size):
        assert self.ask("GET", f"/speed/{key}") == (200, size)


class Library:
    """One session, and for long contents some more."""

    def __init__(self, number, settings, sessions, helpers):
        found = Settings.gather({"config": settings}, {})
        carrier = found.carrier()
        told = ask_plan(carrier, found.pace())
        mine, *others = (Session(carrier, 1 + each % told.sessions, told.home_of(1 + each % told.sessions), found.pace()) for each in range(number, number + 1 + helpers))
        self.files = NamedFiles(mine, layout_of(told), helpers=lambda: others)

    def put(self, key, body):
        self.files.put(f"speed/{key}", body)

    def get(self, key, size):
        assert len(self.files.get(f"speed/{key}")[0]) == size


def work(kind, number, words, method, size, seconds, barrier, out):
    """What one of those at once does; the seconds of each."""
    try:
        it, body, times = kind(number, *words), os.urandom(size), []
        key = f"{size}-{number}"
        if method == "get":
            it.put(key, body)
        barrier.wait(600)
        begin_all = time.monotonic()
        while time.monotonic() < begin_all + seconds or not times:
            begin = time.monotonic()
            it.put(key, body) if method == "put" else it.get(key, size)
            times.append(time.monotonic() - begin)
        out.put((times, begin_all, time.monotonic()))
    except Exception as fault:
        with contextlib.suppress(Exception):
            barrier.abort()
        out.put(f"{type(fault).__name__}: {fault}")


def measured(kind, words, method, size, at_once, seconds):
    """Operations a second, MB/s, and the median in milliseconds; or what went wrong."""
    context = multiprocessing.get_context("fork")
    barrier, out = context.Barrier(at_once), context.Queue()
    processes = [context.Process(target=work, args=(kind, number, words, method, size, seconds, barrier, out)) for number in range(at_once)]
    for process in processes:
        process.start()
    found = [out.get() for _ in processes]
    for process in processes:
        process.join()
    if wrong := [each for each in found if isinstance(each, str)]:
        return wrong[0]
    times = [each for told, _, _ in found for each in told]
    wall = max(end for *_, end in found) - min(begin for _, begin, _ in found)
    return len(times) / wall, len(times) * size / wall / 1e6, statistics.median(times) * 1e3


def table(endpoint, library, sessions, sizes, seconds):
    """A line for each size, number at once and method: the endpoint, the library, and the ratio of both."""
    print(f"{'bytes':>9} {'at once':>7}      {'S3: a second':>12} {'MB/s':>7} {'median ms':>9}   {'library: a second':>17} {'MB/s':>7} {'median ms':>9}   ratio")
    wrong = []
    for size, at_once in sizes:
        for method in ("put", "get"):
            one = measured(Endpoint, endpoint, method, size, at_once, seconds)
            many = min(at_once, sessions)
            two = measured(Library, (library, sessions, HELPERS if size >= LONG else 0), method, size, many, seconds)
            wrong += [each for each in (one, two) if isinstance(each, str)]
            if isinstance(one, str) or isinstance(two, str):
                print(f"{size:>9} {at_once:>7} {method}  {one} {two}", flush=True)
                continue
            row = "   ".join(f"{a:>{width}.1f} {b:>7.2f} {c:>9.1f}" for (a, b, c), width in ((one, 12), (two, 17)))
            print(f"{size:>9} {at_once:>7} {method}  {row}   {one[0] / two[0]:.2f}", flush=True)
    return wrong

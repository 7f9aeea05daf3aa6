"""A page for a person's browser: the tenant's buckets, what is in them, the room, and the nodes of the grid. It has no script."""

import asyncio
import base64
import hmac
import time
from html import escape
from urllib.parse import quote, unquote

from aiohttp import web
from botocore.auth import S3SigV4QueryAuth
from botocore.awsrequest import AWSRequest
from botocore.credentials import Credentials
from gridfs_client.asking import ask_all
from gridfs_client.errors import Unanswered

from . import signing
from .errors import S3Error
from .gateway import Gateway
from .index import Names, Row
from .keys import Key
from .listing import Listings
from .places import BUCKETS, check_bucket
from .requests import Asked
from .sessions import Pool

GOOD_FOR = 900  # seconds of a link to an object
MOST = 500  # rows of a page
SHARE = 9  # times as long as it took to count all objects that is not done again
ANSWERS = 2.0  # seconds in which a node answers that is up
STYLE = """
body { font: 16px/1.5 system-ui, sans-serif; max-width: 60rem; margin: 2rem auto; padding: 0 1rem; color: #222; background: #fff }
table { border-collapse: collapse; width: 100% } th, td { text-align: left; padding: .3rem .6rem; border-bottom: 1px solid #ddd }
td.n, th.n { text-align: right; font-variant-numeric: tabular-nums; white-space: nowrap } th { font-weight: 600 }
td.k { word-break: break-all } a { color: #05c } p.q { color: #555 } meter { width: 12rem }
table.g { width: auto } table.g td { text-align: center; border: 1px solid #ddd } td.up { background: #dfd } td.down { background: #fdd; font-weight: 600 }
@media (prefers-color-scheme: dark) { body { background: #111; color: #ddd } a { color: #8bf } th, td, table.g td { border-color: #333 }
p.q { color: #aaa } td.up { background: #143 } td.down { background: #511 } }
"""
HEADERS = {
    "Content-Security-Policy": "default-src 'none'; style-src 'unsafe-inline'; base-uri 'none'; form-action 'none'; frame-ancestors 'none'",
    "Referrer-Policy": "no-referrer",
    "X-Content-Type-Options": "nosniff",
    "Cache-Control": "no-store",
}


def size_of(size: float) -> str:
    for unit in ("B", "KiB", "MiB"):
        if size < 1024:
            return f"{size:.0f} {unit}" if unit == "B" else f"{size:.1f} {unit}"
        size /= 1024
    return f"{size:.1f} GiB"


def time_of(ms: int) -> str:
    return time.strftime("%Y-%m-%d %H:%M:%S", time.gmtime(ms // 1000)) if ms else "–"


def table(head: str, rows: list[str], none: str) -> str:
    return f"<table><thead>{head}</thead><tbody>{''.join(rows)}</tbody></table>" if rows else f"<p>{none}</p>"


class Page:
    """The page of all buckets, and that of one."""

    def __init__(self, gateway: Gateway, listings: Listings):
        self.gateway, self.listings = gateway, listings
        self.counting, self.counted = asyncio.Lock(), list[tuple[str, tuple[int, int]]]()  # objects and bytes of each bucket
        self.good_until = 0.0

    def key_of(self, header: str) -> Key | None:
        """The key that the browser gave with its secret; None for a wrong one."""
        kind, _, word = header.partition(" ")
        try:
            name, _, secret = base64.b64decode(word, validate=True).decode().partition(":")
        except ValueError:
            return None
        key = self.gateway.keys.get(name)
        is_right = key is not None and hmac.compare_digest(key.secret.encode(), secret.encode())
        return key if kind.lower() == "basic" and is_right else None

    async def show(self, asked: Asked) -> web.Response:
        """200. 401 where the browser gives no access key with its secret; 404 NoSuchBucket, 405 MethodNotAllowed."""
        if asked.method not in ("GET", "HEAD"):
            raise S3Error("MethodNotAllowed")
        key = self.key_of(asked.headers.get("authorization", ""))
        if not key:
            asks = {"WWW-Authenticate": 'Basic realm="gridfs-s3", charset="UTF-8"', **HEADERS}
            return web.Response(status=401, text="An access key and its secret are required.\n", headers=asks)
        bucket = unquote(asked.path[2:].strip("/"))
        if "host" not in asked.headers:
            raise S3Error("InvalidRequest", "The header Host is wanted.")
        if not all(signing.is_utf8(word) for pair in asked.pairs for word in pair):
            raise S3Error("InvalidArgument", "A parameter is not UTF-8.")
        body = await (self.bucket(asked, bucket, key) if bucket else self.all(key))
        text = (
            f'<!doctype html>\n<html lang="en"><head><meta charset="utf-8"><meta name="viewport" content="width=device-width, initial-scale=1">'
            f"<title>{escape(bucket or self.gateway.tenant)}</title><style>{STYLE}</style></head><body>{body}</body></html>\n"
        )
        return web.Response(text=text, content_type="text/html", charset="utf-8", headers=HEADERS)

    async def totals(self) -> list[tuple[str, tuple[int, int]]]:
        """The objects of each bucket and their bytes. All are counted, so it is done for several views, and takes a tenth of the time at most."""

        def look(names: Names) -> list[tuple[str, tuple[int, int]]]:
            buckets = [row.name[len(BUCKETS) :] for row in names.names(BUCKETS)]
            return [(name, names.total(f"{name}/")) for name in buckets]

        async with self.counting:
            if (begun := time.monotonic()) > self.good_until:
                self.counted = await self.gateway.listing(look)
                self.good_until = time.monotonic() + SHARE * (time.monotonic() - begun)
            return self.counted

    async def all(self, key: Key) -> str:
        found: list[tuple[str, tuple[int, int]]] = []
        silent, rows = "", list[str]()
        try:
            found = await self.totals()
        except Unanswered as fault:
            silent = f"<p>Names are not told: {escape(str(fault))}.</p>"
        for name, (count, size) in found:
            if not key.sees(name):
                continue
            link = f'<a href="/-/{quote(name)}/">{escape(name)}</a>'
            rows.append(f'<tr><td class="k">{link}</td><td class="n">{count}</td><td class="n">{size_of(size)}</td></tr>')
        buckets = silent or table('<tr><th>Bucket</th><th class="n">Objects</th><th class="n">Size</th></tr>', rows, "There are no buckets.")
        pools = list(self.gateway.grids.pools.values())
        used, left = map(sum, zip(*(pool.in_chunks for pool in pools)))
        room = f'<p>Room: <meter max="{used + left or 1}" value="{used}"></meter> {size_of(used)} used, {size_of(left)} left.</p>'
        nodes = [f"<h2>{escape(f'Nodes of {pool.grid}' if pool.grid else 'Nodes')}</h2>{await self.nodes(pool)}" for pool in pools]
        return f"<h1>{escape(self.gateway.tenant)}</h1>{room}{buckets}{''.join(nodes)}"

    async def nodes(self, pool: Pool) -> str:
        """The nodes of a grid in their rows and columns, with those that don't answer."""
        nodes = None
        if pool.carrier:
            async with pool.asking:
                nodes = await pool.loop.run_in_executor(pool.threads, ask_all, pool.carrier, ANSWERS, pool.settings.shape())
        if nodes is None:
            return "<p>The grid does not answer.</p>"
        if (shape := nodes.shape) is None:
            return f"<p>{escape(nodes.summary())}.</p>"
        cells = [
            [(nodes.told.node_at(place), place not in nodes.silent_places) for place in shape.row(row)]
            for row in range(shape.rows)
        ]  # fmt: skip
        rows = [
            "<tr>" + "".join(f'<td class="{"up" if is_up else "down"}">{node}{"" if is_up else " is silent"}</td>' for node, is_up in row) + "</tr>"
            for row in cells
        ]
        return f'<table class="g"><tbody>{"".join(rows)}</tbody></table><p class="q">{escape(nodes.summary())}.</p>'

    async def bucket(self, asked: Asked, bucket: str, key: Key) -> str:
        check_bucket(bucket)
        key.expect(bucket, is_change=False)
        await self.gateway.need_bucket(bucket)
        prefix = asked.query.get("prefix", "")
        cut = await self.listings.objects(bucket, prefix, "/", asked.query.get("after", ""), MOST)
        rows = [(group, self.folder_row(group, prefix)) for group in cut.groups]
        rows += [(each.key, self.object_row(asked, bucket, each, prefix, key)) for each in cut.rows]
        shown = [row for _, row in sorted(rows)]
        way = [f'<a href="/-/{quote(bucket)}/">{escape(bucket)}</a>']
        parts = prefix.split("/")[:-1]
        for number, part in enumerate(parts, 1):
            way.append(f'<a href="?prefix={quote("/".join(parts[:number]) + "/", safe="")}">{escape(part)}</a>')
        found = table('<tr><th>Name</th><th class="n">Size</th><th>Put at (UTC)</th></tr>', shown, "There is nothing here.")
        more = f'<p><a href="?prefix={quote(prefix, safe="")}&amp;after={quote(cut.last, safe="")}">more</a></p>' if cut.is_cut else ""
        note = f'<p class="q">Links to objects are good for {GOOD_FOR // 60} minutes.</p>'
        return f'<p><a href="/-/">{escape(self.gateway.tenant)}</a></p><h1>{" / ".join(way)}</h1>{found}{more}{note}'

    def folder_row(self, group: str, prefix: str) -> str:
        link = f'<a href="?prefix={quote(group, safe="")}">{escape(group[len(prefix) :])}</a>'
        return f'<tr><td class="k">{link}</td><td class="n"></td><td></td></tr>'

    def object_row(self, asked: Asked, bucket: str, found: Row, prefix: str, key: Key) -> str:
        shown = escape(found.key[len(prefix) :]) or "(the folder itself)"
        link = f'<a href="{escape(self.link(asked, bucket, found, key))}">{shown}</a>'
        return f'<tr><td class="k">{link}</td><td class="n">{size_of(found.size)}</td><td>{time_of(found.time)}</td></tr>'

    def link(self, asked: Asked, bucket: str, found: Row, key: Key) -> str:
        """A signed URL of an object at this host, which is kept as a file: shown here, what is in it could do what this page may."""
        host = asked.headers.get("host", "")
        signer = S3SigV4QueryAuth(Credentials(key.access, key.secret), "s3", self.gateway.region, expires=GOOD_FOR)
        request = AWSRequest("GET", f"http://{host}/{bucket}/{quote(found.key, safe='/-_.~')}?response-content-disposition=attachment")
        signer.add_auth(request)
        return str(request.url).partition(host)[2]

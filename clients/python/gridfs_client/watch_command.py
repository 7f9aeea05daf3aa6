"""The command `gridfs-watch`: how a grid is, at an address, as a page for a browser and as metrics for Prometheus.

    gridfs-watch [--listen ADDRESS:PORT] [--metrics FOLDER].. SETTINGS..

SETTINGS are files of settings of tenants, as gridfs-client takes them, or folders of such: ./grid writes FOLDER/NAME.ini. / is the page: the nodes in rows and columns, which are silent, the
room of each tenant, and what there is to do. /metrics has these, and all files *.prom of the folders of --metrics that are not older than three minutes. Whoever reaches the address sees
it: by itself it is at this machine alone (127.0.0.1:8869). The status is 1 where it can't listen, and 2 where the words are no request.
"""

import argparse
import re
import sys
import time
from collections.abc import Iterable, Iterator
from html import escape
from http.server import BaseHTTPRequestHandler, ThreadingHTTPServer
from pathlib import Path

from .grid import Nodes
from .progress import bytes_in_words
from .watching import Seen, TenantSeen, Watch

LISTEN = "127.0.0.1:8869"
STALE = 180.0  # seconds after which a file of metrics is of a carrier that has ended
NAME = re.compile(r"(?:# (?:HELP|TYPE) )?([a-zA-Z_:][a-zA-Z0-9_:]*)")
STYLE = """body { font: 15px sans-serif; margin: 2em; max-width: 60em } table { border-collapse: collapse; margin: 1em 0 } td, th { border: 1px solid #bbb; padding: .4em .8em; text-align: left }
.up { background: #dfd } .silent { background: #fcc; font-weight: bold } .nearly { background: #fea } h1 { font-size: 1.3em } h2 { font-size: 1.1em }"""


# Metrics


def families(texts: Iterable[str]) -> Iterator[str]:
    """The lines of several texts of metrics, those of each name together, as Prometheus wants them."""
    found = dict[str, dict[str, None]]()
    for text in texts:
        for line in text.splitlines():
            if name := NAME.match(line):
                found.setdefault(name[1], {})[line] = None
    for lines in found.values():
        yield from sorted(lines, key=lambda line: not line.startswith("#"))


def own_metrics(seen: Seen) -> Iterator[str]:
    """What is seen of nodes and tenants."""
    nodes = seen.nodes
    yield "# HELP gridfs_watch_node_answers 1 where the node answers a tenant.\n# TYPE gridfs_watch_node_answers gauge"
    for node in nodes_of(nodes):
        yield f'gridfs_watch_node_answers{{node="{node}"}} {int(nodes is not None and node not in nodes.silent)}'
    yield f"# HELP gridfs_watch_goes_on 1 while a row and a column are wholly up.\n# TYPE gridfs_watch_goes_on gauge\ngridfs_watch_goes_on {int(bool(nodes and nodes.goes_on()))}"
    yield "# HELP gridfs_watch_tenant_is_out 1 where no home of the tenant's sessions answers.\n# TYPE gridfs_watch_tenant_is_out gauge"
    for tenant in seen.tenants:
        yield f'gridfs_watch_tenant_is_out{{tenant="{tenant.name}"}} {int(tenant.is_out or tenant.nodes is None)}'
    yield "# HELP gridfs_watch_chunk_bytes Bytes of chunks of a tenant at the fullest node of a column: used, and allowed.\n# TYPE gridfs_watch_chunk_bytes gauge"
    for tenant in seen.tenants:
        for column in tenant.columns:
            for state, count in (("used", column.used), ("allowed", column.allowed)):
                yield f'gridfs_watch_chunk_bytes{{tenant="{tenant.name}",column="{column.number}",state="{state}"}} {count}'


def nodes_of(nodes: Nodes | None) -> list[int]:
    return [nodes.told.node_at(place) for place in range(nodes.told.nodes)] if nodes else []


def kept_metrics(folders: Iterable[Path], now: float) -> list[str]:
    """The files of carriers that run."""
    found = []
    for path in sorted(path for folder in folders for path in folder.glob("*.prom")):
        try:
            if now - path.stat().st_mtime < STALE:
                found.append(path.read_text(encoding="utf-8"))
        except (OSError, UnicodeDecodeError):
            continue  # (it is being replaced, or another program's)
    return found


# The page


def page(seen: Seen) -> str:
    nodes, advice = seen.nodes, seen.advice()
    state = "No node answers" if nodes is None else nodes.summary().capitalize()
    parts = [
        f"<h1>{escape(state)}</h1>",
        "<h2>What to do</h2>",
        f"<ul>{''.join(f'<li>{escape(line)}</li>' for line in advice)}</ul>" if advice else "<p>Nothing.</p>",
        *([picture(nodes)] if nodes else []),
        "<h2>Room by tenant</h2>",
        "<table><tr><th>tenant</th><th>column</th><th>used</th><th>allowed</th><th>percent</th></tr>",
        *(row for tenant in seen.tenants for row in rows_of(tenant)),
        "</table>",
        f"<p>Seen {time.strftime('%Y-%m-%d %H:%M:%S', time.localtime(seen.at))}, and again each ten seconds. <a href='metrics'>Metrics</a></p>",
    ]
    return f"<!DOCTYPE html><html lang='en'><head><meta charset='utf-8'><meta http-equiv='refresh' content='10'><title>gridfs: {escape(state)}</title><style>{STYLE}</style></head><body>{''.join(parts)}</body></html>"


def picture(nodes: Nodes) -> str:
    """The nodes in their rows and columns."""
    shape = nodes.shape
    if shape is None:
        return ""
    up_rows, up_columns = shape.rows_up(nodes.silent_places), shape.columns_up(nodes.silent_places)
    heads = "".join(f"<th>column {number}{'' if number in up_columns else ' (not wholly up)'}</th>" for number in range(shape.columns))
    lines = [f"<tr><td></td>{heads}</tr>"]
    for row in range(shape.rows):
        cells = "".join(cell(nodes, nodes.told.node_at(place)) for place in shape.row(row))
        lines.append(f"<tr><th>row {row}{'' if row in up_rows else ' (not wholly up)'}</th>{cells}</tr>")
    return f"<h2>Nodes</h2><table>{''.join(lines)}</table>"


def cell(nodes: Nodes, node: int) -> str:
    is_silent = node in nodes.silent
    return f"<td class='{'silent' if is_silent else 'up'}'>node {node}{': silent' if is_silent else ''}</td>"


def rows_of(tenant: TenantSeen) -> Iterator[str]:
    if not tenant.columns:
        yield f"<tr><td>{escape(tenant.name)}</td><td colspan='4'>{escape(tenant.why or 'no room for chunks is told')}</td></tr>"
    for column in tenant.columns:
        shade = " class='nearly'" if column.part >= 0.9 else ""
        yield f"<tr{shade}><td>{escape(tenant.name)}</td><td>{column.number}</td><td>{bytes_in_words(column.used)}</td><td>{bytes_in_words(column.allowed)}</td><td>{100 * column.part:.0f}</td></tr>"


# The command


def handler_of(watch: Watch, folders: list[Path]) -> type[BaseHTTPRequestHandler]:
    class Handler(BaseHTTPRequestHandler):
        timeout = 30  # seconds for a request's words

        def do_GET(self) -> None:
            place = self.path.partition("?")[0]
            if place == "/":
                self.tell("text/html; charset=utf-8", page(watch.look()))
            elif place == "/metrics":
                texts = ["\n".join(own_metrics(watch.look())), *kept_metrics(folders, time.time())]
                self.tell("text/plain; version=0.0.4; charset=utf-8", "".join(f"{line}\n" for line in families(texts)))
            else:
                self.send_error(404)

        def tell(self, kind: str, text: str) -> None:
            content = text.encode()
            self.send_response(200)
            for name, value in (("Content-Type", kind), ("Content-Length", str(len(content))), ("Cache-Control", "no-store"), ("Content-Security-Policy", "default-src 'none'; style-src 'unsafe-inline'")):
                self.send_header(name, value)
            self.end_headers()
            self.wfile.write(content)

        def log_message(self, *_: object) -> None:
            pass

    return Handler


def main(words: list[str] | None = None) -> int:
    parser = argparse.ArgumentParser(prog="gridfs-watch", description=__doc__, formatter_class=argparse.RawDescriptionHelpFormatter, allow_abbrev=False)
    parser.add_argument("--listen", default=LISTEN, metavar="ADDRESS:PORT")
    parser.add_argument("--metrics", action="append", default=[], metavar="FOLDER", type=Path)
    parser.add_argument("settings", nargs="+", metavar="SETTINGS", type=Path)
    asked = parser.parse_args(words)
    address, _, port = asked.listen.rpartition(":")
    if not address or not port.isdecimal() or int(port) > 65_535:
        parser.error(f"--listen {asked.listen}: no ADDRESS:PORT")
    try:
        server = ThreadingHTTPServer((address, int(port)), handler_of(Watch(asked.settings), asked.metrics))
    except OSError as fault:
        print(f"gridfs-watch: {asked.listen}: {fault.strerror}", file=sys.stderr)
        return 1
    print(f"gridfs-watch: http://{address}:{server.server_port}/ is the page, http://{address}:{server.server_port}/metrics the metrics", file=sys.stderr, flush=True)
    try:
        server.serve_forever()
    except KeyboardInterrupt:
        pass
    return 0

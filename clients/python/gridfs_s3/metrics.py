"""What is counted, for Prometheus."""

from prometheus_client import CollectorRegistry, Counter, Gauge, Histogram, generate_latest

from .clocks import Clock
from .grids import Grids
from .sessions import Pool

KIND = "text/plain; version=0.0.4; charset=utf-8"
TENANT = ["tenant"]
TIMES = (0.002, 0.005, 0.01, 0.02, 0.05, 0.1, 0.2, 0.5, 1, 2, 5, 10, 30, 60, 300)
registry = CollectorRegistry()
requests = Counter("gridfs_s3_requests", "Requests that were answered", ["tenant", "operation", "status"], registry=registry)
faults = Counter("gridfs_s3_faults", "Requests that were told an error, by its code", ["tenant", "code"], registry=registry)
seconds = Histogram("gridfs_s3_request_seconds", "From a request's head to the end of its answer", ["tenant", "operation"], registry=registry, buckets=TIMES)
waits = Histogram("gridfs_s3_wait_seconds", "Until a request had a session", TENANT, registry=registry, buckets=(0.001, 0.01, 0.1, 1, 10, 60))
taken = Counter("gridfs_s3_received_bytes", "Bytes of contents that were put", TENANT, registry=registry)
given = Counter("gridfs_s3_sent_bytes", "Bytes of contents that were got", TENANT, registry=registry)
expired = Counter("gridfs_s3_expired", "Objects and uploads that went by the lifecycle of their bucket", ["tenant", "what"], registry=registry)
chunks = Gauge("gridfs_s3_chunk_bytes", "Bytes of chunks at all columns, as nodes told them some seconds ago", ["tenant", "state", "grid"], registry=registry)
pages = Gauge("gridfs_s3_fullest_page_ratio", "How full the fullest page is that is known: at 1 a put is refused", ["tenant", "grid"], registry=registry)
sessions = Gauge("gridfs_s3_sessions", "Sessions: all, busy, or with a home that is silent", ["tenant", "state", "grid"], registry=registry)
others = Gauge("gridfs_s3_peers", "Gateways of the tenant that are asked at addresses: all, or those that told nothing when they were asked last", ["tenant", "state", "grid"], registry=registry)
skew = Gauge("gridfs_s3_refused_clock_seconds", "By how much the clock of the last client was ahead that was refused for its time", TENANT, registry=registry)
clocks = Gauge("gridfs_s3_clock_ahead_seconds", "By how much this machine's clock is ahead of a node's, as that told it last", ["tenant", "grid", "node"], registry=registry)
doubts = Gauge("gridfs_s3_age_doubted", "1 while nothing expires, since age can't be told by this machine's clock", TENANT, registry=registry)
waiting = Gauge("gridfs_s3_waiting", "Requests that wait for a session", ["tenant", "grid"], registry=registry)


def fullest(pool: Pool) -> float:
    """How full the fullest page is, or was, of those that are known."""
    return pool.shared.index.fullest / pool.layout.contents_room if pool.is_open else 0


def text(tenant: str, grids: Grids, clock: Clock) -> bytes:
    """All that is counted, in Prometheus' form."""
    doubts.labels(tenant).set(clock.doubt() is not None)
    clocks.clear()
    for grid, pool in grids.pools.items():
        for node, ahead in pool.clocks().items():
            clocks.labels(tenant, grid, str(node)).set(round(-ahead))
        used, left = pool.in_chunks
        chunks.labels(tenant, "used", grid).set(used)
        chunks.labels(tenant, "left", grid).set(left)
        pages.labels(tenant, grid).set(fullest(pool))
        workers = pool.workers.values()
        sessions.labels(tenant, "busy", grid).set(sum(worker.is_busy for worker in workers))
        sessions.labels(tenant, "silent", grid).set(sum(worker.is_silent for worker in workers))
        sessions.labels(tenant, "lent", grid).set(sum(worker.is_lent for worker in workers))
        sessions.labels(tenant, "all", grid).set(len(workers))
        others.labels(tenant, "silent", grid).set(len(pool.all_pages.remote.silent))
        others.labels(tenant, "all", grid).set(len(pool.all_pages.remote.others))
        waiting.labels(tenant, grid).set(len(pool.waiting))
    return generate_latest(registry)

"""Programs that keep what is theirs in S3: MariaDB's engine of tables, and backups of PostgreSQL by pgBackRest.

They are those of this machine, or of the system in the folder that DEBIAN_13 names. What they need is made in a folder
of its own, and ended.
"""

import asyncio
import contextlib
import glob
import os
import shutil
import ssl
import subprocess
import tempfile
import threading
import time
from pathlib import Path

ROWS, STARTED = 20_000, 120  # of a table; seconds until a server answers
ENGINE = "/usr/lib/mysql/plugin/ha_s3.so"
INITDB = "/usr/lib/postgresql/*/bin/initdb"


class Place:
    """A folder of the system by which programs run."""

    def __init__(self, stack):
        self.root = os.environ.get("DEBIAN_13", "")
        self.outside = Path(tempfile.mkdtemp(prefix="gridfs-", dir=f"{self.root}/tmp"))
        stack.callback(shutil.rmtree, self.outside, ignore_errors=True)
        self.inside = Path("/tmp") / self.outside.name
        os.chmod(self.outside, 0o777)

    def words(self, words, user=None):
        chosen = ["setpriv", f"--reuid={user}", f"--regid={user}", "--clear-groups"] if user else []
        return [*(["chroot", self.root] if self.root else []), *chosen, *map(str, words)]

    def run(self, *words, user=None, told=""):
        done = subprocess.run(self.words(words, user), input=told, capture_output=True, text=True)
        if done.returncode:
            what = " ".join(map(str, words))[:200]
            raise RuntimeError(f"{what}: status {done.returncode}: {(done.stdout + done.stderr)[-1_500:]}")
        return done.stdout

    @contextlib.contextmanager
    def serving(self, *words, user=None):
        with open(self.outside / "log", "ab") as log:
            process = subprocess.Popen(self.words(words, user), stdin=subprocess.DEVNULL, stdout=log, stderr=log)
        try:
            yield process
        finally:
            process.terminate()
            process.wait()


def wanted(*paths):
    """Those of these that are not there."""
    return [path for path in paths if not glob.glob(os.environ.get("DEBIAN_13", "") + path)]


def mariadb(it, part, room):
    """A table goes to S3, is read there, has a column more, and comes back."""
    it.client().create_bucket(Bucket="tables")
    with contextlib.ExitStack() as stack:
        place, port = Place(stack), it.host.rpartition(":")[2]
        data, socket, user = place.inside / "data", place.inside / "socket", ["--no-defaults", "--user=root"]
        place.run("mariadb-install-db", *user, f"--datadir={data}", "--auth-root-authentication-method=normal")
        said = {"host-name": "127.0.0.1", "port": port, "use-http": "ON", "bucket": "tables", "region": "us-east-1"}
        said |= {"access-key": "carol", "secret-key": it.secret()}
        engine = ["--plugin-maturity=alpha", "--plugin-load-add=ha_s3", "--s3=ON"]
        engine += [f"--s3-{name}={value}" for name, value in said.items()]
        server = ["mariadbd", *user, f"--datadir={data}", f"--socket={socket}", "--skip-networking", *engine]
        stack.enter_context(place.serving(*server))

        def sql(text):
            words = ["--no-defaults", f"--socket={socket}", "--batch", "--skip-column-names"]
            return place.run("mariadb", *words, told=text).strip()

        until = time.monotonic() + STARTED
        while True:
            try:
                sql("select 1")
                break
            except RuntimeError:
                if time.monotonic() > until:
                    raise RuntimeError((place.outside / "log").read_text(errors="replace")[-1_500:]) from None
                time.sleep(0.5)
        judged = "select count(*), sum(crc32(concat(a, b))), max(length(b)) from d.t;"
        sql("create database d; create table d.t (a int primary key, b varchar(500)) engine=aria;")
        sql(f"use d; insert into d.t select seq, repeat(md5(seq), 1 + seq % 15) from seq_1_to_{ROWS};")
        before = sql(judged)
        steps = {
            "in S3": "alter table d.t engine=s3;",
            "with a column more": "alter table d.t add column c int default 7;",
            "another name": "rename table d.t to d.u; rename table d.u to d.t;",
            "back": "alter table d.t engine=aria;",
        }
        wrong = []
        for what, step in steps.items():
            sql(step)
            if (found := sql("flush tables; " + judged)) != before:
                wrong.append(f"{what}: {found}, and not {before}")
        sql("alter table d.t engine=s3; drop table d.t;")
        left = it.client().list_objects_v2(Bucket="tables").get("Contents", [])
        told = f"{len(steps)} steps of {ROWS} rows, {len(wrong)} wrong, {len(left)} objects left"
        print(f"MariaDB {sql('select version()')}: {told}", flush=True)
        return wrong + [f"a table that was dropped is there: {left[:3]}"] * bool(left)


class Tls:
    """TLS before the endpoint, as pgBackRest wants it: bytes as they come, both ways."""

    def __init__(self, to, folder):
        words = ["-x509", "-newkey", "rsa:2048", "-nodes", "-subj", "/CN=127.0.0.1", "-days", "2"]
        files = ["-keyout", f"{folder}/key", "-out", f"{folder}/crt"]
        subprocess.run(["openssl", "req", *words, *files], check=True, capture_output=True)
        self.context = ssl.SSLContext(ssl.PROTOCOL_TLS_SERVER)
        self.context.load_cert_chain(f"{folder}/crt", f"{folder}/key")
        self.to, self.is_up = to, threading.Event()
        threading.Thread(target=lambda: asyncio.run(self.serve()), daemon=True).start()
        self.is_up.wait(STARTED)

    async def serve(self):
        server = await asyncio.start_server(self.joined, "127.0.0.1", 0, ssl=self.context)
        self.port = server.sockets[0].getsockname()[1]
        self.is_up.set()
        await asyncio.Event().wait()

    async def joined(self, reader, writer):
        there = await asyncio.open_connection(*self.to)
        await asyncio.gather(passed(reader, there[1]), passed(there[0], writer), return_exceptions=True)


async def passed(reader, writer):
    try:
        while data := await reader.read(1 << 16):
            writer.write(data)
            await writer.drain()
    finally:
        writer.close()


def pgbackrest(it, part, room):
    """A full backup, an incremental one, and what comes back of both."""
    it.client().create_bucket(Bucket="backups")
    host, port = it.host.split(":")
    with contextlib.ExitStack() as stack:
        place = Place(stack)
        binaries = os.path.dirname(sorted(glob.glob(place.root + INITDB))[-1]).removeprefix(place.root)
        user = place.run("id", "-u", "postgres").strip()
        tls = Tls((host, int(port)), room)
        data, config, again = place.inside / "data", place.inside / "pgbackrest.conf", place.inside / "again"
        repository = {"type": "s3", "path": "/repository", "storage-verify-tls": "n"}
        s3 = {"endpoint": f"127.0.0.1:{tls.port}", "uri-style": "path", "bucket": "backups", "region": "us-east-1"}
        s3 |= {"key": "carol", "key-secret": it.secret()}
        repository |= {f"s3-{name}": value for name, value in s3.items()}
        lines = ["[global]", *(f"repo1-{name}={value}" for name, value in repository.items()), "start-fast=y", "archive-timeout=900"]
        lines += [f"{name}-path={place.inside}" for name in ("lock", "log", "spool")]
        lines += ["[demo]", f"pg1-path={data}", f"pg1-socket-path={place.inside}"]
        (place.outside / "pgbackrest.conf").write_text("\n".join(lines) + "\n")
        by = lambda *words, told="": place.run(*words, user=user, told=told)
        backrest = lambda *words: by("pgbackrest", f"--config={config}", "--stanza=demo", *words)
        sql = lambda text: by("psql", "-qAt", "-h", place.inside, "postgres", told=text).strip()

        def stop(where):
            words = place.words([f"{binaries}/pg_ctl", "-D", where, "-m", "immediate", "stop"], user)
            subprocess.run(words, capture_output=True)

        server = lambda where, word: by(f"{binaries}/pg_ctl", "-D", where, "-w", "-l", place.inside / "log.pg", word)
        by(f"{binaries}/initdb", "-D", data, "-A", "trust")
        said = ["archive_mode=on", "listen_addresses=''", f"unix_socket_directories='{place.inside}'"]
        said += [f"archive_command='pgbackrest --config={config} --stanza=demo archive-push %p'"]
        with open(place.outside / "data" / "postgresql.conf", "a") as out:
            out.write("\n".join(said) + "\n")
        server(data, "start")
        stack.callback(stop, data)
        backrest("stanza-create")
        sql(f"create table t as select n, md5(n::text) as m from generate_series(1, {ROWS}) n")
        backrest("--type=full", "backup")
        sql(f"insert into t select n, md5(n::text) from generate_series({ROWS} + 1, 2 * {ROWS}) n")
        backrest("--type=incr", "backup")
        judged = "select count(*), md5(string_agg(m, '' order by n)) from t"
        before = sql(judged)
        sql("select pg_switch_wal()")
        backrest("check")
        backrest("verify")
        server(data, "stop")
        by("pgbackrest", f"--config={config}", "--stanza=demo", f"--pg1-path={again}", "--archive-mode=off", "restore")
        server(again, "start")
        stack.callback(stop, again)
        after = sql(judged)
        told = "the same" if after == before else "other rows"
        version = by("pgbackrest", "version").strip()
        print(f"{version}: two backups of {2 * ROWS} rows; what came back is {told}", flush=True)
        return [] if after == before else [f"{after}, and not {before}"]

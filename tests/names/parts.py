"""What tests/names tries: each call gives what was counted, and what is wrong."""

import collections
import io
import os
import shutil
import signal
import subprocess
import sys
import time
import unittest

from histories import HERE

sys.path[:0] = [os.path.join(HERE, "..", "nodes"), os.path.join(HERE, "..")]
os.environ["PATH"] += ":/usr/sbin"  # (where Debian has mosquitto and nginx)
import beside
import commands
import growing
import looking
import outages
import planted
import recipes
import registers
import rolls
import splitting
import states
import trial
import way_back
import with_room
import worlds
from installed import missing
from processes import interrupt, room, workers

from gridfs_client import ClientError

TOP = os.path.join(HERE, "..", "..")
DEPLOY, PACKAGE = os.path.join(TOP, "deploy", "mqtt"), os.path.join(TOP, "clients", "python")
LONG, MOST_MEMORY = 100, 84  # MiB of a content, and of a process that moves it and plays the nodes too
ATTEMPTS, LEAST_OPERATIONS, MOST_OPERATIONS = 10, 50, 2_000  # of trials over nodes; a bug has to be found within the most
GROUPS = {"broker": "broker", "package": "checkers"}  # of tests/packages, which these parts want
SHAPES = ("MIXED", "REMOVING", "DYING", "SWEEPING", "UNSURE", "LOOKING", "SPLITTING", "DIVIDED")
LISTED = ("LISTING", "MIXED", "UNSURE", "SPLITTING")  # with listings that skim pages


def steps():
    loader, told = unittest.TestLoader(), io.StringIO()
    suite = loader.loadTestsFromNames(["test_core", "test_parts", "test_sessions", "test_names", "test_skimming", "test_side_by_side", "test_door", "test_splits", "test_looks", "test_status", "test_mirror", "test_progress", "test_watch", "test_journals", "test_grid"])
    result = unittest.TextTestRunner(told, verbosity=0).run(suite)
    return f"{result.testsRun} tests", [f"{test}: {text.splitlines()[-1]}" for test, text in result.failures + result.errors]


def random_histories(shape, first, count, kind=registers.NamedFiles):
    total, wrong = {}, []
    for seed in range(first, first + count):
        try:
            history, world = registers.try_registers(seed, kind, shape=getattr(registers, shape))
        except ClientError as fault:
            wrong.append(f"seed {seed} of {shape}: {type(fault).__name__}: {fault}")
            continue
        for what, number in {"operations": sum(history.counts.values()), "clients killed": world.killed}.items():
            total[what] = total.get(what, 0) + number
        for name in sum(history.wrong(), []):
            wrong.append(f"seed {seed} of {shape}: no order of {name} was found")
    return f"{count} seeds of {shape}{', listings that skim' * (kind is registers.Skims)}: {told_of(total)}", wrong


def skimmed_histories(shape, first, count):
    return random_histories(shape, first, count, registers.Skims)


def told_of(counts):
    return ", ".join(f"{number} {what}" for what, number in counts.items())


def memory():
    words = [sys.executable, "-B", os.path.join(HERE, "long_contents.py"), str(LONG)]
    used = int(subprocess.run(words, stdout=subprocess.PIPE, check=True).stdout) // 1024
    return f"{LONG} MiB put twice and got: {used} MiB of memory, nodes in the same process", ["too much memory"] if used > MOST_MEMORY else []


def bugs():
    """Each bug is found by the history of its seed, in which nothing is wrong without it."""
    missed = []
    for bug, (seed, shape) in planted.FOUND.items():
        right = registers.Skims if issubclass(bug, registers.Skims) else registers.NamedFiles
        if not registers.is_found(bug, seed, shape=shape) or registers.is_found(right, seed, shape=shape):
            missed.append(f"{bug.__name__} is not found")
    return f"{len(planted.FOUND)} bugs in histories", missed


def random_looks(shape, first, count):
    total, wrong = collections.Counter(), []
    for seed in range(first, first + count):
        world = looking.tried(seed, getattr(looking, shape))
        total.update(world.counts)
        wrong += [f"seed {seed} of {shape}: no order of file {file} was found" for file in world.wrong()]
    return f"looks, {count} seeds of {shape}: {told_of(total)}", wrong


def bugs_in_looks():
    """Each wrong variant of a look is found."""
    missed = [f"{bug} is not found" for bug, seed in looking.FOUND.items() if not looking.is_found(bug, seed)]
    return f"{len(looking.FOUND)} bugs in looks", missed


def bugs_in_worlds():
    """Each wrong variant of the core is found."""
    missed = [f"{name} is not found" for name in worlds.VARIANTS if not worlds.refuses(name)]
    return f"{len(worlds.VARIANTS)} wrong variants in worlds", missed


def bugs_in_splits():
    """Each wrong variant of how pages split is found."""
    missed = [f"{name} is not found" for name in splitting.VARIANTS if not splitting.refuses(name)]
    return f"{len(splitting.VARIANTS)} wrong variants in worlds of pages that split", missed


def beside_core(seed, counts):
    """The client in Rattle, beside the core."""
    try:
        return beside.compare(beside.built(), counts, seed), []
    except (beside.Differs, worlds.Wrong) as fault:
        return f"seed {seed}", ["differs: " + "; ".join(str(each)[:500] for each in fault.args)]


def bugs_beside():
    """Each bug of the core makes it differ from the client in Rattle."""
    missed = [f"{name} is not found" for name in beside.PLANTED if not beside.is_found(beside.built(), name)]
    return f"{len(beside.PLANTED)} bugs of the core, beside the client in Rattle", missed


def search_splits(bounds):
    bounds = splitting.Bounds(**bounds)
    what = "pages that split, " + ", ".join(f"{number} {name}" for name, number in bounds._asdict().items() if number)
    try:
        count, ways, _ = splitting.search(bounds)
    except splitting.Wrong as wrong:
        return what, ["; ".join(wrong.args)]
    return f"{count} worlds, {ways} steps from them, of {what}", []


def wander_splits(ways, bounds):
    bounds = splitting.Bounds(**bounds)
    what = "pages that split, " + ", ".join(f"{number} {name}" for name, number in bounds._asdict().items() if number)
    try:
        _, count = splitting.wander(bounds, ways)
    except splitting.Wrong as wrong:
        return what, ["; ".join(wrong.args)]
    return f"{ways} random ways, {count} steps, of {what}", []


def search(bounds):
    bounds = worlds.Bounds(**bounds)
    what = ", ".join(f"{number} {name}" for name, number in bounds._asdict().items() if number)
    try:
        count, ways = worlds.search(bounds)
    except worlds.Wrong as wrong:
        return what, ["; ".join(wrong.args)]
    return f"{count} worlds, {ways} steps from them, of {what}", []


def wander(ways, bounds):
    bounds = worlds.Bounds(**bounds)
    what = ", ".join(f"{number} {name}" for name, number in bounds._asdict().items() if number)
    try:
        _, count = worlds.wander(bounds, ways)
    except worlds.Wrong as wrong:
        return what, ["; ".join(wrong.args)]
    return f"{ways} random ways, {count} steps, of {what}", []


def in_pipes(program, seconds, kills, has_room=False):
    """A trial over nodes, and others until enough operations have ended: on a busy machine one trial may have too few to show anything."""
    counts, wrong = collections.Counter(), []
    for attempt in range(ATTEMPTS):
        os.mkdir(f"attempt{attempt}")
        place = trial.Pipes(os.path.abspath(f"attempt{attempt}"), program, has_room)
        counted, wrong = trial.run(place, seconds, kills)
        counts.update(counted)
        for number in place.nodes:
            with open(f"{place.folder}/journal{number}", "rb") as journal:
                counts["chunks in journals"] += sum(line.startswith(b"chunk ") for line in journal)
        if wrong or counts["operations"] >= LEAST_OPERATIONS and counts["chunks in journals"]:
            break
    else:
        wrong = [f"only {counts['operations']} operations have ended, and {counts['chunks in journals']} chunks are kept"]
    return f"in pipes{', a plan with room' * has_room}, {attempt + 1} times {seconds} seconds: {told_of(counts)}", wrong


def bug_in_pipes(program, seconds):
    """A client with a bug, over nodes, has to be found: on a busy machine, where few operations end in the time, by more than one attempt."""
    bug, operations, found = planted.VersionsNotRaised.__name__, 0, []
    for attempt in range(ATTEMPTS):
        os.mkdir(f"attempt{attempt}")
        counts, wrong = trial.run(trial.Pipes(os.path.abspath(f"attempt{attempt}"), program), seconds, {}, bug)
        operations += counts.get("operations", 0)
        found = [text for text in wrong if ": no order of" in text]  # (a client that doesn't start is wrong too, and finds nothing)
        if found or operations > MOST_OPERATIONS:
            break
    return f"{bug} in pipes: {len(found)} wrong of {operations} operations", [] if found else [f"{bug} is not found"]


def carrier():
    path = os.path.abspath("carry")
    subprocess.run(["make", "-s", "-C", os.path.join(DEPLOY, "..", "carrier"), f"MQTT={path}", path], check=True)
    return path


def over_a_broker(program, seconds, kills):
    counts, wrong = trial.run(trial.Broker(os.getcwd(), program, carrier(), "broker"), seconds, kills)
    return f"over mosquitto, {seconds} seconds: {told_of(counts)}", wrong


def commands_over_a_broker(program):
    grid = trial.Grid(os.getcwd(), program, carrier(), "broker")
    with open(grid.plan, "w", encoding="ascii") as out:
        out.write(commands.PLAN)
    grid.set_up("--connections", "many")
    settings = {"GRIDFS_" + word.strip("-").upper().replace("-", "_"): value for word, value in zip(*[iter(grid.words_for("ann"))] * 2)}
    os.mkdir("grid")
    with open("grid/ann.ini", "w", encoding="ascii") as out:
        out.write("[gridfs]\ntenant = ann\n")
    tried = commands.Commands(settings)
    try:
        grid.start()
        for part in (tried.names, tried.status, tried.sessions, lambda: tried.broker(grid)):
            part()
    finally:
        grid.end()
    return f"{tried.tried} compared", tried.wrong


TYPED = ["mypy", "--strict", "--follow-imports", "silent", "--cache-dir", os.devnull]


def package():
    wrong, done = [], []
    for words, where in (
        (["mypy", "--strict", "--cache-dir", os.devnull, "gridfs_client"], PACKAGE),
        ([*TYPED, "figures.py", "pictures.py", "record.py", "../bench/recorded.py"], os.path.join(TOP, "tools")),
        (["mandoc", "-Tlint", os.path.join(TOP, "docs", "gridfs-client.1")], "."),
        ([os.path.join(TOP, "tools", "install"), "--client", os.path.abspath("installed")], "."),
    ):
        told = subprocess.run(words, cwd=where, capture_output=True, text=True)
        wrong += [f"{words[0]}: {told.stdout}{told.stderr}"] if told.returncode else []
        done.append(os.path.basename(words[0]))
    wrong += [] if os.listdir("installed/lib/gridfs/gridfs_client/__pycache__") else ["install: no module is compiled"]
    wrong += helped("installed/bin/gridfs-client")
    shutil.copytree(PACKAGE, "package")
    subprocess.run([sys.executable, "-m", "venv", "--without-pip", "venv"], check=True)
    words = ["pip", "--python", "venv/bin/python", "install", "-q", "--no-index", "--disable-pip-version-check", "./package"]
    told = subprocess.run(words, capture_output=True, text=True)
    wrong += [f"pip: {told.stderr}"] if told.returncode else helped("venv/bin/gridfs-client")
    done.append("pip")
    return ", ".join(done), [*wrong, *installs_unproved()]


KEEP = "import record; record.keep_record('gridfs_node', record.digests('a kit', 'gridfs_node')['gridfs_node'], 'a kit', 'a commit')"


def installs_unproved():
    """What is wrong with tools/install where a program is not known to be proved: one that was put there, one that is not that of its record, and one of other
    sources. One with a record of these is installed."""
    for name in ("tools", "docs", "deploy", "clients", "crates", "crates.txt", "HANDLES"):
        at, copied = os.path.join(TOP, name), os.path.join("tree", name)
        os.makedirs("tree", exist_ok=True)
        shutil.copytree(at, copied, ignore=shutil.ignore_patterns("out", "__pycache__")) if os.path.isdir(at) else shutil.copy(at, copied)
    program, wrong = "tree/crates/gridfs_node/out/gridfs_node", []
    os.makedirs(os.path.dirname(program))

    def write(path, text):
        with open(path, "a", encoding="ascii") as out:
            out.write(text)
        os.chmod(path, 0o755)

    def expect(status, says):
        done = subprocess.run(["tree/tools/install", os.path.abspath("whole")], capture_output=True, text=True)
        if done.returncode != status or says not in done.stdout + done.stderr or os.path.exists("whole") != (status == 0):
            wrong.append(f"install, {says}: {done.returncode}: {done.stdout}{done.stderr}")

    expect(1, "not built")
    write(program, "#!/bin/sh\n")
    expect(1, "no record of a proof is beside it")
    subprocess.run([sys.executable, "-B", "-c", KEEP], cwd="tree/tools", check=True)
    write(program, "exit\n")
    expect(1, "the record beside it is of another program")
    subprocess.run([sys.executable, "-B", "-c", KEEP], cwd="tree/tools", check=True)
    write("tree/HANDLES", "\n")
    expect(1, "of other sources")
    shutil.copy(os.path.join(TOP, "HANDLES"), "tree/HANDLES")
    expect(0, "whole/bin/gridfs-journals")
    for command, word in (("gridfs-plan", "names"), ("gridfs-journals", "journals"), ("gridfs-watch", "browser"), ("gridfs-operate", "bundles")):
        wrong += helped(f"whole/bin/{command}", word)
    return wrong


def helped(command, word="put"):
    """What is wrong of an installed command, which has to tell what it does; that has this word."""
    try:
        told = subprocess.run([os.path.abspath(command), "--help"], capture_output=True, text=True, cwd="/")
    except OSError as fault:
        return [f"{command}: {fault.strerror}"]
    return [] if told.returncode == 0 and word in told.stdout else [f"{command} --help: status {told.returncode}: {told.stdout[:200]}{told.stderr[-300:]}"]


def in_a_room(job):
    """Does a job in a folder of its own: its part, what was counted, what is wrong, and how long it took."""
    part, (call, *words) = job
    signal.signal(signal.SIGTERM, interrupt)
    begun = time.monotonic()
    with room() as folder:
        os.chdir(folder)
        try:
            counted, wrong = call(*words)
        except (OSError, ValueError, LookupError, trial.NotStarted, subprocess.SubprocessError) as fault:
            counted, wrong = "", [repr(fault)]
        except KeyboardInterrupt:
            sys.exit(130)
        finally:
            os.chdir("/")
            signal.signal(signal.SIGTERM, signal.SIG_DFL)
    return part, counted, wrong, time.monotonic() - begun


def told(results, of="names"):
    """Tells what came of jobs; how much is wrong."""
    count = 0
    for part, counted, wrong, seconds in results:
        print(f"{of}: {part}: {counted}; {seconds:.0f} seconds", flush=True)
        for fault in wrong:
            print(f"{of}: {part}: {fault}", file=sys.stderr, flush=True)
        count += len(wrong)
    return count


def main(jobs, parts, words, usage):
    """Does the jobs of the parts that the words name, or of all, but for those behind `--without`, side by side; the status."""
    chosen, left_out = [], []
    while words[:1] == ["--without"] and words[1:2] and words[1] in parts:
        left_out, words = [*left_out, words[1]], words[2:]
    while words and words[0] in parts:
        chosen, words = [*chosen, words[0]], words[1:]
    if len(words) != 1 or words[0].startswith("-"):
        sys.exit(usage)
    chosen = [part for part in chosen or parts if part not in left_out]
    wanted = missing(["all", *(group for part, group in GROUPS.items() if part in chosen)])
    if wanted:
        print(f"names: not installed: {', '.join(wanted)}", file=sys.stderr)
        return 2
    begun, all_jobs = time.monotonic(), jobs(os.path.abspath(words[0]))
    with workers() as pool:
        count = told(pool.imap_unordered(in_a_room, [(part, job) for part in chosen for job in all_jobs[part]]))
    print(f"names: {count} wrong; {time.monotonic() - begun:.0f} seconds")
    return min(1, count)

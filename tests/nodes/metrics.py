"""What a carrier writes for Prometheus: read strictly by its text format, so that what is not of the form is told."""

import json
import re
import subprocess

from processes import Wrong

NAME = r"gridfs_[a-z_]+"
LABEL = r'[a-z]+="(?:[^"\\\n]|\\["\\n])*"'
SAMPLE = re.compile(rf"({NAME})\{{({LABEL}(?:,{LABEL})*)\}} (\S+)")
GAUGES = ("_ready", "_seconds", "_bytes", "_up", "_connections", "_form", "_older")  # how the names of gauges end: a base unit, or what is counted


class Metrics(dict):
    """The value of each sample, by its name and its labels but for the node's, which all have."""

    def __init__(self, text, node="0"):
        super().__init__()
        if not text.endswith("\n"):
            raise Wrong(f"the last line has no end: {text[-100:]!r}")
        name, helped, told = None, None, set()
        for line in text.splitlines():
            if line.startswith("# HELP "):
                helped = line.split(" ")[2]
            elif line.startswith("# TYPE "):
                name, kind = line.split(" ")[2:]
                is_right = name == helped and name not in told and (name.endswith("_total") if kind == "counter" else kind == "gauge" and name.endswith(GAUGES))
                if not is_right:
                    raise Wrong(f"not of the form: {line}")
                told.add(name)
            else:
                self.take(line, name, node)

    def take(self, line, name, node):
        found = SAMPLE.fullmatch(line)
        if not found or found[1] != name or not found[2].startswith(f'node="{node}"'):
            raise Wrong(f"not of the form: {line}")
        key = name.removeprefix("gridfs_"), found[2].partition(",")[2]
        if key in self:
            raise Wrong(f"told twice: {line}")
        self[key] = float(found[3])

    def of(self, name, labels=""):
        return self.get((name, labels))


def read(path, node="0"):
    """The metrics of a file; empty where there is none."""
    try:
        with open(path, encoding="utf-8") as file:
            return Metrics(file.read(), node)
    except FileNotFoundError:
        return {}


READ = """import json, sys
from prometheus_client.parser import text_string_to_metric_families
told = [it for family in text_string_to_metric_families(open(sys.argv[1]).read()) for it in family.samples]
print(json.dumps([[it.name, it.labels, it.value] for it in told]))
"""


def as_prometheus_reads(path):
    """The samples of a file as Prometheus' own library for Python reads them."""
    done = subprocess.run(["/usr/bin/python3", "-c", READ, path], stdout=subprocess.PIPE, stderr=subprocess.PIPE, text=True)
    if done.returncode:
        raise Wrong(f"python3-prometheus-client: {done.stderr}")
    return {(name.removeprefix("gridfs_"), ",".join(f'{label}="{of}"' for label, of in labels.items() if label != "node")): value for name, labels, value in json.loads(done.stdout)}

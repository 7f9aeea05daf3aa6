"""The rules for Prometheus, by promtool where it is installed, and the dashboard for Grafana: their form, and the metrics that they name."""

import itertools
import json
import os
import re
import shutil
import subprocess

from carrying import HERE, check

TOP = os.path.join(HERE, "..", "..")
RULES = os.path.join(TOP, "deploy", "prometheus", "rules.yml")
DASHBOARD = os.path.join(TOP, "deploy", "prometheus", "dashboard.json")
WIDTH = 24  # of a dashboard
PARTS = re.compile(r"_(?:bucket|sum|count)\Z")  # of a histogram
# What the node exporter and Prometheus tell.
OTHERS = {"up", "node_textfile_mtime_seconds", "node_filesystem_avail_bytes", "node_filesystem_size_bytes"}
OTHERS |= {f"node_disk_{name}_total" for name in ("flush_requests", "flush_requests_time_seconds", "writes_completed", "write_time_seconds")}
RULE = re.compile(
    r"      - alert: (Gridfs\w+)\n        expr: (.+)\n(?:        for: \d+[mh]\n)?        annotations:\n          summary: ([A-Z].*\.)\n          todo: (.*\.)\n"
)
CLOSES = {")": "(", "]": "[", "}": "{"}


def metrics_told():
    """The names that docs/MACHINES.md tells."""
    with open(os.path.join(TOP, "docs", "MACHINES.md"), encoding="utf-8") as file:
        section = file.read().partition("## Metrics\n")[2].partition("\n## ")[0]
    return {f"gridfs_{name}" for name in re.findall(r"`((?:node|carrier|tenant|shelf)_\w+)`", section)}


def is_balanced(text):
    opened = []
    for letter in text:
        if letter in "([{":
            opened.append(letter)
        elif letter in CLOSES and (not opened or opened.pop() != CLOSES[letter]):
            return False
    return not opened


def rules_are_whole(_, __):
    with open(RULES, encoding="ascii") as file:
        text = file.read()
    rules = RULE.findall(text)
    check(len(rules) == text.count("- alert:") > 10, f"{len(rules)} of {text.count('- alert:')} have the form of an alert")
    check(len({name for name, *_ in rules}) == len(rules), "two alerts have one name")
    known = metrics_told() | metrics_of_s3()
    for name, expression, summary, todo in rules:
        plain = re.sub(r'"[^"]*"', '""', expression)
        check(is_balanced(plain) and ": " not in expression and " #" not in expression + summary + todo, f"{name}: {expression}")
        check(": " not in summary and ": " not in todo, f"{name}: a text with `: ` is no word of YAML")
        named = set(re.findall(r"\b(?:gridfs|node)_\w+|\bup\b", plain))
        check(named and named <= known | OTHERS, f"{name} names {sorted(named - known - OTHERS)}, which nobody tells")
        for page in re.findall(r"docs/(\w+\.md)", todo):
            check(os.path.exists(os.path.join(TOP, "docs", page)), f"{name}: there is no {page}")
    check_by_promtool(RULES)


def check_by_promtool(path):
    if tool := shutil.which("promtool"):
        done = subprocess.run([tool, "check", "rules", path], capture_output=True, text=True)
        check(done.returncode == 0, done.stdout + done.stderr)


def panels():
    """Those of the dashboard that have targets."""
    with open(DASHBOARD, encoding="ascii") as file:
        return [panel for panel in json.load(file)["panels"] if panel["type"] != "row"]


def metrics_shown():
    """The names of metrics that the dashboard asks for."""
    asked = " ".join(target["expr"] for panel in panels() for target in panel["targets"])
    return {PARTS.sub("", name) for name in re.findall(r"\bgridfs_\w+", re.sub(r'"[^"]*"', '""', asked))}


def metrics_of_s3():
    """The names that a gateway tells: a counter's ends as Prometheus has it."""
    with open(os.path.join(TOP, "clients", "python", "gridfs_s3", "metrics.py"), encoding="utf-8") as file:
        return {name + "_total" * (kind == "Counter") for kind, name in re.findall(r'(Counter|Gauge|Histogram)\("(\w+)"', file.read())}


def dashboard_is_whole(_, folder):
    shown = panels()
    check(len(shown) > 10 and len({panel["title"] for panel in shown}) == len(shown), f"{len(shown)} panels, or two with one title")
    taken = set()
    for panel in shown:
        place = panel["gridPos"]
        cells = set(itertools.product(range(place["x"], place["x"] + place["w"]), range(place["y"], place["y"] + place["h"])))
        check(not cells & taken and place["x"] + place["w"] <= WIDTH, f"{panel['title']}: it lies over another panel")
        taken |= cells
        for target in panel["targets"]:
            check(is_balanced(re.sub(r'"[^"]*"', '""', target["expr"])), f"{panel['title']}: {target['expr']}")
            check(target["datasource"]["uid"] == "${prometheus}", f"{panel['title']} asks another source")
    unknown = metrics_shown() - metrics_told() - metrics_of_s3()
    check(not unknown, f"the dashboard names {sorted(unknown)}, which nobody tells")
    asked = [target["expr"].replace("$grid", ".*") for panel in shown for target in panel["targets"]]
    os.makedirs(folder, exist_ok=True)
    with open(os.path.join(folder, "asked.yml"), "w", encoding="ascii") as out:  # (JSON is YAML)
        json.dump({"groups": [{"name": "asked", "rules": [{"record": f"asked_{place}", "expr": expr} for place, expr in enumerate(asked)]}]}, out)
    check_by_promtool(out.name)


CHECKS = [rules_are_whole, dashboard_is_whole]

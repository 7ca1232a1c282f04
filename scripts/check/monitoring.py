#!/usr/bin/env python3
"""The alert rules and the dashboard of examples/monitoring: promtool takes the rules and finds what their tests say, and
each number that a rule or a panel names is one that docs/OPERATING.md lists, with labels that it has there."""
import json
import pathlib
import re
import shutil
import subprocess
import sys

sys.path.insert(0, str(pathlib.Path(__file__).resolve().parents[1]))
from common import TOP

FOLDER = TOP / "examples" / "monitoring"
RULES, TESTS, BOARD = "macaroond.rules.yml", "macaroond.rules.test.yml", "macaroond.dashboard.json"
PAGE = TOP / "docs" / "OPERATING.md"
NUMBER = re.compile(r"\bmacaroond_([a-z_]+)(\{[^}]*\})?")
LABEL = re.compile(r'([a-z]+)(?:=~|!~|!=|=)"')
# What Prometheus itself adds to each number.
OF_PROMETHEUS = {"job", "instance"}


def listed():
    """The labels of each number that the page lists, by its name."""
    section = PAGE.read_text().split("## Numbers")[1].split("\n## ")[0]
    rows = [line.split("|")[1] for line in section.splitlines() if line.startswith("| `")]
    names = [found for row in rows for found in re.findall(r"`([a-z_]+)(\{[^}]*\})?`", row)]
    return {name: set(re.findall(r"([a-z]+)=", labels)) for name, labels in names}


def expressions():
    """Where each expression stands, and the expression."""
    for line in (FOLDER / RULES).read_text().splitlines():
        yield RULES, line
    board = json.loads((FOLDER / BOARD).read_text())
    for panel in board["panels"]:
        for target in panel["targets"]:
            yield f"{BOARD}, {panel['title']}", target["expr"]


def unknown():
    """The numbers and the labels that no daemon tells, and how many were looked at."""
    known, found, count = listed(), [], 0
    for where, text in expressions():
        for name, labels in NUMBER.findall(text):
            count += 1
            strange = set(LABEL.findall(labels)) - known.get(name, set()) - OF_PROMETHEUS
            if name not in known or strange:
                found.append(f"{where}: no daemon tells macaroond_{name}{labels}")
    return found, count


def untested():
    """The rules whose alert no test has both silent and firing."""
    alerts = re.findall(r"- alert: (\w+)", (FOLDER / RULES).read_text())
    tests = (FOLDER / TESTS).read_text()
    return [f"{TESTS}: {alert} stands there {count} times" for alert in alerts if (count := tests.count(alert)) != 2], len(alerts)


def by_promtool():
    """What promtool says against the files."""
    if shutil.which("promtool") is None:
        return [], 0, ["promtool isn't installed (scripts/install_peers.sh)"]
    asked = [["check", "config", "scrape.yml"], ["check", "rules", RULES], ["test", "rules", TESTS]]
    runs = [subprocess.run(["promtool", *words], cwd=FOLDER, capture_output=True, text=True) for words in asked]
    return [run.stdout + run.stderr for run in runs if run.returncode != 0], len(runs), []


def faults():
    told, asked, skipped = by_promtool()
    (names, count), (alerts, tested) = unknown(), untested()
    return told + names + alerts, asked + count + tested, skipped


if __name__ == "__main__":
    wrong, count, skipped = faults()
    print(*wrong, *skipped, sep="\n")
    print(f"monitoring: {len(wrong)} of {count} are wrong")
    sys.exit(bool(wrong))

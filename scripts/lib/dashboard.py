#!/usr/bin/env python3
"""Checks that the dashboard of deploy/grafana asks for what a server tells: `dashboard.py PAGE`, where PAGE is a file with the answer to
/metrics. Each expression names figures of the page alone, each label and value in it stands there, and each figure of the page is in an
expression. Prints what isn't so, and as last line 'N passed, M failed'; the status is 1 where one failed."""
import json
import re
import sys

DASHBOARD = "deploy/grafana/enet-relay.json"
# Labels that Prometheus adds itself, and words that stand where names of figures may.
OWN_LABELS = {"instance"}


def told(page):
    """Of each series name of the page its labels, each with its values; and the names of the figures."""
    series, figures = {}, set()
    for line in page.splitlines():
        kind = re.match(r"# TYPE (\w+) \w+$", line)
        if kind:
            figures.add(kind[1])
        row = re.match(r"(enet_\w+)(?:\{(.*)\})? [0-9.]+$", line)
        if row:
            labels = series.setdefault(row[1], {})
            for name, value in re.findall(r'(\w+)="([^"]*)"', row[2] or ""):
                labels.setdefault(name, set()).add(value)
    return series, figures


def asked(dashboard):
    """Each expression, with where it stands."""
    for panel in dashboard["panels"]:
        for target in panel["targets"]:
            yield f"{panel['title']}, {target['refId']}", target["expr"], target["legendFormat"]
    for variable in dashboard["templating"]["list"]:
        if variable["type"] == "query":
            yield f"variable {variable['name']}", variable["query"]["query"], ""


def faults(expression, legend, series):
    names = re.findall(r"enet_\w+", expression)
    if not names:
        yield "it names no figure"
    labels = {}
    for name in names:
        if name not in series:
            yield f"no server tells {name}"
        for label, values in series.get(name, {}).items():
            labels.setdefault(label, set()).update(values)
    for group in re.findall(r"by \(([^)]*)\)", expression):
        for label in re.split(r",\s*", group):
            if label not in labels and label not in OWN_LABELS:
                yield f"no server tells the label {label}"
    for label in re.findall(r"\{\{(\w+)\}\}", legend):
        if label not in labels and label not in OWN_LABELS:
            yield f"no server tells the label {label}"
    for label, value in re.findall(r'(\w+)="([^"]*)"', expression):
        if label not in OWN_LABELS and value not in labels.get(label, set()):
            yield f'no server tells {label}="{value}"'


def main():
    with open(sys.argv[1], encoding="utf-8") as file:
        series, figures = told(file.read())
    with open(DASHBOARD, encoding="utf-8") as file:
        dashboard = json.load(file)
    passed, failed, used = 0, 0, set()
    for place, expression, legend in asked(dashboard):
        used.update(re.findall(r"enet_\w+", expression))
        found = list(faults(expression, legend, series))
        for why in found:
            print(f"FAILED {DASHBOARD}, {place}: {why}")
        passed, failed = passed + (not found), failed + bool(found)
    for figure in sorted(figures):
        shown = any(name == figure or name.startswith(f"{figure}_") for name in used)
        if not shown:
            print(f"FAILED {DASHBOARD}: {figure} isn't shown")
        passed, failed = passed + shown, failed + (not shown)
    print(f"{passed} passed, {failed} failed")
    return 1 if failed or not passed else 0


if __name__ == "__main__":
    sys.exit(main())

#!/usr/bin/env python3
"""Draws what the dashboard of deploy/grafana shows: `panels.py PROMETHEUS BEGIN END PICTURE` asks the Prometheus at that address for each of its
expressions, from one second to another, and writes an SVG with a plot for each panel. Prints for each panel how many lines it has, and the
least and greatest value; the status is 1 where Prometheus refuses an expression."""
import json
import sys
import urllib.error
import urllib.parse
import urllib.request

from draw import Picture

DASHBOARD = "deploy/grafana/enet-relay.json"
COLOURS = ["#1b6ca8", "#d9822b", "#4d8f4d", "#9a4f96", "#b33", "#777", "#0aa", "#aa0"]
WIDTH, HEIGHT, COLUMNS = 560, 184, 2


def ask(prometheus, expression, begin, end):
    """The lines of an expression: of each its labels, and its points."""
    expression = expression.replace("$__rate_interval", "15s").replace("$server", ".*")
    words = urllib.parse.urlencode({"query": expression, "start": begin, "end": end, "step": 1})
    with urllib.request.urlopen(f"{prometheus}/api/v1/query_range?{words}") as answer:
        told = json.load(answer)
    points = lambda values: [(float(at), float(value)) for at, value in values if value != "NaN"]
    return [(line["metric"], points(line["values"])) for line in told["data"]["result"]]


def name_of(legend, labels):
    for label, value in labels.items():
        legend = legend.replace("{{" + label + "}}", value)
    return legend


def draw_panel(picture, panel, lines, left, top, begin, end):
    values = [value for _, points in lines for _, value in points]
    most = max(values, default=0) or 1
    unit = panel["fieldConfig"]["defaults"]["unit"]
    picture.text(left, top, f"{panel['title']} ({unit})", weight="bold")
    base = top + HEIGHT - 54
    for part in (0, 0.5, 1):
        y = base - part * (HEIGHT - 84)
        picture.line(left + 60, y, left + WIDTH - 20, y)
        picture.text(left + 54, y + 4, f"{part * most:.3g}", anchor="end")
    for number, (name, points) in enumerate(lines):
        colour = COLOURS[number % len(COLOURS)]
        places = [(left + 60 + (at - begin) / (end - begin) * (WIDTH - 80), base - value / most * (HEIGHT - 84)) for at, value in points]
        for one, other in zip(places, places[1:]):
            picture.line(*one, *other, colour=colour, width=1.4)
        for place in places[:1]:
            picture.dot(*place, colour, size=1.5)
    picture.key(left + 60, base + 22, [(name, COLOURS[number % len(COLOURS)]) for number, (name, _) in enumerate(lines)][:8])
    return f"{min(values, default=0):.4g} to {max(values, default=0):.4g}"


def main():
    prometheus, begin, end, path = sys.argv[1], float(sys.argv[2]), float(sys.argv[3]), sys.argv[4]
    with open(DASHBOARD, encoding="utf-8") as file:
        dashboard = json.load(file)
    rows = -(-len(dashboard["panels"]) // COLUMNS)
    picture = Picture(COLUMNS * WIDTH + 20, rows * HEIGHT + 40, f"{dashboard['title']}, {end - begin:.0f} seconds")
    status = 0
    for number, panel in enumerate(dashboard["panels"]):
        lines = []
        for target in panel["targets"]:
            try:
                found = ask(prometheus, target["expr"], begin, end)
                lines += [(name_of(target["legendFormat"], labels), points) for labels, points in found]
            except urllib.error.HTTPError as why:
                print(f"FAILED {panel['title']}: {target['expr']}: {why.read().decode()}")
                status = 1
        told = draw_panel(picture, panel, lines, 20 + number % COLUMNS * WIDTH, 50 + number // COLUMNS * HEIGHT, begin, end)
        print(f"{panel['title']}: {len(lines)} lines, {told}")
    with open(path, "w", encoding="utf-8") as file:
        file.write(picture.svg())
    return status


if __name__ == "__main__":
    sys.exit(main())

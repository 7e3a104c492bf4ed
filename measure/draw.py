#!/usr/bin/env python3
"""Draws the plots of docs/FIGURES.md from the rows of measure/results, each of which has its commit, date and machine.

draw.py            writes docs/figures/*.svg
draw.py --check    says which of them isn't what the rows give; the last line is 'N passed, M failed', the status 1 where one fails
"""
import csv
import math
import os
import sys

TOP = os.path.dirname(os.path.dirname(os.path.abspath(__file__)))
BLUE, GREY, ORANGE, GREEN = "#1b6ca8", "#9a9a9a", "#d9822b", "#4d8f4d"
KINDS = {"one thread": BLUE, "two threads": GREY, "layer": ORANGE, "libenet": GREEN}
LEFT, STEP = 210, 24


def read(name):
    with open(f"{TOP}/measure/results/{name}.csv", newline="", encoding="utf-8") as file:
        return list(csv.DictReader(file))


class Picture:
    """An SVG whose parts are added one by one."""

    def __init__(self, width, height, title):
        self.width, self.height = width, height
        self.parts = [f'<rect width="{width}" height="{height}" fill="#fff"/>']
        self.text(width / 2, 16, title, anchor="middle", weight="bold")

    def text(self, x, y, words, anchor="start", weight="normal", turn=None):
        words = words.replace("&", "&amp;").replace("<", "&lt;")
        turned = f' transform="rotate({turn} {x:.1f} {y:.1f})"' if turn else ""
        self.parts.append(f'<text x="{x:.1f}" y="{y:.1f}" text-anchor="{anchor}" font-weight="{weight}"{turned}>{words}</text>')

    def line(self, x1, y1, x2, y2, colour="#ddd", width=1.0, dashes=""):
        dashed = f' stroke-dasharray="{dashes}"' if dashes else ""
        self.parts.append(
            f'<line x1="{x1:.1f}" y1="{y1:.1f}" x2="{x2:.1f}" y2="{y2:.1f}" stroke="{colour}" stroke-width="{width}"{dashed}/>'
        )

    def dot(self, x, y, colour, size=3.0):
        self.parts.append(f'<circle cx="{x:.1f}" cy="{y:.1f}" r="{size}" fill="{colour}"/>')

    def box(self, x, y, width, height, colour):
        self.parts.append(f'<rect x="{x:.1f}" y="{y:.1f}" width="{width:.1f}" height="{height:.1f}" fill="{colour}"/>')

    def key(self, x, y, names):
        for name, colour in names:
            self.box(x, y - 8, 9, 9, colour)
            self.text(x + 13, y, name)
            x += 34 + 6.2 * len(name)

    def svg(self):
        head = f'<svg xmlns="http://www.w3.org/2000/svg" width="{self.width}" height="{self.height}" font-family="sans-serif" font-size="11">'
        return "\n".join([head, *self.parts, "</svg>", ""])


def log_scale(low, high, start, length):
    return lambda value: start + length * (math.log(value) - math.log(low)) / (math.log(high) - math.log(low))


def cell(row):
    clients = f"{row['clients']} client" + ("s" if row["clients"] != "1" else "")
    return f"{clients}, {int(row['bytes']):,} bytes, {row['kind']}"


def grouped(rows):
    found = {}
    for row in rows:
        found.setdefault(cell(row), []).append(row)
    return found


def ranges():
    """A dot for each median and a bar from the least to the most, the reference library at 1."""
    cells = grouped(read("ratios"))
    bottom = 60 + STEP * len(cells)
    picture = Picture(LEFT + 590, bottom + 44, "Packets a second of processor time, ours divided by those of a relay over libenet")
    picture.key(LEFT, 36, [("serve, one thread", BLUE), ("serve, two threads", GREY), ("the layer for C", ORANGE)])
    across = log_scale(0.4, 16, LEFT, 560)
    for value in (0.5, 1, 2, 4, 8, 16):
        picture.line(across(value), 46, across(value), bottom, "#000" if value == 1 else "#ddd")
        picture.text(across(value), bottom + 14, f"{value:g}", anchor="middle")
    for at, (name, rows) in enumerate(cells.items()):
        y = 62 + STEP * at
        picture.text(LEFT - 8, y + 4, name, anchor="end")
        for part, row in enumerate(rows):
            colour, height = KINDS[row["server"]], y - 6 + 6 * part
            least, median, most = (float(row[f"ratio_{word}"]) for word in ("least", "median", "most"))
            picture.line(across(least), height, across(most), height, colour, 1.5)
            picture.dot(across(median), height, colour)
    picture.text(LEFT + 280, bottom + 32, "dot: median of two or three runs; bar: least to most; logarithmic", anchor="middle")
    return picture.svg()


def trips():
    """For each cell and server a bar from the median to the 99th percentile, libenet's of the same runs below it."""
    cells = grouped(read("trips"))
    bottom = 60 + STEP * len(cells)
    picture = Picture(LEFT + 590, bottom + 44, "A packet's trip at light load")
    picture.key(LEFT, 36, [("one thread", BLUE), ("two threads", GREY), ("libenet, in the runs of either", GREEN)])
    across = log_scale(45, 7000, LEFT, 560)
    for value in (50, 100, 200, 500, 1000, 2000, 5000):
        picture.line(across(value), 46, across(value), bottom)
        picture.text(across(value), bottom + 14, f"{value:,}", anchor="middle")
    for at, (name, rows) in enumerate(cells.items()):
        y = 60 + STEP * at
        picture.text(LEFT - 8, y + 4, name, anchor="end")
        for part, row in enumerate(rows):
            for below, (who, colour) in enumerate((("ours", KINDS[row["server"]]), ("libenet", GREEN))):
                height = y - 8 + 10 * part + 5 * below
                median, late = float(row[f"{who}_median_us"]), float(row[f"{who}_99th_us"])
                picture.line(across(median), height, across(late), height, colour, 1.5)
                picture.dot(across(median), height, colour, 2.5)
    picture.text(LEFT + 280, bottom + 32, "microseconds, from the median (dot) to the 99th percentile; logarithmic", anchor="middle")
    return picture.svg()


def slots():
    """Packets a second of processor time by the number of slots, on two logarithmic axes."""
    rows = [row for row in read("slots") if row["listeners"] == "0"]
    picture = Picture(560, 330, "Eight clients that talk among many slots (32 bytes, reliable)")
    picture.key(70, 36, [("serve, one thread", BLUE), ("libenet", GREEN)])
    across = log_scale(30, 5500, 70, 460)
    up = log_scale(600, 3500, 280, -230)
    for value in (40, 400, 4000):
        picture.line(across(value), 50, across(value), 280)
        picture.text(across(value), 296, f"{value:,}", anchor="middle")
    for value in (700, 1000, 2000, 3000):
        picture.line(70, up(value), 530, up(value))
        picture.text(64, up(value) + 4, f"{value:,}", anchor="end")
    for who, colour in (("ours", BLUE), ("libenet", GREEN)):
        last = None
        for row in rows:
            x = across(float(row["slots"]))
            y = up(float(row[f"{who}_median_thousands"]))
            picture.line(x, up(float(row[f"{who}_least"])), x, up(float(row[f"{who}_most"])), colour, 1.5)
            picture.dot(x, y, colour)
            if last:
                picture.line(*last, x, y, colour, 1.5)
            last = x, y
    picture.text(300, 318, "slots; up: thousand packets a second of processor time; both logarithmic", anchor="middle")
    return picture.svg()


def shares():
    """Where a packet's time goes: a bar of parts for each server, each cell to its own scale."""
    parts = (("own_code_ns", "own code", BLUE), ("c_library_ns", "C library", ORANGE), ("kernel_ns", "kernel", "#c8c8c8"))
    cells = grouped(read("packet_time"))
    height = 50 + sum(16 * len(rows) + 12 for rows in cells.values())
    left = LEFT + 80
    picture = Picture(left + 560, height + 26, "Where a delivered packet's processor time goes")
    picture.key(left, 36, [(name, colour) for _, name, colour in parts])
    y = 52
    for name, rows in cells.items():
        most = max(float(row["ns"]) for row in rows)
        picture.text(left - 84, y + 12, name, anchor="end")
        for row in rows:
            picture.text(left - 8, y + 12, row["server"], anchor="end")
            x = float(left)
            for column, _, colour in parts:
                wide = 470 * float(row[column]) / most
                picture.box(x, y + 3, wide, 11, colour)
                x += wide
            picture.text(x + 6, y + 12, f"{int(row['ns']):,} ns")
            y += 16
        y += 12
    picture.text(left + 240, height + 14, "each cell to a scale of its own", anchor="middle")
    return picture.svg()


def instructions():
    """What the layer takes for a packet after each change, down to the reference library."""
    rows = read("instructions")
    ours = [row for row in rows if not row["change"].startswith("libenet")]
    theirs = [row for row in rows if row["change"].startswith("libenet")]
    picture = Picture(760, 400, "Instructions of the layer for C a delivered packet of 32 bytes, one client")
    picture.key(70, 36, [("unreliable", BLUE), ("reliable", ORANGE), ("libenet: dashes", GREY)])
    wide = 590 / len(ours)

    def up(value):
        return 270 - 210 * (value - 2200) / 1600

    for value in range(2200, 3801, 400):
        picture.line(70, up(value), 660, up(value))
        picture.text(64, up(value) + 4, f"{value:,}", anchor="end")
    for column, colour in (("one_client_unreliable", BLUE), ("one_client_reliable", ORANGE)):
        last = None
        for at, row in enumerate(ours):
            if not row[column]:
                continue
            x, y = 70 + wide * at, up(float(row[column]))
            if last is not None:
                picture.line(x, last, x, y, colour, 1.5)
            picture.line(x, y, x + wide, y, colour, 2.0)
            last = y
        for row in theirs[-1:]:
            picture.line(70, up(float(row[column])), 660, up(float(row[column])), colour, 1.5, "5 3")
    for at, row in enumerate(ours):
        picture.text(76 + wide * at, 290, row["change"], turn=32)
    return picture.svg()


PLOTS = {"ratios": ranges, "trips": trips, "slots": slots, "packet_time": shares, "instructions": instructions}


def main(words):
    failed = 0
    os.makedirs(f"{TOP}/docs/figures", exist_ok=True)
    for name, draw in PLOTS.items():
        file, drawn = f"{TOP}/docs/figures/{name}.svg", draw()
        if words == ["--check"]:
            there = open(file, encoding="utf-8").read() if os.path.isfile(file) else ""
            if there != drawn:
                print(f"FAILED docs/figures/{name}.svg isn't what measure/results/{name}.csv gives: run measure/draw.py")
                failed += 1
        else:
            with open(file, "w", encoding="utf-8") as out:
                out.write(drawn)
    if words == ["--check"]:
        print(f"{len(PLOTS) - failed} passed, {failed} failed")
    return 1 if failed else 0


if __name__ == "__main__":
    sys.exit(main(sys.argv[1:]))

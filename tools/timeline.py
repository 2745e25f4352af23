#!/usr/bin/env python3
"""Draws the run of a script on nodes in time, as one SVG.

usage: timeline.py SCRIPT [--program PATH | --simulate] > run.svg

Events go from left to right. For each node: up, down or lost, its role and epoch; elections, openings, refused attempts
and denied messages; for each of its streams how many batches it keeps and how many of them it knows to be chosen; and
its watermark. Below: how many transactions were released. A front of a script's events is a script too, so all of it is
read from reports: the program's `sim` runs once for each event, or with --simulate simulate.py beside this file.
"""
import argparse
import concurrent.futures
import html
import os
import subprocess
import sys

TOOLS = os.path.dirname(os.path.abspath(__file__))
ROLIS = os.path.join(os.path.dirname(TOOLS), "rolis")
BINARY = os.path.join(os.path.dirname(TOOLS), "crates", "rl_cli", "out", "rl_cli")
LEFT, TOP_SPACE, COLUMN = 150, 120, 34
HEAD, LANE, GAP = 30, 18, 20
COLORS = {"follower": "#c9d3df", "candidate": "#f2c14e", "opening": "#8ec9e8", "open": "#2f7fb8"}
STYLE = """
text { font-family: sans-serif; font-size: 11px; fill: #1c2733 }
.small { font-size: 9.5px }
.title { font-size: 14px; font-weight: bold }
.node { font-weight: bold; font-size: 12px }
.on { fill: #ffffff }
.grid { stroke: #e6eaef; stroke-width: 1 }
.dashed { stroke: #9aa7b4; stroke-width: 1.5; stroke-dasharray: 3 3 }
.mark { fill: #c0392b }
.told { fill: #1b7f4d; font-weight: bold }
"""


# ---- the run ----

def split(text):
    """The lines of a script up to its events, and the lines of its events."""
    lines = text.split("\n")
    places = [number for number, line in enumerate(lines) if line.split() == ["events"]]
    if not places:
        return lines, []
    events = [line for line in lines[places[0] + 1:] if line.split() and not line.split()[0].startswith("#")]
    return lines[:places[0] + 1], events


class Node:
    """A node as a report shows it: its words, and by stream how much it keeps and knows."""

    def __init__(self, words):
        self.words = words
        self.streams = []
        self.rows = []

    def state(self):
        """Lost, down, or its role."""
        if self.words[2] in ("lost", "down"):
            return self.words[2]
        return {"follower": "follower", "candidate": "candidate"}.get(self.words[5], self.words[-5])

    def label(self):
        """What is written on its line."""
        if self.words[2] in ("lost", "down"):
            return self.words[2]
        role = self.words[5:-4]
        if role[0] == "candidate":
            return "{}: {}/{}".format(*role[1:])
        return " ".join(word for word in role if word != "leader")

    def watermark(self):
        return " ".join(self.words[-3:]) if self.words[2] == "up" else ""


class Report:
    """A report in its parts: the lines before the items, the count of items, and the nodes."""

    def __init__(self, text):
        lines = text.split("\n")[1:-1]
        at = next(number for number, line in enumerate(lines) if line.startswith("items "))
        self.middle = lines[:at]
        self.released = int(lines[at].split()[1])
        self.nodes = []
        for line in lines[at + 1 + self.released:]:
            words = line.split()
            if words[0] == "node":
                self.nodes.append(Node(words))
            elif words[0] == "stream":
                self.nodes[-1].streams.append((words[5], words[7]))
            else:
                self.nodes[-1].rows.append(line)


def command_of(args):
    """What prints the report of a script. The program of this repository is run once by its launcher, which builds it."""
    if args.simulate:
        return [sys.executable, os.path.join(TOOLS, "simulate.py")]
    if args.program:
        return [args.program, "sim"]
    subprocess.run([ROLIS, "sim"], input=b"rolis 1\n", stdout=subprocess.DEVNULL, check=True)
    return [BINARY, "sim"]


def run(command, text):
    """What is printed of a script, or why that is no report."""
    ended = subprocess.run(command, input=text.encode(), capture_output=True)
    out = ended.stdout.decode(errors="replace")
    return Report(out) if out.startswith("rolis sim\n") else f"status {ended.returncode}: {out.strip()}"


def runs(command, head, events):
    """The report after each front of the events, the empty one first; up to the first that is none, and why that is."""
    texts = ["\n".join([*head, *events[:count], ""]) for count in range(len(events) + 1)]
    reports = []
    with concurrent.futures.ThreadPoolExecutor(os.cpu_count()) as pool:
        for report in pool.map(lambda text: run(command, text), texts):
            if isinstance(report, str):
                return reports, report
            reports.append(report)
    return reports, ""


# ---- the picture ----

class Picture:
    """Elements of an SVG."""

    def __init__(self):
        self.parts = []

    def text(self, x, y, words, kind="", extra=""):
        self.parts.append(f'<text x="{x}" y="{y}" class="{kind}" {extra}>{html.escape(words)}</text>')

    def line(self, x, y, to_x, to_y, kind):
        self.parts.append(f'<line x1="{x}" y1="{y}" x2="{to_x}" y2="{to_y}" class="{kind}"/>')

    def box(self, x, y, width, height, color, told=""):
        title = f"<title>{html.escape(told)}</title>" if told else ""
        place = f'x="{x}" y="{y}" width="{width}" height="{height}"'
        self.parts.append(f'<rect {place} fill="{color}" rx="2">{title}</rect>')

    def mark(self, x, y, words, told):
        self.parts.append(f'<text x="{x}" y="{y}" class="mark small" text-anchor="middle">{html.escape(words)}'
                          f'<title>{html.escape(told)}</title></text>')

    def whole(self, width, height):
        box = f'width="{width}" height="{height}"'
        head = f'<svg xmlns="http://www.w3.org/2000/svg" {box} viewBox="0 0 {width} {height}">'
        back = f'<rect width="{width}" height="{height}" fill="#ffffff"/>'
        return "\n".join([head, f"<style>{STYLE}</style>", back, *self.parts, "</svg>", ""])


def x_of(count):
    """Where the time after so many events is."""
    return LEFT + count * COLUMN


def spans(values):
    """The stretches of equal values: where each begins, where it ends, and its value."""
    start = 0
    for at in range(1, len(values) + 1):
        if at == len(values) or values[at] != values[start]:
            yield start, at, values[start]
            start = at


def draw_events(picture, events, bottom):
    for number, event in enumerate(events, 1):
        x = x_of(number)
        picture.line(x, TOP_SPACE - 6, x, bottom, "grid")
        place = f'transform="rotate(-55 {x + 4} {TOP_SPACE - 12})"'
        picture.text(x + 4, TOP_SPACE - 12, f"{number} {event.strip()}", "small", place)


def draw_node_line(picture, y, number, nodes):
    picture.text(10, y + 15, f"node {number}", "node")
    for start, end, (state, label) in spans([(node.state(), node.label()) for node in nodes]):
        x, width = x_of(start), (end - start) * COLUMN
        if state in ("down", "lost"):
            picture.line(x, y + 11, x + width, y + 11, "dashed")
            picture.text(x + 4, y + 7, label, "small")
        else:
            picture.box(x, y, width - 1, HEAD - 10, COLORS[state], label)
            words = label if width > 60 else label.replace("follower", "")
            picture.text(x + 4, y + 14, words, "small on" if state == "open" else "small")


def draw_lane(picture, y, name, values):
    """A lane of words: each is written where it is new."""
    picture.text(24, y + 12, name, "small")
    picture.line(LEFT, y + LANE - 2, x_of(len(values)), y + LANE - 2, "grid")
    for start, end, words in spans(values):
        if words:
            picture.box(x_of(start), y + 1, (end - start) * COLUMN - 1, LANE - 4, "#eef2f6", words)
            is_short = len(words) * 5 < (end - start) * COLUMN
            picture.text(x_of(start) + 3, y + 12, words if is_short else shorter(words), "small")


def shorter(words):
    """A watermark without what only its length needs."""
    parts = words.split(" ")
    return "/".join(parts[:2]) if len(parts) == 3 and len(parts[1]) < 4 else words[:5]


def marks_of(lines, events):
    """What is marked of one event: by node, the mark and its line."""
    marks = []
    event = events.split()
    if event[0] == "elect":
        marks.append((int(event[1]), "elect", events))
    for line in lines:
        words = line.split()
        if words[0] == "opened":
            marks.append((int(words[2]), f"open {words[3]}", line))
        elif words[0] == "denied":
            marks.append((int(words[2]), "denied", line))
        elif words[0] == "refused" and event[0] == "step":
            marks.append((int(event[1]), "refused", line))
    return marks


def draw_marks(picture, tops, reports, events):
    for number, event in enumerate(events[:len(reports) - 1], 1):
        lines = reports[number].middle[len(reports[number - 1].middle):]
        placed = {}
        for node, words, line in marks_of(lines, event):
            placed.setdefault((node, words), []).append(line)
        for place, ((node, words), told) in enumerate(placed.items()):
            count = f" {len(told)}" if len(told) > 1 else ""
            picture.mark(x_of(number), tops[node - 1] + HEAD + 1 + 9 * (place % 2), words + count, "\n".join(told))


def draw_released(picture, y, reports):
    picture.text(10, y + 13, "released", "node")
    counts = [report.released for report in reports]
    picture.line(LEFT, y + 18, x_of(len(counts)), y + 18, "grid")
    for start, _, count in spans(counts):
        gained = count - (counts[start - 1] if start else 0)
        words = f"{count} (+{gained})" if gained and start else str(count)
        picture.text(x_of(start), y + 13, words, "told" if gained else "", 'text-anchor="middle"' if start else "")


def draw_legend(picture, y):
    x = LEFT
    for name, words in [("follower", "follower"), ("candidate", "candidate of an epoch: promises had/needed"),
                        ("opening", "leader of an epoch, opening"), ("open", "leader, open")]:
        picture.box(x, y, 14, 12, COLORS[name])
        picture.text(x + 19, y + 10, words, "small")
        x += 36 + 5 * len(words)
    picture.line(x, y + 6, x + 26, y + 6, "dashed")
    picture.text(x + 32, y + 10, "down or lost", "small")
    picture.text(LEFT, y + 28, "stream: batches that it knows to be chosen, of those that it keeps; watermark: epoch, "
                 "seq, and whether the rows are at it or behind", "small")


def draw(name, events, reports, why):
    """The picture of a run."""
    picture = Picture()
    nodes, streams = len(reports[0].nodes), len(reports[0].nodes[0].streams)
    height_of_node = HEAD + 12 + LANE * (streams + 1) + GAP
    tops = [TOP_SPACE + node * height_of_node for node in range(nodes)]
    bottom = TOP_SPACE + nodes * height_of_node
    picture.text(10, 20, name + (f"   ends with {why}" if why else ""), "title")
    draw_events(picture, events[:len(reports) - 1], bottom + 24)
    for node, top in enumerate(tops):
        shown = [report.nodes[node] for report in reports]
        draw_node_line(picture, top, node + 1, shown)
        for stream in range(streams):
            lanes = [" of ".join(reversed(x.streams[stream])) if x.streams else "" for x in shown]
            draw_lane(picture, top + HEAD + 12 + LANE * stream, f"stream {stream + 1}", lanes)
        draw_lane(picture, top + HEAD + 12 + LANE * streams, "watermark", [x.watermark() for x in shown])
    draw_marks(picture, tops, reports, events)
    draw_released(picture, bottom, reports)
    draw_legend(picture, bottom + 36)
    return picture.whole(max(x_of(len(reports)) + 60, 960), bottom + 80)


def main():
    ask = argparse.ArgumentParser(description=__doc__, formatter_class=argparse.RawDescriptionHelpFormatter)
    ask.add_argument("script")
    which = ask.add_mutually_exclusive_group()
    which.add_argument("--program", help="another program with the command `sim`")
    which.add_argument("--simulate", action="store_true", help="simulate.py, the second reading in plain Python")
    args = ask.parse_args()
    command = command_of(args)
    with open(args.script) as file:
        head, events = split(file.read())
    reports, why = runs(command, head, events)
    if not reports:
        sys.exit(f"timeline.py: {args.script}: {why}")
    sys.stdout.write(draw(os.path.basename(args.script), events, reports, why))


if __name__ == "__main__":
    main()

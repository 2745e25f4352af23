#!/usr/bin/env python3
"""Runs `check` on right reports that are damaged in one place, and compares it with the second reading in tools/.

A seeded maker writes scripts, and for each a right report: its requests in some order, with rising stamps that its
stops allow. One place of the report is damaged: a digit, a line that is lost, doubled or exchanged with another, a
word that is added. `check` must answer as tools/check_report.py does. No part of the gate.
Usage: bench/mangle_reports.py [COUNT] [SEED] [BINARY]
"""
import collections
import concurrent.futures
import os
import random
import subprocess
import sys

TOP = os.path.dirname(os.path.dirname(os.path.abspath(__file__)))
sys.path.insert(0, os.path.join(TOP, "tools"))

from check_report import Script, answer, run  # noqa: E402

WORDS = [b"0", b"1", b"9", b"done", b"declined", b"row", b"node", b"item", b"x", b"18446744073709551616"]


# ---- right reports ----

def some_script(rng):
    """A script of transfers, deletes and scans among a few rows, with nodes and stops."""
    keys, workers = rng.randint(2, 6), rng.randint(1, 3)
    lines = ["rolis 1", f"nodes {rng.randint(1, 4)}", f"workers {workers}"]
    lines += [f"stop {rng.randint(3, 9)}" for _ in range(rng.choice([0, 0, 1, 2]))]
    lines += [f"table acct {keys} 1", "table log 3 2"]
    lines += [f"row acct {key} {rng.randint(1, 99)}" for key in range(keys) if rng.random() < 0.8]
    for _ in range(rng.randint(0, 8)):
        here, there = rng.randrange(keys), rng.randrange(keys + 1)
        lines += [f"txn {rng.randint(1, workers)}", f"get acct {here} 0 r0"]
        lines += rng.choice([
            [f"need r0 ge {rng.randint(1, 60)}", "sub r0 r0 1", f"put acct {here} r0", "out r0"],
            [f"del acct {there}", f"scan acct 0 {keys} 0 r1", "out r1"],
            ["add r1 r0 5", f"put log {rng.randrange(3)} r0 r1", "out r1", "out r0"],
            [f"has acct {there} r2", "out r2", "out 7"],
        ])
        lines.append("end")
    return "\n".join(lines).encode() + b"\n"


def some_stamps(rng, stops, count):
    """Rising stamps that the stops allow, as many as fit."""
    stamps, epoch, seq = [], 1, 1
    while len(stamps) < count:
        seq += rng.choice([1, 1, 1, 2, 5])
        bound = stops[epoch - 1] + 1 if epoch <= len(stops) else 2 ** 40 - 2
        if seq > bound or (epoch <= len(stops) and rng.random() < 0.1):
            epoch, seq = epoch + 1, 1
            continue
        stamps.append((epoch, seq))
    return stamps


def right_report(script, rng):
    """A right report of a script, as lines."""
    left = {worker: list(enumerate(requests, 1)) for worker, requests in script.lists.items()}
    order = [worker for worker, requests in left.items() for _ in requests]
    rng.shuffle(order)
    rows = dict(script.rows)
    lines = ["rolis live", f"items {len(order)}"]
    for worker, (epoch, seq) in zip(order, some_stamps(rng, script.stops, len(order))):
        index, request = left[worker].pop(0)
        reply = run(script.tables, rows, request)
        lines.append(" ".join(["item", str(epoch), str(seq), str(worker), str(index), *reply]))
    for node in range(1, script.nodes + 1):
        lines += [f"node {node}", *script.row_lines(rows)]
    return [line.encode() for line in lines]


# ---- damages ----

def a_digit(lines, at, rng):
    line = bytearray(lines[at])
    digits = [place for place, byte in enumerate(line) if 48 <= byte <= 57]
    if digits:
        line[rng.choice(digits)] = 48 + rng.randrange(10)
        lines[at] = bytes(line)


def a_line_lost(lines, at, rng):
    del lines[at]


def a_line_doubled(lines, at, rng):
    lines.insert(at, lines[at])


def lines_exchanged(lines, at, rng):
    other = rng.randrange(len(lines))
    lines[at], lines[other] = lines[other], lines[at]


def a_word_added(lines, at, rng):
    words = lines[at].split(b" ")
    words.insert(rng.randrange(len(words) + 1), rng.choice(WORDS))
    lines[at] = b" ".join(words)


def a_node_lost_or_added(lines, at, rng):
    nodes = [place for place, line in enumerate(lines) if line.startswith(b"node ")]
    if rng.random() < 0.5 and len(nodes) > 1:
        del lines[nodes[-1]:]
    else:
        lines += [b"node %d" % (len(nodes) + 1), *lines[nodes[-1] + 1:]]


DAMAGES = [a_digit, a_digit, a_line_lost, a_line_doubled, lines_exchanged, a_word_added, a_node_lost_or_added]


def damaged_input(seed):
    """A script and a right report that is damaged in one place, and which damage that is."""
    rng = random.Random(seed)
    text = some_script(rng)
    lines = right_report(Script(text), rng)
    damage = rng.choice(DAMAGES)
    damage(lines, rng.randrange(len(lines)), rng)
    return text + b"report\n" + b"".join(line + b"\n" for line in lines), damage.__name__


# ---- what is answered ----

def judge(binary, text):
    """What the second reading answers, and what is wrong with the program's answer, if anything is."""
    due = answer(text)
    try:
        ended = subprocess.run([binary, "check"], input=text, capture_output=True, timeout=20)
    except subprocess.TimeoutExpired:
        return due, "hangs"
    said = ended.stdout.decode(errors="replace")
    status = 0 if due.startswith("yes") else 1
    if (ended.returncode, said) != (status, due + "\n"):
        return due, f"status {ended.returncode} with {said!r}, and {due!r} is due"
    return due, None


def main():
    count = int(sys.argv[1]) if len(sys.argv) > 1 else 20000
    seed = int(sys.argv[2]) if len(sys.argv) > 2 else 1
    binary = sys.argv[3] if len(sys.argv) > 3 else os.path.join(TOP, "crates", "rl_cli", "out", "rl_cli")
    tally = collections.Counter()
    bad = []

    def one(number):
        text, damage = damaged_input(seed * 1000003 + number)
        return number, text, damage, judge(binary, text)

    with concurrent.futures.ThreadPoolExecutor(os.cpu_count() or 1) as pool:
        for number, text, damage, (due, wrong) in pool.map(one, range(count)):
            tally[damage, due.split()[0] if due.startswith("yes") else due.split()[-1]] += 1
            if wrong and len(bad) < 5:
                bad.append((number, wrong, text))
            tally["differ"] += wrong is not None
    differ = tally.pop("differ")
    for (damage, what), found in sorted(tally.items()):
        print(f"{damage}: {what}: {found}")
    for number, wrong, text in bad:
        print(f"report {number}: {wrong}\n{text!r}")
    print(f"reports: {count}, differ: {differ}")
    return 1 if differ else 0


if __name__ == "__main__":
    sys.exit(main())

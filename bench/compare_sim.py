#!/usr/bin/env python3
"""Runs `sim` on random scripts, and compares what it prints with tools/simulate.py, byte for byte.

The scripts are right ones, made from a seed: few tables and requests, and many events of every kind. A line for each
script that differs, and how many were compared and what happened in them. No part of the gate.
Usage: bench/compare_sim.py [COUNT] [SEED] [BINARY]
"""
import collections
import concurrent.futures
import os
import random
import subprocess
import sys

TOP = os.path.dirname(os.path.dirname(os.path.abspath(__file__)))
sys.path.insert(0, os.path.join(TOP, "tools"))
from simulate import Limit, Play, SimScript  # noqa: E402

RELATIONS = ["eq", "ne", "lt", "le", "gt", "ge"]
EVENTS = [("step", 26), ("all", 22), ("dlv", 14), ("elect", 5), ("tick", 6), ("flush", 5), ("idle", 7), ("drop", 3),
          ("crash", 2), ("back", 2), ("lose", 1), ("play", 4), ("playall", 3), ("show", 2), ("random", 1)]


class Writer:
    """A random script."""

    def __init__(self, rng):
        self.rng = rng
        self.nodes = rng.choice([1, 2, 3, 3, 3, 4, 5, 7])
        self.workers = rng.choice([1, 1, 2, 2, 3, 4])
        self.tables = [(f"t{number}", rng.randint(1, 3), rng.randint(1, 4)) for number in range(rng.randint(1, 3))]

    def number(self):
        return str(self.rng.choice([0, 1, 2, 3, 7, 100, self.rng.randrange(2 ** 64), 2 ** 64 - 1]))

    def register(self):
        return f"r{self.rng.randrange(6)}"

    def operand(self):
        return self.register() if self.rng.random() < 0.6 else self.number()

    def key(self, size):
        """A key of a table, most of the time."""
        return str(self.rng.randrange(size + (self.rng.random() < 0.05))) if self.rng.random() < 0.9 else self.register()

    def op(self):
        rng = self.rng
        name, size, columns = rng.choice(self.tables)
        kind = rng.choice(["set", "add", "sub", "mul", "get", "get", "get", "has", "put", "put", "put", "del", "scan",
                           "need", "skip", "out", "out"])
        if kind == "set":
            words = [self.register(), self.operand()]
        elif kind in ("add", "sub", "mul"):
            words = [self.register(), self.operand(), self.operand()]
        elif kind == "get":
            words = [name, self.key(size), str(rng.randrange(columns)), self.register()]
        elif kind == "has":
            words = [name, self.key(size), self.register()]
        elif kind == "put":
            words = [name, self.key(size), *(self.operand() for _ in range(columns))]
        elif kind == "del":
            words = [name, self.key(size)]
        elif kind == "scan":
            words = [name, "0", str(rng.randint(1, size)), str(rng.randrange(columns)), self.register()]
        elif kind == "need":
            words = [self.operand(), rng.choice(["ge", "ge", "ne", *RELATIONS]), rng.choice([self.operand(), "0"])]
        elif kind == "skip":
            words = [self.operand(), rng.choice(RELATIONS), self.operand(), str(rng.randint(1, 4))]
        else:
            words = [self.operand()]
        return " ".join([kind, *words])

    def message(self, sent):
        """The number of a message that was sent, mostly of the last ones, or now and then of none."""
        if sent == 0 or self.rng.random() < 0.01:
            return str(sent + 1)
        return str(self.rng.randint(max(1, sent - 12) if self.rng.random() < 0.7 else 1, sent))

    def event(self, sent):
        rng = self.rng
        kind = rng.choices([kind for kind, _ in EVENTS], [weight for _, weight in EVENTS])[0]
        node = str(min(rng.randint(1, self.nodes), rng.randint(1, self.nodes)))
        worker = str(rng.randint(1, self.workers))
        rest = {
            "step": [node, worker, str(rng.choice([1, 2, 3, 5, 9, 20, 60]))],
            "dlv": [self.message(sent)],
            "drop": [self.message(sent)],
            "all": [],
            "random": [self.number(), str(rng.randint(1, 60))],
        }
        alone = [node] if kind in ("elect", "tick", "crash", "back", "lose", "playall", "show") else [node, worker]
        return " ".join([kind, *rest.get(kind, alone)])

    def several(self, sent):
        """An event, or now and then some that let a leader get on."""
        if self.rng.random() < 0.9:
            return [self.event(sent)]
        leader = self.rng.randint(1, self.nodes)
        each = range(1, self.workers + 1)
        marks = [f"idle {leader} {worker}" for worker in each] if self.rng.random() < 0.7 else []
        return [*(f"step {leader} {worker} {self.rng.choice([20, 60])}" for worker in each),
                *(f"flush {leader} {worker}" for worker in each), *marks, "all", "all", "all"]

    def opening_rows(self):
        for name, size, columns in self.tables:
            for key in range(size):
                if self.rng.random() < 0.6:
                    yield " ".join(["row", name, str(key), *(self.number() for _ in range(columns))])

    def head(self):
        """The lines above the events."""
        rng = self.rng
        lines = ["rolis 1", f"nodes {self.nodes}", f"workers {self.workers}", f"batch {rng.choice([1, 1, 2, 3, 8])}"]
        lines += [f"table {name} {size} {columns}" for name, size, columns in self.tables]
        lines += self.opening_rows()
        for _ in range(rng.randint(0, 12)):
            lines += [f"txn {rng.randint(1, self.workers)}", *(self.op() for _ in range(rng.randint(0, 8))), "end"]
        return [*lines, "events"]

    def played(self):
        """The script and what is to be printed of it. The events go by what was sent so far; at most 64 are elections."""
        lines = self.head()
        play = Play(SimScript("\n".join(lines).encode()))
        events = ["elect 1", *["all"] * self.rng.randint(2, 5)] if self.rng.random() < 0.8 else []
        try:
            elections = 0
            for _ in range(self.rng.randint(0, 160)):
                for event in events:
                    elections += event.startswith("elect")
                    if elections <= 64:
                        lines.append(event)
                        play.play(event.split())
                events = self.several(len(play.sent))
            due = play.report()
        except Limit as limit:
            due = [str(limit)]
        return "\n".join([*lines, ""]).encode(), "\n".join([*due, ""]).encode()


def compare(job):
    """The script of a seed, what is due, what the program prints, and whether that is the same."""
    seed, binary = job
    text, due = Writer(random.Random(seed)).played()
    ended = subprocess.run([binary, "sim"], input=text, capture_output=True, timeout=60)
    status = 4 if due.startswith(b"limit ") else 0
    return seed, text, due, ended.stdout, ended.returncode == status and ended.stdout == due


def main():
    count = int(sys.argv[1]) if len(sys.argv) > 1 else 2000
    seed = int(sys.argv[2]) if len(sys.argv) > 2 else 1
    binary = sys.argv[3] if len(sys.argv) > 3 else os.path.join(TOP, "crates", "rl_cli", "out", "rl_cli")
    tally = collections.Counter()
    wrong = 0
    jobs = [(seed * 1000003 + number, binary) for number in range(count)]
    with concurrent.futures.ProcessPoolExecutor() as pool:
        for made, text, due, told, is_same in pool.map(compare, jobs, chunksize=8):
            for line in due.decode().splitlines():
                words = line.split()
                if words[0] in ("refused", "denied"):
                    tally[f"{words[0]} {words[-2 if words[0] == 'denied' else 4]}"] += 1
                elif words[0] in ("opened", "nomessage", "item", "limit"):
                    tally[words[0]] += 1
            if not is_same:
                wrong += 1
                with open(f"different_{made}.rolis", "wb") as file:
                    file.write(text)
                at = next((number for number, (a, b) in enumerate(zip(due.split(b"\n"), told.split(b"\n"))) if a != b), 0)
                print(f"script {made} (different_{made}.rolis) differs in line {at + 1}:",
                      due.split(b"\n")[at:at + 1], told.split(b"\n")[at:at + 1])
    print(f"{count} scripts, {wrong} differ; in them", ", ".join(f"{name} {n}" for name, n in sorted(tally.items())))
    return 1 if wrong else 0


if __name__ == "__main__":
    sys.exit(main())

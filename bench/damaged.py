#!/usr/bin/env python3
"""Feeds nodes damaged messages, and compares each answer with the rule of bad messages, computed here.

Each message is a real one that a run sent, damaged in one or two places: in its bytes, or in a field of what it says. The
runs are played by tools/simulate.py, so the nodes' states come from there, and not from the program.
Usage: bench/damaged.py PROGRAM [COUNT] [SEED], where bench/damaged.sh builds the program.
"""
import collections
import copy
import os
import random
import subprocess
import sys

TOP = os.path.dirname(os.path.dirname(os.path.abspath(__file__)))
sys.path.insert(0, os.path.join(TOP, "tools"))
from simulate import END, SLOTS, Candidate, Leader, Play, SimScript  # noqa: E402

KINDS = ["prepare", "promise", "sync", "accept", "ack", "known"]
NODES, WORKERS, TABLES, KEYS = 7, 16, 16, 65536
EPOCHS = 2 ** 20
BATCH_BYTES = 262144

HEAD = "rolis 1\nnodes 3\nworkers 2\nbatch 2\ntable a 3 1\ntable b 2 2\nrow a 0 1\n"
LISTS = "".join(f"txn {worker}\nget a {key} 0 r0\nadd r0 r0 1\nput a {key} r0\nput b {key % 2} r0 7\nout r0\nend\n"
                for worker in (1, 2) for key in (0, 1, 2)) + "txn 1\nneed 1 eq 2\nend\nevents\n"
OPEN = ["elect 1", *["all"] * 4]
WORK = [*OPEN, "step 1 1 40", "step 1 2 40", "all", "all", "all", "step 1 1 40", "flush 1 1", "flush 1 2"]
STATES = [
    OPEN[:1], OPEN[:2], OPEN[:3], OPEN[:4], OPEN, WORK[:7], WORK[:8], WORK[:10], WORK, [*WORK, "all"],
    [*WORK, "all", "all", "all", "idle 1 1", "idle 1 2"],
    [*WORK, "all", "all", "elect 2"], [*WORK, "all", "all", "elect 2", "all"],
    [*WORK, "all", "elect 2", "all", "all"], [*WORK, "all", "elect 2", "all", "all", "all", "all", "tick 1", "tick 2"],
    [*WORK, "all", "crash 1", "elect 3", "all", "back 1", "tick 3"],
    [*WORK, "all", "crash 2", "all", "back 2", "tick 1", "all", "elect 2", "dlv 3", "tick 1"],
    ["elect 1", "all", "elect 2", "all", "all", "tick 1", "elect 3", "all", "tick 3", "tick 2"],
]


# ---- bytes ----

def number(value, size):
    return (value % 256 ** size).to_bytes(size, "big")


def batch_bytes(batch, tables):
    """The bytes of a batch: the stamp of a mark, or a list of items."""
    if isinstance(batch, tuple):
        epoch, seq = batch
        return bytes([3 if seq == 1 else 2]) + number(epoch, 4) + number(seq, 8)
    (epoch, _), worker = batch[0][0], batch[0][1]
    told = bytes([1]) + number(len(batch), 1) + number(epoch, 4) + number(worker, 1)
    for (_, seq), _, index, (end, outs), writes in batch:
        told += number(seq, 8) + number(index, 4) + number(end, 1) + number(len(outs), 1)
        told += b"".join(number(out, 8) for out in outs) + number(len(writes), 1)
        for (table, key), row in writes:
            told += number(tables.index(table) if table in tables else table, 1) + number(key, 4)
            told += number(len(row or []), 1) + b"".join(number(value, 8) for value in row or [])
    return told


def log_bytes(log):
    return number(len(log), 4) + b"".join(number(len(batch), 4) + batch for batch in log)


def message_bytes(message):
    """The bytes of a message: its kind, sender, receiver and epoch, and what follows."""
    kind, sender, to, epoch, rest = message
    told = number(KINDS.index(kind) + 1, 1) + number(sender, 1) + number(to, 1) + number(epoch, 4)
    if kind == "promise":
        return told + number(len(rest), 1) + b"".join(number(ballot, 4) + log_bytes(log) for ballot, log in rest)
    if kind == "sync":
        return told + number(rest[0], 1) + log_bytes(rest[1])
    if kind == "accept":
        return told + number(rest[0], 1) + number(rest[1], 4) + number(len(rest[2]), 4) + rest[2]
    return told + b"".join(number(value, size) for value, size in zip(rest, (1, 4)))


# ---- reading ----

class Fault(Exception):
    """Bytes that are no spelling."""


class Reader:
    """Bytes that are read from the left."""

    def __init__(self, data):
        self.data = data
        self.at = 0

    def take(self, size):
        if self.at + size > len(self.data):
            raise Fault
        self.at += size
        return self.data[self.at - size:self.at]

    def number(self, size, low=0, high=2 ** 64):
        value = int.from_bytes(self.take(size), "big")
        if not low <= value <= high:
            raise Fault
        return value

    def log(self):
        return [self.take(self.number(4, 1, BATCH_BYTES)) for _ in range(self.number(4, 0, SLOTS))]

    def end(self, value):
        if self.at != len(self.data):
            raise Fault
        return value


def read_message(data):
    reader = Reader(data)
    kind = KINDS[reader.number(1, 1, 6) - 1]
    head = [kind, reader.number(1, 1, NODES), reader.number(1, 1, NODES), reader.number(4, 1, EPOCHS - 1)]
    if kind == "prepare":
        rest = []
    elif kind == "promise":
        rest = [(reader.number(4, 0, EPOCHS - 1), reader.log()) for _ in range(reader.number(1, 1, WORKERS))]
    else:
        rest = [reader.number(1, 1, WORKERS)]
        if kind == "sync":
            rest.append(reader.log())
        elif kind == "accept":
            rest.append(reader.number(4, 0, SLOTS - 1))
            rest.append(reader.take(reader.number(4, 1, BATCH_BYTES)))
        else:
            rest.append(reader.number(4, 0, SLOTS))
    return reader.end([*head, rest])


def read_batch(data):
    """The stamps of a batch, its worker where it has items, and its writes: table, key and columns."""
    reader = Reader(data)
    kind = reader.number(1, 1, 3)
    if kind > 1:
        epoch = reader.number(4, 1, EPOCHS - 1)
        low, high = (2, END) if kind == 2 else (1, 1)
        return reader.end(([(epoch, reader.number(8, low, high))], None, []))
    count, epoch, worker = reader.number(1, 1, 64), reader.number(4, 1, EPOCHS - 1), reader.number(1, 1, WORKERS)
    stamps, writes = [], []
    for _ in range(count):
        stamps.append((epoch, reader.number(8, 2, END - 1)))
        if len(stamps) > 1 and stamps[-2] >= stamps[-1]:
            raise Fault
        reader.number(4, 1, 8192)
        declined = reader.number(1, 0, 64) > 0
        reader.take(8 * reader.number(1, 0, 64))
        last = None
        for _ in range(reader.number(1, 0, 0 if declined else 64)):
            place = reader.number(1, 0, TABLES - 1), reader.number(4, 0, KEYS - 1)
            if last is not None and last >= place:
                raise Fault
            last = place
            columns = reader.number(1, 0, 4)
            reader.take(8 * columns)
            writes.append((*place, columns))
    return reader.end((stamps, worker, writes))


# ---- the rule ----

class State:
    """A run: its nodes, and the messages that were sent as bytes."""

    def __init__(self, events):
        self.text = HEAD + LISTS + "".join(event + "\n" for event in events)
        self.script = SimScript(self.text.encode())
        self.tables = list(self.script.tables)
        self.play = Play(self.script)
        self.sent = [self.message(*sent) for sent in self.play.sent]

    def log(self, log):
        return [self.batch(batch) for batch in log]

    def batch(self, batch):
        if isinstance(batch, tuple):
            return batch_bytes(batch, self.tables)
        ended = []
        for stamp, worker, index, reply, writes in batch:
            words = [str(word) for word in reply]
            end, outs = (0, words[1:]) if words[0] == "done" else (int(words[1]), words[2:])
            ended.append((stamp, worker, index, (end, [int(out) for out in outs]), writes))
        return batch_bytes(ended, self.tables)

    def message(self, sender, to, epoch, kind, rest):
        if kind == "promise":
            rest = [(ballot, self.log(log)) for ballot, log in rest[0]]
        elif kind == "sync":
            rest = [rest[0] + 1, self.log(rest[1])]
        elif kind == "accept":
            rest = [rest[0] + 1, rest[1], self.batch(rest[2])]
        else:
            rest = [rest[0] + 1, *rest[1:]] if rest else []
        return [kind, sender, to, epoch, rest]

    def is_misfit(self, write):
        table, key, columns = write
        if table >= len(self.tables):
            return True
        size, due = self.script.tables[self.tables[table]]
        return key >= size or columns not in (0, due)

    def is_wrong(self, stream, epoch, log):
        """Whether something is wrong with a log of a stream whose batches may have an epoch at most."""
        last = (0, 0)
        for data in log:
            try:
                stamps, worker, writes = read_batch(data)
            except Fault:
                return True
            if worker not in (None, stream) or any(map(self.is_misfit, writes)):
                return True
            for stamp in stamps:
                if stamp[0] > epoch or stamp <= last:
                    return True
                last = stamp
        return False

    def is_bad(self, number, data):
        """Whether a message is bad at a node."""
        try:
            kind, sender, to, epoch, rest = read_message(data)
        except Fault:
            return True
        node, script = self.play.nodes[number - 1], self.script
        if to != number or max(sender, to) > script.nodes:
            return True
        if (epoch - 1) % script.nodes + 1 != (to if kind in ("promise", "ack") else sender):
            return True
        if kind == "promise":
            return (len(rest) != script.workers
                    or any(self.is_wrong(stream, ballot, log) for stream, (ballot, log) in enumerate(rest, 1))
                    or isinstance(node.part, Candidate) and node.part.epoch == epoch
                    and any(ballot >= epoch for ballot, _ in rest))
        if kind == "prepare":
            return False
        stream = rest[0] - 1
        if stream >= script.workers:
            return True
        if kind == "ack":
            return isinstance(node.part, Leader) and node.part.epoch == epoch and rest[1] > len(node.part.logs[stream])
        if kind == "known":
            return False
        if self.is_wrong(stream + 1, epoch, rest[1] if kind == "sync" else [rest[2]]):
            return True
        log = self.log(node.logs[stream])
        if kind == "sync":
            front = log[:node.known[stream]]
            return node.promised <= epoch and node.ballots[stream] < epoch and rest[1][:len(front)] != front
        if node.promised <= epoch and node.ballots[stream] == epoch and rest[1] == len(log) and log:
            return read_batch(rest[2])[0][0] <= read_batch(log[-1])[0][-1]
        return False


# ---- damages ----

def damaged_bytes(rng, data):
    """Another byte, a byte less or more, or an end that is cut off."""
    if not data:
        return bytes([rng.randrange(256)])
    at = rng.randrange(len(data))
    kind = rng.randrange(5)
    if kind <= 1:
        return data[:at] + bytes([rng.choice([0, 1, 2, 3, 255, rng.randrange(256), data[at] ^ 1])]) + data[at + 1:]
    if kind == 2:
        return data[:at] + data[at + 1:]
    if kind == 3:
        return data[:at] + bytes([rng.randrange(256)]) + data[at:]
    return data[:at]


def near(rng, value):
    return max(0, rng.choice([value - 1, value + 1, value + 3, rng.randint(0, 4), 0]))


def damaged_log(rng, log, others):
    """A log with a batch less, twice, of another place, damaged, or two in another order."""
    kind = rng.randrange(5)
    at = rng.randrange(len(log) + 1)
    if kind == 0 and log:
        del log[at % len(log)]
    elif kind == 1 and log:
        log.insert(at, rng.choice(log))
    elif kind == 2:
        log.insert(at, rng.choice(others))
    elif kind == 3 and log:
        log[at % len(log)] = damaged_bytes(rng, log[at % len(log)])
    elif len(log) > 1:
        log[0], log[-1] = log[-1], log[0]


def damaged(rng, message, others):
    """A message with another field, or with a damaged log."""
    message = copy.deepcopy(message)
    kind, rest = message[0], message[4]
    if rng.random() < 0.45 or not rest:
        at = rng.randrange(4)
        message[at] = rng.choice(KINDS[:1] if not rest else [kind]) if at == 0 else near(rng, message[at])
    elif kind == "promise":
        at = rng.randrange(len(rest))
        ballot, log = rest[at]
        if rng.random() < 0.3:
            rest[at] = near(rng, ballot), log
        elif rng.random() < 0.2:
            rest.insert(at, rest[at])
        else:
            damaged_log(rng, log, others)
    elif kind == "sync" and rng.random() < 0.7:
        damaged_log(rng, rest[1], others)
    elif kind == "accept" and rng.random() < 0.6:
        rest[2] = rng.choice([rng.choice(others), damaged_bytes(rng, rest[2])])
    else:
        at = rng.randrange(1 if kind == "sync" else 2)
        rest[at] = near(rng, rest[at])
    return message


def batches_of(state):
    logs = [log for node in state.play.nodes for log in map(state.log, node.logs)]
    marks = [batch_bytes(stamp, state.tables) for stamp in [(1, 1), (2, 1), (1, 3), (1, 4), (2, 2), (1, END)]]
    return [batch for log in logs for batch in log] + marks


def messages(state, rng, count):
    """Damaged messages: a node and bytes. One of twenty is not damaged."""
    others = batches_of(state)
    for _ in range(count):
        message = rng.choice(state.sent)
        number = message[2] if rng.random() < 0.9 else rng.randint(1, state.script.nodes)
        if rng.random() < 0.65:
            message = damaged(rng, message, others)
        data = message_bytes(message)
        if rng.random() < 0.3:
            data = damaged_bytes(rng, data)
        if state.play.nodes[number - 1].state == "up":
            yield number, data


def main():
    program = sys.argv[1]
    count = int(sys.argv[2]) if len(sys.argv) > 2 else 20000
    rng = random.Random(int(sys.argv[3]) if len(sys.argv) > 3 else 1)
    tally, wrong, done = collections.Counter(), 0, 0
    while done < count:
        for events in STATES:
            state = State(events)
            fed = list(messages(state, rng, min(500, count - done)))
            given = state.text + "messages\n" + "".join(f"{number} {data.hex()}\n" for number, data in fed)
            told = subprocess.run([program], input=given.encode(), capture_output=True, timeout=600)
            answers = told.stdout.decode().split()
            if told.returncode != 0 or len(answers) != len(fed):
                print(f"the program ended with {told.returncode}: {told.stderr.decode()[:200]}")
                return 1
            for (number, data), answer in zip(fed, answers):
                due = "bad" if state.is_bad(number, data) else "taken"
                tally[answer] += 1
                if answer != due:
                    wrong += 1
                    if wrong <= 10:
                        print(f"after {events}: node {number}, {data.hex()}: {answer}, and not {due}")
            done += len(fed)
    print(f"{done} messages, {wrong} answers differ;", ", ".join(f"{what} {n}" for what, n in sorted(tally.items())))
    return 1 if wrong else 0


if __name__ == "__main__":
    sys.exit(main())

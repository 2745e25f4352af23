#!/usr/bin/env python3
"""Plays a script on nodes as they are defined, and prints the report of the world, or the limit that it passes.

usage: simulate.py < SCRIPT

A second reading of what nodes and workers do, in plain Python, to compare the program with. It takes the script to be
right, and keeps no count of the bytes that were sent.
"""
import sys

from check_report import RELATIONS, WORDS, Script

SLOTS = 4096
END = 2 ** 40 - 1


class Limit(Exception):
    """A limit that was passed."""


# ---- a script with its events ----

class SimScript(Script):
    """A script, its batch size and its events."""

    def __init__(self, text):
        self.batch = 1
        self.events = None
        super().__init__(text)
        self.names = list(self.tables)
        sizes = [size for size, _ in self.tables.values()]
        self.first = {name: sum(sizes[:number]) for number, name in enumerate(self.names)}

    def take(self, words):
        if self.events is not None:
            self.events.append(words)
        elif words == ["events"] and self.transaction is None:
            self.events = []
        elif words[0] == "batch" and self.transaction is None:
            self.batch = int(words[1])
        else:
            super().take(words)

    def record(self, place):
        return self.first[place[0]] + place[1]

    def place(self, record):
        name = max((name for name in self.names if self.first[name] <= record), key=lambda name: self.first[name])
        return name, record - self.first[name]

    def columns(self, place):
        return self.tables[place[0]][1]


# ---- random events ----

class Draws:
    """The 32-bit words of the generator PCG XSH RR 64/32, from a number."""

    MULTIPLIER = 6364136223846793005

    def __init__(self, number):
        state, words = number, []
        for _ in range(4):
            state = (state * self.MULTIPLIER + 11634580027462260723) % WORDS
            words.append(self.output(state))
        self.increment = (words[2] + (words[3] << 32)) | 1
        self.state = (words[0] + (words[1] << 32) + self.increment) % WORDS
        self.step()

    @staticmethod
    def output(state):
        word = (((state >> 18) ^ state) >> 27) % 2 ** 32
        turn = state >> 59
        return ((word >> turn) | (word << (-turn % 32))) % 2 ** 32

    def step(self):
        self.state = (self.state * self.MULTIPLIER + self.increment) % WORDS

    def draw(self):
        state = self.state
        self.step()
        return self.output(state)


def random_events(script, seed, count):
    draws = Draws(seed)
    for _ in range(count):
        x = draws.draw()
        node, worker, kind = str(x // 16 % script.nodes + 1), str(x // 256 % script.workers + 1), x % 16
        if kind <= 8:
            yield ["step", node, worker, "1"]
        elif kind in (9, 10, 15):
            yield [{9: "flush", 10: "idle", 15: "play"}[kind], node, worker]
        elif kind == 14:
            yield ["tick", node]
        else:
            yield ["all"]


# ---- batches, families and their history ----
# A batch is a list of items or the stamp of a mark; an item is (stamp, worker, index, reply, writes).

def stamps_of(batch):
    return [batch] if isinstance(batch, tuple) else [item[0] for item in batch]


class Family:
    """One log a stream: its watermark, its bounds and its history."""

    def __init__(self, logs):
        self.logs = logs
        tops = []
        self.lasts = []
        for log in logs:
            lasts = {}
            for batch in log:
                for epoch, seq in stamps_of(batch):
                    lasts[epoch] = max(seq, lasts.get(epoch, 0))
            tops.append(stamps_of(log[-1])[-1][0] if log else 0)
            self.lasts.append(lasts)
        self.epoch = min(tops)
        self.watermark = (self.epoch, self.bound(self.epoch)) if self.epoch else (0, 0)

    def bound(self, epoch):
        return min(lasts.get(epoch, 0) for lasts in self.lasts)

    def has(self, stamp):
        return stamp[0] <= self.epoch and stamp[1] <= self.bound(stamp[0])

    def history(self):
        items = [(item[0], stream, item) for stream, log in enumerate(self.logs) for batch in log
                 if not isinstance(batch, tuple) for item in batch if self.has(item[0])]
        return [item for _, _, item in sorted(items, key=lambda found: found[:2])]


# ---- a transaction, record by record ----

class Wanted(Exception):
    """A place that an attempt has to read."""


class Declined(Exception):
    """An operation that declined."""


class Attempt:
    """A transaction on the records that it has read so far."""

    def __init__(self, script, transaction):
        self.script = script
        self.transaction = transaction
        self.registers = [0] * 16
        self.outputs = []
        self.writes = {}
        self.reads = {}
        self.seen = {}
        self.at = 0
        self.reply = None

    def value(self, word):
        return self.registers[int(word[1:])] if word[0] == "r" else int(word)

    def set(self, register, value):
        self.registers[int(register[1:])] = value % WORDS

    def key(self, table, word, count=1):
        key = self.value(word)
        if key + count > self.script.tables[table][0]:
            raise Declined
        return key

    def row(self, place):
        if place in self.writes:
            return self.writes[place]
        if place not in self.reads:
            raise Wanted(place)
        return self.reads[place]

    def column(self, place, column):
        row = self.row(place)
        return 0 if row is None else row[int(column)]

    def run(self):
        """Runs up to the first place that it wants, which it tells, or to the end."""
        while self.reply is None and self.at < len(self.transaction):
            try:
                self.at += 1 + self.do(self.transaction[self.at])
            except Wanted as wanted:
                return wanted.args[0]
            except Declined:
                self.writes = {}
                self.reply = ["declined", str(self.at + 1), *map(str, self.outputs)]
        if self.reply is None:
            self.reply = ["done", *map(str, self.outputs)]
        return None

    def do(self, words):
        name, *rest = words
        if name == "set":
            self.set(rest[0], self.value(rest[1]))
        elif name in ("add", "sub", "mul"):
            a, b = self.value(rest[1]), self.value(rest[2])
            self.set(rest[0], {"add": a + b, "sub": a - b, "mul": a * b}[name])
        elif name == "get":
            self.set(rest[3], self.column((rest[0], self.key(rest[0], rest[1])), rest[2]))
        elif name == "has":
            self.set(rest[2], int(self.row((rest[0], self.key(rest[0], rest[1]))) is not None))
        elif name == "put":
            self.writes[rest[0], self.key(rest[0], rest[1])] = [self.value(word) for word in rest[2:]]
        elif name == "del":
            self.writes[rest[0], self.key(rest[0], rest[1])] = None
        elif name == "scan":
            first, count = self.key(rest[0], rest[1], int(rest[2])), int(rest[2])
            self.set(rest[4], sum(self.column((rest[0], key), rest[3]) for key in range(first, first + count)))
        elif name == "need":
            if not RELATIONS[rest[1]](self.value(rest[0]), self.value(rest[2])):
                raise Declined
        elif name == "skip":
            return int(rest[3]) if RELATIONS[rest[1]](self.value(rest[0]), self.value(rest[2])) else 0
        elif name == "out":
            self.outputs.append(self.value(rest[0]))
        return 0


# ---- records and workers ----

class Records:
    """The words and cells of an open leader's records."""

    def __init__(self, script, epoch, rows, stamps):
        self.script = script
        self.epoch = epoch
        self.next = 2
        self.words = {}
        self.cells = {}
        for name in script.names:
            for key in range(script.tables[name][0]):
                place = (name, key)
                stamp = stamps.get(place, (0, 0))
                self.words[place] = 2 * (stamp[0] * 2 ** 40 + stamp[1])
                self.store_row(place, rows.get(place))

    def store_row(self, place, row):
        self.cells[place] = [0] * (1 + self.script.columns(place)) if row is None else [1, *row]

    def draw(self):
        self.next += 1
        return self.next - 1


class Worker:
    """A worker of an open leader: it makes one act a step."""

    def __init__(self, script, number, index):
        self.script = script
        self.number = number
        self.index = index
        self.acts = None

    def is_at_rest(self):
        return self.acts is None

    def is_done(self):
        return self.index > len(self.script.requests(self.number))

    def step(self, records, tell):
        """Makes one act, and tells why an attempt was refused; answers the item that it ended."""
        if self.acts is None:
            if self.is_done():
                return None
            self.acts = self.attempt(records, tell)
        try:
            next(self.acts)
            return None
        except StopIteration as ended:
            self.acts = None
            if ended.value is not None:
                self.index += 1
            return ended.value

    def attempt(self, records, tell):
        """An attempt; a yield stands between each act and the next."""
        attempt = Attempt(self.script, self.script.requests(self.number)[self.index - 1])
        acts = 0
        while (place := attempt.run()) is not None:
            if acts > 0:
                yield
            acts += 1
            if not (yield from self.read(records, attempt, place, tell)):
                return None
        return (yield from self.commit(records, attempt, acts, tell))

    def read(self, records, attempt, place, tell):
        """Reads a record; whether the read counts."""
        seen = records.words[place]
        if seen % 2 == 1:
            tell(self, "locked", place, seen)
            return False
        cells = []
        for column in range(1 + self.script.columns(place)):
            yield
            cells.append(records.cells[place][column])
        yield
        attempt.seen[place] = seen
        attempt.reads[place] = cells[1:] if cells[0] == 1 else None
        return self.confirms(place, seen, records.words[place], tell)

    def confirms(self, place, seen, found, tell):
        if found == seen:
            return True
        if found % 2 == 1:
            tell(self, "locked", place, found)
        else:
            tell(self, "changed", place, seen, found)
        return False

    def commit(self, records, attempt, acts, tell):
        written = sorted(attempt.writes, key=self.script.record)
        held = {}
        for place in written:
            if acts > 0:
                yield
            acts += 1
            word = records.words[place]
            if word % 2 == 1:
                tell(self, "locked", place, word)
                return (yield from self.give_up(records, held))
            held[place] = word
            records.words[place] = word + 1
        if acts > 0:
            yield
        stamp = (records.epoch, records.draw())
        for place in sorted(attempt.reads, key=self.script.record):
            yield
            found = records.words[place] - (1 if place in held else 0)
            if not self.confirms(place, attempt.seen[place], found, tell):
                return (yield from self.give_up(records, held))
        for place in written:
            yield from self.install(records, place, attempt.writes[place], stamp)
        writes = [(place, attempt.writes[place]) for place in written]
        return (stamp, self.number, self.index, attempt.reply, writes)

    def give_up(self, records, held):
        for place, word in held.items():
            yield
            records.words[place] = word
        return None

    def install(self, records, place, row, stamp):
        cells = [0] * (1 + self.script.columns(place)) if row is None else [1, *row]
        for column, cell in enumerate(cells):
            yield
            records.cells[place][column] = cell
        yield
        records.words[place] = 2 * (stamp[0] * 2 ** 40 + stamp[1])


# ---- nodes ----

class Replica:
    """The rows that a node plays, and how far it is in each stream."""

    def __init__(self, script):
        self.rows = dict(script.rows)
        self.stamps = {}
        self.played = [0] * script.workers
        self.applied = set()

    def play(self, family, stream):
        """Plays a stream of a family until it ends, or an item is above the watermark."""
        entries = [entry for batch in family.logs[stream]
                   for entry in ([batch] if isinstance(batch, tuple) else batch)]
        while self.played[stream] < len(entries):
            entry = entries[self.played[stream]]
            if len(entry) == 5 and not self.pass_item(family, entry):
                return
            self.played[stream] += 1

    def pass_item(self, family, item):
        """Applies an item or passes it over, if it may."""
        epoch = item[0][0]
        if family.has(item[0]):
            self.apply(item)
            return True
        return epoch < family.epoch

    def apply(self, item):
        self.applied.add(item[0])
        for place, row in item[4]:
            if self.stamps.get(place, (0, 0)) > item[0]:
                continue
            self.stamps[place] = item[0]
            if row is None:
                self.rows.pop(place, None)
            else:
                self.rows[place] = row


class Candidate:
    """A node that stands for an epoch."""

    def __init__(self, epoch):
        self.epoch = epoch
        self.promises = {}

    def recovered(self, stream):
        """The longest log among those of the highest ballot; of equals the least node's."""
        kept = [self.promises[node][stream] for node in sorted(self.promises)]
        return list(max(kept, key=lambda found: (found[0], len(found[1])))[1])


class Leader:
    """The leader of an epoch: its streams, and once it has opened its records and workers."""

    def __init__(self, script, epoch, logs):
        self.script = script
        self.epoch = epoch
        self.logs = logs
        self.begun = [len(log) for log in logs]
        self.acked = [[0] * script.nodes for _ in logs]
        self.pending = [[] for _ in logs]
        self.records = None
        self.workers = []

    def chosen(self, stream):
        return sorted(self.acked[stream], reverse=True)[self.script.nodes // 2]

    def family(self):
        return Family([log[:self.chosen(stream)] for stream, log in enumerate(self.logs)])

    def may_open(self):
        return all(self.chosen(stream) >= begun for stream, begun in enumerate(self.begun))

    def open(self, items):
        rows, stamps = dict(self.script.rows), {}
        for stamp, _, _, _, writes in items:
            for place, row in writes:
                stamps[place] = stamp
                if row is None:
                    rows.pop(place, None)
                else:
                    rows[place] = row
        self.records = Records(self.script, self.epoch, rows, stamps)
        done = [item[1] for item in items]
        numbers = range(1, self.script.workers + 1)
        self.workers = [Worker(self.script, number, 1 + done.count(number)) for number in numbers]


class Node:
    """A node: what its acceptor keeps, and while it is up what it knows, its replica and its part."""

    def __init__(self, script, number):
        self.number = number
        self.promised = 0
        self.ballots = [0] * script.workers
        self.logs = [[] for _ in range(script.workers)]
        self.script = script
        self.come_up()

    def come_up(self):
        self.state = "up"
        self.known = [0] * self.script.workers
        self.replica = Replica(self.script)
        self.part = None

    def family(self):
        return Family([log[:known] for log, known in zip(self.logs, self.known)])


# ---- the world ----

class Play:
    """The run of a script: its nodes, what was sent, and the lines of its report."""

    def __init__(self, script):
        self.script = script
        self.nodes = [Node(script, number) for number in range(1, script.nodes + 1)]
        self.sent = []
        self.left = set()
        self.lines = []
        self.released = []
        for words in script.events or []:
            self.play(words)

    def play(self, words):
        if words[0] == "random":
            for event in random_events(self.script, int(words[1]), int(words[2])):
                self.play(event)
            return
        name, numbers = words[0], [int(word) for word in words[1:]]
        if name in ("dlv", "drop"):
            self.deliver_or_drop(name, numbers[0])
        elif name == "all":
            for number in sorted(self.left):
                self.deliver(number)
        elif name == "show":
            self.lines += self.block(self.nodes[numbers[0] - 1])
        else:
            self.play_at(name, self.nodes[numbers[0] - 1], numbers[1:])

    def deliver_or_drop(self, name, number):
        if not 1 <= number <= len(self.sent):
            self.lines.append(f"nomessage {number}")
        elif name == "drop":
            self.left.discard(number)
        else:
            self.deliver(number)

    def play_at(self, name, node, numbers):
        if name == "back":
            if node.state == "down":
                node.come_up()
        elif name == "lose":
            node.state = "lost"
        elif node.state == "up":
            getattr(self, "play_stream" if name == "play" else name)(node, *numbers)

    # ---- events at a node that is up ----

    def crash(self, node):
        node.come_up()
        node.state = "down"

    def elect(self, node):
        epoch = node.promised + 1
        while (epoch - 1) % self.script.nodes + 1 != node.number:
            epoch += 1
        node.promised = epoch
        node.part = Candidate(epoch)
        self.send_each(node, epoch, "prepare")

    def tick(self, node):
        part = node.part
        if isinstance(part, Candidate):
            for to in range(1, self.script.nodes + 1):
                if to not in part.promises:
                    self.send(node, to, part.epoch, "prepare")
        elif isinstance(part, Leader):
            for stream, log in enumerate(part.logs):
                for to in range(1, self.script.nodes + 1):
                    self.send_again(node, part, stream, log, to)
            for stream in range(self.script.workers):
                if part.chosen(stream) > 0:
                    self.send_each(node, part.epoch, "known", stream, part.chosen(stream))

    def send_again(self, node, part, stream, log, to):
        acked = part.acked[stream][to - 1]
        if acked < part.begun[stream]:
            self.send(node, to, part.epoch, "sync", stream, log[:part.begun[stream]])
        else:
            for slot in range(acked, len(log)):
                self.send(node, to, part.epoch, "accept", stream, slot, log[slot])

    def step(self, node, worker, count):
        for _ in range(count):
            lead = node.part
            if not isinstance(lead, Leader) or lead.records is None:
                return
            item = lead.workers[worker - 1].step(lead.records, lambda *told: self.tell(lead, *told))
            if item is not None:
                lead.pending[worker - 1].append(item)
                if len(lead.pending[worker - 1]) == self.script.batch:
                    self.flush(node, worker)

    def tell(self, lead, worker, why, place, *numbers):
        words = ["refused", lead.epoch, worker.number, worker.index, why, place[0], place[1], *numbers]
        self.lines.append(" ".join(map(str, words)))

    def flush(self, node, worker):
        lead = node.part
        if isinstance(lead, Leader) and lead.records is not None and lead.pending[worker - 1]:
            self.propose(node, lead, worker - 1, lead.pending[worker - 1])
            lead.pending[worker - 1] = []

    def idle(self, node, number):
        lead = node.part
        if not isinstance(lead, Leader) or lead.records is None:
            return
        worker, log = lead.workers[number - 1], lead.logs[number - 1]
        if not worker.is_at_rest() or lead.pending[number - 1] or (lead.epoch, END) in log:
            return
        mark = (lead.epoch, END) if worker.is_done() else (lead.epoch, lead.records.draw())
        self.propose(node, lead, number - 1, mark)

    def propose(self, node, lead, stream, batch):
        if len(lead.logs[stream]) == SLOTS:
            raise Limit(f"limit slots {SLOTS}")
        lead.logs[stream].append(batch)
        self.send_each(node, lead.epoch, "accept", stream, len(lead.logs[stream]) - 1, batch)

    def play_stream(self, node, stream):
        node.replica.play(node.family(), stream - 1)

    def playall(self, node):
        for stream in range(1, self.script.workers + 1):
            self.play_stream(node, stream)

    # ---- messages ----

    def send(self, node, to, epoch, kind, *rest):
        self.sent.append((node.number, to, epoch, kind, rest))
        self.left.add(len(self.sent))

    def send_each(self, node, epoch, kind, *rest):
        for to in range(1, self.script.nodes + 1):
            self.send(node, to, epoch, kind, *rest)

    def deliver(self, number):
        self.left.discard(number)
        sender, to, epoch, kind, rest = self.sent[number - 1]
        node = self.nodes[to - 1]
        if node.state == "up":
            why = getattr(self, "take_" + kind)(node, sender, epoch, *rest)
            if why is not None:
                self.lines.append(f"denied {number} {to} {why}")

    def take_prepare(self, node, sender, epoch):
        if epoch < node.promised:
            return f"promised {node.promised}"
        node.promised = epoch
        kept = [(ballot, list(log)) for ballot, log in zip(node.ballots, node.logs)]
        self.send(node, sender, epoch, "promise", kept)
        return None

    def take_sync(self, node, sender, epoch, stream, log):
        if epoch < node.promised:
            return f"promised {node.promised}"
        node.promised = epoch
        if node.ballots[stream] < epoch:
            node.ballots[stream], node.logs[stream] = epoch, list(log)
        self.send(node, sender, epoch, "ack", stream, len(node.logs[stream]))
        return None

    def take_accept(self, node, sender, epoch, stream, slot, batch):
        if epoch < node.promised:
            return f"promised {node.promised}"
        if epoch != node.ballots[stream]:
            return f"ballot {node.ballots[stream]}"
        if slot > len(node.logs[stream]):
            return f"order {len(node.logs[stream])}"
        if slot == len(node.logs[stream]):
            node.logs[stream].append(batch)
        self.send(node, sender, epoch, "ack", stream, len(node.logs[stream]))
        return None

    def take_promise(self, node, sender, epoch, kept):
        candidate = node.part
        if not isinstance(candidate, Candidate) or candidate.epoch != epoch:
            return
        candidate.promises.setdefault(sender, kept)
        if len(candidate.promises) > self.script.nodes // 2:
            self.lead(node, candidate)

    def lead(self, node, candidate):
        logs = [candidate.recovered(stream) for stream in range(self.script.workers)]
        if any(len(log) == SLOTS for log in logs):
            raise Limit(f"limit slots {SLOTS}")
        logs = [[*log, (candidate.epoch, 1)] for log in logs]
        node.part = Leader(self.script, candidate.epoch, logs)
        for stream, log in enumerate(logs):
            self.send_each(node, candidate.epoch, "sync", stream, list(log))

    def take_ack(self, node, sender, epoch, stream, length):
        lead = node.part
        if not isinstance(lead, Leader) or lead.epoch != epoch:
            return
        before = lead.chosen(stream)
        lead.acked[stream][sender - 1] = max(length, lead.acked[stream][sender - 1])
        if lead.chosen(stream) == before:
            return
        self.send_each(node, epoch, "known", stream, lead.chosen(stream))
        if lead.records is not None:
            self.release(lead.family().history())
        elif lead.may_open():
            items = lead.family().history()
            lead.open(items)
            self.lines.append(f"opened {epoch} {node.number} {len(items)}")
            self.release(items)

    def release(self, items):
        last = self.released[-1][0] if self.released else (0, 0)
        self.released += [item for item in items if item[0] > last]

    def take_known(self, node, sender, epoch, stream, length):
        if node.ballots[stream] == epoch:
            node.known[stream] = max(node.known[stream], min(length, len(node.logs[stream])))

    # ---- the report ----

    def role(self, part):
        if isinstance(part, Candidate):
            return f"candidate {part.epoch} {len(part.promises)} {self.script.nodes // 2 + 1}"
        if isinstance(part, Leader):
            return f"leader {part.epoch} {'opening' if part.records is None else 'open'}"
        return "follower"

    def block(self, node):
        """The lines of a node's block."""
        if node.state == "lost":
            return [f"node {node.number} lost"]
        streams = [
            f"stream {stream + 1} ballot {node.ballots[stream]} len {len(node.logs[stream])} known {node.known[stream]}"
            for stream in range(self.script.workers)]
        if node.state == "down":
            return [f"node {node.number} down promised {node.promised}", *streams]
        family = node.family()
        epoch, seq = family.watermark
        at = "at" if node.replica.applied == {item[0] for item in family.history()} else "behind"
        head = f"node {node.number} up promised {node.promised} {self.role(node.part)} watermark {epoch} {seq} {at}"
        return [head, *streams, *self.script.row_lines(node.replica.rows)]

    def report(self):
        """The lines of the report."""
        items = [" ".join(map(str, ["item", *stamp, worker, index, *reply]))
                 for stamp, worker, index, reply, _ in self.released]
        blocks = [line for node in self.nodes for line in self.block(node)]
        return ["rolis sim", *self.lines, f"items {len(items)}", *items, *blocks]


def answer(text):
    """What is printed of a script."""
    try:
        lines = Play(SimScript(text)).report()
    except Limit as limit:
        lines = [str(limit)]
    return "".join(line + "\n" for line in lines)


if __name__ == "__main__":
    sys.stdout.write(answer(sys.stdin.buffer.read()))

#!/usr/bin/env python3
"""Judges the report of a threaded run by its script: `yes K`, or `no line L WHY`.

usage: check_report.py < INPUT      a script, a line `report`, and a report

A second reading of what a right report is, in plain Python, to compare the program with. It takes the script to be
right.
"""
import re
import sys

WORDS = 2 ** 64
NUMBER = re.compile(r"0|[1-9][0-9]{0,19}")
NAME = re.compile(r"[!-~]+")
RELATIONS = {
    "eq": lambda a, b: a == b, "ne": lambda a, b: a != b, "lt": lambda a, b: a < b,
    "le": lambda a, b: a <= b, "gt": lambda a, b: a > b, "ge": lambda a, b: a >= b,
}


class Wrong(Exception):
    """A report that is not right: the line, and why."""


# ---- the script ----

class Script:
    """What a script says of a threaded run: tables, opening rows, transactions, nodes, and where leaders stop."""

    def __init__(self, text):
        self.nodes = 1
        self.workers = 1
        self.stops = []
        self.tables = {}
        self.rows = {}
        self.lists = {}
        self.transaction = None
        for line in text.decode().split("\n"):
            words = line.split()
            if words and not words[0].startswith("#"):
                self.take(words)

    def take(self, words):
        if self.transaction is not None:
            if words == ["end"]:
                self.transaction = None
            else:
                self.transaction.append(words)
        elif words[0] == "nodes":
            self.nodes = int(words[1])
        elif words[0] == "workers":
            self.workers = int(words[1])
        elif words[0] == "stop":
            self.stops.append(int(words[1]))
        elif words[0] == "table":
            self.tables[words[1]] = (int(words[2]), int(words[3]))
        elif words[0] == "row":
            self.rows[words[1], int(words[2])] = [int(word) for word in words[3:]]
        elif words[0] == "txn":
            self.transaction = []
            self.lists.setdefault(int(words[1]), []).append(self.transaction)

    def requests(self, worker):
        return self.lists.get(worker, [])

    def row_lines(self, rows):
        order = {name: number for number, name in enumerate(self.tables)}
        places = sorted(rows, key=lambda place: (order[place[0]], place[1]))
        return [" ".join(["row", name, str(key), *map(str, rows[name, key])]) for name, key in places]


# ---- what a transaction does ----

class Declined(Exception):
    """An operation that declined."""


class Run:
    """A transaction on some rows: its registers, outputs and writes."""

    def __init__(self, tables, rows):
        self.tables = tables
        self.rows = rows
        self.registers = [0] * 16
        self.outputs = []
        self.writes = {}

    def value(self, word):
        return self.registers[int(word[1:])] if word[0] == "r" else int(word)

    def set(self, register, value):
        self.registers[int(register[1:])] = value % WORDS

    def key(self, table, word, count=1):
        key = self.value(word)
        if key + count > self.tables[table][0]:
            raise Declined
        return key

    def row(self, table, key):
        place = (table, key)
        return self.writes[place] if place in self.writes else self.rows.get(place)

    def column(self, table, key, column):
        row = self.row(table, key)
        return 0 if row is None else row[int(column)]

    def do(self, words):
        """Does an operation, and tells how many of the next are passed over."""
        name, *rest = words
        if name == "set":
            self.set(rest[0], self.value(rest[1]))
        elif name in ("add", "sub", "mul"):
            a, b = self.value(rest[1]), self.value(rest[2])
            self.set(rest[0], {"add": a + b, "sub": a - b, "mul": a * b}[name])
        elif name == "get":
            self.set(rest[3], self.column(rest[0], self.key(rest[0], rest[1]), rest[2]))
        elif name == "has":
            self.set(rest[2], int(self.row(rest[0], self.key(rest[0], rest[1])) is not None))
        elif name == "put":
            self.writes[rest[0], self.key(rest[0], rest[1])] = [self.value(word) for word in rest[2:]]
        elif name == "del":
            self.writes[rest[0], self.key(rest[0], rest[1])] = None
        elif name == "scan":
            first, count = self.key(rest[0], rest[1], int(rest[2])), int(rest[2])
            self.set(rest[4], sum(self.column(rest[0], key, rest[3]) for key in range(first, first + count)))
        elif name == "need":
            if not RELATIONS[rest[1]](self.value(rest[0]), self.value(rest[2])):
                raise Declined
        elif name == "skip":
            return int(rest[3]) if RELATIONS[rest[1]](self.value(rest[0]), self.value(rest[2])) else 0
        elif name == "out":
            self.outputs.append(self.value(rest[0]))
        return 0


def run(tables, rows, transaction):
    """Runs a transaction on some rows and changes them; tells how it ended and its outputs, as words."""
    progress = Run(tables, rows)
    at = 0
    while at < len(transaction):
        try:
            at += 1 + progress.do(transaction[at])
        except Declined:
            return ["declined", str(at + 1), *map(str, progress.outputs)]
    for place, row in progress.writes.items():
        if row is None:
            rows.pop(place, None)
        else:
            rows[place] = row
    return ["done", *map(str, progress.outputs)]


# ---- the form of a report ----

class Lines:
    """The lines of a text, from the first on."""

    def __init__(self, text):
        self.lines = text.split(b"\n")
        self.ended = self.lines[-1] == b""
        if self.ended:
            self.lines.pop()
        self.at = 0

    def line(self):
        """The number of the next line."""
        return self.at + 1

    def peek(self):
        """The words of the next line, or none at the end."""
        if self.at == len(self.lines):
            return None
        text = self.lines[self.at]
        if any(byte < 32 or byte > 126 for byte in text) or (self.at + 1 == len(self.lines) and not self.ended):
            return [""]
        return text.decode().split(" ")

    def fail(self):
        raise Wrong(self.line(), "form")

    def take(self, is_form):
        words = self.peek()
        if words is None or not is_form(words):
            self.fail()
        self.at += 1
        return words


def is_number(word, bits):
    return bool(NUMBER.fullmatch(word)) and int(word) < 2 ** bits


def are_numbers(words, bits):
    return len(words) == len(bits) and all(map(is_number, words, bits))


def is_title(words):
    return len(words) == 2 and words[0] == "rolis" and words[1] in ("serial", "steps", "sim", "live")


def is_item(words):
    if len(words) < 6 or words[0] != "item" or not are_numbers(words[1:5], [32, 64, 32, 32]):
        return False
    outputs = words[6:]
    if words[5] == "declined":
        if not outputs or not is_number(outputs[0], 32):
            return False
        outputs = outputs[1:]
    elif words[5] != "done":
        return False
    return all(is_number(word, 64) for word in outputs)


def is_row(words):
    return (4 <= len(words) <= 7 and words[0] == "row" and bool(NAME.fullmatch(words[1]))
            and is_number(words[2], 32) and all(is_number(word, 64) for word in words[3:]))


def is_role(words):
    if words == ["follower"]:
        return True
    if words[:1] == ["candidate"]:
        return are_numbers(words[1:], [32, 32, 32])
    return len(words) == 3 and words[0] == "leader" and is_number(words[1], 32) and words[2] in ("opening", "open")


def is_head(words, number):
    """Whether a line of `sim` begins the block of a node."""
    if len(words) < 3 or words[0] != "node":
        return False
    if not (is_number(words[1], 32) if number is None else words[1] == str(number)):
        return False
    rest = words[2:]
    if rest == ["lost"]:
        return True
    if rest[0] == "down":
        return len(rest) == 3 and rest[1] == "promised" and is_number(rest[2], 32)
    return (len(rest) >= 8 and rest[:2] == ["up", "promised"] and is_number(rest[2], 32) and is_role(rest[3:-4])
            and rest[-4] == "watermark" and is_number(rest[-3], 32) and is_number(rest[-2], 64)
            and rest[-1] in ("at", "behind"))


def is_stream(words, number):
    return (len(words) == 8 and words[0] == "stream" and words[1] == str(number)
            and (words[2], words[4], words[6]) == ("ballot", "len", "known")
            and all(is_number(words[place], 32) for place in (3, 5, 7)))


def is_middle(words):
    if words[0] == "refused":
        places = words[1:4]
        if len(words) < 8 or not are_numbers(places, [32, 32, 32]) or not NAME.fullmatch(words[5]):
            return False
        return {"locked": lambda: are_numbers(words[6:], [32, 64]),
                "changed": lambda: are_numbers(words[6:], [32, 64, 64])}.get(words[4], lambda: False)()
    if words[0] == "denied":
        return (len(words) == 5 and is_number(words[1], 64) and is_number(words[2], 32)
                and words[3] in ("promised", "ballot", "order") and is_number(words[4], 32))
    if words[0] == "nomessage":
        return are_numbers(words[1:], [64])
    return words[0] == "opened" and are_numbers(words[1:], [32, 32, 32])


def read_rows(lines):
    rows = []
    while (words := lines.peek()) is not None and words[0] == "row":
        rows.append((lines.line(), " ".join(lines.take(is_row))))
    return rows


def read_block_of_sim(lines, number):
    words = lines.take(lambda words: is_head(words, number))
    if words[2] == "lost":
        return
    stream = 1
    lines.take(lambda words: is_stream(words, 1))
    while (next_words := lines.peek()) is not None and next_words[0] == "stream":
        stream += 1
        lines.take(lambda words: is_stream(words, stream))
    if words[2] == "up":
        read_rows(lines)


def read_middle(lines, has_blocks):
    while (words := lines.peek()) is not None and words[0] != "items":
        if has_blocks and words[0] == "node":
            read_block_of_sim(lines, None)
        else:
            lines.take(is_middle if has_blocks else lambda words: words[0] == "refused" and is_middle(words))


def read_items(lines):
    words = lines.take(lambda words: words[0] == "items" and are_numbers(words[1:], [64]))
    return [(lines.line(), lines.take(is_item)) for _ in range(int(words[1]))]


def read_blocks(lines):
    blocks = []
    while not blocks or lines.peek() is not None:
        number = len(blocks) + 1
        head = lines.line()
        lines.take(lambda words: words == ["node", str(number)])
        blocks.append((head, read_rows(lines)))
    return blocks


def read_report(text):
    """The items and the blocks of a threaded run's report; a report of another form has none."""
    lines = Lines(text)
    title = lines.take(is_title)[1]
    if title in ("steps", "sim"):
        read_middle(lines, title == "sim")
    items = read_items(lines)
    blocks = []
    if title == "live":
        blocks = read_blocks(lines)
    elif title == "sim":
        number = 1
        while number == 1 or lines.peek() is not None:
            read_block_of_sim(lines, number)
            number += 1
    else:
        lines.take(lambda words: words == ["tables"])
        read_rows(lines)
    if lines.peek() is not None:
        lines.fail()
    return title, items, blocks, lines.line()


# ---- what is right ----

def is_next_stamp(script, last, epoch, seq):
    if not (1 <= epoch < 2 ** 20 and 2 <= seq <= 2 ** 40 - 2 and (epoch, seq) > last):
        return False
    if epoch > len(script.stops) + 1:
        return False
    return epoch > len(script.stops) or seq <= script.stops[epoch - 1] + 1


def judge_items(script, items, rows):
    last = (0, 0)
    done = {}
    for line, words in items:
        epoch, seq, worker, index = map(int, words[1:5])
        if not is_next_stamp(script, last, epoch, seq):
            raise Wrong(line, "stamp")
        last = (epoch, seq)
        requests = script.requests(worker)
        if index != done.get(worker, 0) + 1 or index > len(requests):
            raise Wrong(line, "request")
        done[worker] = index
        if run(script.tables, rows, requests[index - 1]) != words[5:]:
            raise Wrong(line, "reply")
    if any(done.get(worker, 0) < len(requests) for worker, requests in script.lists.items()):
        raise Wrong(2, "missing")


def judge_blocks(script, blocks, rows, end):
    due = script.row_lines(rows)
    for number, (head, lines) in enumerate(blocks, 1):
        if number > script.nodes:
            raise Wrong(head, "nodes")
        for place in range(max(len(due), len(lines))):
            if place >= len(lines) or place >= len(due) or lines[place][1] != due[place]:
                raise Wrong(head + 1 + place, "table")
    if len(blocks) < script.nodes:
        raise Wrong(end, "nodes")


def judge(script, text):
    title, items, blocks, end = read_report(text)
    if title != "live":
        raise Wrong(1, "title")
    rows = dict(script.rows)
    judge_items(script, items, rows)
    judge_blocks(script, blocks, rows, end)
    return len(items)


def answer(text):
    """What is printed of an input."""
    before, line, report = (b"\n" + text).partition(b"\nreport\n")
    if not line:
        raise SystemExit("check_report.py: the input has no line 'report'")
    try:
        return f"yes {judge(Script(before), report)}"
    except Wrong as wrong:
        return "no line {} {}".format(*wrong.args)


if __name__ == "__main__":
    print(answer(sys.stdin.buffer.read()))

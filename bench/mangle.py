#!/usr/bin/env python3
"""Runs `serial`, `steps` and `sim` on damaged scripts, which are made from the examples by a seeded mangler.

Each must end with status 0, 3 or 4: at 3 and 4 with the one line `fault line L KIND` or `limit NAME VALUE`, at 0
with a report; and none may take ten times the processor time of the median. No part of the gate.
Usage: bench/mangle.py [COUNT] [SEED] [--commands serial,steps,sim] [--binary PATH]
"""
import argparse
import collections
import concurrent.futures
import glob
import os
import random
import re
import statistics
import subprocess
import sys
import tempfile
import threading

TOP = os.path.dirname(os.path.dirname(os.path.abspath(__file__)))
LINE = {
    3: re.compile(rb"fault line [1-9][0-9]* [A-Z][A-Za-z]+\n\Z"),
    4: re.compile(rb"limit [a-z]+ [0-9]+\n\Z"),
}
WORDS = [b"0", b"01", b"r16", b"r0", b"18446744073709551616", b"65537", b"#", b"end", b"events", b"row", b"step",
         b"txn", b"table", b"workers", b"x" * 17, b"need", b"eq", b"all", b"elect", b"random", b"dlv", b"drop", b"tick", b"crash", b"back", b"lose", b"flush",
         b"idle", b"playall", b"show", b"1", b"2", b"3", b"\x00", b"\x7f"]


def damaged(text, rng):
    """One to four damages: of a byte, a word or a line."""
    for _ in range(rng.randint(1, 4)):
        lines = text.split(b"\n")
        at = rng.randrange(len(lines))
        kind = rng.randrange(8)
        if kind == 0 and text:
            i = rng.randrange(len(text))
            text = text[:i] + bytes([rng.randrange(256)]) + text[i + 1:]
            continue
        if kind == 1 and text:
            i = rng.randrange(len(text))
            text = text[:i] + text[i + rng.randint(1, 3):]
            continue
        if kind == 2:
            del lines[at]
        elif kind == 3:
            lines.insert(rng.randrange(len(lines) + 1), lines[at])
        elif kind == 4:
            other = rng.randrange(len(lines))
            lines[at], lines[other] = lines[other], lines[at]
        else:
            words = lines[at].split(b" ")
            i = rng.randrange(len(words))
            if kind == 5:
                words[i] = rng.choice(WORDS)
            elif kind == 6:
                words.insert(i, rng.choice(WORDS))
            else:
                del words[i]
            lines[at] = b" ".join(words)
        text = b"\n".join(lines)
    return text


def run(binary, command, text):
    """The status of a command on a text, what it writes, and its processor time in seconds."""
    with tempfile.TemporaryFile() as given:
        given.write(text)
        given.seek(0)
        program = subprocess.Popen([binary, command], stdin=given, stdout=subprocess.PIPE)
        timer = threading.Timer(20, program.kill)
        timer.start()
        out = program.stdout.read()
        _, status, usage = os.wait4(program.pid, 0)
        timer.cancel()
        program.stdout.close()
        program.returncode = os.waitstatus_to_exitcode(status)
    return program.returncode, out, usage.ru_utime + usage.ru_stime


def judge(command, code, out):
    """The status, or what is wrong."""
    if code < 0:
        return "killed after 20 s" if code == -9 else f"ended by signal {-code}"
    if code == 0:
        return 0 if out.startswith(b"rolis %s\n" % command.encode()) else "status 0 without a report"
    if code in LINE:
        return code if LINE[code].match(out) else f"status {code} with {out[:80]!r}"
    return f"status {code}"


def tell(command, tally, seconds, bad):
    """Prints how a command ended and how long it took; whether all is well."""
    print(f"{command}:", ", ".join(f"{what}: {n}" for what, n in sorted(tally.items(), key=str)))
    median, (slowest, number, text) = statistics.median(it[0] for it in seconds), max(seconds)
    print(f"{command}: median {median * 1000:.2f} ms, slowest {slowest * 1000:.2f} ms, {slowest / median:.1f} times that")
    if slowest > 10 * median:
        bad.append((number, f"takes {slowest / median:.1f} times the median", text))
    for number, what, text in bad:
        print(f"script {number}, {command}: {what}\n{text!r}")
    return not bad


def main():
    ask = argparse.ArgumentParser(description=__doc__, formatter_class=argparse.RawDescriptionHelpFormatter)
    ask.add_argument("count", nargs="?", type=int, default=100000, help="how many scripts for each command")
    ask.add_argument("seed", nargs="?", type=int, default=1)
    ask.add_argument("--commands", default="serial,steps,sim")
    ask.add_argument("--binary", default=os.path.join(TOP, "crates", "rl_cli", "out", "rl_cli"))
    args = ask.parse_args()
    places = [os.path.join(TOP, "examples", "*.rolis"), os.path.join(TOP, "examples", "runs", "*.rolis")]
    examples = [open(name, "rb").read() for place in places for name in sorted(glob.glob(place))]
    is_well = True
    for command in args.commands.split(","):
        def one(number):
            rng = random.Random(args.seed * 1000003 + number)
            text = damaged(rng.choice(examples), rng)
            return number, text, *run(args.binary, command, text)

        tally, seconds, bad = collections.Counter(), [], []
        with concurrent.futures.ThreadPoolExecutor(os.cpu_count() or 1) as pool:
            for number, text, code, out, time in pool.map(one, range(args.count)):
                what = judge(command, code, out)
                tally[what] += 1
                seconds.append((time, number, text))
                if not isinstance(what, int) and len(bad) < 5:
                    bad.append((number, what, text))
        is_well = tell(command, tally, seconds, bad) and is_well
    return 0 if is_well else 1


if __name__ == "__main__":
    sys.exit(main())

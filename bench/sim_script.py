#!/usr/bin/env python3
"""Prints a script for `sim` in which one leader runs requests in batches of 8, and every node plays them.

Each request adds 1 to one of 64 accounts, which takes 10 steps. The workers take turns of 8 requests, which make a batch;
then all messages are delivered until each node knows the batches, and plays them.
Usage: bench/sim_script.py NODES WORKERS REQUESTS
"""
import sys

STEPS = 10
BATCH = 8


def script(nodes, workers, requests):
    """The lines of the script."""
    yield from ["rolis 1", f"nodes {nodes}", f"workers {workers}", f"batch {BATCH}", "table acct 64 1"]
    yield from (f"row acct {key} 1000" for key in range(64))
    for request in range(requests):
        account = request * 7 % 64
        yield from [f"txn {request % workers + 1}", f"get acct {account} 0 r0", "add r0 r0 1", f"put acct {account} r0",
                    "out r0", "end"]
    yield from ["events", "elect 1", "all", "all", "all", "all"]
    each = range(1, workers + 1)
    for _ in range(0, requests, workers * BATCH):
        yield from (f"step 1 {worker} {STEPS * BATCH}" for worker in each)
        yield from ["all", "all", "all"]
        yield from (f"playall {node}" for node in range(1, nodes + 1))
    yield from (f"flush 1 {worker}" for worker in each)
    yield from (f"idle 1 {worker}" for worker in each)
    yield from ["all", "all", "all"]
    yield from (f"playall {node}" for node in range(1, nodes + 1))


if __name__ == "__main__":
    print("\n".join(script(*map(int, sys.argv[1:4]))))

#!/usr/bin/env bash
# Feeds nodes 20,000 damaged messages and compares each answer with the rule of bad messages, by bench/damaged.py.
# Arguments: COUNT and SEED.
set -u
. "$(dirname "$0")/count.sh"
. "$(dirname "$0")/program.sh"
build_program bench_damaged damaged.rt.in "anyhow rl_node rl_node_tests" damaged
"$top/bench/damaged.py" "$binary" "$@"

#!/usr/bin/env bash
# Instructions of a leader and its followers, called by a small driver with each step and each message, for 250 to 8,000
# requests in batches of 8, and for each request. What reading the script takes is taken off. Repeatable.
set -u
. "$(dirname "$0")/count.sh"
need_counter
. "$(dirname "$0")/program.sh"

build_program bench_nodes nodes.rt.in "anyhow rl_node_tests" read
echo "| nodes | workers | requests | instructions | for each request | for each request more than in the line above |"
echo "|---|---|---|---|---|---|"
for nodes in 3 7; do
  more= size_before=0 before=0
  for size in 250 500 1000 2000 4000 8000; do
    "$top/bench/sim_script.py" "$nodes" 4 "$size" | grep -v playall >"$work/in"
    read_only=$(count read) || exit 1
    instructions=$(count play) || exit 1
    [ "$(cat "$work/told")" -eq "$size" ] || echo "bench: released $(cat "$work/told") of $size" >&2
    instructions=$((instructions - read_only))
    if [ "$before" -gt 0 ]; then
      more=$(each $((instructions - before)) $((size - size_before)))
    fi
    echo "| $nodes | 4 | $size | $instructions | $(each "$instructions" "$size") | $more |"
    size_before=$size before=$instructions
  done
done

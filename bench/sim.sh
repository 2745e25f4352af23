#!/usr/bin/env bash
# Instructions of `rolis sim` for 1,000 to 8,192 requests in batches of 8 on 1, 3 and 7 nodes with 4 and 16 workers, and for
# each request; then of the script that `gen script 7 3 4 1000` prints. Repeatable. A setup has at most 8,192 requests.
set -u
. "$(dirname "$0")/count.sh"

need_program_and_counter
echo "| nodes | workers | requests | instructions | for each request | for each request more than in the line above |"
echo "|---|---|---|---|---|---|"
for nodes in 1 3 7; do
  for workers in 4 16; do
    more= size_before=0 before=0
    for size in 1000 2000 4000 8192; do
      "$top/bench/sim_script.py" "$nodes" "$workers" "$size" >"$work/in"
      instructions=$(count sim) || exit 1
      if [ "$before" -gt 0 ]; then
        more=$(each $((instructions - before)) $((size - size_before)))
      fi
      echo "| $nodes | $workers | $size | $instructions | $(each "$instructions" "$size") | $more |"
      size_before=$size before=$instructions
    done
  done
done
"$binary" gen script 7 3 4 1000 >"$work/in"
echo
echo "gen script 7 3 4 1000: $(count sim) instructions"

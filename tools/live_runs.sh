#!/usr/bin/env bash
# Runs generated scripts by threads, under links that lose messages, and lets `check` read each report.
#   live_runs.sh [SEEDS]   for each seed from 1 on (20 if not given) a script of 1 to 7 nodes, 1 to 16 workers and 1,000 requests
# A line for each run: what `check` says, which has to be `yes 1000`, and the sum of the rows of each node, which has to be
# 64000. Status 1 where one is not. Build the program first.
set -u
top=$(cd "$(dirname "$0")/.." && pwd)
binary=$top/crates/rl_cli/out/rl_cli
work=$(mktemp -d)
trap 'rm -rf "$work"' EXIT
failed=0

if [ ! -x "$binary" ]; then
  echo "live_runs: build the program first: ./rolis serial < examples/two_transfers.rolis"
  exit 1
fi

for seed in $(seq 1 "${1:-20}"); do
  nodes=$((seed % 7 + 1)) workers=$((seed * 5 % 16 + 1))
  "$binary" gen script "$seed" "$nodes" "$workers" 1000 | sed 's/^loss 0$/loss 200/' >"$work/script"
  "$binary" live <"$work/script" >"$work/report"
  said=$( (cat "$work/script"; echo report; cat "$work/report") | "$binary" check)
  sums=$(awk '$1 == "node" { node = $2 } $1 == "row" && node { sum[node] += $4 } END { for (n in sum) print sum[n] }' "$work/report" | sort -u | tr '\n' ' ')
  echo "seed $seed, $nodes nodes, $workers workers: $said, sums $sums"
  [ "$said" = "yes 1000" ] && [ "$sums" = "64000 " ] || failed=1
done
exit "$failed"

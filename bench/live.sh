#!/usr/bin/env bash
# Runs of `live` by threads, beside the same design in plain Rust (live_plain.rs.in, over the attempts of attempts_plain.rs.in): wall
# time and the greatest resident set, from the script's bytes to those of the report. The first script is that of `gen script 7 3 8
# 2000`, the second has 8,192 requests of 16 workers on one key, at 3 nodes. Both programs run by turns, and the median of so many
# runs is told; all reports are judged by `check`. Only the ratios say something of another machine, and only of a quiet one.
#   live.sh [RUNS]   21 runs of each if not given
set -u
. "$(dirname "$0")/count.sh"
runs=${1:-21}

if [ ! -x "$binary" ]; then
  echo "bench: build the program first: ./rolis serial < examples/two_transfers.rolis" >&2
  exit 1
fi
if [ ! -x /usr/bin/time ]; then
  echo "bench: skipped, since there is no /usr/bin/time that tells the greatest resident set" >&2
  exit 0
fi

plain() {
  sed '/^fn work(/,$d' "$top/bench/attempts_plain.rs.in"
  cat "$top/bench/live_plain.rs.in"
}

one_key() {
  awk 'BEGIN {
    print "rolis 1\nnodes 3\nworkers 16\nbatch 8\ntable a 1 1"
    for (i = 0; i < 8192; i++) print "txn " i % 16 + 1 "\nget a 0 0 r0\nadd r0 r0 1\nput a 0 r0\nend"
  }'
}

# Runs a command on $work/in, and adds its milliseconds, and in a second run its kilobytes, to the lists of a name.
measure() {
  local name=$1 from to
  shift
  from=$EPOCHREALTIME
  "$@" <"$work/in" >"$work/report"
  to=$EPOCHREALTIME
  judge "$name"
  awk -v from="$from" -v to="$to" 'BEGIN { printf "%.2f\n", 1000 * (to - from) }' >>"$work/$name.ms"
  /usr/bin/time -f %M -o "$work/kilobytes" "$@" <"$work/in" >"$work/report"
  judge "$name"
  cat "$work/kilobytes" >>"$work/$name.kb"
}

# Ends the bench where a report is wrong.
judge() {
  if ! (cat "$work/in"; echo report; cat "$work/report") | "$binary" check >"$work/said"; then
    echo "bench: the report of $1 is not right: $(cat "$work/said")" >&2
    exit 1
  fi
}

median() {
  sort -n "$1" | awk '{ x[NR] = $1 } END { print x[int((NR + 1) / 2)] }'
}

# The line of a script: the medians of both programs, and the first one's to the second one's.
compare() {
  rm -f "$work"/*.ms "$work"/*.kb
  for _ in $(seq 1 "$runs"); do
    measure ours "$binary" live
    measure plain "$work/plain"
  done
  awk -v what="$1" -v a="$(median "$work/ours.ms")" -v b="$(median "$work/plain.ms")" -v c="$(median "$work/ours.kb")" \
    -v d="$(median "$work/plain.kb")" \
    'BEGIN { printf "| %s | %.1f | %.1f | %.2f | %d | %d | %.2f |\n", what, a, b, a / b, c, d, c / d }'
}

plain >"$work/plain.rs"
if ! rustc -O --edition 2021 "$work/plain.rs" -o "$work/plain" >"$work/log" 2>&1; then
  cat "$work/log" >&2
  echo "bench: the yardstick is not built" >&2
  exit 1
fi
echo "| script | ms | ms in plain Rust | ratio | kB | kB in plain Rust | ratio |"
echo "|---|---|---|---|---|---|---|"
"$binary" gen script 7 3 8 2000 >"$work/in"
compare "generated, 2,000 requests, 8 workers" || exit 1
one_key >"$work/in"
compare "one key, 8,192 requests, 16 workers" || exit 1

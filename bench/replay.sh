#!/usr/bin/env bash
# Replay by threads of 100,000 random writes over 65,536 keys, against a replay in one thread that sorts the items: the
# instructions on one part, and the ratio of wall time in 1, 2, 4 and 8 parts, all without what making the items takes. The
# instructions are repeatable, the times (the least of five runs) are not.
# The program is bench/replay.rt.in. It is proved and built in a copy of the repository, over the crates of tests of
# threads and what they stand on, which takes some minutes once.
set -u
. "$(dirname "$0")/count.sh"
need_counter
program=bench_replay
copy=$work/repository

# A log is told where the program can't be built.
run() {
  if ! "$@" >"$work/log" 2>&1 </dev/null; then
    cat "$work/log" >&2
    echo "bench: $program is not proved and built" >&2
    exit 1
  fi
}

build() {
  local crate
  cd "$top/crates/rl_threads_tests" || exit 1
  run rt lib
  for crate in "$top"/crates/*; do
    mkdir -p "$copy/crates/${crate##*/}/out"
    for part in src specs proofs out/rlib; do
      [ ! -d "$crate/$part" ] || cp -r "$crate/$part" "$copy/crates/${crate##*/}/${part%rlib}"
    done
  done
  mkdir -p "$copy/crates/$program/src"
  cp "$top/bench/replay.rt.in" "$copy/crates/$program/src/main.rt"
  cp "$top/crates.txt" "$copy/crates.txt"
  cp "$top/HANDLES" "$copy/HANDLES"
  echo "$program may_wait=2: anyhow rl_base rl_replay rl_shared_replay rl_threads_tests rl_value" >>"$copy/crates.txt"
  cd "$copy/crates/$program" || exit 1
  run rt run -- made
}

build
binary=$copy/crates/$program/out/$program
echo 1 >"$work/in"
made=$(count made) || exit 1
alone=$(count sequential) || exit 1
threads=$(count threads) || exit 1
echo "| replay on one part | instructions | without the items |"
echo "|---|---|---|"
echo "| in one thread, sorted | $alone | $((alone - made)) |"
echo "| by threads | $threads | $((threads - made)) |"
echo "| ratio | | $(awk -v a=$((threads - made)) -v b=$((alone - made)) 'BEGIN { printf "%.2f", a / b }') |"
echo
# The least milliseconds of five runs of a command.
least() {
  for _ in 1 2 3 4 5; do
    from=$EPOCHREALTIME
    "$binary" "$1" <"$work/in" >/dev/null
    to=$EPOCHREALTIME
    awk -v from="$from" -v to="$to" 'BEGIN { printf "%.1f\n", 1000 * (to - from) }'
  done | sort -n | head -n 1
}

echo "| parts | ms in one thread | ms by threads | ratio |"
echo "|---|---|---|---|"
for parts in 1 2 4 8; do
  echo "$parts" >"$work/in"
  awk -v parts="$parts" -v made="$(least made)" -v alone="$(least sequential)" -v threads="$(least threads)" 'BEGIN {
    printf "| %d | %.1f | %.1f | %.2f |\n", parts, alone - made, threads - made, (threads - made) / (alone - made)
  }'
done

#!/usr/bin/env bash
# Instructions of taking 1,000 to 16,000 batches of 8 items up into a family of 4 and of 16 streams, and for each batch:
# with `extend` alone, and with a replica that plays up to the watermark after each. The batches arrive in a mixed
# order, and an epoch begins after every 500; what making them takes is not counted. Repeatable.
set -u
. "$(dirname "$0")/count.sh"
need_counter
. "$(dirname "$0")/program.sh"

build_program bench_families families.rt.in "anyhow rl_families_tests" made4
echo "| streams | batches | instructions of extend | for each batch | of extend and play | for each batch |"
echo "|---|---|---|---|---|---|"
for streams in 4 16; do
  for batches in 1000 2000 4000 8000 16000; do
    echo "$batches" >"$work/in"
    made=$(count "made$streams") || exit 1
    extend=$(($(count "extend$streams") - made)) || exit 1
    play=$(($(count "play$streams") - made)) || exit 1
    echo "| $streams | $batches | $extend | $(each "$extend" "$batches") | $play | $(each "$play" "$batches") |"
  done
done

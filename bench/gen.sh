#!/usr/bin/env bash
# Instructions of `rolis gen script` and of `rolis gen run` for 250 to 2,000 requests on 3 nodes with 4 workers, and for each
# request; then of `gen run` on 7 nodes with 16 workers. Repeatable.
set -u
. "$(dirname "$0")/count.sh"

need_program_and_counter
: >"$work/in"
for command in script run; do
  echo "| requests | instructions of \`gen $command\` | for each request | for each request more than in the line above |"
  echo "|---|---|---|---|"
  more= size_before=0 before=0
  for size in 250 500 1000 2000; do
    instructions=$(count gen "$command" 7 3 4 "$size") || exit 1
    if [ "$before" -gt 0 ]; then
      more=$(each $((instructions - before)) $((size - size_before)))
    fi
    echo "| $size | $instructions | $(each "$instructions" "$size") | $more |"
    size_before=$size before=$instructions
  done
  echo
done
echo "gen run 7 7 16 2000: $(count gen run 7 7 16 2000) instructions"

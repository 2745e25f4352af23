#!/usr/bin/env bash
# Instructions of encoding and reading 2,500 to 10,000 batches, and as many Accepts that carry them, and for each byte.
# The first line of each table, with none, is the program's start. Repeatable.
set -u
. "$(dirname "$0")/count.sh"
need_counter
. "$(dirname "$0")/program.sh"

# A table: instructions for so many batches or messages, and for each byte of theirs.
table() {
  echo "| $1 | bytes | instructions | for each byte |"
  echo "|---|---|---|---|"
  for times in 0 2500 5000 10000; do
    echo "$times" >"$work/in"
    instructions=$(count "$1") || exit 1
    bytes=$(cat "$work/told")
    [ "$bytes" = 0 ] && share=- || share=$(each "$instructions" "$bytes")
    echo "| $times | $bytes | $instructions | $share |"
  done
}

build_program bench_batches batches.rt.in "anyhow rl_base rl_txn rl_batch rl_msg" batches
table batches
echo
table messages

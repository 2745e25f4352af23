#!/usr/bin/env bash
# Instructions of `rolis steps` for 1,000 to 16,000 steps of two workers on 64 accounts, and for each step. Repeatable.
# `steps.sh --script STEPS` prints the script of so many steps, and counts nothing.
set -u
. "$(dirname "$0")/count.sh"

# A transfer takes 19 steps, so there is a request left for every step. The workers take turns of at most 5 steps.
script() {
  awk -v steps="$1" 'BEGIN {
    print "rolis 1"; print "workers 2"; print "table acct 64 1"
    for (key = 0; key < 64; key++) print "row acct " key " 1000"
    requests = 2 * int(steps / 38 + 2)
    for (i = 1; i <= requests; i++) {
      from = i % 64; to = (3 * i + 1) % 64; if (to == from) to = (to + 1) % 64
      amount = i % 9 + 1
      print "txn " (i - 1) % 2 + 1 "\nget acct " from " 0 r0\nneed r0 ge " amount "\nsub r0 r0 " amount "\nput acct " from " r0"
      print "get acct " to " 0 r1\nadd r1 r1 " amount "\nput acct " to " r1\nend"
    }
    print "events"
    for (left = steps; left > 0; left -= turn) {
      turn = left < 5 ? left : 5
      print "step 1 " turns++ % 2 + 1 " " turn
    }
  }'
}

if [ "${1:-}" = --script ]; then
  script "${2:-1000}"
else
  table steps steps step 1000 2000 4000 8000 16000
fi

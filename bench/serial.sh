#!/usr/bin/env bash
# Instructions of `rolis serial` for 500 to 8,000 requests on 64 accounts, and for each request. Repeatable.
set -u
. "$(dirname "$0")/count.sh"

script() {
  awk -v requests="$1" 'BEGIN {
    print "rolis 1"; print "table acct 64 1"
    for (key = 0; key < 64; key++) print "row acct " key " 1000"
    for (i = 1; i <= requests; i++) {
      from = i % 64; to = (3 * i + 1) % 64; if (to == from) to = (to + 1) % 64
      amount = i % 9 + 1
      print "txn 1\nget acct " from " 0 r0\nneed r0 ge " amount "\nsub r0 r0 " amount "\nput acct " from " r0"
      print "get acct " to " 0 r1\nadd r1 r1 " amount "\nput acct " to " r1\nend"
    }
  }'
}

table serial requests request 500 1000 2000 4000 8000

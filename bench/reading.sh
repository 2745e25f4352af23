#!/usr/bin/env bash
# Instructions of reading a script of a quarter, a half and the whole of 4 MiB, less a byte, and for each byte. Its
# last line breaks a rule, so all of it is read and nothing is run. The program's start is counted too. Repeatable.
# `reading.sh --script BYTES` prints the script of so many bytes, and counts nothing.
set -u
. "$(dirname "$0")/count.sh"
wanted=3

# Of each part there are six opening rows, a transaction of 12 ops and 11 events. Words have the same length in every
# part, and 4 MiB take some 8,000 parts, which stay below all limits. A comment fills up what is left.
script() {
  awk -v bytes="$1" '
  function rows(part,   text, i) {
    for (i = 0; i < 6; i++) text = text "row acct " 10000 + 6 * part + i " 1000 1000000000000\n"
    return text
  }
  function transaction(part,   key) {
    key = 10000 + 6 * part
    return "txn 1\nget acct " key " 0 r0\nneed r0 ge 7\nsub r0 r0 7\nset r4 1\nput acct " key " r0 r4\n" \
      "get acct " key " 1 r1\nadd r1 r1 7\nput acct " key " r1 r0\nscan acct " key " 6 0 r2\n" \
      "mul r3 r2 18446744073709551615\nskip r3 eq 0 1\nout r3\nend\n"
  }
  function events(part,   text, i) {
    for (i = 0; i < 6; i++) text = text "step 1 1 1\n"
    return text "flush 1 1\ndlv " 10000 + part "\ntick 1\nplay 1 1\nall\n"
  }
  BEGIN {
    head = "rolis 1\ntable acct 65536 2\n"; middle = "events\n"; last = "end\n"
    left = bytes - length(head middle last)
    parts = int((left - 2) / length(rows(0) transaction(0) events(0)))
    left -= parts * length(rows(0) transaction(0) events(0))
    printf "%s", head
    for (part = 0; part < parts; part++) printf "%s", rows(part)
    for (part = 0; part < parts; part++) printf "%s", transaction(part)
    printf "%s", middle
    for (part = 0; part < parts; part++) printf "%s", events(part)
    for (filler = "#"; length(filler) < left - 1;) filler = filler "."
    printf "%s\n%s", filler, last
  }'
}

if [ "${1:-}" = --script ]; then
  script "${2:-1048576}"
else
  table serial bytes byte 1048576 2097152 4194303
fi

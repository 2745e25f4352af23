#!/usr/bin/env bash
# Instructions of `rolis check` for reports of three nodes with 8,192 to 65,536 rows each, and one request for each
# eight rows, and for each row. Repeatable.
set -u
. "$(dirname "$0")/count.sh"

script() {
  awk -v rows="$1" 'BEGIN {
    print "rolis 1"; print "nodes 3"; print "workers 4"; print "table acct " rows " 1"
    for (key = 0; key < rows; key++) { print "row acct " key " 1000"; now[key] = 1000 }
    requests = rows / 8
    for (i = 0; i < requests; i++) {
      worker = i % 4 + 1; key = i * 7919 % rows; index_of[worker]++; now[key]++
      print "txn " worker "\nget acct " key " 0 r0\nadd r0 r0 1\nput acct " key " r0\nout r0\nend"
      item[i] = "item 1 " i + 2 " " worker " " index_of[worker] " done " now[key]
    }
    print "report"; print "rolis live"; print "items " requests
    for (i = 0; i < requests; i++) print item[i]
    for (node = 1; node <= 3; node++) {
      print "node " node
      for (key = 0; key < rows; key++) print "row acct " key " " now[key]
    }
  }'
}

table check rows row 8192 16384 32768 65536

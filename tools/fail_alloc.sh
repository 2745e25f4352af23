#!/usr/bin/env bash
# Refuses each request for memory in turn, and looks what is answered. No part of the gate.
#
# Each command runs on small scripts with its first request for memory refused, then with its second alone, and so on up
# to a run in which none was: each run before that must end with status 7 and the line `memory`, or with the whole output.
#
# Then a run of nodes with an election, commits, a crash and a second election, in the same way (bench/refusals.rt.in): once
# memory was refused to a node it must answer that to each call until it crashes, and have the acceptor that it had before
# the call or the one that the call makes.
#
# Memory is refused by a library that stands before the C library's: so it is the built program that is looked at, and a
# run takes milliseconds, where `rt try --fail-alloc N` builds the program anew for each N.
# Usage: tools/fail_alloc.sh [commands | nodes]
set -u
. "$(dirname "$0")/../bench/count.sh"
. "$top/bench/program.sh"
shim=$work/refuse.so
bad=0

cat >"$work/refuse.c" <<'C'
#include <stdlib.h>
#include <unistd.h>

extern void *__libc_malloc(size_t);
extern void *__libc_realloc(void *, size_t);

/* Whether this request is the one to be refused; a byte on descriptor 3 tells that it was. */
static int refused(void)
{
    static long left = -1;
    if (left < 0) {
        const char *which = getenv("REFUSED_REQUEST");
        left = which == NULL ? 0 : atol(which);
    }
    return left > 0 && --left == 0 && write(3, "x", 1) == 1;
}

void *malloc(size_t size)
{
    return refused() ? NULL : __libc_malloc(size);
}

void *realloc(void *block, size_t size)
{
    return refused() ? NULL : __libc_realloc(block, size);
}
C
cc -O1 -shared -fPIC -o "$shim" "$work/refuse.c" || exit 1

# Runs a program with its Nth request refused: what it writes is in $work/told, and its status in $ended. Fails where
# there was no such request.
refuse() {
  local which=$1
  shift
  : >"$work/refused"
  REFUSED_REQUEST=$which LD_PRELOAD=$shim "$@" <"$work/in" >"$work/told" 2>"$work/said" 3>>"$work/refused"
  ended=$?
  [ -s "$work/refused" ]
}

# A command on a script.
command_on() {
  local command=$1 script=$2 which=0 ended=0 memory=0 whole=0
  cp "$script" "$work/in"
  "$binary" "$command" <"$work/in" >"$work/due"
  local due=$?
  while which=$((which + 1)) && refuse "$which" "$binary" "$command"; do
    if [ "$ended" -eq 7 ] && [ "$(cat "$work/told")" = memory ]; then
      memory=$((memory + 1))
    elif [ "$ended" -eq "$due" ] && cmp -s "$work/told" "$work/due"; then
      whole=$((whole + 1))
    else
      bad=$((bad + 1))
      echo "$command $script, request $which: status $ended, $(head -n 1 "$work/told")"
    fi
  done
  echo "$command ${script#"$top"/}: $((which - 1)) requests; $memory end with memory, $whole with the whole output"
}

# A run of nodes.
nodes_on() {
  local which=0 ended=0
  declare -A tally=()
  cat >"$work/in"
  echo "the run of nodes: $("$binary" <"$work/in")"
  while which=$((which + 1)) && refuse "$which" "$binary"; do
    local told
    told=$(head -n 1 "$work/told")
    case $told in
      before | after | same | down | elsewhere | whole*) ;;
      # memory was refused where the script is read
      '') told="no line, status $ended" ;;
      *)
        bad=$((bad + 1))
        echo "request $which: $told"
        ;;
    esac
    told=${told%%:*}
    tally[$told]=$((${tally[$told]:-0} + 1))
  done
  echo "the run of nodes: $((which - 1)) requests"
  for told in "${!tally[@]}"; do
    echo "  $told: ${tally[$told]}"
  done
}

if [ "${1:-commands}" = commands ]; then
  if [ ! -x "$binary" ]; then
    echo "build the program first: ./rolis serial < examples/two_transfers.rolis" >&2
    exit 1
  fi
  for command in serial steps sim; do
    for script in all_events another_node declined locked two_transfers; do
      command_on "$command" "$top/examples/$script.rolis"
    done
  done
fi
if [ "${1:-nodes}" = nodes ]; then
  build_program bench_refusals refusals.rt.in "anyhow rl_base rl_events rl_node rl_node_tests" nodes
  nodes_on <<'SCRIPT'
rolis 1
nodes 3
workers 2
batch 2
table a 2 1
txn 1
get a 0 0 r0
add r0 r0 1
put a 0 r0
out r0
end
txn 1
put a 1 7
end
txn 2
put a 0 6
end
events
elect 1
all
all
all
all
step 1 1 20
step 1 2 5
flush 1 2
all
all
tick 1
crash 1
elect 2
all
all
all
all
step 2 1 6
idle 2 2
flush 2 1
all
all
all
play 2 1
play 2 2
back 1
tick 2
all
all
SCRIPT
fi
echo "wrong: $bad"
[ "$bad" -eq 0 ]

#!/usr/bin/env bash
# Runs the examples and compares what is printed. A script examples/NAME.rolis ends with status 0 by `serial`, by
# `steps` and by `sim`, and NAME.COMMAND.out beside it is what the command prints; a script of examples/runs/ by `sim`
# alone. A script of examples/faults/ prints by all three the line of the file .out beside it, with the status of a fault
# or of a limit. Two scripts that are written here pass the limits of a run by `sim`. A script with a report of
# examples/checks/ prints by `check` the line of the file .out beside it, with the status of that line. The run of a
# generated script prints examples/generated_run.out. What `live` reports of a script examples/NAME.rolis, `check` finds right. Words that are no command print examples/usage.out. A line for each difference; status 1 where there is one.
set -u
top=$(cd "$(dirname "$0")/.." && pwd)
binary=$top/crates/rl_cli/out/rl_cli
work=$(mktemp -d)
told=$work/told
trap 'rm -rf "$work"' EXIT
right=0 wrong=0

if [ ! -x "$binary" ]; then
  echo "examples: build the program first: ./rolis serial < examples/two_transfers.rolis"
  exit 1
fi

# check STATUS OUT SCRIPT WORD..: runs the program by the words on a script, and compares its status, and its output
# with a file.
check() {
  local wanted=$1 out=$2 script=$3 status
  shift 3
  "$binary" "$@" <"$script" >"$told"
  status=$?
  if [ "$status" -ne "$wanted" ]; then
    echo "${script#"$top"/}, rolis $*: status $status, and $wanted is due"
  elif [ ! -e "$out" ]; then
    echo "${out#"$top"/} is missing: what rolis $* has to print"
  elif ! cmp -s "$told" "$out"; then
    echo "${script#"$top"/}, rolis $*: not what ${out#"$top"/} has:"
    diff "$told" "$out" | head -n 5
  else
    right=$((right + 1))
    return
  fi
  wrong=$((wrong + 1))
}

for script in "$top"/examples/*.rolis; do
  for command in serial steps sim; do
    check 0 "${script%.rolis}.$command.out" "$script" "$command"
  done
done

# live SCRIPT: runs a script by threads; its report differs from run to run, and has to be right.
live() {
  (cat "$1"; echo; echo report; "$binary" live <"$1") | grep -v '^$' >"$work/run"
  "$binary" check <"$work/run" >"$told"
  if [ $? -eq 0 ]; then
    right=$((right + 1))
  else
    echo "${1#"$top"/}, rolis live: its report is not right: $(cat "$told")"
    wrong=$((wrong + 1))
  fi
}

for script in "$top"/examples/*.rolis; do
  live "$script"
done

for script in "$top"/examples/runs/*.rolis; do
  check 0 "${script%.rolis}.sim.out" "$script" sim
done

for script in "$top"/examples/faults/*.rolis; do
  out=${script%.rolis}.out
  wanted=3
  [ "$(cut -d ' ' -f 1 "$out")" = limit ] && wanted=4
  for command in serial steps sim; do
    check "$wanted" "$out" "$script" "$command"
  done
done

# One batch more than a stream has slots: a mark, and an item for each of as many requests.
awk 'BEGIN {
  print "rolis 1"
  for (i = 0; i < 4096; i++) print "txn 1\nend"
  print "events\nelect 1\nall\nall\nall\nall\nstep 1 1 4096"
}' >"$work/slots"
echo "limit slots 4096" >"$work/slots.out"
check 4 "$work/slots.out" "$work/slots" sim

# More bytes than all messages may have: one of two nodes is lost, and the other sends 40 batches of 64 rows again and again.
awk 'BEGIN {
  print "rolis 1\nnodes 2\ntable t 64 4"
  for (i = 0; i < 40; i++) {
    print "txn 1"
    for (key = 0; key < 64; key++) print "put t " key " 0 0 0 0"
    print "end"
  }
  print "events\nelect 1\nall\nall\nall\nall\nlose 2\nstep 1 1 40000"
  for (i = 0; i < 3000; i++) print "tick 1"
}' >"$work/bytes"
echo "limit bytes 268435456" >"$work/bytes.out"
check 4 "$work/bytes.out" "$work/bytes" sim
for input in "$top"/examples/checks/*.report; do
  out=${input%.report}.out
  case $(cut -d ' ' -f 1 "$out") in
    yes) wanted=0 ;;
    no) wanted=1 ;;
    *) wanted=3 ;;
  esac
  check "$wanted" "$out" "$input" check
done

check 0 "$top/examples/generated_run.out" /dev/null gen run 7 3 4 1000

usage=$top/examples/usage.out
script=$top/examples/two_transfers.rolis
check 2 "$usage" "$script"
check 2 "$usage" "$script" Serial
check 2 "$usage" "$script" serial serial
check 2 "$usage" "$script" rolis steps

echo "examples: $right right, $wrong wrong"
[ "$wrong" -eq 0 ]

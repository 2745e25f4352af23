# Counting of instructions, for the benches: by valgrind's callgrind, or perf. It measures no time.
# A bench sources it, names the program's command, and gives it a script in $work/in.
top=$(cd "$(dirname "$0")/.." && pwd)
binary=$top/crates/rl_cli/out/rl_cli
# the status with which the program is to end
wanted=0
work=$(mktemp -d)
trap 'rm -rf "$work"' EXIT

# Ends the bench with a word where there is nothing that counts.
need_counter() {
  if ! command -v valgrind >/dev/null 2>&1 && ! perf stat -e instructions:u true >/dev/null 2>&1; then
    echo "bench: skipped, since neither valgrind nor perf counts instructions here" >&2
    exit 0
  fi
}

# Ends the bench with a word where there is no program, or nothing that counts.
need_program_and_counter() {
  if [ ! -x "$binary" ]; then
    echo "bench: build the program first: ./rolis serial < examples/two_transfers.rolis" >&2
    exit 1
  fi
  need_counter
}

# Instructions of a command, which may have more words, on $work/in. Another status than the wanted one ends the bench.
count() {
  "$binary" "$@" <"$work/in" >"$work/told"
  if [ $? -ne "$wanted" ]; then
    echo "bench: '$*' did not run: $(head -n 1 "$work/told")" >&2
    exit 1
  fi
  if command -v valgrind >/dev/null 2>&1; then
    valgrind --tool=callgrind --callgrind-out-file="$work/out" "$binary" "$@" <"$work/in" 2>&1 >/dev/null |
      sed -n 's/.*Collected : *\([0-9]*\).*/\1/p'
  else
    perf stat -x, -e instructions:u -o "$work/perf" "$binary" "$@" <"$work/in" >/dev/null
    awk -F, '/instructions/ { print $1 }' "$work/perf"
  fi
}

# Instructions for each of so many things, to a tenth where they are few.
each() {
  awk -v instructions="$1" -v things="$2" 'BEGIN {
    x = instructions / things
    if (x < 1000) printf "%.1f\n", x; else printf "%d\n", x
  }'
}

# A table: instructions of a command on the scripts of these sizes, for each of what is counted, and for each more
# than in the line above, where the program's start counts no more.
table() {
  command=$1 things=$2 thing=$3
  shift 3
  need_program_and_counter
  echo "| $things | instructions | for each $thing | for each $thing more than in the line above |"
  echo "|---|---|---|---|"
  more= size_before=0 before=0
  for size in "$@"; do
    script "$size" >"$work/in"
    instructions=$(count "$command") || exit 1
    if [ "$before" -gt 0 ]; then
      more=$(each $((instructions - before)) $((size - size_before)))
    fi
    echo "| $size | $instructions | $(each "$instructions" "$size") | $more |"
    size_before=$size before=$instructions
  done
}

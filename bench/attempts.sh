#!/usr/bin/env bash
# Attempts on shared records: 100,000 transfers of two keys, on 64 and on 8,192 keys. Instructions a commit on one thread, beside
# the same design in plain Rust (attempts_plain.rs.in), and commits a second of 2 and 4 threads as a ratio to 1 in one run, all
# without what making the transactions takes. The instructions are repeatable, the times (the least of five runs) are not.
# The program is bench/attempts.rt.in. It is proved and built in a copy of the repository, over the crate of tests of the store and
# what it stands on, which takes some minutes once.
set -u
. "$(dirname "$0")/count.sh"
need_counter
program=bench_attempts
copy=$work/repository
transfers=100000

# A log is told where the program can't be built.
run() {
  if ! "$@" >"$work/log" 2>&1 </dev/null; then
    cat "$work/log" >&2
    echo "bench: $program is not built" >&2
    exit 1
  fi
}

build() {
  local crate
  cd "$top/crates/rl_store_tests" || exit 1
  run rt lib
  for crate in "$top"/crates/*; do
    mkdir -p "$copy/crates/${crate##*/}/out"
    for part in src specs proofs out/rlib; do
      [ ! -d "$crate/$part" ] || cp -r "$crate/$part" "$copy/crates/${crate##*/}/${part%rlib}"
    done
  done
  mkdir -p "$copy/crates/$program/src"
  cp "$top/bench/attempts.rt.in" "$copy/crates/$program/src/main.rt"
  cp "$top/crates.txt" "$copy/crates.txt"
  cp "$top/HANDLES" "$copy/HANDLES"
  echo "$program: anyhow rl_base rl_store_tests rl_tables rl_value" >>"$copy/crates.txt"
  cd "$copy/crates/$program" || exit 1
  printf '64\n1\n' >"$work/first"
  run bash -c "rt run -- made <'$work/first'"
  cp "$top/bench/attempts_plain.rs.in" "$work/plain.rs"
  run rustc -O --edition 2021 "$work/plain.rs" -o "$work/plain"
}

# The least milliseconds of five runs of a command.
least() {
  for _ in 1 2 3 4 5; do
    from=$EPOCHREALTIME
    "$binary" "$1" <"$work/in" >/dev/null
    to=$EPOCHREALTIME
    awk -v from="$from" -v to="$to" 'BEGIN { printf "%.1f\n", 1000 * (to - from) }'
  done | sort -n | head -n 1
}

# Instructions a commit of a program.
a_commit() {
  binary=$1
  local made alone
  made=$(count made) || exit 1
  alone=$(count run) || exit 1
  echo $(((alone - made) / transfers))
}

build
proved=$copy/crates/$program/out/$program
echo "| keys | instructions a commit | in plain Rust | ratio |"
echo "|---|---|---|---|"
for keys in 64 8192; do
  printf '%s\n1\n' "$keys" >"$work/in"
  ours=$(a_commit "$proved") || exit 1
  plain=$(a_commit "$work/plain") || exit 1
  echo "| $keys | $ours | $plain | $(awk -v a="$ours" -v b="$plain" 'BEGIN { printf "%.2f", a / b }') |"
done
echo
echo "| keys | threads | ms | commits a second, to those of one thread | the same in plain Rust |"
echo "|---|---|---|---|---|"
for keys in 64 8192; do
  for threads in 1 2 4; do
    printf '%s\n%s\n' "$keys" "$threads" >"$work/in"
    binary=$proved
    ours=$(awk -v a="$(least run)" -v b="$(least made)" 'BEGIN { printf "%.1f", a - b }')
    binary=$work/plain
    plain=$(awk -v a="$(least run)" -v b="$(least made)" 'BEGIN { printf "%.1f", a - b }')
    if [ "$threads" = 1 ]; then ours_alone=$ours plain_alone=$plain; fi
    awk -v k="$keys" -v t="$threads" -v a="$ours_alone" -v b="$ours" -v c="$plain_alone" -v d="$plain" \
      'BEGIN { printf "| %d | %d | %.1f | %.2f | %.2f |\n", k, t, b, a / b, c / d }'
  done
done

# Builds a bench that is a program of its own. It is proved and built in a copy of the repository, over the crates that
# it stands on: what these take to prove, some minutes, they take once, as it is kept in the repository.
# A bench sources it behind count.sh.
copy=$work/repository

# A log is told where the program can't be built.
run() {
  if ! "$@" >"$work/log" 2>&1 </dev/null; then
    cat "$work/log" >&2
    echo "bench: $program is not proved and built" >&2
    exit 1
  fi
}

# Builds a program from a file, over the crates of its line of crates.txt, and runs it once, with one word.
build_program() {
  program=$1 source=$2 crates=$3 word=$4
  local crate part
  for crate in $crates; do
    [ -d "$top/crates/$crate" ] || continue
    cd "$top/crates/$crate" || exit 1
    run rt lib
  done
  for crate in "$top"/crates/*; do
    mkdir -p "$copy/crates/${crate##*/}/out"
    for part in src specs proofs out/rlib; do
      [ ! -d "$crate/$part" ] || cp -r "$crate/$part" "$copy/crates/${crate##*/}/${part%rlib}"
    done
  done
  mkdir -p "$copy/crates/$program/src"
  cp "$top/bench/$source" "$copy/crates/$program/src/main.rt"
  cp "$top/crates.txt" "$top/HANDLES" "$copy/"
  echo "$program: $crates" >>"$copy/crates.txt"
  cd "$copy/crates/$program" || exit 1
  run rt run -- "$word"
  binary=$copy/crates/$program/out/$program
}

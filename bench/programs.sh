# What the benches with a program of their own share; sourced, not run. It sets `top`, and `work`, a folder that is
# removed in the end.
set -euo pipefail
top=$(cd "$(dirname "$0")/.." && pwd)
work=$(mktemp -d)
trap 'rm -rf "$work"' EXIT
export TMPDIR=$work

# copy_program FOLDER NAME CRATE..: makes a repository in FOLDER of the program bench/programs/NAME, as the crate
# `bench`, and of the crates that it names, with all that these stand on. Proofs go along, edits that must fail
# don't. The program's files end with `.in` here, since the gate refuses sources that no crate has.
copy_program() {
  local folder=$1 name=$2
  shift 2
  mkdir -p "$folder/crates"
  cp -r "$top/bench/programs/$name" "$folder/crates/bench"
  find "$folder/crates/bench" -name '*.in' | while read -r file; do
    mv "$file" "${file%.in}"
  done
  cp "$top/HANDLES" "$folder/"
  python3 "$top/bench/crates_below.py" "$top/crates.txt" "$@" > "$folder/crates.txt"
  cut -d: -f1 "$folder/crates.txt" | while read -r crate; do
    mkdir -p "$folder/crates/$crate"
    for part in src specs proofs; do
      [ ! -d "$top/crates/$crate/$part" ] || cp -r "$top/crates/$crate/$part" "$folder/crates/$crate/"
    done
  done
  echo "bench: $*" >> "$folder/crates.txt"
}

# run_program FOLDER WORD..: proves the program and runs it on these words; what it printed stands in $work/log.
run_program() {
  local folder=$1
  shift
  (cd "$folder/crates/bench" && rt run -- "$@") > "$work/log" 2>&1 || { cat "$work/log"; exit 1; }
}

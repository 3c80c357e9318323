#!/usr/bin/env bash
# Checks the doors to the engine for other programs: khe-talk and the shared library, from C, from Python and on a
# cluster, and what ./install puts in place. Random lines are answered through each door as by `khe script`, a cluster
# writes what `khe solve` writes, the examples run, the C ones under sanitizers and valgrind, and lines are answered fast
# enough. It installs what it needs from Debian's packages, prints a line for each case, and ends with status 1 where
# one failed.
#
#     checks/doors.sh                 all; on a new machine the programs and the library are proved and built first.
#                                     The speeds are for a quiet machine
#     KHE_BUILD=off checks/doors.sh   with programs without the proofs, and the library if it is there, on a smaller
#                                     school; speeds are told and not judged
#
# KHE, KHE_TALK and KHE_LIBRARY name other programs and another shared library than the ones that are made from these
# sources. DOORS_LINES is how many lines go through each door, 10,000 where nothing is said.
set -u
top=$(cd "$(dirname "$0")/.." && pwd)
work=$(mktemp -d)
trap 'rm -rf "$work"' EXIT
python=/usr/bin/python3
count=${DOORS_LINES:-10000}
failed=0
cd "$top" || exit 1
export PYTHONDONTWRITEBYTECODE=1

have() {
  command -v cc && command -v make && command -v valgrind && command -v parallel && command -v pkg-config &&
    command -v man && command -v zsh && command -v fish && "$python" -c 'import distributed, matplotlib, venv, setuptools'
}
have > /dev/null 2>&1 || { apt-get update && DEBIAN_FRONTEND=noninteractive apt-get install -y --no-install-recommends \
  gcc libc6-dev make valgrind parallel pkgconf man-db zsh fish python3-distributed python3-matplotlib python3-venv \
  python3-setuptools python3-wheel; } > "$work/install" 2>&1
have > /dev/null 2>&1 || { tail -5 "$work/install"; echo "checks/doors.sh: the packages that it wants could not be installed"; exit 1; }

# Tells whether a case holds, and what its commands wrote where it does not.
holds() {
  if eval "$2" > "$work/told" 2>&1; then echo "ok: $1"; else
    echo "FAILED: $1"
    tail -5 "$work/told" | cut -c1-300
    failed=1
  fi
}

# Runs a part of checks/doors.py, which prints its own cases.
look() { "$python" checks/doors.py "$@" || failed=1; }

# The programs, proved unless that is switched off.
place() { if [ "${KHE_BUILD:-}" = off ]; then echo "$top/$1"; else KHE_BUILD=place "$top/$1"; fi; }
KHE=${KHE:-$(place khe)} && KHE_TALK=${KHE_TALK:-$(place khe-talk)} || { echo "FAILED: the programs could not be made"; exit 1; }
export KHE KHE_TALK
# A school that is made, and the numbers below which its meets, times, resources and monitors are drawn.
size=300
[ "${KHE_BUILD:-}" != off ] || size=20
school=("$work/made.xml" $((2 * size + 40)) 44 $((2 * size / 5 + 4)) $((8 * size + 120)))
"$KHE" make 7 $size > "$work/made.xml" 2> "$work/told" || { cat "$work/told"; echo "FAILED: the program does not run"; exit 1; }

# The library, where the sources have one, and the C programs over it.
if [ -z "${KHE_LIBRARY:-}" ] && [ -d crates/khe_c ]; then
  [ "${KHE_BUILD:-}" = off ] || holds "make -C c makes the library" 'make -C c'
  [ ! -e c/out/libkhe.so ] || KHE_LIBRARY=$top/c/out/libkhe.so
fi
if [ -n "${KHE_LIBRARY:-}" ]; then
  export KHE_LIBRARY
  library=$(readlink -f "$KHE_LIBRARY")
  compile() {
    local out=$1 source=$2
    shift 2
    cc -Wall -Wextra -Werror -Ic "$@" -o "$work/$out" "$source" "$library" -Wl,-rpath,"$(dirname "$library")" -pthread
  }
  strict=(-g -O1 -fsanitize=address,undefined -fno-sanitize-recover=all)
  holds "checks/door_lines.c is compiled without a warning" 'compile door_lines checks/door_lines.c -O2'
  holds "and with the sanitizers" 'compile door_lines_strict checks/door_lines.c "${strict[@]}"'
  export DOOR_LINES=$work/door_lines
fi

# Lines through each door.
look lines week examples/school_week.xml 9 12 8 30 "$count" 1
look lines school "${school[@]}" "$count" 2
look refusals examples/*.xml examples/faults/*.xml
look behaviour examples/school_week.xml "$work/made.xml"

# C under the sanitizers and valgrind.
if [ -n "${KHE_LIBRARY:-}" ]; then
  memcheck() { valgrind --quiet --error-exitcode=9 --leak-check=full --show-leak-kinds=all --errors-for-leak-kinds=all "$@"; }
  "$python" checks/random_lines.py 3 2000 9 12 8 30 > "$work/lines"
  "$work/door_lines" examples/school_week.xml 0 "$work/lines" > "$work/answers"
  holds "2,000 lines from C under the sanitizers" '"$work/door_lines_strict" examples/school_week.xml 0 "$work/lines" 2> "$work/said" | cmp - "$work/answers" && [ ! -s "$work/said" ] || { cat "$work/said"; false; }'
  holds "and in four threads" '"$work/door_lines_strict" examples/school_week.xml 0 "$work/lines" 4 2> "$work/said" | cmp - "$work/answers" && [ ! -s "$work/said" ] || { cat "$work/said"; false; }'
  holds "and under valgrind" 'memcheck "$work/door_lines" examples/school_week.xml 0 "$work/lines" | cmp - "$work/answers" && [ "${PIPESTATUS[0]}" = 0 ]'
  holds "a refused archive from C under the sanitizers and valgrind" '[ "$("$work/door_lines_strict" examples/causes.xml 0 /dev/null; echo $?)" = $'"'khe: archive refused: 19 Invalid 1 TooLong entry 1\n3'"' ] && [ "$(memcheck "$work/door_lines" examples/causes.xml 0 /dev/null; echo $?)" = $'"'khe: archive refused: 19 Invalid 1 TooLong entry 1\n3'"' ]'
  if [ -e c/out/libkhe.a ]; then
    wrapped() { cc -Wall -Wextra -Werror -Ic "${@:2}" -Wl,--wrap=malloc,--wrap=realloc,--wrap=free -o "$work/$1" checks/door_statuses.c c/out/libkhe.a; }
    week=(examples/school_week.xml examples/school_week.script)
    "$KHE" script "${week[0]}" 0 "${week[1]}" > "$work/script"
    holds "checks/door_statuses.c is compiled without a warning" 'wrapped statuses -O2 && wrapped statuses_strict "${strict[@]}"'
    holds "statuses, rooms of each length, each allocation refused in turn" '"$work/statuses" "${week[@]}" | cmp - "$work/script" && [ "${PIPESTATUS[0]}" = 0 ]'
    holds "the same under the sanitizers" '"$work/statuses_strict" "${week[@]}" | cmp - "$work/script" && [ "${PIPESTATUS[0]}" = 0 ]'
    holds "the same under valgrind" 'memcheck "$work/statuses" "${week[@]}" | cmp - "$work/script" && [ "${PIPESTATUS[0]}" = 0 ]'
  else
    echo "not checked: statuses and refused memory from C, without c/out/libkhe.a"
  fi
  for source in examples/c/*.c; do
    [ -e "$source" ] || { echo "not checked: examples/c, which is not there"; continue; }
    name=$(basename "$source" .c)
    holds "examples/c/$name.c is compiled without a warning" 'compile "$name" "$source" -O2'
    holds "it runs" '"$work/$name" examples/school_week.xml 0 2000 > "$work/$name.out" 2> "$work/$name.said"'
    [ "$name" != climb ] || holds "what it wrote costs what it says" '[ "after: $("$KHE" evaluate "$work/$name.out" | grep -m1 ^total)" = "$(tail -1 "$work/$name.said")" ]'
    holds "the same under the sanitizers" 'compile "${name}_strict" "$source" "${strict[@]}" && "$work/${name}_strict" examples/school_week.xml 0 2000 | cmp - "$work/$name.out" && [ "${PIPESTATUS[0]}" = 0 ]'
    holds "the same under valgrind" 'memcheck "$work/$name" examples/school_week.xml 0 2000 | cmp - "$work/$name.out" && [ "${PIPESTATUS[0]}" = 0 ]'
  done
else
  echo "not checked: the library, which is not there"
fi

# Python.
sed -n '/^## From Python/,/^## /p' docs/manual.md | sed -n '/^```python/,/^```$/p' | sed '/^```/d' > "$work/manual.py"
holds "the manual's lines in Python run" '(mkdir "$work/here" && ln -s "$top/examples" "$work/here" && cd "$work/here" && PYTHONPATH=$top/python "$python" "$work/manual.py" && "$KHE" check better.xml | cmp - better.xml)'
holds "the package looks at a session through khe-talk" 'PYTHONPATH=python "$python" -m khe examples/school_week.xml 0 --lines 1000'
climb=(examples/python/climb.py examples/school_week.xml 0 --tries 500 --seed 3)
holds "the hill climber runs, and draws" '"$python" "${climb[@]}" --plot "$work/climb.png" --out "$work/better.xml" > "$work/climb" && [ "$(head -c 4 "$work/climb.png" | tail -c 3)" = PNG ]'
holds "what it wrote costs what it says" '[ "repaired$("$KHE" evaluate "$work/better.xml" | sed -n "s/^total//p" | head -1)" = "$(tail -1 "$work/climb")" ]'
if [ -n "${KHE_LIBRARY:-}" ]; then
  holds "the package looks at a session through the library" 'PYTHONPATH=python "$python" -m khe examples/school_week.xml 0 --lines 1000 --library "$KHE_LIBRARY"'
  holds "the hill climber comes to the same through the library" '"$python" "${climb[@]}" --library "$KHE_LIBRARY" --out "$work/other.xml" | cmp - "$work/climb" && cmp "$work/better.xml" "$work/other.xml"'
fi

# Clusters. Where all jobs of an archive come to the same totals the lowest wins, so two archives are solved.
solve=(0 --depth 1 --budget 2000 --jobs 12)
for archive in examples/school_week.xml "$work/made.xml"; do
  name=$(basename "$archive" .xml)
  "$KHE" solve "$archive" "${solve[@]}" --workers 2 > "$work/$name.solved" 2> /dev/null
  told=$(tail -1 "$work/$name.solved" | tr -d '<>!-')
  holds "$name: a local cluster of two workers writes the bytes of khe solve ($told)" '"$python" examples/cluster/solve.py "$archive" "${solve[@]}" --workers 2 --program "$KHE_TALK" --out "$work/best.xml" && cmp "$work/best.xml" "$work/$name.solved"'
  mkdir "$work/jobs"
  holds "$name: so does GNU parallel" 'seq 0 11 | parallel examples/cluster/jobs.sh run "$archive" 0 1 2000 "$work/jobs" && examples/cluster/jobs.sh least "$archive" 0 1 2000 "$work/jobs" 12 | cmp - "$work/$name.solved"'
  rm -r "$work/jobs"
done
mkdir "$work/jobs"
coproc CLUSTER { exec "$python" -c 'from distributed import LocalCluster
with LocalCluster(n_workers=2, threads_per_worker=1, dashboard_address=None, silence_logs=50) as cluster:
    print(cluster.scheduler_address, flush=True)
    input()' 2> "$work/cluster"; }
cluster=$CLUSTER_PID
read -r address <&"${CLUSTER[0]}"
holds "so does a scheduler at an address" '"$python" examples/cluster/solve.py examples/school_week.xml "${solve[@]}" --at "$address" --program "$KHE_TALK" > "$work/best.xml" && cmp "$work/best.xml" "$work/school_week.solved"'
echo >&"${CLUSTER[1]}"
wait "$cluster"
refusal='khe: archive refused: 19 Invalid 3 FixedTime entry 1'
holds "a refused solution has status 3 and its line, by the cluster" '[ "$("$python" examples/cluster/solve.py examples/school_week.xml 1 --depth 1 --budget 1 --jobs 2 --program "$KHE_TALK"; echo $?)" = "$refusal"$'"'\n3'"' ]'
holds "and by a job of its own" '[ "$(examples/cluster/jobs.sh run examples/school_week.xml 1 1 1 "$work/jobs" 0; echo $?)" = "$refusal"$'"'\n3'"' ]'
holds "totals that are missing are told" '! examples/cluster/jobs.sh least examples/school_week.xml 0 1 1 "$work/jobs" 2'
checks/clusters.sh || failed=1

# What is installed.
checks/installed.sh || failed=1

# Speed.
judged=()
[ "${KHE_BUILD:-}" != off ] || judged=(told)
look speed "${school[@]}" "${judged[@]}"
[ "$failed" = 0 ] && echo 'checks/doors.sh: all as it should be'
exit "$failed"

#!/usr/bin/env bash
# Runs every check but the gate, one after the other: those of seconds, and those that want packages of Debian's, which it
# installs (a browser, sanitizers, valgrind, a cluster). It keeps going where one fails, shows the last lines of that one,
# and ends with a table, for docs/testing.md, and with status 1 where one failed.
#
#     checks/all.sh            all
#     checks/all.sh NAME..     these, by the names of the table
#
# The programs are those of KHE, KHE_TALK and KHE_PAGE, or else those that the last `rt ci` left, or else what ./khe,
# ./khe-talk and ./khe-page run, with KHE_BUILD as it is set. KHE_LIBRARY names a shared library. The speeds that
# doors tells are for a quiet machine. What a check wrote is kept in the folder that the last line names.
set -u
top=$(cd "$(dirname "$0")/.." && pwd)
cd "$top" || exit 1
logs=$(mktemp -d)
passed=0
failed=0
rows=()
names=("$@")
export PYTHONDONTWRITEBYTECODE=1

# The program of a crate as the gate left it, or the launcher of that name.
program() {
  if [ -x "crates/$2/out/$2" ]; then echo "$top/crates/$2/out/$2"; else echo "$top/$1"; fi
}
export KHE=${KHE:-$(program khe khe_cli)} KHE_TALK=${KHE_TALK:-$(program khe-talk khe_talk)} KHE_PAGE=${KHE_PAGE:-$(program khe-page khe_page)}

wants() {
  [ ${#names[@]} = 0 ] && return 0
  local name
  for name in "${names[@]}"; do [ "$name" != "$1" ] || return 0; done
  return 1
}

# Runs a check: its name, and its command.
run() {
  local name=$1 begun=$SECONDS status last
  shift
  wants "$name" || return 0
  echo "== $name: $*"
  "$@" > "$logs/$name" 2>&1 < /dev/null
  status=$?
  last=$(grep -v '^$' "$logs/$name" | tail -n 1 | cut -c 1-150)
  if [ $status = 0 ]; then
    passed=$((passed + 1))
  else
    failed=$((failed + 1))
    tail -n 15 "$logs/$name" | sed 's/^/  /'
  fi
  echo "   status $status after $((SECONDS - begun)) s: $last"
  rows+=("| $name | $([ $status = 0 ] && echo passed || echo "FAILED ($status)") | $((SECONDS - begun)) s | ${last//|/\\|} |")
}

# All packages at once, where one is lacking. A check that lacks one says so itself.
install() {
  local wanted=(gcc libc6-dev make valgrind parallel python3-distributed python3-matplotlib chromium chromium-driver
    python3-selenium)
  dpkg-query -W "${wanted[@]}" > /dev/null 2>&1 && echo "all are there" && return 0
  apt-get update && DEBIAN_FRONTEND=noninteractive apt-get install -y --no-install-recommends "${wanted[@]}"
}

run packages install
run quick checks/quick "$KHE"
run launcher checks/launcher.sh
run terminal checks/terminal.py "$KHE"
run devices checks/devices.sh "$KHE"
run refused_memory checks/refused_memory.sh "$KHE"
run talk checks/talk.sh
run page checks/page.sh
run doors checks/doors.sh

for name in "${names[@]}"; do
  [[ " ${rows[*]} " == *"| $name |"* ]] || { failed=$((failed + 1)) && echo "there is no check $name"; }
done
echo
echo "At $(git rev-parse --short HEAD 2> /dev/null || echo 'no commit')$([ -z "$(git status --porcelain 2> /dev/null)" ] || echo ' with changes'), $(date -u +%F), on $(nproc) processors:"
echo
echo '| Check | Came to | Took | Its last line |'
echo '|---|---|---|---|'
[ ${#rows[@]} = 0 ] || printf '%s\n' "${rows[@]}"
echo
echo "all: $passed passed, $failed failed; logs in $logs"
[ $failed = 0 ]

#!/usr/bin/env bash
# Runs the program with each growth of its memory refused in turn, on small archives, one growth a run: each command,
# with one worker and with several. Each run must end with status 6 and some first bytes of the text that ample
# memory gives. It may end as with ample memory only for one of these reasons:
#
#   given back    a call that gives back memory which isn't needed and is refused keeps it, and nothing else changes.
#                 There is one such call: `shrink` of the entries of a solution (crates/xhstt_shape/src/entries.rt)
#   no thread     with several workers, where a thread could not be started its work is done by the others
#
# It prints a line for each command, with how many growths were refused of how many that a run with ample memory makes,
# then the sums of both, and ends with status 1 where a run ended in another way, or with one worker swallowed a refusal
# that has no reason.
#
#     checks/refused_memory.sh KHE
#
# KHE is a proved program, say ~/.cache/khe/khe. It needs a C compiler and glibc, and takes some minutes. Run it by
# hand: it is no part of the gate.
set -u
top=$(cd "$(dirname "$0")/.." && pwd)
khe=$(readlink -f "$1")
work=$(mktemp -d)
trap 'rm -rf "$work"' EXIT
cc -O2 -shared -fPIC -o "$work/refuse.so" "$top/checks/refuse_growth.c" || exit 2
head -c 24 /dev/zero > "$work/count"
failed=0
all=0
made=0

# Runs the words with one growth refused, or none: its text, its status, the growths that it made, those that were
# refused to it, and those of them that would have given memory back.
run() {
  local growth=$1
  shift
  LD_PRELOAD=$work/refuse.so REFUSED_GROWTH=$growth GROWTHS_COUNTED=$work/count "$khe" "$@" > "$work/text" 2> "$work/said"
  status=$?
  read -r grown stopped shrunk < <(od -An -w24 -t u8 "$work/count")
}

# With several workers the growths of two runs have other numbers, and one run may make fewer than another.
sweep() {
  run 0 "$@"
  local whole=$status count=$grown refused=0 ended=0 given=0 same=0 bad=0 length several=
  [[ "$*" != *--workers* || "$*" == *"--workers 1" ]] || several=yes
  cp "$work/text" "$work/whole"
  for ((growth = 1; growth <= count; growth++)); do
    run "$growth" "$@"
    refused=$((refused + stopped))
    length=$(stat -c %s "$work/text")
    if [ "$status" = 6 ] && [ "$stopped" = 1 ] && cmp -s -n "$length" "$work/text" "$work/whole"; then
      ended=$((ended + 1))
    elif [ "$status" = "$whole" ] && [ "$shrunk" = 1 ] && cmp -s "$work/text" "$work/whole"; then
      given=$((given + 1))
    elif [ "$status" = "$whole" ] && [ -n "$several" ] && cmp -s "$work/text" "$work/whole"; then
      same=$((same + 1))
    else
      bad=$((bad + 1))
      [ $bad -gt 3 ] || echo "  growth $growth: status $status, $length bytes: $(head -c 100 "$work/said")"
    fi
  done
  echo "khe $*: refused $refused of $count growths; $ended ended with status 6, as with ample memory $given that give" \
    "memory back and $same without a thread, $bad otherwise"
  all=$((all + refused))
  made=$((made + count))
  [ $bad = 0 ] && [ "$refused" -gt 0 ] || failed=1
}

cp "$top"/checks/two_events.xml "$top"/checks/marks.script "$top"/checks/ties.script "$top"/examples/causes.xml "$work" || exit 2
cd "$work" || exit 2
sweep evaluate two_events.xml
sweep evaluate two_events.xml --all
sweep evaluate two_events.xml --workers 2
sweep evaluate two_events.xml --workers 4
sweep evaluate causes.xml
sweep script two_events.xml 0 marks.script
sweep tied two_events.xml 0 ties.script
sweep repair two_events.xml 0 --depth 1 --budget 1000
sweep check two_events.xml
sweep solve two_events.xml 0 --depth 1 --budget 1000 --jobs 2 --workers 1
sweep solve two_events.xml 0 --depth 1 --budget 1000 --jobs 2 --workers 2
sweep solve two_events.xml 0 --depth 1 --budget 1 --jobs 7 --workers 4
sweep construct two_events.xml 0
sweep construct two_events.xml 0 --depth 1 --budget 1000
sweep match two_events.xml 1 0 0
sweep make 0 1
sweep make 0 1 --run
echo "refused in all: $all of $made growths"
exit $failed

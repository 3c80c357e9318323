#!/usr/bin/env bash
# Checks what becomes of jobs that are shared among machines where something goes wrong: totals of another run, an
# archive that is not there, a worker that is ended on the way. It prints a line for each case, and ends with status 1
# where one failed. It is called by checks/doors.sh.
#
#     KHE=PROGRAM KHE_TALK=PROGRAM checks/clusters.sh
#
# It wants Debian's python3-distributed and parallel.
set -u
top=$(cd "$(dirname "$0")/.." && pwd)
work=$(mktemp -d)
trap 'rm -rf "$work"' EXIT
failed=0
cd "$top" || exit 1
export PYTHONDONTWRITEBYTECODE=1
jobs=examples/cluster/jobs.sh
week=examples/school_week.xml

# Tells whether a case holds, and what its commands wrote where it does not.
holds() {
  if eval "$2" > "$work/told" 2>&1; then echo "ok: $1"; else
    echo "FAILED: $1"
    tail -5 "$work/told" | cut -c1-300
    failed=1
  fi
}

# Runs jobs.sh: `out`, `said` and `status` are what it wrote and ended with.
run() {
  out=$("$jobs" "$@" 2> "$work/said")
  status=$?
  said=$(cat "$work/said")
  echo "out: $out; status $status; said: $said"
}

mkdir "$work/jobs"
holds "a rank says how far it is" 'run run "$week" 0 1 200 "$work/jobs" 0 1 2 && [ $status = 0 ] && [ -z "$out" ] && [[ $said == *"job 0 begins, 1 of 3"*"job 0 ended, hard "*"job 2 begins, 3 of 3"* ]]'
holds "so does a task of an array" 'SLURM_ARRAY_TASK_ID=3 run run "$week" 0 1 200 "$work/jobs" && [ $status = 0 ] && [[ $said == *"job 3 begins"* ]]'
"$KHE" solve "$week" 0 --depth 1 --budget 200 --jobs 4 --workers 1 > "$work/solved"
holds "the least is that of khe solve" '"$jobs" least "$week" 0 1 200 "$work/jobs" 4 | cmp - "$work/solved"'
holds "another depth: each file of the other run is named, and nothing is written" 'run least "$week" 0 2 200 "$work/jobs" 4; [ $status = 1 ] && [ -z "$out" ] && [[ $said == *"/0.totals is of another run"*"depth 1"*"/3.totals is of another run"*"asked for is"*"depth 2"* ]]'
holds "so it is with another budget" 'run least "$week" 0 1 201 "$work/jobs" 4; [ $status = 1 ] && [ -z "$out" ] && [[ $said == *"/0.totals is of another run"* ]]'
sed 's/Week/Weak/' "$week" > "$work/other.xml"
holds "and with another archive" 'run least "$work/other.xml" 0 1 200 "$work/jobs" 4; [ $status = 1 ] && [ -z "$out" ] && [[ $said == *"/0.totals is of another run"* ]]'
"$jobs" run "$week" 0 1 201 "$work/jobs" 2 2> /dev/null
holds "one file of another run among them is named alone" 'run least "$week" 0 1 200 "$work/jobs" 4; [ $status = 1 ] && [[ $said == *"/2.totals is of another run"* ]] && [[ $said != *"/1.totals"* ]]'
"$jobs" run "$week" 0 1 200 "$work/jobs" 2 2> /dev/null
holds "and once its job is run again, all is well" '"$jobs" least "$week" 0 1 200 "$work/jobs" 4 | cmp - "$work/solved"'
echo "0 1 0" > "$work/jobs/0.totals"
holds "a file that says nothing of its run is refused" 'run least "$week" 0 1 200 "$work/jobs" 4; [ $status = 1 ] && [ -z "$out" ] && [[ $said == *"/0.totals is of another run"* ]]'
cp "$work/jobs/1.totals" "$work/jobs/0.totals"
holds "so is one of another job" 'run least "$week" 0 1 200 "$work/jobs" 4; [ $status = 1 ] && [[ $said == *"/0.totals is of another run"* ]]'
rm "$work/jobs/0.totals"
holds "jobs without totals are named" 'run least "$week" 0 1 200 "$work/jobs" 4; [ $status = 1 ] && [ -z "$out" ] && [[ $said == *"no totals of these jobs: 0" ]]'
for what in run least; do
  holds "$what: an archive that is not there is status 4, and is named" 'run $what nothing.xml 0 1 200 "$work/jobs" 4; [ $status = 4 ] && [ -z "$out" ] && [[ $said == *"nothing.xml: the archive can'"'"'t be read" ]]'
done
holds "a solution that is refused is status 3" 'run run "$week" 1 1 200 "$work/jobs" 4; [ $status = 3 ] && [ "$out" = "khe: archive refused: 19 Invalid 3 FixedTime entry 1" ]'
/usr/bin/python3 checks/clusters.py "$work" || failed=1
exit $failed

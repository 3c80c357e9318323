#!/bin/sh
# Jobs of `khe solve`, each run by khe-talk: for GNU parallel, Slurm, or whatever else runs a command for each number.
#
#     jobs.sh run ARCHIVE SOLUTION DEPTH BUDGET FOLDER [JOB..]    runs jobs, and leaves the totals of each in FOLDER
#     jobs.sh least ARCHIVE SOLUTION DEPTH BUDGET FOLDER JOBS     writes what `khe solve` writes with JOBS jobs
#
# Jobs are numbered from 0. In an array of Slurm the job is the number of the task, where none is named. The least of
# them is run once more, for its archive. The program is KHE_TALK, or else khe-talk on the path. Lines on standard
# error say which job begins and how each one ended.
#
# Each file of totals says of which run it is: of which archive, by its checksum, solution, depth and budget. `least`
# names the files that are of another run and the jobs without totals, and then writes nothing.
#
# The status is 1 where totals are missing or of another run, 2 where the words have no reading, 3 where the archive or
# the solution is refused, and 4 where the archive can't be read.
set -eu

# Ends with this status and line.
fail() {
  echo "jobs.sh: $2" >&2
  exit "$1"
}

[ $# -ge 6 ] || fail 2 "the words are run or least, ARCHIVE SOLUTION DEPTH BUDGET FOLDER, and jobs"
what=$1 archive=$2 solution=$3 depth=$4 budget=$5 folder=$6
shift 6
[ -f "$archive" ] && [ -r "$archive" ] || fail 4 "$archive: the archive can't be read"
[ -d "$folder" ] || fail 4 "$folder is no folder"
# What a file of totals says of its run.
run="archive $(sha256sum < "$archive" | cut -c 1-16) solution $solution depth $depth budget $budget"

# Repairs as a job does, and answers what further lines say. A program that ends early gives its status.
repaired() {
  job=$1
  shift
  printf '%s\n' "repair $depth $budget $job" "$@" | "${KHE_TALK:-khe-talk}" "$archive" "$solution"
}

case $what in
  run)
    [ $# -gt 0 ] || set -- "${SLURM_ARRAY_TASK_ID:?jobs.sh: no job is named, and there is no array of Slurm}"
    begun=$(date +%s) at=0 all=$#
    for job in "$@"; do
      at=$((at + 1))
      echo "jobs.sh: job $job begins, $at of $all, after $(($(date +%s) - begun)) s" >&2
      answer=$(repaired "$job") && status=0 || status=$?
      [ "$status" = 0 ] || { [ -z "$answer" ] || echo "$answer"; fail "$status" "$archive: job $job: status $status"; }
      # The line on a repair ends with `hard H soft S -->`.
      totals=$(echo "$answer" | awk -v job="$job" '/^<!-- khe repair / { print $(NF - 3), $(NF - 1), job }')
      [ -n "$totals" ] || { echo "$answer"; fail 2 "job $job: no repair was made"; }
      echo "$totals $run" > "$folder/$job.part"
      mv "$folder/$job.part" "$folder/$job.totals"
      echo "jobs.sh: job $job ended, hard ${totals%% *} soft $(echo "$totals" | cut -d ' ' -f 2)" >&2
    done
    ;;
  least)
    [ $# -eq 1 ] && [ "$1" -gt 0 ] 2> /dev/null || fail 2 "how many jobs there are is no number from 1 on"
    job=0 all='' other=0 missing=''
    for file in "$folder"/*.totals; do
      [ -e "$file" ] || continue
      read -r hard soft of told < "$file" || true
      if [ "$told" != "$run" ] || [ "$file" != "$folder/$of.totals" ]; then
        echo "jobs.sh: $file is of another run: $told" >&2
        other=1
      elif [ "$of" -ge "$1" ]; then
        echo "jobs.sh: $file is of a job beyond the $1 that are asked for" >&2
        other=1
      fi
    done
    [ "$other" = 0 ] || fail 1 "the run that is asked for is: $run"
    while [ "$job" -lt "$1" ]; do
      if [ -e "$folder/$job.totals" ]; then all="$all$(cat "$folder/$job.totals")
"; else missing="$missing $job"; fi
      job=$((job + 1))
    done
    [ -z "$missing" ] || fail 1 "$folder has no totals of these jobs:$missing"
    set -- $(printf %s "$all" | LC_ALL=C sort -n -k1,1 -k2,2 -k3,3 | head -1)
    echo "jobs.sh: job $3 has the least totals, hard $1 soft $2, and is run for its archive" >&2
    # The answers are the line on the repair, a full stop, the archive, and a full stop.
    made=$(mktemp) && trap 'rm -f "$made"' EXIT
    repaired "$3" archive > "$made" || fail $? "$archive: the repair was not made"
    sed '1,2d;$d' "$made"
    echo "<!-- khe solve job $3 hard $1 soft $2 -->"
    ;;
  *) fail 2 "run or least" ;;
esac

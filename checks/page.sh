#!/usr/bin/env bash
# Checks the pages of `khe-page` in a real browser without a screen, and prints a line for each page. It installs what
# it needs from Debian's packages, and ends with status 1 where something is not as it should be. KHE and KHE_PAGE name
# other programs than the ones at the top.
#
#     checks/page.sh                 the pages of examples/, of `khe make 7 300`, of an archive with names like markup,
#                                    and of one of two weeks of which no monitor deviates
#     checks/page.sh --pictures      the same, and the manual's pictures docs/page_*.png anew
set -u
top=$(cd "$(dirname "$0")/.." && pwd)
work=$(mktemp -d)
trap 'rm -rf "$work"' EXIT
python=/usr/bin/python3
export KHE_BUILD=${KHE_BUILD:-off}
KHE=${KHE:-$top/khe} KHE_PAGE=${KHE_PAGE:-$top/khe-page}

have() { command -v chromium && command -v chromedriver && "$python" -c 'import selenium'; }
have > /dev/null 2>&1 || { apt-get update && DEBIAN_FRONTEND=noninteractive apt-get install -y --no-install-recommends \
  chromium chromium-driver python3-selenium; } > "$work/install" 2>&1
have > /dev/null 2>&1 || { tail -5 "$work/install"; echo "checks/page.sh: chromium, its driver and python3-selenium could not be installed"; exit 1; }

"$KHE" make 7 300 > "$work/made.xml" || exit 1
cat > "$work/markup.xml" <<'END_OF_ARCHIVE'
<?xml version="1.0" encoding="UTF-8"?>
<HighSchoolTimetableArchive Id="&lt;script&gt;document.title='seized'&lt;/script&gt;">
<Instances><Instance Id="&lt;b&gt;I&amp;J&lt;/b&gt;"><Times><Time Id="t&quot; onclick=&quot;x"/><Time Id="it's"/></Times>
<Resources><ResourceTypes><ResourceType Id="&lt;/table&gt;"/></ResourceTypes>
<Resource Id="&lt;script&gt;r&lt;/script&gt;"><ResourceType Reference="&lt;/table&gt;"/></Resource></Resources>
<Events><Event Id="&lt;img src=x onerror=alert(1)&gt;"><Duration>2</Duration>
<Resources><Resource Reference="&lt;script&gt;r&lt;/script&gt;"/></Resources></Event></Events>
<Constraints/></Instance></Instances>
<SolutionGroups><SolutionGroup Id="'&gt;&lt;i&gt;"><Solution Reference="&lt;b&gt;I&amp;J&lt;/b&gt;"><Events>
<Event Reference="&lt;img src=x onerror=alert(1)&gt;"><Time Reference="t&quot; onclick=&quot;x"/></Event>
</Events></Solution></SolutionGroup></SolutionGroups>
</HighSchoolTimetableArchive>
END_OF_ARCHIVE

failed=0
check() {
  local name=$1 archive=$2
  "$KHE_PAGE" "$archive" > "$work/$name.html" && "$KHE" evaluate "$archive" > "$work/$name.txt" \
    && "$python" "$top/checks/page.py" "$name" "$archive" "$work/$name.html" "$work/$name.txt" "${@:3}" || failed=1
}
pictures=()
[ "${1:-}" != --pictures ] || pictures=("$top/docs")
for archive in "$top"/examples/*.xml; do
  name=$(basename "$archive" .xml)
  if [ "$name" = school_week ]; then check "$name" "$archive" "${pictures[@]}"; else check "$name" "$archive"; fi
done
check made "$work/made.xml"
check markup "$work/markup.xml"
check weeks "$top/crates/manual_examples/data/pages/weeks.xml"

# What is no page: words without a reading, a file that is not there, and an archive that is refused.
status_of() { "$KHE_PAGE" "${@:2}" > "$work/out" 2> "$work/err"; [ $? = "$1" ] || { echo "status of $*"; failed=1; }; }
status_of 2
[ ! -s "$work/out" ] || { echo 'words without a reading wrote something'; failed=1; }
status_of 2 "$work/made.xml" --solutions
status_of 4 "$work/nothing.xml"
printf '<' > "$work/bad.xml"
status_of 3 "$work/bad.xml"
grep -q 'khe: archive refused: 2 BadMarkup at 1' "$work/out" || { echo 'the page of a refusal'; failed=1; }
status_of 0 "$top/examples/school_week.xml" --solutions 1
grep -q 'Of 2 solutions 1 have timetables below' "$work/out" || { echo 'the option --solutions'; failed=1; }
status_of 2 "$work/made.xml" --solutions 1 --solution 0
status_of 0 "$top/examples/school_week.xml" --solution 1 --workers 2
grep -q '<section class=sol id=s1>' "$work/out" || { echo 'the option --solution'; failed=1; }
[ "$failed" = 0 ] && echo 'checks/page.sh: all as it should be'
exit "$failed"

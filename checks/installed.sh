#!/usr/bin/env bash
# Checks ./install on this machine: it installs below a folder of its own, runs the programs and a C program that
# pkg-config links in an empty environment, from a folder in which nothing of the repository is, completes words in
# three shells, and takes all of it away. It prints a line for each case, and ends with status 1 where one failed.
#
#     checks/installed.sh                   the proved programs, which are made first where they are not there
#     KHE_BUILD=off checks/installed.sh     those without the proofs
#
# It wants gcc, pkg-config, man, zsh and fish.
set -u
top=$(cd "$(dirname "$0")/.." && pwd)
work=$(mktemp -d)
trap 'rm -rf "$work"' EXIT
failed=0
how=()
[ "${KHE_BUILD:-}" != off ] || how=(--quick)
place="$work/a prefix"
bin=$place/bin

# Tells whether a case holds, and what its commands wrote where it does not.
holds() {
  if eval "$2" > "$work/told" 2>&1; then echo "ok: $1"; else
    echo "FAILED: $1"
    tail -5 "$work/told" | cut -c1-300
    failed=1
  fi
}

# Runs a command with no variable at all.
bare() { env -i "$@"; }

mkdir "$work/here" && cp "$top/examples/school_week.xml" "$top/examples/first.xml" "$work/here/" && cd "$work/here" || exit 1
holds "./install puts all in place" '"$top/install" "${how[@]}" "$place"'
[ "$failed" = 0 ] || exit 1
state=proved
[ ${#how[@]} -eq 0 ] || state='without the proofs'
for name in khe khe-page khe-talk; do
  holds "$name --version tells that it is $state" 'bare "$bin/$name" --version | grep -qx "program: $state"'
  holds "$name --help tells how to use it" 'bare "$bin/$name" --help | grep -q "^$name: $name "'
  holds "$name has a page for man, which has no fault" '[ -s "$place/share/man/man1/$name.1" ] && [ -z "$(man --warnings -l "$place/share/man/man1/$name.1" 2>&1 > "$work/page")" ] && grep -q "^NAME" "$work/page"'
done
holds "khe evaluates" 'bare "$bin/khe" evaluate school_week.xml | grep -m1 ^total | grep -x "total hard 25 soft 13"'
holds "khe-page writes a page" 'bare "$bin/khe-page" school_week.xml | head -c 15 | grep -i "<!doctype html>"'
printf 'total\nend\n' > lines
sed -n '/^\$ printf/,/^\.EE/p' "$top/docs/khe-talk.1" | sed '1d;$d; s/^\\&//' > wanted
holds "khe-talk answers as its page says" '[ -s wanted ] && bare "$bin/khe-talk" first.xml 0 < lines | cmp - wanted'
holds "a refusal has its status" 'bare "$bin/khe" evaluate nothing; [ $? = 4 ]'
if [ -e "$place/lib/libkhe.so" ]; then
  export PKG_CONFIG_PATH=$place/lib/pkgconfig
  holds "pkg-config knows the version" '[ "$(pkg-config --modversion khe)" != 0 ]'
  cp "$top/examples/c/climb.c" .
  holds "a C program is linked by pkg-config" 'eval "cc -O2 -Wall -Wextra -Werror -o climb climb.c $(pkg-config --cflags --libs khe)"'
  holds "it runs" 'bare ./climb school_week.xml 0 500 > shared'
  holds "so it does with the static library" 'cc -O2 -I"$place/include" -o static climb.c "$place/lib/libkhe.a" && bare ./static school_week.xml 0 500 | cmp - shared && ! ldd ./static | grep khe'
  holds "khe.h has a page for man, which has no fault" '[ -z "$(man --warnings -l "$place/share/man/man3/khe.h.3" 2>&1 > "$work/page")" ] && grep -q "^NAME" "$work/page"'
  holds "the page has each call of the header" '[ "$(grep -o "khe_[a-z_]*(" "$place/include/khe.h" | grep -v "khe_session(" | sort -u)" = "$(grep -o "khe_[a-z_]*(" "$place/share/man/man3/khe.h.3" | sort -u)" ]'
else
  echo "not checked: the libraries for C, which are not installed"
fi
if package=$(dirname "$(find "$place" -path '*/khe/__init__.py')" 2> /dev/null) && [ "$package" != . ]; then
  say='import khe, sys
with khe.Session("school_week.xml", 0, **dict(word.split("=") for word in sys.argv[1:])) as week:
    print(*week.totals())'
  python=$(command -v python3)
  holds "Python has the package" '[ "$(bare PYTHONPATH="${package%/khe}" PATH="$bin:/usr/bin:/bin" "$python" -c "$say")" = "25 13" ]'
  holds "and asks the program that is installed" '[ "$(bare PYTHONPATH="${package%/khe}" PATH="$bin:/usr/bin:/bin" "$python" -c "$say" program=khe-talk)" = "25 13" ]'
else
  echo "not checked: the package for Python, which is not installed"
fi

# The package by pip, in a folder like the repository, without a library there and with one.
mkdir -p "$work/tree/c/out" && cp "$top/CHANGELOG.md" "$work/tree/" && cp -r "$top/python" "$work/tree/" &&
  rm -rf "$work"/tree/python/{build,khe.egg-info}
if [ -d "$top/python/khe" ] && /usr/bin/python3 -c 'import venv, setuptools, wheel' 2> /dev/null; then
  holds "a venv is made of Debian's Python" '/usr/bin/python3 -m venv --system-site-packages "$work/venv"'
  pip=("$work/venv/bin/pip" install --no-index --no-build-isolation --force-reinstall "$work/tree/python")
  holds "pip installs the package without a network" '"${pip[@]}"'
  ask() { bare PATH="$bin:/usr/bin:/bin" "$@" "$work/venv/bin/python" -c "$say
    print(type(week._door).__name__)"; }
  say=${say:-'import khe
with khe.Session("school_week.xml", 0) as week:
    print(*week.totals())'}
  holds "it asks khe-talk on the path where it has no library" '[ "$(ask)" = "25 13"$'"'\n'"'_Talk ]'
  holds "it has types" '[ -e "$("$work/venv/bin/python" -c "import khe, os; print(os.path.dirname(khe.__file__))")/py.typed" ]'
  if [ -e "$place/lib/libkhe.so" ]; then
    cp "$place/lib/libkhe.so" "$work/tree/c/out/"
    holds "it takes the library where that was made" '"${pip[@]}" && rm -r "$work/tree"'
    holds "and asks it" '[ "$(ask)" = "25 13"$'"'\n'"'_Library ]'
    holds "or the program where KHE_TALK names one" '[ "$(ask KHE_TALK="$bin/khe-talk")" = "25 13"$'"'\n'"'_Talk ]'
  fi
else
  echo "not checked: the package by pip, which takes python3-venv, python3-setuptools and python3-wheel"
fi

while IFS= read -r line; do
  echo "$line"
  [[ $line = ok:* ]] || failed=1
done < <("$top/checks/completions.sh" "$place")
holds "./install --remove takes all of it away" '"$top/install" --remove "$place" && [ ! -e "$place" ]'
exit $failed

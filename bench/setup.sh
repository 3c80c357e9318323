# What the benches of the program share; sourced, not run. It takes the program as $1, and sets `top`,
# `khe`, and an `archive` to be made in a folder that is removed in the end.
set -eu
top=$(cd "$(dirname "$0")/.." && pwd)
khe=$(readlink -f "$1")
work=$(mktemp -d)
trap 'rm -rf "$work"' EXIT
export TMPDIR=$work
archive=$work/archive.xml

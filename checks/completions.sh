#!/usr/bin/env bash
# Checks what bash, zsh and fish complete after khe, khe-page and khe-talk: all commands and options that the pages of
# use show, and no others. It prints a line for each case, and ends with status 1 where one failed.
#
#     checks/completions.sh           what stands in tools/completions
#     checks/completions.sh PREFIX    what ./install has put below PREFIX
#
# It wants bash, zsh and fish.
set -u
top=$(cd "$(dirname "$0")/.." && pwd)
prefix=${1:+$(readlink -f "$1")}
failed=0
home=$(mktemp -d)
trap 'rm -rf "$home"' EXIT
cd "$top" || exit 1

# What each shell completes after these words and a blank, or after the last word where it is a dash: lines with words.
by_bash() {
  local file=tools/completions/khe.bash
  [ -z "$prefix" ] || file=$prefix/share/bash-completion/completions/$1
  bash --norc --noprofile -c '. "$1" && shift && COMP_WORDS=("$@") COMP_CWORD=$(($# - 1)) && _khe
    printf "%s\n" "${COMPREPLY[@]}"' bash "$file" "$@"
}
by_fish() {
  local file=tools/completions/$1.fish
  [ -z "$prefix" ] || file=$prefix/share/fish/vendor_completions.d/$1.fish
  HOME=$home XDG_CONFIG_HOME=$home XDG_DATA_HOME=$home fish --no-config -c 'source $argv[1]; complete -C "$argv[2..-1]"' "$file" "$@" | cut -f 1
}
by_zsh() {
  local folder=$top/tools/completions
  [ -z "$prefix" ] || folder=$prefix/share/zsh/site-functions
  zsh -f -c 'zmodload zsh/zpty
    take() { local piece all=; while zpty -r -m z piece "*$1*"; do all+=$piece; [[ $all != *$1* ]] || break; done; print -r -- $all; }
    zpty z zsh -f -i
    zpty -w z "stty cols 250 rows 60; PROMPT=; fpath=(${(q)1} \$fpath); autoload -Uz compinit; compinit -u -D; unset zle_bracketed_paste"
    zpty -w z "setopt no_auto_menu no_always_last_prompt; LISTMAX=9999; print begins; print rea\dy"
    take ready > /dev/null
    zpty -w -n z "${(j: :)@[2,-1]}"$'"'\\t\\t'"'
    sleep 1
    zpty -w -n z $'"'\\x15'"'
    zpty -w z " print don\e"
    take done' zsh "$folder" "$@" | tr -d '\r' | sed 's/\x1b\[[0-9;?]*[A-Za-z]//g' | grep -oE '^[a-z]+ +--|--[a-z]+' | sed 's/ .*//'
}

# Compares the words of a kind that a shell completes with those that are wanted.
compare() {
  local shell=$1 form=$2 wanted=$3 found
  shift 3
  found=$("by_$shell" "$@" 2>&1 | grep -xE -e "$form" | sort -u | paste -sd ' ')
  if [ "$found" = "$wanted" ]; then echo "ok: $shell: $*: $wanted"; else
    echo "FAILED: $shell: $*: wanted '$wanted', found '$found'"
    failed=1
  fi
}

for shell in bash zsh fish; do
  for name in khe khe-page khe-talk; do
    commands=help
    while IFS= read -r line; do
      words=${line#*./}
      words=${words%%   *}
      options=$(grep -oE -e '--[a-z]+' <<< "$words" | sort -u | paste -sd ' ')
      read -r _ command _ <<< "$words"
      if [ "$name" = khe ]; then
        commands="$commands $command"
        compare $shell '--[a-z]+' "$options" khe "$command" a.xml 0 --
      else
        compare $shell '--[a-z]+' "$options" "$name" a.xml 0 --
      fi
    done < <(KHE_BUILD=off "./$name" --help | grep -v docs/manual.md)
    [ "$name" != khe ] || compare $shell '[a-z]+' "$(tr ' ' '\n' <<< "$commands" | sort | paste -sd ' ')" khe ''
    compare $shell '--(help|version)' "--help --version" "$name" --
  done
done
exit $failed

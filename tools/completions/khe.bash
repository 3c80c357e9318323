# What bash completes after khe, khe-page and khe-talk: commands, options and files.
_khe() {
  local word=${COMP_WORDS[COMP_CWORD]} first=${COMP_WORDS[1]:-} before=${COMP_WORDS[COMP_CWORD-1]}
  local name=${COMP_WORDS[0]##*/} at=$COMP_CWORD option options='' words='' files=2
  COMPREPLY=()
  case $name in
    khe-page) options='--solutions --solution --workers' files=1 ;;
    khe-talk) options='--demands' files=1 ;;
    *)
      case $first in
        evaluate) options='--all --workers' ;;
        script | tied) files='2 4' ;;
        check | match) ;;
        repair | construct) options='--depth --budget' ;;
        solve) options='--depth --budget --jobs --workers' ;;
        make) options='--run' files= ;;
        *) files= ;;
      esac
      [ "$at" -gt 1 ] || words='evaluate script tied check repair solve construct match make help'
      ;;
  esac
  [ "$at" -gt 1 ] || words="$words --help --version"
  # An option with a number takes that next, and none is given twice.
  case $before in
    --depth) words='1 2 3 4' ;;
    --budget | --jobs | --workers | --solutions | --solution) return ;;
    *) [ "$at" -le 1 ] || for option in $options; do
        [[ " ${COMP_WORDS[*]} " = *" $option "* ]] || words="$words $option"
      done ;;
  esac
  mapfile -t COMPREPLY < <(compgen -W "$words" -- "$word")
  if [[ " $files " = *" $at "* ]]; then
    mapfile -t -O ${#COMPREPLY[@]} COMPREPLY < <(compgen -f -- "$word")
    compopt -o filenames 2> /dev/null
  fi
}
complete -F _khe khe khe-page khe-talk

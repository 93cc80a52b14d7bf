#!/bin/bash
# Starts the program. Where tools/build hasn't built it yet, or a source has changed since, this runs the sources as they are by
# `rt try`, which compiles them and proves nothing. Help and version are answered at once (tests/front compares them with
# the program's), and so are wrong command lines and files that aren't there.
set -euo pipefail
top=$(dirname "$(readlink -f "$0")")
crate=$top/crates/asl
program=$crate/out/asl

answer_help() { # the words; fails where no help is stored for them
  local help=$top/tools/help
  case "$# $*" in
    '1 --help' | '1 -h' | '1 help') cat "$help/asl.txt" ;;
    '2 check --help' | '2 check -h' | '2 help check') cat "$help/check.txt" ;;
    '2 lint --help' | '2 lint -h' | '2 help lint') cat "$help/lint.txt" ;;
    '2 print --help' | '2 print -h' | '2 help print') cat "$help/print.txt" ;;
    '2 upgrade --help' | '2 upgrade -h' | '2 help upgrade') cat "$help/upgrade.txt" ;;
    '2 graph --help' | '2 graph -h' | '2 help graph') cat "$help/graph.txt" ;;
    '2 mocks --help' | '2 mocks -h' | '2 help mocks') cat "$help/mocks.txt" ;;
    '2 run --help' | '2 run -h' | '2 help run') cat "$help/run.txt" ;;
    '2 debug --help' | '2 debug -h' | '2 help debug') cat "$help/debug.txt" ;;
    '2 test --help' | '2 test -h' | '2 help test') cat "$help/test.txt" ;;
    '2 explore --help' | '2 explore -h' | '2 help explore') cat "$help/explore.txt" ;;
    '2 explain --help' | '2 explain -h' | '2 help explain') cat "$help/explain.txt" ;;
    '2 lsp --help' | '2 lsp -h' | '2 help lsp') cat "$help/lsp.txt" ;;
    '1 --version' | '1 -V') echo "asl $("$top/tools/version")" ;;
    *) return 1 ;;
  esac
}

hand_in() { # a word; where it names a file, the run gets a copy of it under that name, or one as good
  local option='' file=$1 name
  case $1 in
    --*=*) option=${1%%=*}= file=${1#*=} ;;
  esac
  if [ -d "$file" ] || ! [ -r "$file" ]; then
    words+=("$1")
    return
  fi
  name=$file
  case /$file/ in
    *//* | */./* | */../* | *=* | /program/* | /stdin/* | /stdout/* | /stderr/*)
      name=file${#files[@]}
      given[$name]=$file
      ;;
  esac
  cat < "$file" > "$room/file${#files[@]}"
  files+=(--data "$name=$room/file${#files[@]}")
  words+=("$option$name")
}

with_given() { # lines; those that begin with a name that stood in for another one begin with that one
  local line name
  while IFS= read -r line; do
    name=${line%%:*}
    if [ -n "$name" ] && [ -n "${given[$name]-}" ]; then line=${given[$name]}${line#"$name"}; fi
    printf '%s\n' "$line"
  done
}

run_sources() { # the words
  local status=0 last
  room=$(mktemp -d)
  trap 'rm -rf "$room"' EXIT
  words=() files=()
  declare -gA given=()
  for word in "$@"; do hand_in "$word"; done
  (cd "$crate" && "$top/tools/rt" try "${files[@]}" -- "${words[@]}") > "$room/out" 2> "$room/err" || true
  last=$(tail -n 1 "$room/err")
  if ! [[ $last =~ ^run=ended\ status=([0-9]+)\  ]]; then
    cat "$room/err" >&2
    echo "asl: the sources didn't run; tools/build proves and builds the program" >&2
    exit 2
  fi
  status=${BASH_REMATCH[1]}
  cat "$room/out"
  sed '/^\(interpreter\|checked\): /,$d' "$room/err" | with_given >&2 # rt try's own lines come last
  exit "$status"
}

if [ -x "$program" ]; then
  newer=$("$top/tools/changed")
  if [ -z "$newer" ]; then exec "$program" "$@"; fi
  why="$newer has changed since the program was built"
else
  why="the program isn't built yet"
fi
if answer_help "$@"; then exit; fi
if [ $# = 0 ]; then
  cat "$top/tools/help/none.txt" >&2
  exit 2
fi
wrong=0
python3 -B "$top/tools/helps.py" "$@" || wrong=$?
if [ $wrong = 2 ]; then exit 2; fi
if [ "$1 $#" = 'debug 5' ] && [ -t 0 ]; then
  echo "asl: $why: a session needs the built program; tools/build proves and builds it" >&2
  exit 2
fi
if [ "$1" = lsp ]; then
  echo "asl: $why: an editor needs the built program; tools/build proves and builds it" >&2
  exit 2
fi
if ! command -v rt > /dev/null; then
  echo "asl: $why, and Rattle's command rt isn't on the PATH: README.md says where it comes from" >&2
  exit 2
fi
echo "asl: $why: compiling the sources takes two to three minutes, each time, and proves nothing; \
tools/build proves and builds it once, and an archive needs neither" >&2
run_sources "$@"

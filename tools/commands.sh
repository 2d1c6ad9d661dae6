# Sourced by ../llinkhiro: the commands for people.

# tell COMMAND ARGUMENT.. : the commands that are written in Rust.
tell() {
  local status=0
  need_open "${@:2}"
  current_tools >&2
  start "$here/target/tools/release/tell" "$@"
  finish || status=$?
  if [ "$status" -gt 2 ]; then
    say "$1 was ended before it was done (status $status)"
    status=2
  fi
  return "$status"
}

# takes LEAST MOST WHAT COMMAND ARGUMENT.. : a command is given as many arguments as it takes.
takes() {
  [ $(($# - 4)) -ge "$1" ] && [ $(($# - 4)) -le "$2" ] || fail "$4 takes $3"
}

who() {
  takes 1 4 'a journal and, if you like, an axis, a PNU and an index' who "$@"
  tell who "$@"
}

explain() {
  takes 1 1 'a journal' explain "$@"
  tell explain "$@"
}

versions() {
  takes 2 2 'a journal and a farm, 1 to 16' versions "$@"
  tell versions "$@"
}

check() {
  takes 2 2 'a request and a response: two blocks in hex, or two files of frames' check "$@"
  tell check "$@"
}

capture() {
  takes 2 2 'a journal and the file to write' capture "$@"
  not_onto "$2" "$1"
  written "$2" tell capture "$1"
}

# Which way it goes is an option, or is seen from the file.
journal() {
  local options=()
  case ${1:-} in --text | --bytes) options=("$1") && shift ;; esac
  takes 1 2 'a file and, if you like, the file to write' journal "$@"
  not_onto "${2--}" "$1"
  written "${2--}" tell journal "${options[@]}" "$1"
}

# What a proved program makes of journals; with no file, of document 01's. A program has no exit status of its own: it says on standard
# error what went wrong, and nothing else there.
of_journals() {
  local program=$1 said status=0
  shift
  need_readable "$@"
  need_open "$@"
  current_program "$program"
  emulator
  noted
  if [ $# = 0 ]; then
    if [ -p /dev/stdin ] || [ -f /dev/stdin ]; then
      say "no file named, so this is document 01's journal; '-' is standard input"
    fi
    set -- "$here/crates/replay/stdin"
  fi
  {
    start "${emulated[@]}" "$here/target/bin/$program" "$@" 2>"$notes/said"
    # Where people look and see no output.
    if [ -t 4 ] && [ ! -t 1 ]; then watch "$(bytes_of "$@")"; fi
    finish || status=$?
  } 4>&2
  said=$(<"$notes/said")
  [ -z "$said" ] || echo "$said" >&2 || true
  case "$status $said" in
    '0 ') ;;
    *': record '[0-9]*' is bad' | *' would bring a count to 2^64') status=1 ;;
    *) status=2 ;;
  esac
  return "$status"
}

replay() {
  of_journals replay "$@"
}

report() {
  if [ "${1:-}" != --picture ]; then
    of_journals report "$@"
    return
  fi
  takes 1 $# 'the file to write and, if you like, journals' 'report --picture' "${@:2}"
  not_onto "${@:2}"
  not_over_others "$2"
  written "$2" picture "${@:3}"
}

# not_over_others OUT : a picture takes the place of a picture alone. Who forgets it names a journal in its place.
not_over_others() {
  local file
  named "$1"
  [ ! -f "$file" ] || [ ! -s "$file" ] || [ "$(head -c 4 "$file" | tr -d '\0')" = '<svg' ] ||
    fail "$1: it is there and is no picture; the file to write comes before the journals"
}

# The counts of journals, drawn under their names; status 1 where a bad record ended them.
picture() {
  local names=() file status=0
  noted
  of_journals report "$@" >"$notes/counts" || status=$?
  [ "$status" -le 1 ] || return "$status"
  for file in "$@"; do
    if [ "$file" = - ]; then names+=('standard input'); else names+=("$file"); fi
  done
  tell picture "${names[*]:-document 01}" <"$notes/counts"
}

soak() {
  case "$*" in
    '' | *[!0-9]*) fail "soak takes a number of minutes" ;;
  esac
  current_trials
  target/trial/release/differential --minutes "$1" --seed "$RANDOM$RANDOM"
}

# With an archive, the library is not built.
bench() {
  takes 0 1 'at most one archive' bench "$@"
  local file=$archive
  if [ $# = 1 ]; then named "$1"; else current_library; fi
  [ -f "$file" ] || fail "$1: there is no such archive"
  current_program replay
  current_program report
  bench/run "$file" target/bin/replay target/bin/report
}

test_all() {
  # shellcheck source=trial/test.sh
  . trial/test.sh
  case "$*" in
    '') gate ;;
    commands) test_people ;;
    *) fail "test takes no argument, or 'commands'" ;;
  esac
}

test_wireshark() {
  takes 0 0 'no arguments' test-wireshark "$@"
  current_trials
  DEBIAN_FRONTEND=noninteractive need tshark tshark
  target/trial/release/wireshark target/trial/wireshark README.md crates/replay/stdin examples/journals/edges.txt examples/*.txt
}

coverage() {
  takes 0 0 'no arguments' coverage "$@"
  # shellcheck source=trial/test.sh
  . trial/test.sh
  # shellcheck source=trial/coverage.sh
  . trial/coverage.sh
  covered
}

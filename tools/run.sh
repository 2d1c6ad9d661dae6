# Sourced by ../llinkhiro: how a program is run for the caller, and where its output goes.

# What stands for a run alone, and goes with it: a file that is being made, a folder for notes, and a program that runs.
made=
notes=
running=
trap 'rm -rf "$made" "$notes"' EXIT
trap 'stopped 129' HUP
trap 'stopped 130' INT
trap 'stopped 143' TERM

# stopped STATUS : what ends this script ends the program that it runs.
stopped() {
  [ -z "$running" ] || kill "$running" 2>/dev/null || true
  [ ! -t 2 ] || printf '\r\033[K' >&2
  exit "$1"
}

# noted : there is a folder for notes.
noted() {
  [ -n "$notes" ] || notes=$(mktemp -d) || fail "there is no room for notes: $(mktemp -d 2>&1)"
}

# A file as the caller named it, seen from here, in `file`.
named() {
  case "$1" in
    - | /*) file=$1 ;;
    *) file=$from/$1 ;;
  esac
}

# need_open ARGUMENT.. : output is open, and input where it is asked for.
need_open() {
  local typed
  [ -e /dev/stdout ] || fail "standard output is closed"
  for typed in "$@"; do
    [ "$typed" != - ] || [ "$input" = open ] || fail "standard input is closed"
  done
}

# need_readable FILE.. : standard input, or a file that can be read.
need_readable() {
  local typed file
  for typed in "$@"; do
    [ "$typed" != - ] || continue
    named "$typed"
    [ -e "$file" ] || fail "$typed: No such file or directory"
    [ ! -d "$file" ] || fail "$typed: Is a directory"
    [ -r "$file" ] || fail "$typed: Permission denied"
  done
}

# start PROGRAM ARGUMENT.. : runs a program where the caller is, so that it names files as they were typed.
start() {
  (trap - HUP INT QUIT TERM && cd "$from" && exec "$@" 4>&-) <&0 &
  running=$!
}

# finish : waits for it, and answers its exit status.
finish() {
  local status=0
  wait "$running" || status=$?
  running=
  return "$status"
}

# watch BYTES : tells on 4 how much it has read, of so many bytes if that is known.
watch() {
  local read
  while sleep 0.3 && read=$(sed -n 's/^rchar: //p' "/proc/$running/io" 2>/dev/null) && [ -n "$read" ]; do
    printf '\r%s' "$(progress "$read" "$1")" >&4
  done
  printf '\r\033[K' >&4
}

# progress READ ALL : in words.
progress() {
  if [ "$2" -gt 0 ]; then echo "$((100 * $1 / $2)) % of $(($2 / 1000000)) MB"; else echo "$(($1 / 1000000)) MB"; fi
}

# bytes_of FILE.. : their bytes; 0 where one of them is no plain file, so that nobody knows.
bytes_of() {
  local typed file sum=0
  for typed in "$@"; do
    named "$typed"
    [ -f "$file" ] || { echo 0 && return; }
    sum=$((sum + $(stat -Lc %s "$file")))
  done
  echo "$sum"
}

# written OUT COMMAND.. : what a command prints becomes a file, whole or not at all. '-' is standard output; what is there and is no plain
# file, such as a pipe, is written to.
written() {
  local out=$1 file status=0
  named "$out"
  shift
  case "$out" in
    - | /dev/stdout)
      "$@"
      return
      ;;
    '') fail "the name of the file to write is empty" ;;
    *$'\n') fail "${out%$'\n'}: its name ends with a line end" ;;
  esac
  [ ! -d "$file" ] || fail "$out: Is a directory"
  [ ! -e "$file" ] || [ -w "$file" ] || fail "$out: Permission denied"
  if [ -e "$file" ] && [ ! -f "$file" ]; then
    "$@" >"$file"
    return
  fi
  [[ $out != */ ]] && file=$(readlink -f "$file") || fail "$out: there is no such folder"
  made=$(mktemp "$file.XXXXXX" 2>/dev/null) || fail "$out: it cannot be written there"
  "$@" >"$made" || status=$?
  if [ "$status" -gt 1 ]; then
    say "$out was not written"
    return "$status"
  fi
  if [ -e "$file" ]; then chmod --reference="$file" "$made"; else chmod "$(printf %o $((0666 & ~0$(umask))))" "$made"; fi
  mv -f "$made" "$file" || fail "$out: it cannot be written there"
  return "$status"
}

# not_onto OUT FILE.. : what is made of a file does not take its place.
not_onto() {
  local out file typed
  named "$1"
  out=$file
  for typed in "${@:2}"; do
    named "$typed"
    ! [ "$out" -ef "$file" ] || fail "$1: it would overwrite what it is made of"
  done
}

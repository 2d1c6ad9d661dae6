# Sourced by ../llinkhiro: the programs that its commands start, each built when it is first asked for and when its source has changed
# since. What is built lies in target/ and runs without a toolchain.

# Where nobody hears it, nothing else is lost.
say() {
  echo "llinkhiro: $*" >&2 || true
}

fail() {
  say "$*"
  exit 2
}

# need_tool TOOL WHAT PROGRAM : what is built needs no toolchain, what is not does.
need_tool() {
  command -v "$1" >/dev/null 2>&1 || fail "$2 ('$1') is not on PATH, and $3 is not built, or not of the code that is here"
}

need_rt() {
  need_tool rt 'the Rattle toolchain' "$1"
}

# How programs for the library's processor are built, and the words that start them, if any. Somebody who only asks for help needs none.
emulator() {
  # shellcheck source=host/target.sh
  . host/target.sh </dev/null
}

# stale FILE SOURCE.. : it was never built, or before one of these was changed.
stale() {
  [ ! -f "$1" ] || [ -n "$(find "${@:2}" -newer "$1" -print -quit)" ]
}

# The crates that a crate is built of, each behind those that it stands on, as rt builds them; itself the last.
crates_of() {
  awk -v name="$1" -F: '
    function visit(crate, i, n, on) {
      if (!(crate in below) || seen[crate]++) return
      n = split(below[crate], on, " ")
      for (i = 1; i <= n; i++) visit(on[i])
      print crate
    }
    /^[a-z]/ { split($1, words, " "); below[words[1]] = $2 }
    END { visit(name) }' crates.txt
}

# code_of CRATE : a sum of the code that it is built of, by which it is told whether that changed. A definition or a proof makes no other
# program.
code_of() {
  local crate folders=()
  while read -r crate; do folders+=("crates/$crate/src"); done < <(crates_of "$1")
  [ ${#folders[@]} -gt 0 ] || fail "crates.txt lists no crate $1"
  find "${folders[@]}" -name '*.rt' -print0 | LC_ALL=C sort -z | xargs -0 sha256sum | sha256sum
}

# is_of FILE SUM : it is there, and was built of the code with this sum.
is_of() {
  [ -f "$1" ] && [ "$(cat "$1.sum" 2>/dev/null)" = "$2" ]
}

# keep BUILT FILE SUM : what rt built is kept, whole or not at all, with the sum of its code. `rt ci` clears away what lies in a crate's out/.
keep() {
  mkdir -p "${2%/*}" && rm -f "$2.sum" && cp "$1" "$2.$$" && mv -f "$2.$$" "$2" && echo "$3" >"$2.sum" || fail "$2 cannot be written"
}

# tell_proved CRATE : tells of each crate that this one is built of, as rt says it, that it is proved. Rt passes over what it kept.
tell_proved() {
  local who name count=0 crate=
  local -A place=()
  while read -r name; do place[$name]=$((++count)); done < <(crates_of "$1")
  while read -r who name _; do
    case $who in
      crate) crate=${name%:} ;;
      logic=proved) say "${place[$crate]:-} of $count proved: $crate" ;;
    esac
  done
}

# proved CRATE WORD : rt proves a crate and builds it by its word for that. What `rt run` starts has nothing to read.
proved() {
  local log=target/$1.log
  mkdir -p target
  (cd "crates/$1" && rt "$2" 2>&1 </dev/null) | tee "$log" | tell_proved "$1" || { cat "$log" >&2; fail "$1 was not built"; }
}

# A program, which is proved when it is built.
current_program() {
  local program=target/bin/$1 sum
  sum=$(code_of "$1") || exit
  ! is_of "$program" "$sum" || return 0
  need_rt "$1"
  say "proving and building $1; this takes some minutes the first time"
  proved "$1" run
  keep "crates/$1/out/$1" "$program" "$sum"
}

archive=target/staticlib/libllinkhiro.a

# The library for a host written in C.
library() {
  local sum
  sum=$(code_of llinkhiro) || exit
  need_rt "the library"
  say "proving and building the library; this takes some minutes the first time"
  proved llinkhiro lib
  keep crates/llinkhiro/out/libllinkhiro.a "$archive" "$sum"
}

# The library as it was built last, where no code has changed since.
current_library() {
  local sum
  sum=$(code_of llinkhiro) || exit
  is_of "$archive" "$sum" || library
}

# current_host PROGRAM ARCHIVE FOLDER : a program in C that makes the calls of an archive, built in a folder.
current_host() {
  local program=$3/$1
  stale "$program" "host/$1.c" include/llinkhiro.h "$2" || return 0
  need_cc </dev/null
  mkdir -p "$3"
  "$cc" "${strict[@]}" -O2 -I include "host/$1.c" "$2" -o "$program" || fail "host/$1.c was not built"
}

# current_tools : what tells of a journal, and the two programs that make the library's calls for it, which it finds by the environment.
current_tools() {
  emulator
  export LLINKHIRO_HOST=$here/target/host LLINKHIRO_EMULATOR=${emulated[*]}
  current_library
  current_host play "$archive" target/host
  current_host serve "$archive" target/host
  stale target/tools/release/tell tools/src tools/Cargo.toml twin/src twin/Cargo.toml || return 0
  built_by_cargo tools target/tools
  touch target/tools/release/tell
}

# built_by_cargo PACKAGE FOLDER
built_by_cargo() {
  need_tool cargo 'Rust, 1.82 or later' "$1"
  CARGO_TARGET_DIR=$2 cargo build --quiet --release --offline --manifest-path "$1/Cargo.toml" </dev/null >&2 || fail "$1 was not built"
}

# The tests that call the library from outside, and what makes their calls.
current_trials() {
  current_tools
  stale target/trial/release/differential {trial,tools,twin}/src {trial,tools,twin}/Cargo.toml || return 0
  built_by_cargo trial target/trial
  touch target/trial/release/differential
}

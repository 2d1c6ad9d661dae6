# Sourced by ../tools/commands.sh: the gate, and the tests of the commands by themselves.

# What a test makes of the library and of the twin: so many calls (fewer of plain C), and a journal of so many records.
calls=1000000
plain_calls=200000
records=1000000

# Each crate's folder is listed in crates.txt: what is not listed is not proved.
listed() {
  local folder name
  for folder in crates/*/; do
    name=$(basename "$folder")
    grep -Eq "^$name( [^:]*)?:" crates.txt || fail "crates/$name is not listed in crates.txt"
  done
}

# Which functions of the library are still called, and not put in the place of their call: those of bench/calls.txt, where it stands
# what that costs. No proof and no other test would tell of one more.
test_calls() {
  "$nm" --defined-only "$archive" | sed -n 's/^[0-9a-f]* t //p' | sort >target/host/calls
  grep -v '^#' bench/calls.txt | sort | diff - target/host/calls ||
    fail "the library calls other functions (>) than bench/calls.txt lists (<): see there"
}

# The yardstick of `bench` is no yardstick unless it does the same job.
test_plain() {
  local names=() call plain=target/plain
  for call in size fresh cycle frame exchange versions go_back check; do names+=("-Dllinkhiro_$call=plain_$call"); done
  mkdir -p "$plain"
  "$cc" "${strict[@]}" -O2 -I include -c bench/plain.c -o "$plain/plain.o"
  "$cc" "${strict[@]}" -O2 -I include "${names[@]}" host/serve.c "$plain/plain.o" -o "$plain/serve"
  LLINKHIRO_HOST=$plain target/trial/release/differential --calls "$plain_calls" | sed -n '$s/^/plain C: /p'
}

# A program over journals and the twin's: each on journals whose output is known, both on a long one that is made up.
test_program() {
  local own=("${emulated[@]}" "target/bin/$1" -) twin=target/trial/release/twin-$1 made=target/trial/journal
  python3 trial/journals.py "${@:2}" "${own[@]}"
  python3 trial/journals.py "${@:2}" "$twin"
  "${own[@]}" <"$made" >"$made.ours"
  "$twin" <"$made" >"$made.twin"
  cmp "$made.ours" "$made.twin" || fail "$1 and the twin's $1 differ"
  dd if="$made" bs=100 status=none | "${own[@]}" | cmp - "$made.ours" || fail "$1 reads a pipe otherwise than a file"
  echo "$1: $(wc -l <"$made.ours") lines over a made-up journal, the same as the twin's"
}

test_programs() {
  need python3 python3
  built_by_cargo twin target/trial
  target/trial/release/made-up-journal "$records" >target/trial/journal
  test_program replay examples/journals/edges.txt
  test_program report --report examples/journals/season.txt
  if grep -Eq ' 0( |$)' target/trial/journal.ours; then fail "the made-up journal leaves a count at 0"; fi
}

# What the crates of Rust test by themselves.
test_rust() {
  local package
  for package in twin tools trial; do
    CARGO_TARGET_DIR=target/trial cargo test --quiet --release --offline --lib --manifest-path "$package/Cargo.toml"
  done
}

# What people use, and their long commands too.
test_people() {
  current_program replay
  current_program report
  current_trials
  test_programs
  test_commands
  test_long_commands
}

# Rt's own gate, over the checkout as it stands. It passes an edit that it could not try, and such an edit shows nothing of a promise.
prove_all() {
  rt ci | tee "$notes/ci"
  grep -q '^rt: ok;' "$notes/ci" || fail "rt ci does not say that all is well"
  if grep -Eq '^rt: ok;.*, [0-9]+ bad(;|$)' "$notes/ci"; then fail "an edit that must fail was not tried: rt ci calls it a BAD EDIT"; fi
}

# The programs that rt's gate built and ran, and the library.
keep_all() {
  local program
  for program in replay report; do keep "crates/$program/out/$program" "target/bin/$program" "$(code_of "$program")"; done
  library
}

# All of it; the last line is the verdict of the proofs, once the library was tried from outside too.
gate() {
  listed
  need_rt "nothing"
  noted
  prove_all
  keep_all
  host/run "$archive" include
  current_trials
  test_calls
  test_rust
  target/trial/release/play-examples examples/*.txt
  test_programs
  test_commands
  test_plain
  target/trial/release/differential --calls "$calls"
  tail -n 1 "$notes/ci"
}

# shellcheck source=trial/commands.sh
. trial/commands.sh

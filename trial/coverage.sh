# Sourced by ../tools/commands.sh: what of the twin the calls of the tests reach.

# Runs a program that was built to count.
count() {
  LLVM_PROFILE_FILE="target/coverage/$1-%p.profraw" "target/coverage/release/$1" "${@:2}"
}

# What its runs counted in some files of the twin.
counted() {
  local counts=target/coverage/$1
  "llvm-profdata-$llvm" merge "$counts"-*.profraw -o "$counts.profdata"
  "llvm-cov-$llvm" export "target/coverage/release/$1" -instr-profile="$counts.profdata" "${@:2}" >"$counts.json"
}

# The calls of `test` in the twin, and its journals in the twin's replay and report. rustc counts branches only when told that it
# may use what is not stable, and older tools than its own LLVM's cannot read what it counts.
covered() {
  local llvm
  current_tools
  export RUSTC_BOOTSTRAP=1 RUSTFLAGS='-C instrument-coverage -Z coverage-options=condition'
  built_by_cargo trial target/coverage
  built_by_cargo twin target/coverage
  llvm=$(rustc -vV | sed -n 's/^LLVM version: \([0-9]*\).*/\1/p')
  need "llvm-cov-$llvm" "llvm-$llvm"
  need python3 python3
  rm -f target/coverage/*.profraw
  count differential --calls "$calls"
  LLVM_PROFILE_FILE=target/coverage/twin-replay-%p.profraw \
    python3 trial/journals.py examples/journals/edges.txt target/coverage/release/twin-replay
  LLVM_PROFILE_FILE=target/coverage/twin-report-%p.profraw \
    python3 trial/journals.py --report examples/journals/season.txt target/coverage/release/twin-report
  count made-up-journal "$records" >target/coverage/journal
  count twin-replay <target/coverage/journal >target/coverage/lines
  count twin-report <target/coverage/journal >target/coverage/season
  counted differential -ignore-filename-regex='/twin/src/(journal|record|season)\.rs' twin/src
  counted twin-replay twin/src/bin/twin-replay.rs twin/src/journal.rs twin/src/record.rs
  counted twin-report twin/src/bin/twin-report.rs twin/src/season.rs
  echo
  python3 trial/coverage.py target/coverage/{differential,twin-replay,twin-report}.json
}

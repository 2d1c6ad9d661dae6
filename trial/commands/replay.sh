# Sourced by ../commands.sh: replay and report, on files, parts of files and pipes.

# The command on 01's journal, whose records are 4 of 11 bytes and 3 of 247, and on parts of it. The first part ends in S2, where a
# station made fresh for the rest would stand in S1.
test_replay_files() {
  local all=crates/replay/stdin lines=crates/replay/stdout part=target/trial/part
  head -c 22 "$all" >"$part.first"
  tail -c +23 "$all" >"$part.rest"
  head -c 50 "$all" >"$part.cut"
  { tail -c 247 "$all" && echo; } >"$part.bad"
  { head -n 4 "$lines" && echo bad; } >"$part.cut.lines"
  { head -n 2 "$lines" && tail -n 1 "$lines" && echo bad; } >"$part.bad.lines"
  ends 0 '' "$lines" replay </dev/null
  ends 0 '' "$lines" replay "$part.first" "$part.rest"
  cat "$part.first" "$part.rest" | ends 0 '' "$lines" replay -
  ends 0 '' "$lines" replay "$part.first" - <"$part.rest"
  ends 1 "$part.cut: record 5 is bad" "$part.cut.lines" replay "$part.cut" "$part.rest"
  ends 1 'standard input: record 5 is bad' "$part.cut.lines" replay - "$part.rest" <"$part.cut"
  ends 1 "$part.bad: record 2 is bad" "$part.bad.lines" replay "$part.first" "$part.bad" "$part.rest"
  unread replay "$part.first" @
}

# The counts over the same parts: those before a bad record, and that word.
test_report() {
  local lines=crates/report/stdout part=target/trial/part
  ends 0 '' "$lines" report </dev/null
  ends 0 "llinkhiro: no file named, so this is document 01's journal; '-' is standard input" "$lines" report <"$part.first"
  ends 0 '' "$lines" report "$part.first" - <"$part.rest"
  { echo 'r 1 1 1 1 1 0 0 1 0 0 0' && printf 'r %d 0 0 0 0 0 0 0 0 0 0\n' {2..16} && echo bad; } >"$part.counts"
  ends 1 "$part.cut: record 5 is bad" "$part.counts" report "$part.cut" "$part.rest"
  unread report "$part.first" @
}

# A read that fails on the way: of a folder, which the command refuses before, so the programs are called themselves. The lines so
# far are there, and no counts.
test_failing_read() {
  local part=target/trial/part program
  for program in replay report; do
    "${emulated[@]}" "target/bin/$program" "$part.first" target >"$part.$program" 2>"$part.said"
    grep -qx 'target: Is a directory' "$part.said" || fail "$program says of a folder: $(cat "$part.said")"
  done
  head -n 2 crates/replay/stdout | cmp - "$part.replay" || fail "replay loses lines before a read that fails"
  [ ! -s "$part.report" ] || fail "report prints counts of journals that were not read"
}

# In another folder; where standard input is closed; and where its output cannot be written.
test_replay_outside() {
  local said status=0
  said=$(cd target && ../llinkhiro replay trial/part.cut 2>&1 >/dev/null) || status=$?
  [ "$status $said" = '1 trial/part.cut: record 5 is bad' ] || fail "a file is not named as it was typed: $said"
  status=0
  said=$(./llinkhiro replay - 2>&1 <&-) || status=$?
  [ "$status $said" = '2 llinkhiro: standard input is closed' ] || fail "replay says of a closed standard input: $said"
  lost replay crates/replay/stdin
  lost report crates/replay/stdin
}

test_replay() {
  test_replay_files
  test_failing_read
  test_replay_outside
  follows 27 2 replay -
}

# Sourced by ../commands.sh: explain.

# The lines of document 01's journal, by the words of each of its records.
test_explain_lines() {
  local lines=target/trial/explained on='enable operation, enable ramp generator, unfreeze setpoint, enable setpoint, control by PLC'
  cat >"$lines" <<TXT
record 1: axis 1, STW1 047E (switch off, no coast stop, no quick stop, $on), setpoint 0 (0.00 %), actual 0 (0.00 %) -> S1 to S2 ready, effective setpoint 0 rpm, ZSW1 0331 (ready to switch on, no coast stop, no quick stop, at its setpoint, control requested)
record 2: axis 1, STW1 047F (switch on, no coast stop, no quick stop, $on), setpoint 0 (0.00 %), actual 0 (0.00 %) -> S2 to S3 switched on, effective setpoint 0 rpm, ZSW1 0333 (ready to switch on, ready to operate, no coast stop, no quick stop, at its setpoint, control requested)
record 3: axis 1, STW1 047F (switch on, no coast stop, no quick stop, $on), setpoint 8192 (50.00 %), actual 0 (0.00 %) -> S3 to S4 operation, effective setpoint 750 rpm, ZSW1 0237 (ready to switch on, ready to operate, operation enabled, no coast stop, no quick stop, not at its setpoint, control requested)
record 4: axis 1, STW1 047D (switch on, coast stop, no quick stop, $on), setpoint 0 (0.00 %), actual 0 (0.00 %) -> S4 to S1 switching on inhibited, effective setpoint 0 rpm, ZSW1 0360 (coast stop, no quick stop, switching on inhibited, at its setpoint, control requested)
record 5: farm 1 sends change 07 axis 1: 30001[0..1] = 1000 3001 -> acknowledged, 0 elements stored
record 6: farm 1 fetches -> answered: 30001[0..1]: outside its limits (error 02)
record 7: farm 2 sends change 07 axis 1: 30001[0..1] = 1000 3001 -> refused: denied, not its axis (11)
TXT
  ends 0 '' "$lines" explain crates/replay/stdin
  tail -n 3 "$lines" >"$lines.frames"
  shown "$lines.frames"
  head -n 4 "$lines" >"$lines.cut"
  ends 1 'target/trial/part.cut: record 5 is bad' "$lines.cut" explain target/trial/part.cut
}

# replayed : the lines of explain in the form of a replay, as far as they say what it says: cycles, goings back and what was refused.
replayed() {
  sed -nE 's/^record [0-9]+: axis ([0-9]+), .* -> .*\bS([0-9]+) [a-z ]+(, [a-z ]+)?, effective setpoint (-?[0-9]+) rpm, ZSW1 ([0-9A-F]{4}) .*/c \1 S\2 \5 \4/p
    s/^record [0-9]+: axis .* -> refused: .* \(([0-9]+)\)$/x \1/p
    s/^record [0-9]+: farm [0-9]+ goes back .* -> refused: .* \(([0-9]+)\)$/x \1/p
    s/^record [0-9]+: farm ([0-9]+) goes back .* -> ([0-9]+) elements stored as version ([0-9]+)$/g \1 \2 \3/p'
}

# On a made-up journal it has a line for each record, and says what the replay says.
test_explain_agrees() {
  local made=target/trial/made
  ./llinkhiro explain "$made" >"$made.explained"
  ./llinkhiro replay "$made" >"$made.lines"
  cut -d: -f1 "$made.explained" | cmp - <(seq -f 'record %.0f' 100000) || fail "explain has other lines than records"
  grep '^[cgx]' "$made.lines" | cmp - <(replayed <"$made.explained") || fail "explain and replay differ"
  [ "$(stored <"$made.explained")" = "$(awk '$1 ~ /[ef]/ { sum += $3 } END { print sum }' "$made.lines")" ] ||
    fail "explain and replay tell of other numbers of elements stored"
}

# stored : the elements that were stored by frames and merged calls.
stored() {
  sed -nE '/ goes back /d; s/.* ([0-9]+) elements? stored$/\1/p' | awk '{ sum += $1 } END { print sum }'
}

test_explain_usage() {
  refused 'llinkhiro: explain takes a journal' explain
  refused 'llinkhiro: explain takes a journal' explain a b
  unread explain @
  lost explain crates/replay/stdin
}

test_explain() {
  test_explain_lines
  test_explain_agrees
  test_explain_usage
  follows 27 2 explain -
}

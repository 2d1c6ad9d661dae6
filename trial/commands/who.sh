# Sourced by ../commands.sh: who.

# The story of the README: farm 1 moved its second mark, farm 2 tried to, farm 1 tried a bad value and went back.
test_who_story() {
  local week=target/trial/week.journal
  cat >"$week.lines" <<'TXT'
record 2: farm 1 set axis 1, PNU 30001[1]: 0 -> 2000
record 5: farm 2 tried axis 1, PNU 30001[1] = 1200: denied, not its axis (11)
record 6: farm 1 set axis 1, PNU 30001[1]: 2000 -> 1500
record 7: farm 1 tried axis 1, PNU 30001[1] = 3001: outside its limits, 0 to 3000 (error 02)
record 8: farm 1 set axis 1, PNU 30001[1]: 1500 -> 2000, back to version 2
record 9: farm 1 tried axis 1, back to version 9: version is not kept (14)
3 set, 3 not, in 9 records. A journal has no clock: it counts records, the lines of its replay.
TXT
  ends 0 '' "$week.lines" who "$week" 1 30001 1
  ends 0 '' "$week.lines" who - 1 30001 1 <"$week"
  shown "$week.lines"
  sed 's/in 9 records/in the 9 records before a bad one/' "$week.lines" >"$week.told"
  ends 1 "$week.cut: record 10 is bad" "$week.told" who "$week.cut" 1 30001 1
}

# What it says was stored is what the library then holds, by single calls of it.
test_who_agrees() {
  local made=target/trial/made seed
  for seed in 1 2; do
    target/trial/release/made-up-journal 100000 "$seed" >"$made"
    ./llinkhiro who "$made" >"$made.who"
    target/trial/release/who-agrees "$made" "$made.who"
  done
}

# different : the lines without those of goings back that left an element as it was, which are told where it is asked for.
different() {
  grep -Ev ': (-?[0-9]+) -> \1, back to version'
}

# What is asked for is what of all attempts names it.
test_who_wanted() {
  local made=target/trial/made all=target/trial/made.who mark=' axis 3, (.* of )?PNU 30001\[1\]'
  ./llinkhiro who "$made" 3 | sed '$d' | cmp - <(grep -E ' axis 3(,|:)' "$all") || fail "who of an axis"
  ./llinkhiro who "$made" 3 10111 | grep ' PNU ' | different | cmp - <(grep -E ' axis 3, (.* of )?PNU 10111\b' "$all" | different) ||
    fail "who of a parameter"
  ./llinkhiro who "$made" 3 30001 1 | grep -E "$mark" | different | cmp - <(grep -E "$mark" "$all" | different) ||
    fail "who of an element"
  ./llinkhiro who "$made" 200 | tail -n 1 | grep -q '^0 set, ' || fail "who of an axis that nobody has"
}

test_who_usage() {
  local week=target/trial/week.journal one='llinkhiro: who takes a journal and, if you like, an axis, a PNU and an index'
  refused "$one" who
  refused "$one" who "$week" 1 2 3 4
  refused "who: '256' is no axis: a request can name 0 to 255" who "$week" 256
  refused "who: 'mark' is no PNU: a request can name 0 to 65535" who "$week" 1 mark
  refused "who: '65536' is no index: a request can name 0 to 65535" who "$week" 1 30001 65536
  refused "who: examples/journals/week.text: it begins as a text does; './llinkhiro journal' makes a journal of a text" \
    who examples/journals/week.text
  unread who @
  lost who "$week"
}

test_who() {
  test_who_story
  test_who_agrees
  test_who_wanted
  test_who_usage
  follows 300 2 who -
}

# Sourced by ../commands.sh: versions.

# The list of examples/journals/week.text, in which farm 1 comes by a version in each way. Records 5, of farm 2, 7, with a mark outside its limits,
# and 9, of a number that is not kept, make none of its. When it goes back, the response to record 7 waits.
week_lines() {
  cat <<'TXT'
Farm 1, target/trial/week.journal: versions 1 to 4 are kept. * marks a value that differs from the one above.
version 1                       9900 0   9901 0 0 0 0 0 0 0 0   10111  1500
  record 2, a merged call       30001 1000  2000 3000 500   30002 164   30003 16384   30004    0 0
version 2                       9900 0   9901 0 0 0 0 0 0 0 0   10111  1500
  record 3, a frame             30001 1000  2000 3000 500   30002 164   30003 16384   30004 *-20 0
version 3                       9900 0   9901 0 0 0 0 0 0 0 0   10111 *1450
  record 6, a merged call       30001 1000 *1500 3000 500   30002 164   30003 16384   30004  -20 0
version 4, the last             9900 0   9901 0 0 0 0 0 0 0 0   10111 *1500
  record 8, back to version 2   30001 1000 *2000 3000 500   30002 164   30003 16384   30004  -20 0
4 kept of 4 made in 9 records. A journal has no clock: it counts records, the lines of its replay.
TXT
}

# The README shows it, too. Another ends with a bad record.
test_versions_list() {
  local week=target/trial/week.journal
  week_lines >"$week.lines"
  ends 0 '' "$week.lines" versions "$week" 1
  sed "s|$week|standard input|" "$week.lines" >"$week.told"
  ends 0 '' "$week.told" versions - 1 <"$week"
  sed "s|$week|&.cut|; s/in 9 records/in the 9 records before a bad one/" "$week.lines" >"$week.told"
  ends 1 "$week.cut: record 10 is bad" "$week.told" versions "$week.cut" 1
  sed 's|target/trial/||' "$week.lines" >"$week.told"
  shown "$week.told"
}

test_versions_usage() {
  local week=target/trial/week.journal two='llinkhiro: versions takes a journal and a farm, 1 to 16' farm
  {
    echo "Farm 3, $week: no version is kept. No setting was stored, so all are those of a fresh station."
    echo '0 kept of 0 made in 9 records. A journal has no clock: it counts records, the lines of its replay.'
  } >"$week.told"
  ends 0 '' "$week.told" versions "$week" 3
  refused "$two" versions
  refused "$two" versions "$week"
  refused "$two" versions "$week" 1 2
  for farm in 0 17 257 x; do refused "versions: there is no farm '$farm': they are 1 to 16" versions "$week" "$farm"; done
  unread versions @ 1
}

# In another folder, and where its output cannot be written.
test_versions_outside() {
  local said
  said=$(cd target && ../llinkhiro versions trial/week.journal 1)
  [ "${said%%:*}" = 'Farm 1, trial/week.journal' ] || fail "a file is not named as it was typed: $said"
  lost versions target/trial/week.journal 1
}

# settings NUMBER : those of a version in the list that was made last, without marks.
settings() {
  sed -n "/^version $1\\b/,+1{s/.* \\(9900\\|30001\\) /\\1 /;s/[* ]\\+/ /g;p}" target/trial/versions
}

# Going back to a version brings the settings that the list has of it. At the end the numbers are used up: the last record is refused.
test_versions_back() {
  local list=(target/tools/release/tell versions) week=target/trial/week.journal number
  for number in 1 2 3 4; do
    { cat "$week" && bytes "04 01 000$number"; } | "${list[@]}" - 1 >target/trial/versions
    [ -n "$(settings 5)" ] && [ "$(settings 5)" = "$(settings "$number")" ] ||
      fail "going back to version $number brings other settings than are listed"
  done
  { cat "$week" && bytes "$(seq 4 65535 | awk '{ printf "0401%04x", $1 }')"; } | "${list[@]}" - 1 >target/trial/versions
  grep -qx 'version 65535, the last  *9900 .*' target/trial/versions || fail "the last number is not listed"
  grep -q '^16 kept of 65535 made in 65541 records\.' target/trial/versions || fail "versions of numbers that are used up"
}

# The records that are listed are the last that stored something, by the replay of the made-up journal.
test_versions_made() {
  local farm
  target/trial/release/twin-replay <target/trial/journal >target/trial/journal.lines
  for farm in 1 9 16; do
    target/tools/release/tell versions target/trial/journal "$farm" | sed -n 's/^  record \([0-9]*\),.*/\1/p' >target/trial/versions
    awk -v farm="$farm" '$1 ~ /[efg]/ && $2 == farm && $3 > 0 { print NR }' target/trial/journal.lines | tail -n 16 |
      cmp - target/trial/versions || fail "versions of farm $farm are made by other records than its replay says"
    [ "$(wc -l <target/trial/versions)" = 16 ] || fail "the made-up journal makes too few versions of farm $farm"
  done
}

test_versions() {
  test_versions_list
  test_versions_usage
  test_versions_outside
  test_versions_back
  test_versions_made
}

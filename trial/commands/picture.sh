# Sourced by ../commands.sh: report --picture.

# drawn STATUS SAID TITLE JOURNAL.. : a picture of journals under this title, which is XML. Its bars tell the counts of the report.
drawn() {
  local svg=target/trial/season.svg counts=target/trial/season.lines
  rm -f "$svg"
  ends "$1" "$2" /dev/null report --picture "$svg" "${@:4}"
  ./llinkhiro report "${@:4}" >"$counts" 2>/dev/null || true
  python3 trial/picture.py "$svg" "$3" "$counts"
}

test_picture_counts() {
  local made=target/trial/journal part=target/trial/part svg=target/trial/season.svg
  drawn 0 '' "Season: $made" "$made"
  drawn 0 '' 'Season: document 01'
  drawn 1 "$part.cut: record 5 is bad" "Season: $part.first $part.cut" "$part.first" "$part.cut"
  cp crates/replay/stdin "target/trial/a <b> & 'c'"
  drawn 0 '' "Season: target/trial/a <b> & 'c'" "target/trial/a <b> & 'c'"
  ./llinkhiro report --picture "$svg" crates/replay/stdin
  ends 0 '' "$svg" report --picture - crates/replay/stdin
}

test_picture_usage() {
  local takes='llinkhiro: report --picture takes the file to write and, if you like, journals'
  refused "$takes" report --picture
  refused 'llinkhiro: crates/replay/stdin: it would overwrite what it is made of' report --picture crates/replay/stdin crates/replay/stdin
  refused 'llinkhiro: target: Is a directory' report --picture target
  refused 'llinkhiro: crates/replay/stdin: it is there and is no picture; the file to write comes before the journals' \
    report --picture crates/replay/stdin
  lost report --picture -
}

test_picture() {
  test_picture_counts
  test_picture_usage
}

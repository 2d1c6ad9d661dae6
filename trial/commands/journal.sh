# Sourced by ../commands.sh: journal.

# there_and_back FILE : a journal as text, and that text as a journal: the same bytes. Where a record is bad, the text says so too.
there_and_back() {
  local text=target/trial/there status=0
  ./llinkhiro journal --text "$1" "$text" 2>/dev/null || status=$?
  [ "$status" -le 1 ] || fail "journal of $1: status $status"
  ./llinkhiro journal --bytes "$text" "$text.back"
  cmp "$1" "$text.back" || fail "$1 comes back from text as another journal"
}

# Document 01's journal as text, and the week, which is written by hand.
test_journal_lines() {
  local text=target/trial/there
  cat >"$text.lines" <<'TXT'
cycle 1 047E
cycle 1 047F
cycle 1 047F setpoint 8192
cycle 1 047D
frame 1 change 07 axis 1: 30001[0..1] = 1000 3001
frame 1 fetch
frame 2 change 07 axis 1: 30001[0..1] = 1000 3001
TXT
  ends 0 '' "$text.lines" journal crates/replay/stdin
  ends 0 '' "$text.lines" journal - <crates/replay/stdin
  ends 0 '' crates/replay/stdin journal "$text.lines"
  grep -v '^#' examples/journals/week.text | grep . >"$text.week"
  ends 0 '' "$text.week" journal target/trial/week.journal
  shown "$text.week"
  # The example of its help is a text.
  sed -n '/# Farm 1 starts/,/^$/s/^    //p' tools/help/journal.txt >"$text.help"
  [ "$(./llinkhiro journal "$text.help" | ./llinkhiro journal - | wc -l)" = 5 ] || fail "the example of journal's help"
}

# Journals of every sort: made up, damaged, and no journals at all.
test_journal_back() {
  local part=target/trial/part made=target/trial/made file
  { head -c 5000 "$made" && head -c 11000 "$made" | tail -c 5000; } >"$part.damaged"
  head -c 20000 /dev/urandom >"$part.random"
  : >"$part.empty"
  for file in crates/replay/stdin target/trial/journal "$made" "$part.cut" "$part.bad" "$part.damaged" "$part.random" "$part.empty" README.md; do
    there_and_back "$file"
  done
}

# mistaken LINE:COLUMN WHY TEXT : a text with this mistake, of which nothing is written.
mistaken() {
  local text=target/trial/mistaken out=target/trial/out
  printf '# a journal\n%b\n' "$3" >"$text"
  rm -f "$out"*
  refused "journal: $text:$1: $2
llinkhiro: $out was not written" journal --bytes "$text" "$out"
  [ ! -e "$out" ] || fail "a journal is written of a text with a mistake"
  refused "journal: $text:$1: $2" journal --bytes "$text"
}

# Mistakes of every part of a line; the first is named, by the place of the word that is wrong.
test_journal_mistakes() {
  local words="'cycle', 'frame', 'merged', 'back' or 'bad'" change='frame 1 change 07 axis 1:'
  mistaken 2:1 "the first word is $words, and not 'axle'" 'axle 1'
  mistaken 2:8 'the control word is missing, 4 hex digits' 'cycle 1'
  mistaken 2:7 "the axis is a number from 0 to 255, and not '256'" 'cycle 256 047E'
  mistaken 2:23 "the setpoint is a number from -32768 to 32767, and not '40000'" 'cycle 1 047E setpoint 40000'
  mistaken 2:22 "'fault' says again what stands before it" 'cycle 1 047E fault 1 fault 2'
  mistaken 2:16 "the reference is 2 hex digits from 01 to FF, and not '00'" 'frame 1 change 00 axis 1: 30001[0] = 1'
  mistaken 2:27 "'30001' is an array: name an element, 30001[0] to 30001[3]" "$change 30001 = 1"
  mistaken 2:38 "a value of 30001 is a number from 0 to 65535, and not '70000'" "$change 30001[0] = 70000"
  mistaken 2:39 "'=' is missing before '1000'" "$change 30001[0..1] 1000"
  mistaken 2:16 "'0' has an odd number of hex digits (1)" 'frame 1 hex 5F 0'
  mistaken 2:10 "'3' is left over" 'back 1 2 3'
  mistaken 3:10 "the control word is 4 hex digits, and not 'x'" 'cycle 1 047E\n\tcycle 1 x\nback'
  mistaken 3:1 "'cycle' follows what is bad, which ends a journal" 'bad 05\ncycle 1 047E'
  mistaken 2:7 'byte FF is no UTF-8' 'cycle \xff'
}

test_journal_usage() {
  local week=target/trial/week.journal takes='llinkhiro: journal takes a file and, if you like, the file to write'
  refused "$takes" journal
  refused "$takes" journal --text
  refused "$takes" journal "$week" a b
  refused "llinkhiro: $week: it would overwrite what it is made of" journal "$week" "$week"
  refused 'llinkhiro: target: Is a directory' journal "$week" target
  refused 'llinkhiro: target/none/a.text: there is no such folder' journal "$week" target/none/a.text
  unread journal @
  lost journal "$week"
  unwritten journal @ OUT
}

test_journal() {
  test_journal_lines
  test_journal_back
  test_journal_mistakes
  test_journal_usage
  follows 27 2 journal --text -
}

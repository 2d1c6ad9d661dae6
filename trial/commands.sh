# Sourced by test.sh: every command of `./llinkhiro help`, tried from outside with good and bad uses.

# ends STATUS SAID LINES COMMAND ARGUMENT.. : a command has this exit status, says this and nothing else on standard error, and
# prints what stands in a file.
ends() {
  local said status=0
  said=$(./llinkhiro "${@:4}" 2>&1 >target/trial/lines) || status=$?
  [ "$status $said" = "$1 $2" ] || fail "'${*:4}' ended with status $status, and said: $said"
  cmp "$3" target/trial/lines || fail "'${*:4}' printed something else"
}

# refused SAID COMMAND ARGUMENT.. : a command that is asked for wrongly, or of what is not there: it says this, and prints nothing.
refused() {
  ends 2 "$1" /dev/null "${@:2}"
}

# bytes HEX : these bytes.
bytes() {
  printf '%b' "$(sed 's/ //g; s/../\\x&/g' <<<"$1")"
}

# shown FILE : the README shows these lines.
shown() {
  [[ $(<README.md) == *"$(sed 's/^/    /' "$1")"* ]] || fail "the README does not show $1"
}

# unread COMMAND ARGUMENT.. BEFORE FILE AFTER.. : what all commands say of a file that cannot be read; '@' stands for its name.
unread() {
  local none=target/trial/none
  rm -f "$none"
  refused "$(said_of "$1" "$none" 'No such file or directory')" "${@//@/$none}"
  refused "$(said_of "$1" target 'Is a directory')" "${@//@/target}"
}

# said_of COMMAND FILE WHY : in the words of who reads it.
said_of() {
  case $1 in
    replay | report) echo "llinkhiro: $2: $3" ;;
    *) echo "$1: $2: $3" ;;
  esac
}

# lost COMMAND ARGUMENT.. : output that is closed, for which the disk is full, or that nobody reads on, is trouble that is told.
lost() {
  local said status=0
  said=$(./llinkhiro "$@" 2>&1 >&-) || status=$?
  [ "$status $said" = '2 llinkhiro: standard output is closed' ] || fail "'$*' of a closed standard output: status $status, $said"
  status=0
  said=$(./llinkhiro "$@" 2>&1 >/dev/full) || status=$?
  [[ "$status $said" == '2 '*'standard output: No space left on device' ]] || fail "'$*' of a full disk: status $status, $said"
  # Whoever would read is gone before anything is written.
  exec 7> >(exec true)
  wait $!
  status=0
  said=$(./llinkhiro "$@" 2>&1 >&7) || status=$?
  exec 7>&-
  [[ "$status $said" == '2 '*'standard output: Broken pipe' ]] || fail "'$*' of a pipe that nobody reads: status $status, $said"
}

# follows BYTES LINES COMMAND ARGUMENT.. : of a pipe that stays open a line is there when its record is whole. So many bytes of document 01's
# journal come, which end in the middle of a record, and so many lines must be there before anything follows.
follows() {
  local pipe=target/trial/pipe line
  rm -f "$pipe"* && mkfifo "$pipe.in" "$pipe.out"
  ./llinkhiro "${@:3}" <"$pipe.in" >"$pipe.out" 2>"$pipe.said" &
  exec 8>"$pipe.in" 9<"$pipe.out"
  head -c "$1" crates/replay/stdin >&8
  for ((line = 1; line <= $2; line++)); do
    read -r -t 20 -u 9 || fail "'${*:3}' does not follow a pipe: line $line"
  done
  exec 8>&-
  wait $! || [ $? = 1 ] || fail "'${*:3}' of a pipe that was cut: $(cat "$pipe.said")"
  grep -qx 'standard input: record [0-9]* is bad' "$pipe.said" || fail "'${*:3}' says of a pipe that was cut: $(cat "$pipe.said")"
  exec 9<&-
}

# unwritten COMMAND ARGUMENT.. : what all commands that write a file leave where that cannot be done: nothing, and what was there. '@' is a
# file that is not there, OUT the file to write.
unwritten() {
  local out=target/trial/out said status=0
  rm -f "$out"* && echo before >"$out"
  set -- "${@//OUT/$out}"
  refused "$1: target/trial/none: No such file or directory
llinkhiro: $out was not written" "${@//@/target/trial/none}"
  # A file may have 1024 bytes, and no signal ends who writes more: so a disk is full.
  said=$(trap '' XFSZ && ulimit -f 1 && ./llinkhiro "${@//@/target/trial/journal}" 2>&1 >/dev/null) || status=$?
  [ "$status $said" = "2 $1: standard output: File too large
llinkhiro: $out was not written" ] || fail "'$*' of a full disk: status $status, $said"
  [ "$(echo "$out"*) $(cat "$out")" = "$out before" ] || fail "'$*' leaves something behind: $(ls "$out"*)"
}

# ended COMMAND ARGUMENT.. : what ends a command that follows a pipe ends all that it runs, and leaves no file. OUT is the file to write.
ended() {
  local out=target/trial/out pipe=target/trial/pipe signal pid
  for signal in TERM HUP INT; do
    rm -f "$out"* "$pipe"* && mkfifo "$pipe.in"
    # In the background a signal from the keyboard is not heard, so it is undone here.
    (trap - INT && exec ./llinkhiro "${@//OUT/$out}" <"$pipe.in" >"$pipe.told" 2>&1) &
    pid=$!
    exec 8>"$pipe.in"
    head -c 27 crates/replay/stdin >&8
    until_running "$pipe.in" 2
    # One that comes just as bash begins to wait is heard by bash only when the program has ended.
    sleep 0.5
    kill -s "$signal" "$pid"
    wait "$pid" && fail "'$*' goes on after $signal"
    until_running "$pipe.in" 0
    exec 8>&-
    [ "$(echo "$out"*)" = "$out*" ] || fail "'$*' leaves a file after $signal: $(ls "$out"*)"
  done
}

# until_running PIPE COUNT : waits until so many programs read a pipe, or none.
until_running() {
  local tries count
  for ((tries = 0; tries < 200; tries++)); do
    count=$(readers "$1")
    if [ "$2" = 0 ] && [ "$count" = 0 ]; then return; fi
    if [ "$2" -gt 0 ] && [ "$count" -ge "$2" ]; then return; fi
    sleep 0.1
  done
  fail "$count programs read a pipe, and not $2"
}

# readers PIPE : how many programs have it for their standard input.
readers() {
  local input count=0
  for input in /proc/[0-9]*/fd/0; do
    if [ "$input" -ef "$1" ]; then count=$((count + 1)); fi
  done
  echo "$count"
}

# shellcheck source=/dev/null
for part in trial/commands/*.sh; do . "$part"; done

# A name that is no command, too many words, and help: of all, and of each by itself.
test_help() {
  local command said
  refused "llinkhiro: there is no command 'reply': './llinkhiro help' lists them" reply
  refused "llinkhiro: there is no command 'reply': './llinkhiro help' lists them" help reply
  refused 'llinkhiro: help takes at most one command' help replay report
  said=$(./llinkhiro help)
  [ "$said" = "$(./llinkhiro)" ] && [ "$said" = "$(./llinkhiro --help)" ] || fail "help is not what is said by itself"
  for command in "${commands[@]}"; do
    [[ $said == *"  ./llinkhiro $command"* ]] || fail "help does not list $command"
    ends 0 '' "tools/help/$command.txt" "$command" --help
    ends 0 '' "tools/help/$command.txt" help "$command"
  done
  said=$(./llinkhiro help 2>&1 >/dev/full) && fail "help of a full disk"
  [ "$said" = 'llinkhiro: standard output: it cannot be written' ] || fail "help of a full disk: $said"
}

# elsewhere COMMAND ARGUMENT.. : a command from another folder, through a symlink and without a toolchain, where what is built is enough, does
# what it does here.
elsewhere() {
  (cd "$box" && env -i PATH=/usr/bin:/bin ./pumps "$@" >told 2>&1) || fail "'$*' elsewhere: $(cat "$box/told")"
  (cd "$box" && "$here/llinkhiro" "$@" 2>&1) | cmp - "$box/told" || fail "'$*' tells something else elsewhere"
}

# Its folder lies outside the checkout, in which rt takes no symlink.
test_anywhere() {
  local box
  noted
  box=$notes/box
  mkdir "$box"
  ln -s "$here/llinkhiro" "$box/pumps"
  cp crates/replay/stdin "$box/a journal"
  elsewhere help
  elsewhere replay 'a journal'
  elsewhere report 'a journal'
  elsewhere who 'a journal'
  elsewhere explain 'a journal'
  elsewhere versions 'a journal' 1
  elsewhere capture 'a journal' a.pcap
  elsewhere journal 'a journal' a.text
  elsewhere journal a.text -
  cmp "$box/told" "$box/a journal" || fail "a journal elsewhere is another"
  elsewhere check 07020101100126AC000042010000 07020101
  elsewhere report --picture a.svg 'a journal'
  { [ -s "$box/a.svg" ] && [ -s "$box/a.pcap" ]; } || fail "files are not written elsewhere"
}

# slowly : a journal that takes longer than people wait without a word.
slowly() {
  cat target/trial/made && sleep 1 && cat target/trial/made
}

# progresses INPUT HOW COMMAND ARGUMENT.. : long work on this input tells how far it is, on a terminal alone, and leaves nothing of that behind.
progresses() {
  local shown=target/trial/terminal
  "$1" | python3 trial/terminal.py "${@:3}" >"$shown" || fail "'${*:3}' on a terminal: $(cat "$shown")"
  grep -Eq "$2" "$shown" || fail "'${*:3}' does not tell how far it is: $(cat "$shown")"
  grep -Eq '\\r\\e\[K([0-9]+ packets.*)?$' "$shown" || fail "'${*:3}' leaves a line on the terminal: $(cat "$shown")"
  if "$1" | "${@:3}" 2>&1 >/dev/null | grep -E "$2"; then fail "'${*:3}' tells a pipe how far it is"; fi
}

test_progress() {
  local mb='\\r(standard input: )?[0-9]+ MB' out=target/trial/out
  progresses slowly "$mb" ./llinkhiro who -
  progresses slowly "$mb" ./llinkhiro explain -
  progresses slowly "$mb" ./llinkhiro versions - 1
  progresses slowly "$mb" ./llinkhiro journal --text - "$out"
  progresses slowly "$mb" ./llinkhiro capture - "$out"
  progresses slowly "$mb" ./llinkhiro replay -
  progresses slowly "$mb" ./llinkhiro report --picture "$out.svg" -
  progresses true '\\rtarget/trial/journal: [0-9]+ % of [0-9]+ MB' ./llinkhiro explain target/trial/journal
  progresses true '[0-9] s, [0-9]+ calls' target/trial/release/differential --calls 100000
}

test_ended() {
  ended who -
  ended journal --text - OUT
  ended capture - OUT
  ended replay -
  ended report --picture OUT -
}

# unfed SAID COMMAND ARGUMENT.. : a command whose standard input is closed says this and ends. (A substitution would open a pipe in its place.)
unfed() {
  local status=0 said=target/trial/said
  timeout 60 ./llinkhiro "${@:2}" <&- >/dev/null 2>"$said" || status=$?
  [ "$status $(cat "$said")" = "$([ -z "$1" ] && echo 0 || echo 2) $1" ] || fail "'${*:2}' unfed: status $status, $(cat "$said")"
}

# What is closed is not taken for something else, and what cannot be said costs nothing.
test_closed() {
  local out=target/trial/out journal=crates/replay/stdin status
  rm -f "$out"
  unfed 'llinkhiro: standard input is closed' who -
  unfed 'llinkhiro: standard input is closed' replay -
  unfed 'llinkhiro: standard input is closed' report --picture "$out" -
  unfed '' report --picture "$out"
  rm -f "$out"
  ./llinkhiro capture "$journal" "$out" 2>/dev/full && [ -s "$out" ] || fail "a capture is lost with what is said of it"
  ./llinkhiro who "$journal" <&- 2>&- | cmp - <(./llinkhiro who "$journal") || fail "who with nothing but output"
  for status in full null; do
    if ./llinkhiro who none 2>"/dev/$status"; then fail "who of no file"; else [ $? = 2 ] || fail "who of no file, which nobody hears"; fi
  done
}

# Names of files to write that are none.
test_out() {
  local week=target/trial/week.journal
  refused 'llinkhiro: the name of the file to write is empty' journal "$week" ''
  refused 'llinkhiro: target/none/: there is no such folder' journal "$week" target/none/
  refused 'llinkhiro: target/a: its name ends with a line end' journal "$week" $'target/a\n'
  ends 0 '' <(./llinkhiro journal "$week") journal "$week" /dev/stdout
}

test_commands() {
  ./llinkhiro journal examples/journals/week.text target/trial/week.journal
  { cat target/trial/week.journal && bytes '04 01 00'; } >target/trial/week.journal.cut
  test_help
  test_replay
  test_report
  test_check
  test_versions
  test_capture
  test_who
  test_explain
  test_journal
  test_picture
  test_usage
  test_anywhere
  test_closed
  test_out
  test_ended
  test_progress
}

# Sourced by ../commands.sh: check.

# checked STATUS REQUEST RESPONSE LINE.. : a check has this exit status and prints these lines.
checked() {
  printf '%s\n' "${@:4}" >target/trial/checked
  ends "$1" '' target/trial/checked check "$2" "$3"
}

# Two blocks: a yes, and each check that fails.
test_check_blocks() {
  local asked='07 01 01 02 10 02 75 31 00 00 10 00 03 A2 00 00' frame='5F 00 2F 04 07 01 01 02'
  local change=070201011001271F000042010000 like_a_frame='it looks like a frame, whose first four bytes must be left out'
  local fill='the fill byte 00 of an odd number of byte values'
  checked 0 "$asked" '07 01 01 02 42 02 00 00 00 00 42 01 00 01' yes
  checked 0 "$asked" 0781010244010016420100ff yes
  checked 0 "$change" 07020101 yes
  checked 0 '0x07,0x02,0x01,0x01, 0x10,0x01,0x27,0x1F,0x00,0x00, 0x42,0x01,0x00,0x00' '0X07020101' yes
  checked 1 07010102 07010102 'no: check 1, the request block (4 bytes) is not readable: it is cut where bytes 5 to 16 should be addresses'
  checked 1 "$frame" "$frame" "no: check 1, the request block (8 bytes) is not readable: $like_a_frame"
  checked 1 "$asked" "$(printf '%0482d' 0)" 'no: check 2, the response block (241 bytes) is not readable: it is over 240 bytes'
  checked 1 "$asked" '07010102 410103 42010001' \
    "no: check 2, the response block (11 bytes) is not readable: byte 8 should be $fill, and is 42"
  checked 1 "$asked" 06820301440100ff "no: check 3, the response's reference is 06, the request's 07"
  checked 1 "$asked" 07020c01 "no: check 4, the response's axis is 12, the request's 1"
  checked 1 "$asked" 07020101 "no: check 5, the response's number of parameters is 1, the request's 2"
  checked 1 "$asked" 07020102 "no: check 6, the response's identifier is 02, the request's 01, which 01 or 81 answers"
  checked 1 "$change" 070101014201ffff "no: check 6, the response's identifier is 01, the request's 02, which 02 or 82 answers"
  checked 1 "$asked" '07010102 42010000 42010001' 'no: check 7, parameter 1 of 2 has 1 value, 2 elements were asked'
  checked 1 "$asked" '07810102 44010016 410203 29' \
    'no: check 7, parameter 2 of 2 has 2 values, 0 elements were asked, which count as 1'
}

# Logs with document 01's frames: its exchanges as they went over the bus, and writes beside their responses.
test_check_logs() {
  local log=target/trial/log write='5F 00 2F 10 07 02 01 01 10 02 75 31 00 00 42 02 03 E8 0B B9' read='5E 00 2F F0'
  local response='5E 00 2F 08 07 82 01 01 44 01 00 02' refusal='DF 80 B6 00' mark=$'\xEF\xBB\xBF'
  local count='1 response checked: 1 yes, 0 no; 1 refused, 0 wrong frames, 0 writes without a response'
  printf '%s\n' "$mark# a change and its fetch" "$write" "$read" '' '# and once more' "${write// /}" >"$log.sent"
  printf '%s\n' "$mark"'5F 00 2F 10 # acknowledged' "0x${response// /, 0x}" "$refusal" >"$log.back"
  checked 0 "$log.sent" "$log.back" "$log.back:2: yes" "$log.back:3: refused with code B6" "$count"
  checked 0 - "$log.back" "$log.back:2: yes" "$log.back:3: refused with code B6" "$count" <"$log.sent"
  checked 0 "$log.sent" - 'standard input:2: yes' 'standard input:3: refused with code B6' "$count" <"$log.back"
  printf '%s\n' "$write" "$write" "$write" "$read" "${write/10/11}" >"$log.sent"
  printf '%s\n' "$response" "${response/82/02}" '5F 00 2F 0E' "${response/07 82/08 82}" "$response" >"$log.back"
  checked 1 "$log.sent" "$log.back" "$log.back:1: yes" \
    "$log.back:2: no: check 2, the response block (8 bytes) is not readable: 4 bytes left over behind byte 4" \
    "$log.back:3: no: the acknowledgement's length byte says 14 bytes, the write's 16" \
    "$log.back:4: no: check 3, the response's reference is 08, the request's 07" \
    "$log.sent:5: no: the length byte says 17 bytes, and 16 follow" \
    '3 responses checked: 1 yes, 2 no; 0 refused, 2 wrong frames, 0 writes without a response'
}

# Logs with one thing each: a wrong frame, a write that gets no response, another slot. Their names have a space.
test_check_single() {
  local log='target/trial/a log' write='5F 01 2F 0A 01 01 01 01 10 01 00 10 00 48' acknowledged='5F 01 2F 0A' fetch='5E 01 2F 04'
  local response='5E 01 2F 08 01 01 01 01 42 01 05 64' none='0 responses checked: 0 yes, 0 no; 0 refused'
  printf '%s\n' "$write" >"$log.sent"
  echo "${acknowledged/01/00}" >"$log.back"
  checked 1 "$log.sent" "$log.back" "$log.back:1: no: the answer's slot is 00, and 01 was sent" \
    "$none, 1 wrong frame, 1 write without a response"
  echo "$acknowledged" >"$log.back"
  checked 0 "$log.sent" "$log.back" "$none, 0 wrong frames, 1 write without a response"
  echo "$response" >"$log.back"
  checked 0 "$log.sent" "$log.back" "$log.back:1: yes" \
    '1 response checked: 1 yes, 0 no; 0 refused, 0 wrong frames, 0 writes without a response'
  echo "$fetch" >"$log.sent"
  checked 1 "$log.sent" "$log.back" \
    "$log.back:1: no: a response answers a write, and none waits for its response; a log is of one farm" \
    "$none, 1 wrong frame, 0 writes without a response"
  printf '%s\n' "$write" "$fetch" >"$log.sent"
  printf '%s\n' "$acknowledged" "$response" >"$log.back"
  checked 1 "$log.sent" "$log.back" "$log.back:2: no: the response has 8 bytes, and the read wanted at most 4" \
    "$none, 1 wrong frame, 0 writes without a response"
}

test_check_usage() {
  local log=target/trial/log two='llinkhiro: check takes a request and a response: two blocks in hex, or two files of frames'
  local none='is neither hex nor a file that can be read' taken='was taken for a block in hex, and'
  printf '%s\n' 5F002F00 5E002FF0 >"$log.back"
  refused "$two" check
  refused "$two" check 07
  refused "$two" check 07 07 07
  refused "check: '070' has an odd number of hex digits (3)" check 07 '07 070'
  refused "check: 'read' is no hex" check 07 '5E 00 2F F0, a read'
  refused "check: '$(printf '%040d' 0)..' is no hex" check 07 "$(printf '%0500d' 0)g 07"
  refused 'check: an argument is empty' check 07 ''
  refused "check: '$log.none' $none: No such file or directory" check "$log.back" "$log.none"
  refused "check: 'target' $none: Is a directory" check target "$log.back"
  refused "check: '07' $taken '$log.back' for a file: they are two blocks or two files" check "$log.back" 07
  refused "check: '07' $taken '-' for a file: they are two blocks or two files" check 07 - </dev/null
  refused 'check: standard input is one of the two files, and not both' check - - </dev/null
  refused 'check: standard input: there is no frame in it' check "$log.back" - </dev/null
  { cat "$log.back" && echo '5E 00 2F F0, a read'; } >"$log.more"
  refused "check: $log.more:3: 'read' is no hex" check "$log.back" "$log.more"
  { cat "$log.back" && echo '# one more' && echo 5; } >"$log.more"
  refused "check: $log.more:4: '5' has an odd number of hex digits (1)" check "$log.back" "$log.more"
  { cat "$log.back" && echo '# one more' && echo 5E002FF0; } >"$log.more"
  refused "check: $log.more:4: this is frame 3, and $log.back has 2" check "$log.back" "$log.more"
}

# In another folder; a name that is hex; where its output cannot be written.
test_check_outside() {
  local log=target/trial/log said status=0
  printf '5F002F00\n5E002FF0\n' >target/trial/ABBA
  printf '5F002F00\nDE80B500\n' >"$log.back"
  said=$(cd target/trial && ../../llinkhiro check ./ABBA log.back)
  [ "${said%%$'\n'*}" = 'log.back:2: refused with code B5' ] || fail "a file is not named as it was typed: $said"
  said=$(cd target/trial && ../../llinkhiro check ABBA log.back 2>&1) || status=$?
  [ "$status $said" = "2 check: 'ABBA' is a block in hex and also a file: type './ABBA' for the file, ' ABBA' for the block" ] ||
    fail "check of a name that is hex: status $status, $said"
  lost check 07 07
}

# Where the program that makes the calls is missing.
test_check_unserved() {
  local said status=0
  said=$(LLINKHIRO_HOST=$PWD/target/trial target/tools/release/tell check 07 07 2>&1) || status=$?
  [ "$status $said" = "2 check: $PWD/target/trial/serve: No such file or directory" ] ||
    fail "check without a program that makes the calls: status $status, $said"
}

test_check() {
  test_check_blocks
  test_check_logs
  test_check_single
  test_check_usage
  test_check_outside
  test_check_unserved
}

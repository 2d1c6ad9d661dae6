# Sourced by ../commands.sh: capture.

# captured JOURNAL SAID: a capture of the journal says so of its packets.
captured() {
  local pcap=target/trial/test.pcap
  rm -f "$pcap"
  ends 0 "$2" /dev/null capture "$1" "$pcap"
  ends 0 "$2" "$pcap" capture "$1" -
}

# The journal of document 01, of whose exchanges one is refused; its change as a merged call, by the kind byte alone; and a going back
# behind that.
test_capture_counts() {
  captured crates/replay/stdin '6 packets, 3 exchanges (1 refused); 4 cycles and 0 goings back left out'
  { printf '\003' && tail -c +46 crates/replay/stdin | head -c 246; } >target/trial/merged.journal
  captured target/trial/merged.journal '4 packets, 2 exchanges (0 refused); 0 cycles and 0 goings back left out'
  { cat target/trial/merged.journal && printf '\004\001\000\001'; } >target/trial/back.journal
  captured target/trial/back.journal '4 packets, 2 exchanges (0 refused); 0 cycles and 1 going back left out'
}

test_capture_usage() {
  local journal=target/trial/merged.journal two='llinkhiro: capture takes a journal and the file to write'
  refused "$two" capture
  refused "$two" capture "$journal"
  refused "llinkhiro: $journal: it would overwrite what it is made of" capture "$journal" "$journal"
  refused "llinkhiro: target: Is a directory" capture "$journal" target
  refused "llinkhiro: target/none/a.pcap: there is no such folder" capture "$journal" target/none/a.pcap
  lost capture "$journal" -
}

test_capture() {
  test_capture_counts
  test_capture_usage
  unwritten capture @ OUT
}

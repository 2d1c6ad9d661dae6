# Sourced by ../commands.sh: the commands for developers. Their good uses are long, but for soak's: `./llinkhiro test` is the gate itself,
# and the others are tried by `./llinkhiro test commands`.

test_usage() {
  refused "llinkhiro: test takes no argument, or 'commands'" test all
  refused 'llinkhiro: soak takes a number of minutes' soak
  refused 'llinkhiro: soak takes a number of minutes' soak soon
  refused 'llinkhiro: coverage takes no arguments' coverage all
  refused 'llinkhiro: test-wireshark takes no arguments' test-wireshark all
  refused 'llinkhiro: bench takes at most one archive' bench a b
  refused 'llinkhiro: target/none.a: there is no such archive' bench target/none.a
  ./llinkhiro soak 0 | grep -q ' 0 disagreements' || fail "soak of no minute"
}

test_long_commands() {
  ./llinkhiro test-wireshark
  ./llinkhiro bench
  ./llinkhiro coverage
}

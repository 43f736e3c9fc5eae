"$BIN"
"$BIN" help | cmp - <("$BIN" --help) && echo same
"$BIN" -h > /dev/null

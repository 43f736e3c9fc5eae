# Every byte in JSON: quotes, backslashes, control bytes, and bytes that are no ASCII.
printf 'a"\001\037\177\200\303\274\377" '\''b"\\c/'\'' \\\t "$x" <<E\n\t\033[m\nE\n' | "$BIN" list --json
printf 'a\tb' | "$BIN" list --json
printf '' | "$BIN" list --json
printf 'a\0' | "$BIN" list --json
printf '\377;;' | "$BIN" list --json
printf 'cp a b' | "$BIN" check --json
printf 'cp @{0} @{1} @{2} @{3} @{4} @{5} @{6} @{7} @{8} @{9}' | "$BIN" check --json
printf 'cp @{' | "$BIN" check --json

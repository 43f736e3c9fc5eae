show() { printf '%s' "$1" | "$BIN" check; echo "status $?"; }
show 'echo a'
show 'cp @{3}'
show 'cp @{1} @{0}'
show 'x=@{7} a $(b @{0} @{7} >@{2})'
show '@{0} a'
show 'echo "@{0}"'
show 'echo @{x}'
show 'a
b <<@{0}'
show 'll @{0}'
printf 'll @{0}' | "$BIN" check --alias 'll=ls -l' ; echo "status $?"
printf 'e @{0}' | "$BIN" check --alias 'e=x=1' ; echo "status $?"
printf 'cp @{0} @{9}' | "$BIN" check --json; echo "status $?"
printf '@{0}' | "$BIN" check --json; echo "status $?"
"$BIN" check /no/such/file; echo "status $?"

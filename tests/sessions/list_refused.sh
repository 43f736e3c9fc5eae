show() { printf "$1" | "$BIN" list; echo "status $?"; }
show 'a;;b'
show 'echo one\nb |;\nc\n'
show 'cat <<E\nbody\n'
show 'a\n\tgr\303\274n "x'
show 'echo \001 \377 `b`'
show 'lot\0 7'
printf '%0100d;;%050d' 0 0 | "$BIN" list; echo "status $?"
printf '%05000d' 0 | "$BIN" list; echo "status $?"
printf 'a;;b' | "$BIN" list --json; echo "status $?"
echo a | "$BIN" list --alias 'a b=c'; echo "status $?"
echo a | "$BIN" list --alias ab; echo "status $?"
echo a | "$BIN" list --alias; echo "status $?"
"$BIN" list /no/such/file; echo "status $?"
"$BIN" list one two; echo "status $?"
"$BIN" list --tables; echo "status $?"

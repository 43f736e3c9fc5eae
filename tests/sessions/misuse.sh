# One line that says what to do, and status 1.
say() { "$@" < /dev/null; echo "status $?"; }
say "$BIN" lst
say "$BIN" ''
say "$BIN" list nowhere
say "$BIN" list .
say "$BIN" list -x
say "$BIN" list -
say "$BIN" list --alias
say "$BIN" list --alias =v
say "$BIN" list --alias 'a=b;c'
say "$BIN" list --alias a=
say "$BIN" list --alias abcdefghijklmnopq=b
say "$BIN" list --alias a=1 --alias b=1 --alias c=1 --alias d=1 --alias e=1 --alias f=1 --alias g=1 --alias h=1 --alias i=1
say "$BIN" check nowhere
say "$BIN" check --jason
say "$BIN" replay nowhere
say "$BIN" replay one two
say "$BIN" list $'gr\374n'

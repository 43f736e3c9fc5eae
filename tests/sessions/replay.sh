"$BIN" replay <<'E'
# comments and empty lines are passed over

order single
alias ls ls%20-l
list 64 512 ls%20it\'s%20"$x%25"
list 1 512 ls
list 64 512 a;;b
unalias ls
unalias ls
list 64 512 
order backslash
list 64 512 ls
load @{0}
load cp%20@{0}%20@{1}
load cp
alias ls ls%20-l
unload
unload
alias cp @{0}
load cp%20a
E
echo "status $?"

script='echo "it'"'"'s $x" $(date -u "+%F")>>log 2>&1 &&
cat <<E
a body
E
'
printf '%s' "$script" | "$BIN" list
printf '%s' "$script" | "$BIN" list --json
echo 'ls a; ll' | "$BIN" list --alias 'ls=ls -l' --alias ll=ls
printf '' | "$BIN" list
file=$(mktemp); echo 'a\ b "c\d" gr'$'\303\274''n' > "$file"; "$BIN" list "$file"; "$BIN" list --json "$file"; rm "$file"

# The session in README.md is what the program writes.
jamisthmus() { "$BIN" "$@"; }
session() { sed -n '/^## A session/,/^## What/s/^    //p' ../../README.md; }
play() {
  session | grep '^\$ ' | while read -r line; do
    printf '%s\n' "$line"
    out=$(eval "${line#\$ }" 2>&1)
    printf '%s\n' "$out"
  done
}
diff <(session) <(play) && echo same

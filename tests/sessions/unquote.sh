printf '%s' "'it'\\''s'" | "$BIN" unquote --explain; echo
printf '%s' "\\a\\ \\b" | "$BIN" unquote; echo
printf "it's \n\\ all" | "$BIN" quote | "$BIN" unquote | od -c | head -n 2
for form in "'ab" "a" "'a'b" "''''" "\\" ""; do
  printf '%s' "$form" | "$BIN" unquote; echo "status $?"
done
printf "'a'" | "$BIN" unquote more; echo "status $?"

printf '%s' "it's" | "$BIN" quote; echo
printf '%s' "it's" | "$BIN" quote single --explain; echo
printf 'a b\nc' | "$BIN" quote backslash --explain; echo
printf '' | "$BIN" quote; echo
printf '' | "$BIN" quote backslash; echo
eval "printf '%s\n' $(printf '%s' '$(reboot); `x` "y" \z' | "$BIN" quote)"
eval "printf '%s\n' $(printf '%s' '$(reboot); `x` "y" \z' | "$BIN" quote backslash)"

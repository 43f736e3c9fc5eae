printf 'lot\0 7' | "$BIN" quote; echo "status $?"
printf 'lot' | "$BIN" quote double; echo "status $?"
"$BIN" qoute; echo "status $?"

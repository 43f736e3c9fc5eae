"$BIN" help all

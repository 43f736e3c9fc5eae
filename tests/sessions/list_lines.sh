# The line of a refusal and the caret, in scripts of several lines.
show() { printf "$1" | "$BIN" list; echo "status $?"; }
show 'a\n\tb\t;;c\nd\n'
show 'one\n\n;\n'
show '\n\n'
show 'a |\n'
show 'cat <<E; fi\nbody\nE\nif\n'
show 'echo one\ncat <<E; b &&\n\tbody ;;\nE\n'
show 'a\r\n;;b\r\n'
show 'a "b\nc\nd'
show 'h\303\251 \342\202\254 \302\205\302\233 ;;'
show '\t\t)'
show 'a \\\nb ;;\n'

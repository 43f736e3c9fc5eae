try() { printf "$1" | "$BIN" replay; echo "status $?"; }
try 'order single\nlist 9 99 a\nlost 1\nlist 9 99 b\n'
try 'alias a b\n'
try 'order double\n'
try 'order\n'
try 'order single\nalias a\n'
try 'order single\nunalias\n'
try 'order single\nload\n'
try 'order single\nload a b\n'
try 'order single\nlist 9 99\n'
try 'order single\nlist 9 many a\n'
try 'order single\nlist 9 -1 a\n'
try 'order single\nlist 9 99 a b\n'
try 'order single\nlist 9 99 a%%2\n'
try 'order single\nlist 9 99 a%%2e\n'
try 'order single\nlist 9 99 \303\274\n'
try 'order single\nlist 9 99 \377\n'
"$BIN" replay /no/such/journal; echo "status $?"
"$BIN" replay one two; echo "status $?"

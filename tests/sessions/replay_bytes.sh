# Lines that end in CR and LF, comments of any bytes, sheets of any size.
try() { printf "$1" | "$BIN" replay; echo "status $?"; }
try 'order single\r\nlist 9 99 a\r\n'
try '# gr\374n\n\norder single\nlist 9 99 %%FF%%01\n'
try 'order single\nlist 18446744073709551615 18446744073709551615 a%%20b\n'
try 'order single\nlist 0 0 \nlist 0 0 a\nlist 1 0 a\nlist 0 1 a\nlist 1 1 a\nlist 1 9 a;\nlist 2 1 a;\n'
try 'order single\nlist 18446744073709551616 9 a\n'
try ''
try 'order single'

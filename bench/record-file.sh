#!/bin/sh
# Reads files whose rows are as short as they can be, and prints the time and the peak memory of each: record files of `L` rows, all with
# the wanted label or none, of `L,1` rows and of one very long cell, and tables of `,` rows and of `0,0` rows. With the word `whole` the
# record files have 2^30 bytes, the most that a record file may have, and else 2^26; the tables have 2^24. It proves and builds the program
# of bench/table.sh in a folder that it removes. It isn't part of the gate.
. "$(dirname -- "$0")/lib.sh"
record=67108864
[ "$1" = whole ] && record=1073741824
lend d_table
build passes table d_table csv
# HEADER ROW SIZE: a file of this header and of as many such rows as the size has room for
fill() {
    python3 - "$work/big.csv" "$@" <<'PY'
import sys
path, header, row, size = sys.argv[1], sys.argv[2] + "\n", sys.argv[3] + "\n", int(sys.argv[4])
rows = (size - len(header)) // len(row)
with open(path, "w") as file:
    file.write(header)
    while rows > 0:
        file.write(row * min(rows, 1 << 20))
        rows -= 1 << 20
PY
}
# HEADER SIZE: a file of this header and one row of a single cell
fill_one() {
    python3 - "$work/big.csv" "$@" <<'PY'
import sys
path, header, size = sys.argv[1], sys.argv[2] + "\n", int(sys.argv[3])
with open(path, "w") as file:
    file.write(header)
    file.write("x" * (size - len(header)))
PY
}
run() {
    echo "$1: $(wc -c <"$work/big.csv") bytes"
    shift
    cd "$work" || exit 1
    best 1 1 "$program" "$@"
    peak "$program" "$@"
}
fill label L "$record"
run "rows L, all with the label" where L
run "rows L, none with the label" where M
fill label,rate L,1 "$record"
run "rows L,1, all with the label" where L
fill_one label "$record"
run "one long cell" where L
fill a,b , 16777216
run "a table of rows of two empty cells" table
fill a,b 0,0 16777216
run "a table of rows 0,0" table

#!/bin/sh
# Times three passes over a table of a million rows and about 100 MB, of which one row has the wanted label: csv's own pass, read_table,
# and read_where; and read_where again over half the file, which shows how the time grows. It proves and builds a small program of its
# own in a folder that it removes. It isn't part of the gate.
. "$(dirname -- "$0")/lib.sh"
lend d_table
build passes table d_table csv
mkdir "$work/half" "$work/whole"
python3 - "$work" <<'PY'
import sys
work = sys.argv[1]
def write(path, count):
    with open(path, "w") as file:
        file.write("label,name,utility,rate,minimum,start,end,source\n")
        for row in range(count):
            label = "wanted" if row == count - 7 else "label%08d" % (row * 7919 % 100000000)
            file.write("%s,\"General Service, %d\",Power Company of %d,0.%06d,%d,2019-01-01,2024-12-31,https://rates.example/%d\n"
                       % (label, row % 97, row % 1013, row % 999983, row % 20, row))
write(work + "/whole/big.csv", 1000000)
write(work + "/half/big.csv", 500000)
PY
run() {
    cd "$work/$2" || exit 1
    echo "$1 over the $2 file: $(wc -c <big.csv) bytes"
    shift 2
    best 7 1 "$program" "$@"
    peak "$program" "$@"
}
run "csv's own pass" whole
run "read_table" whole table
run "read_where" whole where wanted
run "read_where" half where wanted

#!/bin/sh
# Times the reading of a full grid of hours, 12 lists of 24 numbers with blanks between them, 200000 times, and beside it a plain copy of
# its bytes as often, and a copy byte by byte that counts the commas. It proves and builds a small program of its own in a folder that it
# removes. It isn't part of the gate.
. "$(dirname -- "$0")/lib.sh"
lend d_num d_text
build turns grid d_text
cd "$work" || exit 1
python3 - <<'PY'
rows = ["[%s]" % ", ".join(str((month * 7 + hour) % 36) for hour in range(24)) for month in range(12)]
with open("grid.txt", "w") as file:
    file.write("[%s]" % ", ".join(rows))
PY
echo "a grid of $(wc -c <grid.txt) bytes, each turn"
for words in "" "bytes" "as grid"; do
    case $words in "") echo "a copy" ;; bytes) echo "a copy byte by byte" ;; *) echo "read_grid" ;; esac
    # shellcheck disable=SC2086
    best 5 200000 "$program" $words
done

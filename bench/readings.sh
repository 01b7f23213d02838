#!/bin/sh
# Times the built program on a month of 2976 readings, one each 15 minutes: `bill` by one price, beside the program's start alone; and `show`
# of a record of 700 filled columns, beside the same file where the label isn't there, which is the reading of the table. It prints time and
# peak memory, and isn't part of the gate.
. "$(dirname -- "$0")/lib.sh"
built
cd "$work" || exit 1
python3 - <<'PY'
import csv

with open("readings.csv", "w") as file:
    file.write("start,net_wh\n")
    for quarter in range(2976):
        minute = quarter % 96 * 15
        file.write("2025-01-%02dT%02d:%02d,%d\n" % (quarter // 96 + 1, minute // 60, minute % 60, quarter * 7919 % 8000 - 1000))
with open("one.csv", "w") as file:
    file.write("label,energyratestructure/period0/tier0rate\nL,0.10\n")

cells = [("label", "L")]
for period in range(36):
    for tier in range(4):
        front = "energyratestructure/period%d/tier%d" % (period, tier)
        cells += [(front + "max", str(100 * (tier + 1))), (front + "unit", "kWh"), (front + "rate", "0.1%d" % tier), (front + "adj", "0.01")]
cells += [("other%d" % column, "text") for column in range(700 - len(cells))]
with open("wide.csv", "w", newline="") as file:
    csv.writer(file).writerows([[name for name, _ in cells], [value for _, value in cells]])
PY
bill="$program bill --records one.csv --label L --readings readings.csv"
show="$program show --records wide.csv --label L"
table="$program show --records wide.csv --label M"
for run in "$program" "$bill" "$table" "$show"; do
    echo "$run" | sed "s|$program|dispatch|"
    # shellcheck disable=SC2086
    best 50 1 $run
    # shellcheck disable=SC2086
    peak $run
done
